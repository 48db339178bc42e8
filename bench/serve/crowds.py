"""How fast `drop serve` answers well-behaved clients while other peers keep it waiting."""

import contextlib
import socket
import statistics
import time

from messages import get, put
from peers import Crowd, Peer, a_minute_ago
from servers import BOX, HOST, Drop, free_port

IDLE, SLOW, HONEST, EXCHANGES = 300, 20, 8, 50


def connecting(port):
    def connect():
        return socket.create_connection((HOST, port))

    return connect


def exchanges(peers, date):
    """The milliseconds that each answer took; the peers take turns with a PUT of 1 KiB and a GET of it."""
    for step in range(EXCHANGES):
        for number, peer in enumerate(peers):
            path = f"/{BOX}/crowd-{number}-{step}".encode()
            for message in [put(path, b"c" * 1024, date=date), get(path, date=date)]:
                begun = time.perf_counter()
                if not peer.ask(message).startswith(b"HTTP/1.1 200 "):
                    raise SystemExit("a client that behaves was refused")
                yield (time.perf_counter() - begun) * 1000


def crowd_row(server, name, idle, slow):
    port = free_port()
    connect = connecting(port)
    with server.running(port), Crowd(connect, idle, slow), contextlib.ExitStack() as stack:
        peers = [stack.enter_context(Peer(connect)) for _ in range(HONEST)]
        found = list(exchanges(peers, a_minute_ago()))
    return name, len(found), f"{max(found):.1f}", f"{statistics.median(found):.2f}"


def crowd_rows(server, folder, client):
    server = Drop(server.drop.program, folder, files=[])
    yield crowd_row(server, "nobody", 0, 0)
    yield crowd_row(server, f"{IDLE} idle, {SLOW} slow", IDLE, SLOW)
