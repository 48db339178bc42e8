"""The clients that send a server the requests of a row, and the figures that they report."""

import contextlib
import dataclasses
import re

import kit
from servers import HERE, HOST, free_port, names_of


@contextlib.contextmanager
def serving(server, row, folder, mark):
    """Runs the server for a row: its process id, its port, and a file with a target on each line."""
    port, file = free_port(), folder / "targets"
    file.write_text("".join(f"{it}\n" for it in server.targets(row, names_of(row, mark), port)))
    with server.running(port) as pid:
        yield pid, port, file


@dataclasses.dataclass(frozen=True)
class Figure:
    """Requests a second, how many answers had an unexpected status, and the milliseconds within which 99 of 100 were answered."""

    rate: float
    wrong: int
    within: float = 0.0


def by_wrk(row, file, port, seconds):
    words = ["wrk", "-t1", f"-c{row.many}", f"-d{seconds}s", "--timeout", "10s", "-s", HERE / "ask.lua", f"http://{HOST}:{port}",
             "--", file, row.method, str(row.size if row.upload else 0), f"{HOST}:{port}"]
    out = kit.run(words).out.decode()
    told = re.search(r"^told (\d+) (\d+) (\d+) (\d+) (\d+)$", out, re.M)
    if not told:
        raise SystemExit(f"wrk told nothing: {out}")
    requests, micros, refused, failed, late = map(int, told.groups())
    return Figure(requests * 1e6 / micros, (requests - refused if row.bad else refused) + failed, late / 1000)


def by_client(client, row, file, port, requests):
    bytes_sent = str(row.size if row.upload else 0)
    ran = kit.run([client, str(port), file, row.method, bytes_sent, str(requests), str(row.new)])
    if ran.status:
        raise SystemExit(f"the client failed: {ran.err}")
    sent, well, seconds = ran.out.split()
    return Figure(int(sent) / float(seconds), int(sent) - int(well))


def by_either(client, row, file, port, seconds):
    """With wrk, except for rows that wrk cannot do."""
    if row.new:
        return by_client(client, row, file, port, seconds * 1000)
    return by_wrk(row, file, port, seconds)
