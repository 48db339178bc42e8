"""The memory of `drop serve`: after many fetches, and before, during and after uploads."""

import dataclasses
import pathlib
import re

from clients import by_client, serving
from servers import KIB, MOST, ROWS, Drop, Row

UPLOADS = 100  # of each kind
ON_EACH = 10  # fetches on a connection
MOST_AT_ONCE = 10**5  # fetches in one run of the client: more may exceed the time limit of a run


def memory_of(pid, name="VmRSS"):
    """The process's memory in KiB: now, or its peak with `VmHWM`."""
    status = pathlib.Path(f"/proc/{pid}/status").read_text()
    return int(re.search(rf"^{name}:\s+(\d+) kB", status, re.M)[1])


def fetches_rows(server, folder, client):
    """The memory after so many GETs of 1 KiB, ten on each connection, all in one run."""
    row, done = dataclasses.replace(ROWS[1], new=ON_EACH), 0
    with serving(server, row, folder, "") as (pid, port, file):
        for requests in [10**4, 10**5, 10**6]:
            while done < requests:
                by_client(client, row, file, port, many := min(MOST_AT_ONCE, requests - done))
                done += many
            yield requests, requests // ON_EACH, memory_of(pid)


def upload(client, row, file, port, requests):
    if by_client(client, row, file, port, requests).wrong:
        raise SystemExit(f"an upload of {row.size} bytes was refused")


def uploads_row(server, folder, client, size, is_new):
    """The memory before, at its peak in, and after uploads of `size` bytes into an office without files. Each upload has a new
    name, or replaces a file that is one byte longer or shorter."""
    row = Row("an upload", "PUT", size, upload=True)
    with serving(server, row, folder, "memory") as (pid, port, file):
        open_now = memory_of(pid)
        if is_new:
            upload(client, row, file, port, UPLOADS)
        else:
            for turn in range(UPLOADS):
                upload(client, dataclasses.replace(row, size=size - turn % 2), file, port, 1)
        return open_now, memory_of(pid, "VmHWM"), memory_of(pid)


def uploads_rows(server, folder, client):
    server = Drop(server.drop.program, folder, files=[])
    for size, said in [(KIB, "1 KiB"), (MOST, "8 MiB")]:
        for is_new, kind in [(True, "of a new name each"), (False, "each in the place of the one before")]:
            yield f"{UPLOADS} of {said}, {kind}", *uploads_row(server, folder, client, size, is_new)
