"""By hand, since it takes hours of processor time: runs the proved program `drop` on a thousand published requests and one more,
with their stream cut in two, once at each place. The second part is written after the first was read completely, so no read
returns bytes of both. Each time exactly the first thousand must be answered. The gate covers some of these places
(ci/test_streams.py).

The expected answers come from the table of refusals in docs/RULES.md, and the request from ci/messages.py. With `--step N` only
each Nth place is tried, starting at `--first`. The last line is `N passed, M failed`.
"""

import argparse
import contextlib
import fcntl
import multiprocessing
import os
import struct
import termios
import time

import kit
from expected import MOMENT, answer
from messages import REQUEST
from program import IN_MEMORY

STREAM = REQUEST * 1001
OWED = answer(27) * 1000
ROOM = 1 << 19  # capacity of a pipe in bytes: more than the stream, and more than its answers
PATIENCE = 300_000  # polls until everything must be read, 0.2 ms apart


def pipe():
    ends = os.pipe2(os.O_CLOEXEC)
    fcntl.fcntl(ends[1], fcntl.F_SETPIPE_SZ, ROOM)
    return ends


def wait_until_read(end):
    """Waits until the pipe is empty."""
    for _ in range(PATIENCE):
        if struct.unpack("i", fcntl.ioctl(end, termios.FIONREAD, bytes(4)))[0] == 0:
            return
        time.sleep(0.0002)
    raise TimeoutError("it does not read on")


def answers(place):
    """How the program ends, and what it answers to the stream, cut at this place."""
    (heard, told), (read, written) = pipe(), pipe()
    words = [kit.built("drop"), "replay", IN_MEMORY, "--at", MOMENT, "/dev/stdin"]
    ends = [(os.POSIX_SPAWN_DUP2, heard, 0), (os.POSIX_SPAWN_DUP2, written, 1)]
    process = os.posix_spawn(words[0], words, {}, file_actions=ends)
    os.close(heard)
    os.close(written)
    with open(told, "wb", buffering=0) as it:
        it.write(STREAM[:place])
        wait_until_read(told)
        # what follows the thousand requests may stay unread
        with contextlib.suppress(BrokenPipeError):
            it.write(STREAM[place:])
    # this process is not woken for each answer, since the pipe has room for all
    status = os.waitstatus_to_exitcode(os.waitpid(process, 0)[1])
    with open(read, "rb") as it:
        return status, it.read()


def fault_of(place):
    """What is wrong with the answers if the stream is cut at this place."""
    status, said = answers(place)
    return None if (status, said) == (0, OWED) else f"cut at {place}: status {status}, {len(said)} bytes"


def main():
    parser = argparse.ArgumentParser(description="Runs `drop` on a thousand requests, cut once at each place.")
    parser.add_argument("--first", type=int, default=0, help="the first place")
    parser.add_argument("--step", type=int, default=1, help="the distance of the places")
    parser.add_argument("--jobs", type=int, default=os.cpu_count(), help="runs side by side")
    words = parser.parse_args()
    places = range(words.first, len(STREAM), words.step)
    with multiprocessing.Pool(words.jobs) as pool:
        faults = [it for it in pool.imap_unordered(fault_of, places, chunksize=16) if it]
    for it in faults:
        print(it)
    print(f"{len(places) - len(faults)} passed, {len(faults)} failed")


if __name__ == "__main__":
    main()
