#!/usr/bin/env python3
"""table.py SMALL GREAT PEER: the figures of the rounds as a table: the best requests a second; the best microseconds and, in
brackets, the median; the ratio of the two best and, in brackets, the median of the rounds' ratios."""
import statistics, sys

# The steps in the order of the program: the request, the messages, their connections, and the peer's work.
STEPS = [
    ("PUT of 1 MiB, new", 1, 1, "1048576 1048576"),
    ("PUT of 1 KiB, new", 250, 1, "1024 1024"),
    ("PUT of 1 KiB, again", 250, 1, "1024 1024"),
    ("PUT of 1 KiB, new", 250, 250, "1024 1024"),
    ("PUT of 1 KiB, again", 250, 250, "1024 1024"),
    ("GET of 1 KiB", 1000, 1, "0 1024"),
    ("GET of 1 KiB", 1000, 1000, "0 1024"),
    ("refusal 21", 1000, 1, "0 0"),
    ("refusal 21", 1000, 1000, "0 0"),
    ("GET of 1 MiB", 20, 1, "0 1048576"),
    ("GET of 1 MiB", 20, 20, "0 1048576"),
]


def steps_of(name):
    """For each step, the microseconds of a request, round by round."""
    lines = [line.split() for line in open(name)]
    rounds = [lines[i : i + len(STEPS)] for i in range(0, len(lines), len(STEPS))]
    for one in rounds:
        assert [int(line[1]) for line in one] == [step[2] for step in STEPS]
    return [[int(one[i][2]) / 1000 / step[1] for one in rounds] for i, step in enumerate(STEPS)]


def peers_of(name):
    """For each method and work, the fewest microseconds of a request."""
    best = {}
    for way, body, copied, often, time in map(str.split, open(name)):
        key, cost = (way, f"{body} {copied}"), int(time) / 1000 / int(often)
        best[key] = min(cost, best.get(key, cost))
    return best


def main(small, great, peer):
    peers = peers_of(peer)
    sizes = ["10^3 files: a second", "us", "10^5 files: a second", "us", "Ratio"]
    print("| " + " | ".join(["Request", "On one connection", *sizes, "OpenSSL, us", "its blocks alone, us"]) + " |")
    print("|" + "---|" * 9)
    for step, few, many in zip(STEPS, steps_of(small), steps_of(great)):
        name, messages, connections, work = step
        cells = [name, str(messages // connections)]
        for costs in (few, many):
            cells += [f"{1e6 / min(costs):.0f}", f"{min(costs):.1f} ({statistics.median(costs):.1f})"]
        ratios = [great / small for small, great in zip(few, many)]
        cells.append(f"{min(many) / min(few):.2f} ({statistics.median(ratios):.2f})")
        cells += [f"{peers[way, work]:.1f}" for way in ("hmac", "sha")]
        print("| " + " | ".join(cells) + " |")


main(*sys.argv[1:])
