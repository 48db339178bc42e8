"""Draws docs/crates.svg from crates.txt, and docs/request.svg from the table below. With `--check` it compares them with the
files: the last line is `N passed, M failed`, and the status is 1 if one differs. It needs only Python 3."""

import pathlib
import sys

ROOT = pathlib.Path(__file__).resolve().parent.parent
# In pixels: width of a letter, height of a box, distance between layers, between steps and within a layer, and margin.
LETTER, HEIGHT, LAYER, STEP, GAP, MARGIN = 8, 28, 84, 66, 22, 24
PROGRAM, TESTS, OUTSIDE = "#dce9f7", "#f6ead0", "#e9ecef"
STYLE = """<style>text{font:13px monospace;fill:#1b1b1b}.s{font:13px sans-serif}.m{text-anchor:middle}rect{stroke:#33506e}
path{fill:none;stroke:#6b7b8c;stroke-width:1.3}</style>
<marker id="a" markerWidth="9" markerHeight="9" refX="8" refY="4" orient="auto"><path d="M0,0 8,4 0,8z" style="fill:#6b7b8c"/>
</marker><rect width="100%" height="100%" fill="#fff" style="stroke:none"/>
"""
CAPTION = ["An arrow leads from a crate to one that it uses; what follows from others is left out.",
           "Blue: the program and its libraries. Yellow: crates for tests alone."]
# What a PUT passes through, what happens there, and what is passed on.
STEPS = [
    ("socket", OUTSIDE, "sockets reads ahead until a message is whole, and gives its connection a turn", "bytes"),
    ("wire", PROGRAM, "reads the head (rules 1 to 5), and hands on the body in pieces (6)", "the head, pieces of the body"),
    ("links", PROGRAM, "reads the presigned URL (rules 7 to 18)", "the parts of the link"),
    ("office", PROGRAM, "finds the key (19, 20), checks signature (21) and window (22, 23), stages the body",
     "questions, staged bytes"),
    ("boxes", PROGRAM, "decides the rules of the box (27 to 33), and gives the change", "the change"),
    ("keeper", PROGRAM, "passes on the change; cache answers questions from memory", "the change, other questions"),
    ("sqlkeeper", PROGRAM, "writes receipt, file, pieces and totals in one transaction", "SQL statements"),
    ("SQLite", OUTSIDE, "commits, so that the receipt survives a crash", "success"),
    ("receipt", OUTSIDE, "office makes the answer, wire writes it, sockets sends it to the peer", None),
]


def box(left, top, width, name, fill):
    return (f'<rect x="{left:.0f}" y="{top:.0f}" width="{width:.0f}" height="{HEIGHT}" rx="4" fill="{fill}"/>'
            f'<text class="m" x="{left + width / 2:.0f}" y="{top + 18:.0f}">{name}</text>\n')


def words(left, top, text):
    return f'<text class="s" x="{left:.0f}" y="{top:.0f}">{text}</text>\n'


def drawing(width, height, parts):
    return (f'<svg xmlns="http://www.w3.org/2000/svg" width="{width:.0f}" height="{height:.0f}" '
            f'viewBox="0 0 {width:.0f} {height:.0f}">\n{STYLE}{"".join(parts)}</svg>\n')


def read_layers():
    """The layers from the lowest up, the arrows (paths with a place in each layer that they pass), and the program's crates."""
    needs, below, level, arrows = {}, {}, {}, []
    for name, names in (it.split(":") for it in (ROOT / "crates.txt").read_text().splitlines() if not it.startswith("#")):
        needs[name] = [it for it in names.split() if it in needs]  # crates of this repository, listed on earlier lines
        below[name] = {name}.union(*(below[it] for it in needs[name]))
        level[name] = 1 + max((level[it] for it in needs[name]), default=-1)
    for name in (it for it in needs if not needs[it]):  # without dependencies: right below its lowest user
        level[name] = min((level[it] for it in needs if name in needs[it]), default=1) - 1
    for name, it in ((name, it) for name in needs for it in needs[name]):
        if not any(it in below[other] for other in needs[name] if other != it):
            arrows.append([name, *((name, it, at) for at in range(level[name] - 1, level[it], -1)), it])
    level |= {it: it[2] for arrow in arrows for it in arrow[1:-1]}
    return [[it for it in level if level[it] == at] for at in range(max(level.values()) + 1)], arrows, below["drop"]


def half(thing):
    return (len(thing) * LETTER + 20) / 2 if isinstance(thing, str) else 0


def spread(layer, wished):
    """Places near the wished ones, in order and apart: the mean of shifting things only right and shifting them only left."""
    right, left = dict(wished), dict(wished)
    for a, b in zip(layer, layer[1:]):
        right[b] = max(right[b], right[a] + half(a) + GAP + half(b))
    for b, a in zip(layer[::-1], layer[-2::-1]):
        left[a] = min(left[a], left[b] - half(a) - GAP - half(b))
    return {it: (left[it] + right[it]) / 2 for it in layer}


def places(layers, links):
    """The place of the middle of each thing. Things move to the mean of their neighbours. At first they also change their order:
    layer by layer, by the neighbours above, and then back by those below. Later the order stays, and both kinds count."""
    x, both = {it: k * LAYER for layer in layers for k, it in enumerate(layer)}, links + [it[::-1] for it in links]
    for turn in range(300):
        beside = both if turn >= 100 else links if turn % 2 else both[len(links):]
        for at in range(len(layers)) if turn % 2 else range(len(layers) - 1, -1, -1):
            ends = {it: [x[b] for a, b in beside if a == it] or [x[it]] for it in layers[at]}
            wished = {it: sum(ends[it]) / len(ends[it]) for it in ends}
            layers[at] = sorted(ends, key=wished.get) if turn < 100 else layers[at]
            x |= spread(layers[at], wished)
    least = min(x[it] - half(it) for it in x)
    return {it: x[it] - least + MARGIN for it in x}


def draw_crates():
    layers, arrows, program = read_layers()
    links = [pair for arrow in arrows for pair in zip(arrow, arrow[1:])]
    x, parts = places(layers, links), [words(MARGIN, MARGIN + 18 * at, it) for at, it in enumerate(CAPTION)]
    top = {it: MARGIN + 46 + LAYER * (len(layers) - 1 - at) for at, layer in enumerate(layers) for it in layer}
    for a, b in links:
        bend, end = (LAYER - HEIGHT) // 2, '" marker-end="url(#a)' if isinstance(b, str) else f"V{top[b] + HEIGHT}"
        curve = f"{x[a]:.0f},{top[b] - bend} {x[b]:.0f},{top[b] - bend} {x[b]:.0f},{top[b]}"
        parts.append(f'<path d="M{x[a]:.0f},{top[a] + HEIGHT}C{curve}{end}"/>\n')
    parts += [box(x[it] - half(it), top[it], 2 * half(it), it, PROGRAM if it in program else TESTS) for it in x if half(it)]
    return drawing(max(x[it] + half(it) for it in x) + MARGIN, max(top.values()) + HEIGHT + MARGIN, parts)


def draw_request():
    parts = []
    for top, (name, fill, text, handed) in zip(range(MARGIN, MARGIN + STEP * len(STEPS), STEP), STEPS):
        parts += [box(MARGIN, top, 112, name, fill), words(MARGIN + 128, top + 18, text)]
        if handed:
            parts.append(f'<path d="M80,{top + HEIGHT}V{top + STEP}" marker-end="url(#a)"/>\n{words(92, top + 51, handed)}')
    return drawing(780, MARGIN * 2 + HEIGHT + STEP * (len(STEPS) - 1), parts)


if __name__ == "__main__":
    drawings = {ROOT / "docs" / "crates.svg": draw_crates(), ROOT / "docs" / "request.svg": draw_request()}
    differ = [it for it in drawings if not it.exists() or it.read_text() != drawings[it]]
    if sys.argv[1:] == ["--check"]:
        print(*(f"{it}: differs" for it in differ), f"{len(drawings) - len(differ)} passed, {len(differ)} failed", sep="\n")
        sys.exit(bool(differ))
    for it in differ:
        it.write_text(drawings[it])
