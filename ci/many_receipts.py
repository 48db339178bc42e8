"""Offices with two thousand receipts, under names that a list has to quote, and with three, filled by Python's `sqlite3`."""

import random

import tables
from expected import ID, OBEYED, SECRET, quoted, receipt
from listed import standing
from messages import post, put
from program import answered, difference
from samples import LETTERS, NAMES

RECEIPTS = 2000
BOXES = ["in", "out.1-2", "b" * 63]
KEYS = {ID: SECRET, "k2": b"s3cr3t", "-_" * 32: b"%2F+/" * 25 + b"=&?"}
# How a name may begin and end, and the letters between.
FRONTS = ["", "=", "+", "-", "@", " ", ",", '"', '""', "'", "#", ";", "\\", "\ufeff", "\u2028", "\u00a0"]
ODD_LETTERS = LETTERS + '",,""\\;|\u00a0\u2028\ufeff'


def odd_name(source, number):
    """A name of letters that a list may have to quote, or that other programs misread."""
    text = "".join(source.choices(ODD_LETTERS, k=source.randint(0, 30)))
    return f"{source.choice(FRONTS)}{text}{number}{source.choice(FRONTS)}"


def sizes(source):
    """The size of a file: most files are small, some have several pieces."""
    return source.choice([0, 1, 3, 300, 2000]) if source.random() < 0.99 else source.choice([65536, 65537, 200_000])


def begun(drop, name):
    """An office with three keys, one of them revoked, and three boxes."""
    file = drop.office(name)
    tables.add_key(file, "k2", KEYS["k2"])
    tables.add_key(file, "-_" * 32, KEYS["-_" * 32], revoked=1)
    for box in BOXES:
        tables.add_box(file, tables.Box(box, max_files=10**6, mode=1))
    return file


def fill(file):
    """Adds the receipts and as many files, all of which are stored."""
    source = random.Random(20130524)
    names = [*NAMES, "n" * 1024, "é" * 512, '"', ",", " ", "=", *FRONTS[1:7]]
    names += [odd_name(source, number) for number in range(len(set(names)), RECEIPTS)]
    with tables.opened(file) as db:
        for name in dict.fromkeys(names):
            moment = source.choice([0, tables.M, tables.LAST, source.randint(0, tables.LAST)])
            tables.put_file(db, source.choice(BOXES), name, source.randbytes(sizes(source)), source.choice(list(KEYS)), moment)


def filled(drop, name):
    file = begun(drop, name)
    fill(file)
    count = tables.rows(file, "SELECT COUNT(*) FROM receipts")
    assert count == [(RECEIPTS,)], count
    return file


def few(drop, name):
    """An office of three receipts."""
    file = begun(drop, name)
    for in_box, text, data in [("in", "a,b.txt", b"abc"), ("in", "é", b""), (BOXES[1], '"', b"x" * 300)]:
        tables.add_file(file, in_box, text, data, ID)
    return file


def change(drop, file, source):
    """Has the office drop an eighth of its files and replace an eighth; returns what is wrong with the answers, or None."""
    places = source.sample(sorted(standing(file)), RECEIPTS // 4)
    dropped, replaced = places[::2], places[1::2]
    number = tables.rows(file, "SELECT MAX(number) FROM receipts")[0][0]
    asked, owed = [], []
    for in_box, name in dropped:
        asked.append(post(f"file drop {in_box} {name}"))
        owed.append(OBEYED)
    for number, (in_box, name) in enumerate(replaced, number + 1):
        data = b"another %d" % number
        asked.append(put(b"/%s/%s" % (in_box.encode(), quoted(name, "/")), data))
        owed.append(receipt(number, data))
    return difference(drop.replay(file, b"".join(asked)), answered(*owed))
