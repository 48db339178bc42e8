"""Requests with their expected answers, and what each does to the tables of an office file, by Python's `sqlite3`."""

import dataclasses
import functools

import tables
from expected import ID, OBEYED, receipt
from messages import post, put


@dataclasses.dataclass(frozen=True)
class Step:
    """A request, its answer, and what it does to the tables of an office file."""

    asked: bytes
    owed: bytes
    does: object = None


def opens(name, quota=100, files=2, mode="keep"):
    box = tables.Box(name, tables.OPENS, tables.CLOSES, quota=quota, max_files=files, mode=int(mode == "replace"))
    line = f"box add {name} 20130101T000000Z 20130601T000000Z 1111111 0000 2400 {quota} {files} {mode} any"
    return Step(post(line), OBEYED, functools.partial(tables.add_box, box=box))


def take_out(file, box, name, length):
    """Changes the tables as dropping this file must."""
    where = f"WHERE box = '{box}' AND name = '{name}'"
    tables.run(file, [f"DELETE FROM pieces {where}", f"DELETE FROM files {where}",
                      f"UPDATE boxes SET used = used - {length}, count = count - 1 WHERE name = '{box}'"])


def uploads(number, box, name, data, instead_of=None):
    """An accepted upload, of a new file or in place of another."""
    def does(file):
        if instead_of is not None:
            take_out(file, box, name, len(instead_of))
        tables.add_file(file, box, name, data, ID)

    return Step(put(f"/{box}/{name}".encode(), data), receipt(number, data), does)


def commands(line, *statements):
    """A desk command, and its effect in SQL."""
    return Step(post(line), OBEYED, functools.partial(tables.run, statements=statements))


def states_of(steps, file, look):
    """What `look` finds in this file before the steps and after each, each done by Python's `sqlite3`."""
    states = [look(file)]
    for step in steps:
        if step.does:
            step.does(file)
        states.append(look(file))
    return states
