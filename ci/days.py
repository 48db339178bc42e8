"""Days at an office: requests at moments, and their answers."""

import dataclasses
import itertools

from expected import MOMENT, OBEYED
from messages import post


@dataclasses.dataclass(frozen=True)
class Step:
    """A request, its answer, and the moment."""

    asked: bytes
    owed: bytes
    at: str = MOMENT


def by_moment(steps):
    """Consecutive steps at one moment: the moment, their requests and their answers."""
    for at, together in itertools.groupby(steps, key=lambda step: step.at):
        asked, owed = zip(*((step.asked, step.owed) for step in together))
        yield at, asked, owed


def box_line(name="in", quota=100, files=2, mode="keep", days="1111111", hours="0000 2400"):
    """The command that adds a box, which is open from 1 January to 1 June 2013."""
    return f"box add {name} 20130101T000000Z 20130601T000000Z {days} {hours} {quota} {files} {mode} any"


def obeyed(line, **how):
    """The step of a desk command that is done."""
    return Step(post(line, **how), OBEYED)
