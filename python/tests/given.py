"""What the tests share: where things are, the loop, the winch, the branch, and how a question is asked."""

import os
import unittest
from contextlib import contextmanager
from pathlib import Path

import veilbuzz
from veilbuzz import Certificate, ClockSheet, Deadline, Facts, Fields, Heading, Kind, Side, Start

PYTHON = Path(__file__).resolve().parent.parent
ROOT = PYTHON.parent
HEADER = (ROOT / "include" / "veilbuzz.h").read_text(encoding="utf-8")
ARCHIVE = Path(os.environ.get("VEILBUZZ_ARCHIVE", ROOT / "target" / "archive"))

LOOP_HEADING = Heading(line_bits=4, set_bits=0, ways=2, start=Start.EMPTY, nodes=3, entry=0)
LOOP_NODES = [
    Fields(outs=1, first=1),
    Fields(Kind.READ, outs=2, first=1, second=2),
    Fields(Kind.READ),
]


def chart(name):
    """A chart of the folder charts."""
    return (ROOT / "charts" / f"{name}.chart").read_bytes()


LOOP, BRANCH, WINCH, SWAPPED = chart("loop"), chart("branch"), chart("winch-as-built"), chart("winch-swapped")


def charts():
    """All charts of the folder, by name."""
    return {path.stem: path.read_bytes() for path in sorted((ROOT / "charts").glob("*.chart"))}


def accepted():
    """Those of them that are accepted."""
    return {name: data for name, data in charts().items() if not name.startswith("refused")}


# Good answers to all that the functions ask for, of the branch of examples/bound.c; a test changes what it is about.
TABLE = veilbuzz.analyse(BRANCH).table
COSTS = {"hit": 1, "miss": 10}
VISITS = {"floors": [11, 10, 0, 0, 10, 1], "ceilings": [11, 10, 10, 10, 10, 1]}
CLOCK = {"sheet": ClockSheet(0.125, 2), "deadline": Deadline.latest(120)}
FACTS = Facts(coefficients=[0, 0, 1, 1, 0, 0], limits=[10])
CERTIFICATE = Certificate(multipliers=[3], potentials=[1, 1, -1, -1, 0, 2], denominator=1)
SHOWN = {"side": Side.HIGH, "facts": FACTS, "certificate": CERTIFICATE}


def total(chart=BRANCH, table=TABLE, **changed):
    return veilbuzz.total(chart, table, **{**COSTS, **VISITS, **changed})


def deadline(chart=BRANCH, table=TABLE, **changed):
    return veilbuzz.deadline(chart, table, **{**COSTS, **VISITS, **CLOCK, **changed})


def bound(chart=BRANCH, table=TABLE, **changed):
    return veilbuzz.bound(chart, table, **{**COSTS, **SHOWN, **changed})


def write(records=LOOP_NODES, /, **changed):
    return veilbuzz.write(LOOP_HEADING._replace(**changed), records)


class Case(unittest.TestCase):
    """A test case that knows refusals."""

    @contextmanager
    def refused(self, number, place=0):
        """What is in it has to be refused so."""
        with self.assertRaises(veilbuzz.Refusal) as caught:
            yield
        self.assertEqual((caught.exception.number, caught.exception.place), (number, place))

    @contextmanager
    def wrong(self, error, *words):
        """What is in it has to raise just this error, and that has to say these words."""
        with self.assertRaises(error) as caught:
            yield
        self.assertIs(type(caught.exception), error)
        for word in words:
            self.assertIn(word, str(caught.exception))
