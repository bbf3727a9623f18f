"""Calls from several threads at the same time give what they give one after another."""

import ctypes
from concurrent.futures import ThreadPoolExecutor

import veilbuzz
from tests import given
from tests.given import Case
from veilbuzz import Refusal


def all_answers(data):
    """What each function says of a chart, or its refusal."""
    try:
        analysis = veilbuzz.analyse(data)
        ones = [1 if mark else 0 for mark in analysis.table.marks]
        asked = {"hit": 1, "miss": 10, "floors": ones, "ceilings": ones}
        return (
            analysis,
            veilbuzz.nodes(data),
            veilbuzz.check(data, analysis.table),
            veilbuzz.total(data, analysis.table, **asked),
            veilbuzz.deadline(data, analysis.table, **asked, **given.CLOCK),
            given.write(),
            given.bound(),
        )
    except Refusal as refusal:
        return str(refusal)


class Threads(Case):
    def test_eight_threads_give_what_one_gives(self):
        charts = list(given.charts().values())
        alone = [all_answers(data) for data in charts]
        with ThreadPoolExecutor(8) as pool:
            for _ in range(20):
                self.assertEqual(list(pool.map(all_answers, charts)), alone)

    def test_a_call_does_not_hold_the_others_up(self):
        # of this type and not PyDLL, whose calls keep the interpreter's lock
        self.assertIs(type(veilbuzz._LIBRARY), ctypes.CDLL)
