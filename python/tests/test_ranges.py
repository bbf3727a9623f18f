"""Every numeric argument of every function: just inside and just outside of what C can hold, and of what the rules allow."""

import math

import veilbuzz
from tests import given
from tests.given import CERTIFICATE, FACTS, LOOP, Case
from veilbuzz import MOST_NODES, ClockSheet, Deadline, Fields, Header, Refusal, Start

UINT16, UINT64, INT64 = (0, 2**16 - 1), (0, 2**64 - 1), (-(2**63), 2**63 - 1)


def at(values, place, value):
    """A list with another value at a place."""
    return [*values[:place], value, *values[place + 1 :]]


def visits(function, name, place):
    return lambda value: function(**{name: at(given.VISITS[name], place, value)})


def field(name, place):
    return lambda value: given.write(at(given.LOOP_NODES, place, given.LOOP_NODES[place]._replace(**{name: value})))


def heading(name):
    return lambda value: given.write(**{name: value})


def facts(name, place):
    return lambda value: given.bound(facts=FACTS._replace(**{name: at(getattr(FACTS, name), place, value)}))


def certificate(name, place):
    changed = at(getattr(CERTIFICATE, name), place, 0)
    return lambda value: given.bound(certificate=CERTIFICATE._replace(**{name: at(changed, place, value)}))


# What an error calls the argument, the range, and a call with a number there.
ARGUMENTS = [
    ("number", UINT64, lambda value: veilbuzz.node(LOOP, value)),
    ("passes", UINT64, lambda value: veilbuzz.analyse(LOOP, value)),
    *[(f"heading.{name}", UINT64, heading(name)) for name in veilbuzz.Heading._fields],
    *[(f"{name} of nodes[{node}]", UINT64, field(name, node)) for name in Fields._fields for node in (0, 2)],
    ("hit", UINT16, lambda value: given.total(hit=value, miss=2**16 - 1)),
    ("miss", UINT16, lambda value: given.total(hit=0, miss=value)),
    *[(f"floors[{place}]", UINT16, visits(given.total, "floors", place)) for place in (0, 5)],
    *[(f"ceilings[{place}]", UINT16, visits(given.total, "ceilings", place)) for place in (0, 5)],
    ("hit", UINT16, lambda value: given.deadline(hit=value)),
    ("miss", UINT16, lambda value: given.deadline(miss=value)),
    *[(f"floors[{place}]", UINT16, visits(given.deadline, "floors", place)) for place in (0, 5)],
    *[(f"ceilings[{place}]", UINT16, visits(given.deadline, "ceilings", place)) for place in (0, 5)],
    ("deadline.kind", UINT64, lambda value: given.deadline(deadline=Deadline(value, 0, 0))),
    ("hit", UINT16, lambda value: given.bound(hit=value)),
    ("miss", UINT16, lambda value: given.bound(miss=value)),
    ("side", UINT64, lambda value: given.bound(side=value)),
    *[(f"facts.coefficients[{place}]", INT64, facts("coefficients", place)) for place in (0, 5)],
    ("facts.limits[0]", INT64, facts("limits", 0)),
    ("certificate.multipliers[0]", INT64, certificate("multipliers", 0)),
    *[(f"certificate.potentials[{place}]", INT64, certificate("potentials", place)) for place in (0, 5)],
    (
        "certificate.denominator",
        UINT64,
        lambda value: given.bound(certificate=CERTIFICATE._replace(denominator=value)),
    ),
    ("number", UINT64, lambda value: Refusal(value, 0)),
    ("place", UINT64, lambda value: Refusal(9, value)),
]

TIMES = [
    ("sheet.period", lambda value: given.deadline(sheet=ClockSheet(value, 0))),
    ("sheet.overhead", lambda value: given.deadline(sheet=ClockSheet(1, value))),
    ("deadline.earliest_time", lambda value: given.deadline(deadline=Deadline.window(value, 1.7e308))),
    ("deadline.latest_time", lambda value: given.deadline(deadline=Deadline.latest(value))),
]


class Ranges(Case):
    def test_just_inside_there_is_an_answer_or_a_refusal(self):
        for name, (lowest, highest), call in ARGUMENTS:
            for value in (lowest, lowest + 1, highest - 1, highest):
                with self.subTest(name=name, value=value):
                    try:
                        call(value)
                    except Refusal:
                        pass

    def test_just_outside_the_argument_the_value_and_the_range_are_named(self):
        for name, (lowest, highest), call in ARGUMENTS:
            for value in (lowest - 1, highest + 1, -(2**64), 2**64, 2**65 + 1):
                words = f"{name} is {value}, and has to be from {lowest} to {highest}"
                with self.subTest(name=name, value=value), self.wrong(ValueError, words):
                    call(value)

    def test_a_number_of_thousands_of_digits_is_told_by_its_length(self):
        for name, _, call in ARGUMENTS:
            with self.subTest(name=name), self.wrong(ValueError, f"{name} is a number of 33220 bits, and has to be"):
                call(10**10000)

    def test_seventy_thousand_is_not_cut(self):
        self.assertEqual(70000 % 2**16, 4464)
        self.assertEqual(given.total(miss=4464).high, 42 + 4 * 4463)
        with self.wrong(ValueError, "miss is 70000, and has to be from 0 to 65535"):
            given.total(miss=70000)

    def test_the_largest_costs_and_visits_arrive_whole(self):
        most, table = 2**16 - 1, veilbuzz.analyse(LOOP).table
        asked = {"hit": most, "miss": most, "floors": [most] * 3, "ceilings": [most] * 3}
        self.assertEqual(veilbuzz.total(LOOP, table, **asked), (2 * most * most, 2 * most * most))
        self.assertEqual(given.total(hit=0, miss=most).high, 4 * most)

    def test_the_rules_limits_of_a_header(self):
        header = Header(8, 8, 8, Start.UNKNOWN, 3, 2, 1)
        self.assertEqual(veilbuzz.read(veilbuzz.write(header, given.LOOP_NODES)), header)
        header = Header(2, 0, 1, Start.EMPTY, 3, 0, 1)
        self.assertEqual(veilbuzz.read(veilbuzz.write(header, given.LOOP_NODES)), header)
        for name, number, values in [
            ("line_bits", 3, [1, 9, 16 + 4]),
            ("set_bits", 3, [9, 16]),
            ("ways", 3, [0, 9, 16 + 2]),
            ("start", 4, [2, 4 + 1]),
            ("nodes", 5, [0, MOST_NODES + 1, 4096 + 3]),
            ("entry", 6, [3, 4096]),
        ]:
            for value in [*values, 2**64 - 1]:
                with self.subTest(name=name, value=value), self.refused(number):
                    given.write(**{name: value})

    def test_the_rules_limits_of_a_node(self):
        for name, values in [
            ("kind", [3, 4 + 1]),
            ("address", [2**32, 2**63]),
            ("size", [3, 16]),
            ("outs", [3, 4]),
            ("first", [3, 4096 + 1]),
            ("second", [3, 4096 + 2]),
        ]:
            for value in [*values, 2**64 - 1]:
                with self.subTest(name=name, value=value), self.refused(9, 1):
                    field(name, 1)(value)
        last = given.write([Fields(veilbuzz.Kind.WRITE, 2**32 - 1)], nodes=1)
        self.assertEqual(veilbuzz.node(last, 0).address, 2**32 - 1)
        self.assertEqual(veilbuzz.blocks(last), (2**28 - 1,))

    def test_the_rules_limits_of_facts_and_certificates(self):
        most = 2**24
        self.assertEqual(facts("limits", 0)(most), 3 * most + 2 + 36)
        for value in (-most - 1, most + 1):
            with self.subTest(value=value):
                with self.refused(24):
                    facts("limits", 0)(value)
                with self.refused(24):
                    facts("coefficients", 5)(value)
        with self.refused(25, 0):
            facts("coefficients", 5)(-most)
        self.assertEqual(facts("coefficients", 5)(most), 68)
        for value in (-1, 2**36 + 1):
            with self.subTest(value=value), self.refused(24):
                certificate("multipliers", 0)(value)
        self.assertGreater(certificate("potentials", 5)(2**60), 2**60)
        for value in (-(2**60) - 1, 2**60 + 1):
            with self.subTest(value=value), self.refused(24):
                certificate("potentials", 5)(value)
        for value in (0, 2**32 + 1):
            with self.subTest(value=value), self.refused(24):
                given.bound(certificate=CERTIFICATE._replace(denominator=value))

    def test_passes_from_none_to_all(self):
        for passes in (0, 1):
            with self.refused(12):
                veilbuzz.analyse(LOOP, passes)
        for passes in (2, 3, veilbuzz.ENOUGH_PASSES, 2**64 - 1):
            self.assertEqual(veilbuzz.analyse(LOOP, passes), veilbuzz.analyse(LOOP))

    def test_times_that_no_float_holds(self):
        for name, call in TIMES:
            with self.subTest(name=name):
                with self.wrong(ValueError, f"{name} is 9007199254740993, which is no float"):
                    call(2**53 + 1)
                with self.wrong(ValueError, f"{name} is a number of 2001 bits, and no float is so large"):
                    call(2**2000)
                with self.wrong(ValueError, f"{name} is a number of 33220 bits, and no float is so large"):
                    call(-(10**10000))
                call(2**53)
                call(2**1000)

    def test_times_that_are_no_times_are_refused(self):
        for name, call in TIMES:
            for value in (math.nan, math.inf, -math.inf, -1, -0.5, -5e-324, -(2**53)):
                with self.subTest(name=name, value=value), self.refused(18):
                    call(value)

    def test_times_at_the_ends(self):
        self.assertEqual(given.deadline(sheet=ClockSheet(1.7976931348623157e308, 0)), (False, math.inf, math.inf))
        tiny = 5e-324
        self.assertEqual(given.deadline(sheet=ClockSheet(tiny, 0)), (True, 22 * tiny, 78 * tiny))
        self.assertEqual(given.deadline(sheet=ClockSheet(1, -0.0)), (True, 22, 78))
        with self.refused(18):
            given.deadline(sheet=ClockSheet(-0.0, 1))

    def test_figures_are_rounded_to_the_nearest_twice(self):
        for period, overhead in [(0.1, 0.2), (1 / 3, 1e-9), (1e-7, 1e9), (123.456, 0.001)]:
            judged = given.deadline(sheet=ClockSheet(period, overhead))
            self.assertEqual((judged.low, judged.high), (22 * period + overhead, 78 * period + overhead))
