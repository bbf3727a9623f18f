"""What is lent to C: copies of their own, of the right type and length, that overlap nowhere; what the caller holds stays as it was."""

import ctypes
from unittest import mock

import veilbuzz
from tests import given
from tests.given import BRANCH, LOOP, TABLE, Case
from veilbuzz import Certificate, Facts, Table

CALLS = {
    "_read": lambda: veilbuzz.read(BRANCH),
    "_node": lambda: veilbuzz.node(BRANCH, 1),
    "_blocks": lambda: veilbuzz.blocks(BRANCH),
    "_write": given.write,
    "_analyse": lambda: veilbuzz.analyse(BRANCH),
    "_check": lambda: veilbuzz.check(BRANCH, TABLE),
    "_total": given.total,
    "_deadline": given.deadline,
    "_bound": given.bound,
}


def lent(name):
    """The arguments that the C function of this name is given."""
    function, seen = getattr(veilbuzz, name), []

    def watched(*arguments):
        seen.append(arguments)
        return function(*arguments)

    with mock.patch.object(veilbuzz, name, watched):
        CALLS[name]()
    return seen[0]


def arrays(arguments):
    return [argument for argument in arguments if isinstance(argument, ctypes.Array)]


class Buffers(Case):
    def test_each_array_has_the_type_of_its_pointer_and_its_length_after_it(self):
        for name in CALLS:
            arguments, types = lent(name), getattr(veilbuzz, name).argtypes
            self.assertEqual(len(arguments), len(types))
            for place, argument in enumerate(arguments):
                if isinstance(argument, ctypes.Array):
                    with self.subTest(name=name, place=place):
                        self.assertIs(types[place], ctypes.POINTER(argument._type_))
                        self.assertEqual(arguments[place + 1], len(argument))

    def test_no_two_arrays_overlap(self):
        for name in CALLS:
            places = sorted((ctypes.addressof(array), ctypes.sizeof(array)) for array in arrays(lent(name)))
            for (first, size), (second, _) in zip(places, places[1:]):
                with self.subTest(name=name):
                    self.assertLessEqual(first + size, second)

    def test_one_object_may_be_given_several_times(self):
        zeros = bytearray(64)
        self.assertIs(veilbuzz.check(LOOP, Table(zeros, zeros, zeros)), False)
        with self.refused(2):
            veilbuzz.check(zeros, Table(zeros, zeros, zeros))
        visits = [1] * 6
        self.assertEqual(given.total(floors=visits, ceilings=visits).low, 5)

    def test_views_of_any_layout(self):
        spread = bytearray(2 * len(LOOP))
        spread[::2] = LOOP
        rows = memoryview(LOOP).cast("B", [4, 8])
        for view in (
            bytearray(LOOP),
            memoryview(LOOP),
            memoryview(spread)[::2],
            memoryview(LOOP[::-1])[::-1],
            rows,
            memoryview(LOOP).cast("c"),
            memoryview(b"xx" + LOOP + b"x")[2:-1],
        ):
            self.assertEqual(veilbuzz.analyse(view), veilbuzz.analyse(LOOP))
            self.assertEqual(veilbuzz.nodes(view), veilbuzz.nodes(LOOP))

    def test_a_view_that_was_released(self):
        view = memoryview(LOOP)
        view.release()
        with self.assertRaises(ValueError):
            veilbuzz.read(view)

    def test_nothing_that_is_given_is_written(self):
        chart = bytearray(BRANCH)
        table = Table(*(bytearray(part) for part in TABLE))
        floors, ceilings = list(given.VISITS["floors"]), list(given.VISITS["ceilings"])
        facts = Facts(list(given.FACTS.coefficients), list(given.FACTS.limits))
        certificate = Certificate(list(given.CERTIFICATE.multipliers), list(given.CERTIFICATE.potentials), 1)
        nodes = list(given.LOOP_NODES)
        veilbuzz.read(chart), veilbuzz.nodes(chart), veilbuzz.blocks(chart), veilbuzz.analyse(chart)
        veilbuzz.check(chart, table)
        given.total(chart, table, floors=floors, ceilings=ceilings)
        given.deadline(chart, table, floors=floors, ceilings=ceilings)
        given.bound(chart, table, facts=facts, certificate=certificate)
        given.write(nodes)
        self.assertEqual(chart, BRANCH)
        self.assertEqual(tuple(bytes(part) for part in table), TABLE)
        self.assertEqual({"floors": floors, "ceilings": ceilings}, given.VISITS)
        self.assertEqual((facts, certificate), (given.FACTS, given.CERTIFICATE))
        self.assertEqual(nodes, given.LOOP_NODES)

    def test_a_bytearray_may_be_changed_after_the_call(self):
        chart = bytearray(LOOP)
        analysis = veilbuzz.analyse(chart)
        chart.clear()
        self.assertEqual(analysis, veilbuzz.analyse(LOOP))

    def test_a_bytearray_may_be_changed_during_the_call(self):
        read = veilbuzz.read
        for function in (veilbuzz.analyse, veilbuzz.nodes):
            chart = bytearray(LOOP)

            def read_and_change(data, chart=chart):
                header = read(data)
                chart[:] = BRANCH
                return header

            with mock.patch.object(veilbuzz, "read", read_and_change):
                self.assertEqual(function(chart), function(LOOP))

    def test_what_is_returned_cannot_be_written(self):
        analysis = veilbuzz.analyse(LOOP)
        hash(analysis)
        for part in analysis.table:
            self.assertIs(type(part), bytes)
        self.assertIs(type(given.write()), bytes)

    def test_one_function_after_another_gives_the_same(self):
        before = [call() for call in CALLS.values()]
        for _ in range(100):
            self.assertEqual([call() for call in CALLS.values()], before)
