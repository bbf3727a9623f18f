"""What has the wrong type raises a TypeError that names the argument; what is as good as the right one is taken."""

from array import array
from decimal import Decimal
from fractions import Fraction

import veilbuzz
from tests import given
from tests.given import BRANCH, CERTIFICATE, FACTS, LOOP, TABLE, Case
from tests.test_ranges import ARGUMENTS, TIMES
from veilbuzz import Deadline, Fields, Header, Heading, Table

# What an error calls the list, and a call with something there.
LISTS = [
    ("nodes", lambda value: veilbuzz.write(given.LOOP_HEADING, value)),
    ("floors", lambda value: given.total(floors=value)),
    ("ceilings", lambda value: given.total(ceilings=value)),
    ("floors", lambda value: given.deadline(floors=value)),
    ("ceilings", lambda value: given.deadline(ceilings=value)),
    ("facts.coefficients", lambda value: given.bound(facts=FACTS._replace(coefficients=value))),
    ("facts.limits", lambda value: given.bound(facts=FACTS._replace(limits=value))),
    ("certificate.multipliers", lambda value: given.bound(certificate=CERTIFICATE._replace(multipliers=value))),
    ("certificate.potentials", lambda value: given.bound(certificate=CERTIFICATE._replace(potentials=value))),
]

BUFFERS = [
    *[("chart", function) for function in (veilbuzz.read, veilbuzz.nodes, veilbuzz.blocks, veilbuzz.analyse)],
    ("chart", lambda value: veilbuzz.node(value, 0)),
    ("chart", lambda value: veilbuzz.check(value, TABLE)),
    ("chart", lambda value: given.total(value)),
    ("chart", lambda value: given.deadline(value)),
    ("chart", lambda value: given.bound(value)),
    *[
        (f"table.{name}", lambda value, call=call, name=name: call(table=TABLE._replace(**{name: value})))
        for call in (lambda table: veilbuzz.check(BRANCH, table), given.total, given.deadline, given.bound)
        for name in Table._fields
    ],
]

RECORDS = [
    ("heading", lambda value: veilbuzz.write(value, given.LOOP_NODES)),
    ("nodes[0]", lambda value: veilbuzz.write(given.LOOP_HEADING, [value, *given.LOOP_NODES[1:]])),
    ("table", lambda value: veilbuzz.check(BRANCH, value)),
    ("table", lambda value: given.total(table=value)),
    ("table", lambda value: given.deadline(table=value)),
    ("table", lambda value: given.bound(table=value)),
    ("sheet", lambda value: given.deadline(sheet=value)),
    ("deadline", lambda value: given.deadline(deadline=value)),
    ("facts", lambda value: given.bound(facts=value)),
    ("certificate", lambda value: given.bound(certificate=value)),
]


class Whole:
    """What is no int, and says which one it stands for, as the numbers of other packages do."""

    def __init__(self, number):
        self.number = number

    def __index__(self):
        return self.number


class Types(Case):
    def test_where_a_whole_number_is_meant(self):
        for name, _, call in ARGUMENTS:
            for value in (True, False, 1.0, "1", b"1", None, [1], (1,), Fraction(1), Decimal(1), 1j, int):
                with self.subTest(name=name, value=value):
                    with self.wrong(TypeError, f"{name} has to be a whole number, not {type(value).__name__}"):
                        call(value)

    def test_where_a_time_is_meant(self):
        for name, call in TIMES:
            for value in (True, "1", b"1", None, [1], Fraction(1), Decimal(1), 1j, Whole(1)):
                with self.subTest(name=name, value=value):
                    with self.wrong(TypeError, f"{name} has to be a number of microseconds, not {type(value).__name__}"):
                        call(value)

    def test_where_a_list_is_meant(self):
        for name, call in LISTS:
            for value in (None, 1, "11", "", {1, 2}, {1: 2}, iter([1]), (number for number in [1]), map(int, "1")):
                with self.subTest(name=name, value=value):
                    with self.wrong(TypeError, f"{name} has to be a list or another sequence, not {type(value).__name__}"):
                        call(value)

    def test_where_bytes_are_meant(self):
        for name, call in BUFFERS:
            for value in (None, 1, "chart", list(LOOP), tuple(LOOP), array("B", LOOP), [], iter(LOOP)):
                with self.subTest(name=name, value=value):
                    words = f"{name} has to be bytes, a bytearray or a memoryview, not {type(value).__name__}"
                    with self.wrong(TypeError, words):
                        call(value)

    def test_a_view_of_items_that_are_no_bytes(self):
        for name, call in BUFFERS:
            with self.subTest(name=name), self.wrong(TypeError, f"{name} has to be a memoryview of bytes, not of items of 2 bytes"):
                call(memoryview(array("H", [1, 2])))

    def test_where_a_record_is_meant(self):
        for name, call in RECORDS:
            for value in (None, 1, (), (1, 2), (b"", b"", b""), [1, 2, 3], {}):
                with self.subTest(name=name, value=value):
                    with self.wrong(TypeError, f"{name} has to be a", f"not {type(value).__name__}"):
                        call(value)

    def test_costs_and_all_after_them_are_given_by_name(self):
        for function, more in [
            (veilbuzz.total, given.VISITS),
            (veilbuzz.deadline, {**given.VISITS, **given.CLOCK}),
            (veilbuzz.bound, given.SHOWN),
        ]:
            function(BRANCH, TABLE, hit=1, miss=10, **more)
            with self.assertRaisesRegex(TypeError, "positional"):
                function(BRANCH, TABLE, 1, 10, *more.values())

    def test_sequences_of_any_kind(self):
        floors, ceilings = given.VISITS["floors"], given.VISITS["ceilings"]
        for like in (tuple, bytes, bytearray, lambda values: memoryview(bytes(values))):
            self.assertEqual(given.total(floors=like(floors), ceilings=like(ceilings)), given.total())
        self.assertEqual(given.write(tuple(given.LOOP_NODES)), LOOP)

    def test_numbers_of_other_packages(self):
        self.assertEqual(given.total(hit=Whole(1), miss=Whole(10)), given.total())
        with self.wrong(ValueError, "hit is 70000, and has to be from 0 to 65535"):
            given.total(hit=Whole(70000))

    def test_enums_are_numbers(self):
        self.assertEqual(given.write(start=1), given.write(start=veilbuzz.Start.EMPTY))
        self.assertEqual(given.bound(side=0), given.bound(side=veilbuzz.Side.HIGH))
        self.assertEqual(Deadline(1, 0, 5), Deadline.latest(5))
        self.assertEqual(Fields(), (0, 0, 0, 0, 0, 0))

    def test_a_chart_is_written_from_a_heading_or_a_header(self):
        header = veilbuzz.read(LOOP)
        self.assertEqual(veilbuzz.write(header, given.LOOP_NODES), LOOP)
        self.assertEqual(veilbuzz.write(Heading(*header[:6]), given.LOOP_NODES), LOOP)
        self.assertEqual(Header._fields, (*Heading._fields, "blocks"))
