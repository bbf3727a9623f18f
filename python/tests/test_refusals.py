"""Each refusal, 1 to 18 and 23 to 25, is met, with its number, its place and its words."""

import pickle

import veilbuzz
from tests import given
from tests.given import BRANCH, LOOP, TABLE, Case
from veilbuzz import MOST_NODES, Certificate, ClockSheet, Deadline, Facts, Fields, Kind, Refusal, Table


def changed(place, byte):
    """The loop with another byte."""
    return LOOP[:place] + bytes([byte]) + LOOP[place + 1 :]


def many_blocks():
    """Sixty-five nodes that read a block each."""
    reads = [Fields(Kind.READ, 16 * node, 0, 1, (node + 1) % 65) for node in range(65)]
    return given.write(reads, nodes=65)


UNREACHED = given.chart("class-unreached")

# Number, place, and a question that is refused so.
MET = [
    (1, 0, lambda: veilbuzz.read(LOOP[:7])),
    (2, 0, lambda: veilbuzz.node(changed(0, 2), 0)),
    (3, 0, lambda: veilbuzz.read(changed(1, 0x10))),
    (4, 0, lambda: given.write(start=2)),
    (5, 0, lambda: given.write([], nodes=0)),
    (6, 0, lambda: given.write(entry=3)),
    (7, 0, lambda: veilbuzz.blocks(changed(7, 1))),
    (8, 0, lambda: veilbuzz.analyse(LOOP + b"\0")),
    (8, 0, lambda: given.write(nodes=4)),
    (9, 1, lambda: veilbuzz.read(given.chart("refused-two-arrows-to-one-node"))),
    (9, 2, lambda: given.write([*given.LOOP_NODES[:2], Fields(kind=3)])),
    (10, 64, many_blocks),
    (11, 0, lambda: veilbuzz.check(BRANCH, Table(TABLE.must[:-1], TABLE.may, TABLE.marks))),
    (11, 0, lambda: veilbuzz.check(BRANCH, Table(TABLE.must, TABLE.may[:-1], TABLE.marks))),
    (11, 0, lambda: given.total(table=Table(TABLE.must, TABLE.may, TABLE.marks[:-1]))),
    (12, 0, lambda: veilbuzz.analyse(LOOP, 1)),
    (13, 0, lambda: given.total(table=Table(bytes(24), TABLE.may, TABLE.marks))),
    (14, 0, lambda: given.total(floors=[0] * 5)),
    (14, 0, lambda: given.deadline(ceilings=[0] * 7)),
    (15, 0, lambda: given.total(hit=10, miss=9)),
    (16, 4, lambda: given.total(floors=[11, 10, 0, 0, 11, 1])),
    (17, 1, lambda: given.total(UNREACHED, veilbuzz.analyse(UNREACHED).table, floors=[0, 1, 0], ceilings=[1, 1, 1])),
    (18, 0, lambda: given.deadline(sheet=ClockSheet(0, 2))),
    (18, 0, lambda: given.deadline(deadline=Deadline(3, 0, 0))),
    (18, 0, lambda: given.deadline(deadline=Deadline.window(2, 1))),
    (23, 0, lambda: given.bound(facts=Facts([0, 0, 1, 1, 0], [10]))),
    (23, 0, lambda: given.bound(facts=Facts([], []))),
    (23, 0, lambda: given.bound(certificate=Certificate([3], [1, 1, -1, -1, 0], 1))),
    (24, 0, lambda: given.bound(certificate=given.CERTIFICATE._replace(denominator=0))),
    (24, 0, lambda: given.bound(side=2)),
    (25, 2, lambda: given.bound(certificate=given.CERTIFICATE._replace(potentials=[1, 1, -1, -1, -1, 2]))),
]

NUMBERS = [*range(1, 19), *range(23, 26)]
WITHOUT_WORDS = [0, 19, 20, 21, 22, 26, 2**64 - 1]


class Refusals(Case):
    def test_each_is_met_at_its_place(self):
        for number, place, question in MET:
            with self.subTest(number=number, place=place), self.refused(number, place):
                question()

    def test_none_is_left_out(self):
        self.assertEqual(sorted({number for number, _, _ in MET}), NUMBERS)

    def test_its_text_has_number_place_and_words(self):
        for number, place, question in MET:
            with self.subTest(number=number), self.assertRaises(Refusal) as caught:
                question()
            refusal = caught.exception
            self.assertEqual(str(refusal), f"refused {number} at {place}: {refusal.found} ({refusal.mend})")

    def test_each_has_words_of_its_own(self):
        self.assertEqual(len({Refusal(number, 0).found for number in NUMBERS}), len(NUMBERS))
        self.assertNotIn("", [Refusal(number, 0).found for number in NUMBERS])
        self.assertNotIn("", [Refusal(number, 0).mend for number in NUMBERS])

    def test_the_words_of_two(self):
        self.assertEqual(str(Refusal(1, 0)), "refused 1 at 0: the chart has fewer than 8 bytes (give the whole file)")
        self.assertEqual(
            str(Refusal(15, 0)),
            "refused 15 at 0: the miss cost is below the hit cost (swap them, if they were swapped)",
        )

    def test_a_number_that_nothing_is_refused_with_has_no_words(self):
        for number in WITHOUT_WORDS:
            refusal = Refusal(number, 3)
            self.assertEqual((refusal.found, refusal.mend, str(refusal)), ("", "", f"refused {number} at 3"))

    def test_it_can_be_sent_from_one_process_to_another(self):
        sent = pickle.loads(pickle.dumps(Refusal(9, 2)))
        self.assertIs(type(sent), Refusal)
        self.assertEqual((sent.number, sent.place, str(sent)), (9, 2, str(Refusal(9, 2))))

    def test_it_is_neither_of_the_errors_that_a_wrong_call_raises(self):
        self.assertFalse(issubclass(Refusal, (TypeError, ValueError)))

    def test_the_first_that_applies_is_given(self):
        with self.refused(1):
            veilbuzz.check(b"", Table(b"", b"", b""))
        with self.refused(11):
            given.total(table=Table(b"", b"", b""), hit=2, miss=1, floors=[])
        with self.refused(14):
            given.total(floors=[], hit=2, miss=1)
        with self.refused(15):
            given.deadline(hit=2, miss=1, sheet=ClockSheet(0, 0))

    def test_lists_of_any_length_come_to_the_proved_function(self):
        for length in [0, 1, 5, 7, MOST_NODES, 70000]:
            with self.subTest(length=length):
                with self.refused(14):
                    given.total(floors=[0] * length)
                with self.refused(14):
                    given.total(ceilings=[0] * length)
                with self.refused(8):
                    given.write([Fields()] * length)
                with self.refused(23):
                    given.bound(certificate=Certificate([3], [0] * length, 1))
        with self.refused(23):
            given.bound(facts=Facts([0] * 12, [10]))
        with self.refused(23):
            given.bound(certificate=Certificate([3, 0], given.CERTIFICATE.potentials, 1))
        with self.refused(5):
            given.write([Fields()] * (MOST_NODES + 1), nodes=MOST_NODES + 1)
