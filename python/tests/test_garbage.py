"""Whatever the bytes and numbers, there is an answer or a refusal, and nothing else."""

import random

import veilbuzz
from tests import given
from tests.given import Case
from tests.test_round import SEED
from veilbuzz import LONGEST_CHART, MOST_NODES, Certificate, ClockSheet, Deadline, Facts, Fields, Heading, Refusal, Table

EDGES = [0, 1, 2, 3, 7, 8, 9, 15, 255, MOST_NODES - 1, MOST_NODES, MOST_NODES + 1, 4095, 2**16 - 1, 2**24, 2**32 - 1, 2**32, 2**63, 2**64 - 1]
TIMES = [0.0, -0.0, 0.125, 1.0, 120.0, -1.0, 5e-324, 1.7e308, float("inf"), float("-inf"), float("nan")]


def some(draw, most=40):
    return draw.randbytes(draw.randrange(most))


def visits(draw):
    return [draw.choice([0, 1, 10, 65535]) for _ in range(draw.choice([0, 1, 3, 6]))]


def signed(draw):
    return [draw.choice(EDGES) // 2 * draw.choice([1, -1]) for _ in range(draw.choice([0, 1, 3, 6]))]


def questions(draw, data):
    """All that can be asked of bytes, with tables, visits, times, facts and certificates that are drawn, or good ones."""
    table = draw.choice([given.TABLE, Table(some(draw), some(draw), some(draw))])
    costs = {"hit": draw.choice([0, 1, 65535]), "miss": draw.choice([0, 10, 65535])}
    walk = {"floors": visits(draw), "ceilings": visits(draw)}
    sheet = ClockSheet(draw.choice(TIMES), draw.choice(TIMES))
    limit = Deadline(draw.choice(EDGES), draw.choice(TIMES), draw.choice(TIMES))
    shown = {"facts": Facts(signed(draw), signed(draw)), "side": draw.choice(EDGES)}
    certificate = Certificate(signed(draw), signed(draw), draw.choice(EDGES))
    return [
        lambda: veilbuzz.read(data),
        lambda: veilbuzz.node(data, draw.choice(EDGES)),
        lambda: veilbuzz.nodes(data),
        lambda: veilbuzz.blocks(data),
        lambda: veilbuzz.analyse(data),
        lambda: veilbuzz.analyse(data, draw.choice([0, 1, 2, 2**64 - 1])),
        lambda: veilbuzz.check(data, table),
        lambda: veilbuzz.total(data, table, **costs, **walk),
        lambda: veilbuzz.deadline(data, table, **costs, **walk, sheet=sheet, deadline=limit),
        lambda: veilbuzz.bound(data, table, **costs, **shown, certificate=certificate),
    ]


def answers(questions):
    """How many of these questions are answered; all others have to be refused."""
    count = 0
    for question in questions:
        try:
            question()
            count += 1
        except Refusal as refusal:
            assert refusal.found and refusal.mend, refusal
    return count


class Garbage(Case):
    def test_bytes_of_every_length(self):
        draw = random.Random(SEED)
        for length in range(300):
            for _ in range(5):
                self.assertEqual(answers(questions(draw, draw.randbytes(length))), 0)

    def test_bytes_that_begin_as_a_chart_does(self):
        draw = random.Random(SEED + 1)
        met = 0
        for _ in range(2000):
            nodes = draw.randrange(1, 4)
            head = bytes([1, 0x40, 0x24, 0, nodes >> 4, nodes % 16 << 4, 0, 0])
            records = [draw.randbytes(8), bytes.fromhex("4000000000000000"), bytes.fromhex("0000000000000000")]
            met += answers(questions(draw, head + b"".join(draw.choice(records) for _ in range(nodes))))
        self.assertGreater(met, 1000)

    def test_charts_with_a_byte_or_two_changed(self):
        draw = random.Random(SEED + 2)
        charts, met, refused = list(given.charts().values()), 0, 0
        for _ in range(2000):
            data = bytearray(draw.choice(charts))
            for _ in range(draw.randrange(3)):
                data[draw.randrange(len(data))] ^= 1 << draw.randrange(8)
            asked = questions(draw, data)
            count = answers(asked)
            met, refused = met + count, refused + len(asked) - count
        self.assertGreater(met, 1000)
        self.assertGreater(refused, 1000)

    def test_very_long_bytes(self):
        for length in (LONGEST_CHART, LONGEST_CHART + 1, 100_000, 5_000_000):
            with self.refused(2):
                veilbuzz.analyse(bytes(length))
        with self.refused(8):
            veilbuzz.analyse(given.LOOP + bytes(1_000_000))

    def test_fields_of_any_numbers(self):
        draw = random.Random(SEED + 3)
        met = 0
        for _ in range(3000):
            good = draw.random() < 0.5
            number = (lambda: 0) if good else (lambda: draw.choice(EDGES))
            nodes = [Fields(*(number() for _ in range(6))) for _ in range(draw.choice([0, 1, 2, 3]))]
            heading = Heading(draw.choice([4, 4, 9]), draw.choice([0, 8, 9]), draw.choice([1, 8, 0]), number(), len(nodes), number())
            try:
                data = veilbuzz.write(heading, nodes)
            except Refusal:
                continue
            met += 1
            self.assertEqual((veilbuzz.read(data)[:6], veilbuzz.nodes(data)), (heading, nodes))
        self.assertGreater(met, 300)
