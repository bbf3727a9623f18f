"""What is read can be written again, and gives the same bytes; what is written reads back as what was given."""

import random

import veilbuzz
from tests import given
from tests.given import Case
from veilbuzz import MOST_BLOCKS, MOST_NODES, Fields, Heading, Kind

SEED = 20


def drawn_node(draw, nodes):
    """The fields of a node that is accepted, of a chart of so many nodes."""
    kind = draw.choice(list(Kind))
    size = 0 if kind == Kind.STEP else draw.randrange(3)
    address = 0 if kind == Kind.STEP else draw.choice([draw.randrange(600), 2**32 - 4 - draw.randrange(200)])
    targets = draw.sample(range(nodes), draw.randint(0, min(2, nodes)))
    first, second = (*targets, 0, 0)[:2]
    return Fields(kind, address, size, len(targets), first, second)


def drawn_chart(draw):
    """A heading and nodes that are accepted."""
    nodes = draw.choice([1, 2, 3, 8, 20])
    shape = draw.randint(4, 8), draw.randint(0, 8), draw.randint(1, 8)
    return Heading(*shape, draw.randrange(2), nodes, draw.randrange(nodes)), [drawn_node(draw, nodes) for _ in range(nodes)]


class Round(Case):
    def test_every_chart_of_the_folder_there_and_back(self):
        for name, data in given.accepted().items():
            with self.subTest(name):
                self.assertEqual(veilbuzz.write(veilbuzz.read(data), veilbuzz.nodes(data)), data)

    def test_drawn_charts_there_and_back(self):
        draw = random.Random(SEED)
        for _ in range(500):
            heading, nodes = drawn_chart(draw)
            data = veilbuzz.write(heading, nodes)
            self.assertEqual(len(data), 8 + 8 * len(nodes))
            self.assertEqual(veilbuzz.read(data)[:6], heading)
            self.assertEqual(veilbuzz.nodes(data), nodes)
            self.assertEqual(veilbuzz.read(data).blocks, len(veilbuzz.blocks(data)))

    def test_the_table_of_an_analysis_passes(self):
        draw = random.Random(SEED)
        charts = [*given.accepted().values(), *(veilbuzz.write(*drawn_chart(draw)) for _ in range(200))]
        for data in charts:
            analysis = veilbuzz.analyse(data)
            self.assertIs(veilbuzz.check(data, analysis.table), True)
            self.assertEqual(analysis.blocks, veilbuzz.blocks(data))
            self.assertEqual(len(analysis.classes), analysis.header.nodes)

    def test_the_longest_chart(self):
        nodes = [Fields(Kind.READ, 16 * (node % MOST_BLOCKS), 0, 1, (node + 1) % MOST_NODES) for node in range(MOST_NODES)]
        data = given.write(nodes, nodes=MOST_NODES)
        self.assertEqual(len(data), veilbuzz.LONGEST_CHART)
        self.assertEqual(veilbuzz.nodes(data), nodes)
        analysis = veilbuzz.analyse(data)
        self.assertEqual(len(analysis.blocks), veilbuzz.MOST_BLOCKS)
        self.assertEqual([len(part) for part in analysis.table], [MOST_NODES * MOST_BLOCKS, MOST_NODES * MOST_BLOCKS, MOST_NODES])

    def test_a_chart_without_blocks(self):
        data = given.chart("class-none")
        self.assertEqual(veilbuzz.blocks(data), ())
        analysis = veilbuzz.analyse(data)
        self.assertEqual((analysis.blocks, analysis.table), ((), (b"", b"", b"\1")))
        self.assertIs(veilbuzz.check(data, analysis.table), True)

    def test_another_cache_alone_is_another_chart(self):
        header = veilbuzz.read(given.WINCH)._replace(set_bits=1, ways=8)
        self.assertEqual(veilbuzz.write(header, veilbuzz.nodes(given.WINCH)), given.SWAPPED)
