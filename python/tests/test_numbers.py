"""The numbers of the documents: what the programs of examples print, and the reports of the folder charts."""

import veilbuzz
from tests import given
from tests.given import BRANCH, LOOP, ROOT, SWAPPED, WINCH, Case
from veilbuzz import Class, Deadline, Fields, Header, Kind, Refusal, Start

VISITS = [1, 1, 1, 1, 1, 1, 1, 1, 10, 10, 10, 0, 0, 0, 10, 10, 10, 10, 10, 0]


def report(chart):
    """What the program prints for a chart."""
    try:
        analysis = veilbuzz.analyse(chart)
    except Refusal as refusal:
        return f"refused {refusal.number} at {refusal.place}\n"
    head = f"nodes {analysis.header.nodes} blocks {len(analysis.blocks)} passes {analysis.passes}\n"
    rows = (f"{node} {first.word} {second.word}\n" for node, (first, second) in enumerate(analysis.classes))
    return head + "".join(rows)


def said(call):
    """A refusal as the examples print it, in three lines."""
    try:
        call()
    except Refusal as refusal:
        return f"refused {refusal.number} at {refusal.place}\n  {refusal.found}\n  {refusal.mend}"
    return "no refusal"


class Numbers(Case):
    def prints(self, example, lines):
        self.assertEqual("".join(f"{line}\n" for line in lines), (ROOT / "examples" / f"{example}.stdout").read_text())

    def test_every_chart_has_its_report(self):
        charts = given.charts()
        self.assertGreaterEqual(len(charts), 20)
        for name, data in charts.items():
            with self.subTest(name):
                self.assertEqual(report(data), (ROOT / "charts" / f"{name}.report").read_text())

    def test_the_example_loop(self):
        words = ["unreached", "always hits", "always misses", "cannot be told", "none", "stays once loaded"]
        header, analysis = veilbuzz.read(LOOP), veilbuzz.analyse(LOOP)
        passes = "passes" if veilbuzz.check(LOOP, analysis.table) else "does not pass"
        low, high = veilbuzz.total(LOOP, analysis.table, hit=1, miss=10, floors=[1, 1, 1], ceilings=[1, 10, 1])
        lines = [
            f"{header.nodes} nodes, {header.blocks} blocks, {1 << header.set_bits} sets of {header.ways} ways",
            f"settled in {analysis.passes} passes",
            *[f"node {node}: {words[first]}, {words[second]}" for node, (first, second) in enumerate(analysis.classes)],
            f"the table {passes}",
            f"a walk costs {low} to {high}",
            f"its first byte: {said(lambda: veilbuzz.read(LOOP[:1]))}",
        ]
        self.prints("loop", lines)

    def test_the_example_make(self):
        made = given.write()
        rows = [made[place : place + 8].hex().upper() for place in range(0, len(made), 8)]
        self.prints("make", [*rows, *report(made).splitlines()])

    def test_the_example_deadline(self):
        lines = []
        asked = {"hit": 1, "miss": 20, "floors": VISITS, "ceilings": VISITS, "sheet": given.CLOCK["sheet"]}
        for name, data in [("as built", WINCH), ("swapped", SWAPPED)]:
            header, table = veilbuzz.read(data), veilbuzz.analyse(data).table
            met, low, high = veilbuzz.deadline(data, table, **asked, deadline=Deadline.latest(120))
            cache = f"{1 << header.set_bits} sets of {header.ways} ways"
            lines.append(f"{name}, {cache}: {low:.3f} to {high:.3f} us, 120 us {'is met' if met else 'is not met'}")
        refusal = said(lambda: veilbuzz.deadline(data, table, **asked, deadline=Deadline.window(120, 0)))
        self.prints("deadline", [*lines, f"from 120 to 0 us: {refusal}"])

    def test_the_example_bound(self):
        potentials = [1, 1, -1, -1, -1, 2]
        too_small = given.CERTIFICATE._replace(potentials=potentials)
        lines = [
            f"by the ceiling of each node: a walk costs no more than {given.total().high}",
            f"left and right no more than 10 times together: no more than {given.bound()}",
            f"the potential of tail one too small: {said(lambda: given.bound(certificate=too_small))}",
        ]
        self.prints("bound", lines)

    def test_the_winch_costs_what_the_readme_says(self):
        asked = {"hit": 1, "miss": 10, "floors": VISITS, "ceilings": VISITS}
        self.assertEqual(veilbuzz.total(WINCH, veilbuzz.analyse(WINCH).table, **asked), (553, 580))
        self.assertEqual(veilbuzz.total(SWAPPED, veilbuzz.analyse(SWAPPED).table, **asked), (67, 130))

    def test_what_is_read_of_the_loop(self):
        self.assertEqual(veilbuzz.read(LOOP), Header(4, 0, 2, Start.EMPTY, 3, 0, 1))
        self.assertIs(veilbuzz.read(LOOP).start, Start.EMPTY)
        self.assertEqual(veilbuzz.node(LOOP, 1), Fields(Kind.READ, 0, 0, 2, 1, 2))
        self.assertIs(veilbuzz.node(LOOP, 1).kind, Kind.READ)
        self.assertIsNone(veilbuzz.node(LOOP, 3))
        self.assertIsNone(veilbuzz.node(LOOP, 2**64 - 1))
        self.assertEqual(veilbuzz.blocks(LOOP), (0,))

    def test_the_blocks_of_the_winch(self):
        wanted = (0x2000000, 0x2000008, 0x2000010, 0x2000018, 0x2000019, 0x2000020, 0x2000028, 0x2000030)
        self.assertEqual(veilbuzz.blocks(WINCH), wanted)
        self.assertEqual(veilbuzz.analyse(WINCH).blocks, wanted)

    def test_the_table_of_the_loop(self):
        analysis = veilbuzz.analyse(LOOP)
        self.assertEqual(analysis.table, (b"\2\2\0", b"\2\0\0", b"\1\1\1"))
        self.assertEqual(analysis.classes[1], (Class.KEPT, Class.NONE))
        self.assertEqual(analysis.header, veilbuzz.read(LOOP))
        self.assertEqual(analysis.passes, 2)

    def test_a_table_that_does_not_pass_is_no_refusal(self):
        must, may, marks = veilbuzz.analyse(LOOP).table
        self.assertIs(veilbuzz.check(LOOP, veilbuzz.Table(must, may, marks)), True)
        self.assertIs(veilbuzz.check(LOOP, veilbuzz.Table(b"\0\0\0", may, marks)), False)
        self.assertIs(veilbuzz.check(LOOP, veilbuzz.Table(must, b"\2\2\2", marks)), False)
        self.assertIs(veilbuzz.check(LOOP, veilbuzz.Table(must, may, b"\1\1\0")), False)

    def test_a_longer_table_is_not_looked_at_further(self):
        longer = veilbuzz.Table(*(part + b"\xff\xff" for part in veilbuzz.analyse(LOOP).table))
        self.assertIs(veilbuzz.check(LOOP, longer), True)

    def test_deadlines_of_each_kind(self):
        self.assertEqual(given.total(), (22, 78))
        low, high = 22 / 8 + 2, 78 / 8 + 2
        for limit, met in [
            (Deadline.none(), True),
            (Deadline.latest(high), True),
            (Deadline.latest(high - 0.125), False),
            (Deadline.window(low, high), True),
            (Deadline.window(low + 0.125, high), False),
            (Deadline.window(low, high - 0.125), False),
        ]:
            with self.subTest(limit):
                self.assertEqual(given.deadline(deadline=limit), (met, low, high))

    def test_each_side_has_its_bound(self):
        self.assertEqual(given.bound(), 68)
        none = veilbuzz.Facts([], [])
        low = veilbuzz.Certificate([], [-1, -1, -2, -2, -3, -2], 1)
        self.assertEqual(given.bound(side=veilbuzz.Side.LOW, facts=none, certificate=low), 1)
        self.assertEqual(veilbuzz.read(BRANCH).nodes, len(low.potentials))
