"""The sweep of caches: what it prints and draws is what is stored, and what it asks is what examples/deadline.c asks."""

import re
import subprocess
import sys
import tempfile
import xml.etree.ElementTree
from pathlib import Path

import sweep
import veilbuzz
from tests.given import PYTHON, ROOT, Case

PICTURE = (ROOT / "docs" / "sweep.svg").read_text(encoding="utf-8")
EXAMPLE = (ROOT / "examples" / "deadline.c").read_text(encoding="utf-8")
CELLS = sweep.sweep()


def texts(picture):
    """The words that stand in a picture."""
    return ["".join(text.itertext()) for text in xml.etree.ElementTree.fromstring(picture).iter("{http://www.w3.org/2000/svg}text")]


class Sweep(Case):
    def test_it_prints_and_draws_what_is_stored(self):
        with tempfile.TemporaryDirectory() as folder:
            drawn = Path(folder) / "drawn.svg"
            command = [sys.executable, "-B", "-s", PYTHON / "sweep.py", drawn]
            ended = subprocess.run(command, cwd=folder, check=True, capture_output=True, text=True, encoding="utf-8")
            self.assertEqual(ended.stdout, (PYTHON / "sweep.stdout").read_text(encoding="utf-8"))
            self.assertEqual(drawn.read_text(encoding="utf-8"), PICTURE)

    def test_its_numbers_are_those_of_the_example_deadline(self):
        costs = re.search(r"uint16_t hit = (\d+), miss = (\d+);", EXAMPLE).groups()
        self.assertEqual((sweep.HIT, sweep.MISS), tuple(map(int, costs)))
        times = re.search(r"double period = ([\d.]+), overhead = ([\d.]+), latest = ([\d.]+);", EXAMPLE).groups()
        self.assertEqual((*sweep.SHEET, sweep.LATEST), tuple(map(float, times)))

    def test_its_visits_are_those_of_the_example_deadline(self):
        walk = re.search(r"visits\[NODES\] = \{([^}]*)\}", EXAMPLE).group(1)
        read = sweep.visits(sweep.WINCH.with_suffix(".txt").read_text(encoding="utf-8"))
        self.assertEqual(read, [int(count) for count in walk.split(",")])

    def test_visits_in_comments_do_not_count(self):
        self.assertEqual(sweep.visits("# visits 1\na: -> b visits 2 # visits 3\nb: # visits 4\nc: visits 0\n"), [2, 0])

    def test_each_cache_is_there_once(self):
        shapes = [(cell.sets, cell.ways) for cell in CELLS]
        self.assertEqual(shapes, [(1 << bits, ways) for ways in range(1, 9) for bits in range(9)])
        self.assertTrue(all(cell.size == 16 * cell.sets * cell.ways for cell in CELLS))

    def test_the_two_caches_of_the_readme(self):
        built, swapped = sweep.marked(CELLS)["as built"], sweep.marked(CELLS)["swapped"]
        self.assertEqual((built.cycles, built.time, built.met), (1150, 145.75, False))
        self.assertEqual((swapped.cycles, swapped.time, swapped.met), (200, 27.0, True))
        self.assertEqual(built.size, swapped.size)

    def test_the_smallest_is_met_and_no_smaller_one_is(self):
        smallest = sweep.marked(CELLS)["smallest"]
        self.assertTrue(smallest.met)
        self.assertEqual([cell for cell in CELLS if cell.met and cell.size < smallest.size], [])
        self.assertEqual((smallest.sets, smallest.ways, smallest.size), (1, 7, 112))

    def test_more_ways_cost_no_more(self):
        cycles = {(cell.sets, cell.ways): cell.cycles for cell in CELLS}
        for (sets, ways), high in cycles.items():
            self.assertLessEqual(cycles.get((sets, ways + 1), 0), high)

    def test_the_picture_has_each_total_and_each_size(self):
        words = texts(PICTURE)
        for cell in CELLS:
            self.assertIn(f"{cell.size} B", words)
        totals = sorted(int(word) for word in words if word.isdigit())
        self.assertEqual(totals, sorted(cell.cycles for cell in CELLS))
        for name in sweep.marked(CELLS):
            self.assertIn(name, words)

    def test_the_picture_has_whole_numbers_for_places(self):
        places = re.findall(r' (?:x|y|width|height|rx)="([^"]*)"', PICTURE)
        self.assertGreater(len(places), 500)
        self.assertTrue(all(place.isdigit() for place in places))

    def test_a_cache_in_words(self):
        self.assertEqual(sweep.Cell(1, 1, 16, 0, 0.0, True).words, "1 set of 1 way, 16 bytes")
        self.assertEqual(sweep.Cell(2, 8, 256, 0, 0.0, True).words, "2 sets of 8 ways, 256 bytes")
        self.assertEqual(veilbuzz.MOST_WAYS, max(sweep.WAYS))
