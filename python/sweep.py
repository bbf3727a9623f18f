"""Which cache should the winch's next board have?

    python3 python/sweep.py                   prints the high total in each cache, and the answer
    python3 python/sweep.py docs/sweep.svg    does so, and draws it into that file

The winch of charts/winch-as-built.txt is put into each cache that there is with such lines, of one set of one way and up.
Power on and ten hauls have to be done by a latest time. Costs, clock sheet and that time are those of
examples/deadline.c, and whether it is met is the proved function's to say.
"""

import re
import sys
from pathlib import Path
from typing import NamedTuple

import sweep_picture
import veilbuzz
from veilbuzz import ClockSheet, Deadline

WINCH = Path(__file__).resolve().parent.parent / "charts" / "winch-as-built"

HIT, MISS = 1, 20  # cycles
SHEET = ClockSheet(period=0.125, overhead=2)  # microseconds
LATEST = 120  # microseconds

SET_BITS = range(9)
WAYS = range(1, veilbuzz.MOST_WAYS + 1)


class Cell(NamedTuple):
    """A cache, and what the walk costs in it at most."""

    sets: int
    ways: int
    size: int  # bytes
    cycles: int  # the high total
    time: float  # the same in microseconds
    met: bool

    @property
    def words(self) -> str:
        """The cache in words."""
        sets, ways = "set" if self.sets == 1 else "sets", "way" if self.ways == 1 else "ways"
        return f"{self.sets} {sets} of {self.ways} {ways}, {self.size} bytes"


def visits(text: str) -> list[int]:
    """How often the walk comes to each node, as the nodes' lines of a text chart say."""
    return [int(count) for count in re.findall(r"^\w+:[^#\n]*\bvisits (\d+)", text, re.MULTILINE)]


def tried(chart: bytes, walk: list[int], set_bits: int, ways: int) -> Cell:
    """What the walk costs at most if the chart's cache has this shape."""
    header = veilbuzz.read(chart)._replace(set_bits=set_bits, ways=ways)
    reshaped = veilbuzz.write(header, veilbuzz.nodes(chart))
    table = veilbuzz.analyse(reshaped).table
    totals = veilbuzz.total(reshaped, table, hit=HIT, miss=MISS, floors=walk, ceilings=walk)
    latest = Deadline.latest(LATEST)
    judged = veilbuzz.deadline(
        reshaped, table, hit=HIT, miss=MISS, floors=walk, ceilings=walk, sheet=SHEET, deadline=latest
    )
    sets = 1 << set_bits
    return Cell(sets, ways, sets * ways << header.line_bits, totals.high, judged.high, judged.met)


def sweep() -> list[Cell]:
    """The winch in each cache, row by row: all numbers of sets with one way, then with two, and so on."""
    chart = WINCH.with_suffix(".chart").read_bytes()
    walk = visits(WINCH.with_suffix(".txt").read_text(encoding="utf-8"))
    return [tried(chart, walk, set_bits, ways) for ways in WAYS for set_bits in SET_BITS]


def marked(cells: list[Cell]) -> dict[str, Cell]:
    """The cache as built, the one with sets and ways swapped, and the smallest in which the latest time is met."""
    shapes = {(cell.sets, cell.ways): cell for cell in cells}
    smallest = min((cell for cell in cells if cell.met), key=lambda cell: (cell.size, cell.ways))
    return {"as built": shapes[8, 2], "swapped": shapes[2, 8], "smallest": smallest}


def table(cells: list[Cell]) -> str:
    """The high totals in rows, with a star where the latest time is met."""
    lines = ["ways    sets " + "".join(f"{1 << set_bits:<7}" for set_bits in SET_BITS).rstrip()]
    for ways in WAYS:
        row = [f"{cell.cycles}{'*' if cell.met else ''}" for cell in cells if cell.ways == ways]
        lines.append((f"{ways:<13}" + "".join(f"{total:<7}" for total in row)).rstrip())
    return "\n".join(lines)


def answer(cells: list[Cell]) -> str:
    """The marked caches, each in a line."""
    verdicts = {True: f"{LATEST} us is met", False: f"{LATEST} us is not met"}
    return "\n".join(
        f"{name}, {cell.words}: {cell.cycles} cycles, {cell.time:.3f} us, {verdicts[cell.met]}"
        for name, cell in marked(cells).items()
    )


def main() -> None:
    """Prints all of it, and draws it into the files that are named."""
    cells = sweep()
    costs = f"{HIT} for a hit and {MISS} for a miss"
    due = f"{LATEST} us at {1 / SHEET.period:g} MHz, with {SHEET.overhead:g} us added once"
    print(f"power on and ten hauls, high totals in cycles, {costs}\nlatest: {due}; * where it is met")
    print(f"\n{table(cells)}\n\n{answer(cells)}")
    for name in sys.argv[1:]:
        picture = sweep_picture.drawn(cells, marked(cells), costs, due.replace("us", "µs"))
        Path(name).write_text(picture, encoding="utf-8")


if __name__ == "__main__":
    main()
