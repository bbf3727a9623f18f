"""The picture of the sweep: the high total in each cache, in a grid of sets and ways, as SVG."""

from typing import TYPE_CHECKING

if TYPE_CHECKING:
    from sweep import Cell

WIDTH, HEIGHT = 720, 640
LEFT, TOP = 82, 126  # of the grid
CELL_WIDTH, CELL_HEIGHT = 64, 44
ACROSS, DOWN = CELL_WIDTH + 4, CELL_HEIGHT + 7  # from cell to cell

INK, GREY, GROUND, FRAME = "#1d2733", "#47525f", "#f6f4ee", "#c9c4b6"
MET, SMALLEST, FRAMED = "#d0e6d6", "#a3d3b1", "#1b6e3c"
LIGHTEST, DARKEST = (186, 72, 64), (108, 16, 24)  # of what is too late

STYLE = f"""\
  <style>
    text {{ font: 14px system-ui, "DejaVu Sans", sans-serif; fill: {INK}; text-anchor: middle }}
    .left {{ text-anchor: start }}
    .right {{ text-anchor: end }}
    .head {{ font-size: 17px; font-weight: bold }}
    .small {{ font-size: 13px; fill: {GREY} }}
    .bytes {{ font-size: 11px }}
    .bold {{ font-weight: bold }}
    .light {{ fill: #fff }}
  </style>"""


def corner(cell: "Cell") -> tuple[int, int]:
    """The upper left corner of a cache's cell: sets double from column to column, ways go up by one from row to row."""
    return LEFT + (cell.sets.bit_length() - 1) * ACROSS, TOP + (cell.ways - 1) * DOWN


def text(x: int, y: int, classes: str, words: str) -> str:
    """A line of text."""
    return f'  <text x="{x}" y="{y}" class="{classes}">{words}</text>'


def box(x: int, y: int, width: int, height: int, radius: int, fill: str, more: str = "") -> str:
    """A box with round corners."""
    return f'  <rect x="{x}" y="{y}" width="{width}" height="{height}" rx="{radius}" fill="{fill}"{more}/>'


def too_late(cycles: int, late: list[int]) -> str:
    """The colour of a total that is too late: the higher it is among these, the darker."""
    share = (cycles - min(late)) / max(1, max(late) - min(late))
    mixed = [round(light + (dark - light) * share) for light, dark in zip(LIGHTEST, DARKEST)]
    return "#" + "".join(f"{part:02x}" for part in mixed)


def square(cell: "Cell", fill: str, shade: str, weight: str) -> list[str]:
    """A cache's cell, with its high total and its size."""
    x, y = corner(cell)
    middle = x + CELL_WIDTH // 2
    return [
        box(x, y, CELL_WIDTH, CELL_HEIGHT, 5, fill),
        text(middle, y + 21, f"bold{shade}", f"{cell.cycles}"),
        text(middle, y + 35, f"bytes{weight}{shade}", f"{cell.size} B"),
    ]


def tag(name: str, cell: "Cell", colour: str) -> list[str]:
    """A frame around a marked cell, and its name on the upper edge."""
    x, y = corner(cell)
    return [
        box(x - 1, y - 1, CELL_WIDTH + 2, CELL_HEIGHT + 2, 6, "none", f' stroke="{colour}" stroke-width="3"'),
        box(x - 1, y - 11, CELL_WIDTH + 2, 17, 8, colour),
        text(x + CELL_WIDTH // 2, y + 2, "bytes bold light", name),
    ]


def axes(cells: list["Cell"]) -> list[str]:
    """The sets above the grid, and the ways beside it."""
    sets = [(corner(cell)[0] + CELL_WIDTH // 2, cell.sets) for cell in cells if cell.ways == 1]
    ways = [(corner(cell)[1] + 27, cell.ways) for cell in cells if cell.sets == 1]
    return [
        *[text(x, TOP - 18, "small", f"{count} set{'' if count == 1 else 's'}") for x, count in sets],
        *[text(LEFT - 10, y, "small right", f"{count} way{'' if count == 1 else 's'}") for y, count in ways],
    ]


def legend(y: int, late: list[int], size: int) -> list[str]:
    """What the colours and the bold sizes say."""
    lines = [box(LEFT, y - 12, 16, 16, 3, MET), text(LEFT + 24, y, "small left", "in time")]
    colours = [too_late(cycles, late) for cycles in late]
    swatches = [box(LEFT + 94 + 18 * place, y - 12, 16, 16, 3, colour) for place, colour in enumerate(colours)]
    words = text(LEFT + 100 + 18 * len(late), y, "small left", "too late, the darker the later")
    return [*lines, *swatches, words, text(LEFT + 372, y, "small left", f"bold: {size} bytes, as many as built")]


def drawn(cells: list["Cell"], marked: dict[str, "Cell"], costs: str, due: str) -> str:
    """The picture."""
    late = sorted({cell.cycles for cell in cells if not cell.met})
    built, smallest = marked["as built"], marked["smallest"]
    verdicts = {True: "in time", False: "too late"}
    told = [f"{name}, {cell.words}: {cell.time:.3f} µs, {verdicts[cell.met]}" for name, cell in marked.items()]
    below = TOP + max(cell.ways for cell in cells) * DOWN
    lines = [
        f'<svg xmlns="http://www.w3.org/2000/svg" viewBox="0 0 {WIDTH} {HEIGHT}" width="{WIDTH}" height="{HEIGHT}" '
        'role="img" aria-labelledby="title about">',
        '  <title id="title">The winch\'s high total in each cache, and which of these meet the deadline</title>',
        f'  <desc id="about">Power on and ten hauls, {costs}; latest: {due}. {". ".join(told)}.</desc>',
        STYLE,
        "  <!-- its own ground, so that it reads the same on a light page and on a dark one -->",
        box(1, 1, WIDTH - 2, HEIGHT - 2, 12, GROUND, f' stroke="{FRAME}"'),
        text(26, 34, "head left", "Which cache should the next board have?"),
        text(26, 57, "small left", f"Power on and ten hauls: cycles at most, {costs}"),
        text(26, 76, "small left", f"Latest: {due}"),
        *axes(cells),
    ]
    for cell in cells:
        fill = SMALLEST if cell == smallest else MET if cell.met else too_late(cell.cycles, late)
        shade = "" if cell.met else " light"
        lines += square(cell, fill, shade, " bold" if cell.size == built.size else "")
    for name, cell in marked.items():
        lines += tag(name, cell, FRAMED if cell == smallest else INK)
    lines += [
        *legend(below + 18, late, built.size),
        *[text(LEFT, below + 48 + 20 * place, "left", words) for place, words in enumerate(told[:-1])],
        text(LEFT, below + 50 + 20 * (len(told) - 1), "left bold", told[-1]),
        "</svg>",
    ]
    return "\n".join(lines) + "\n"
