"""Veilbuzz for Python: does a memory reference always hit the cache, always miss, miss once at the most, or can it not
be told?

    >>> import veilbuzz
    >>> loop = bytes.fromhex("0140240000300000 0000000010010000 4000000020010020 4000000000000000")
    >>> analysis = veilbuzz.analyse(loop)
    >>> [first.word for first, second in analysis.classes]
    ['none', 'kept', 'hit']
    >>> veilbuzz.total(loop, analysis.table, hit=1, miss=10, floors=[1, 1, 1], ceilings=[1, 10, 1])
    Totals(low=2, high=20)

This is a thin cover over the C functions of include/veilbuzz.h, in the shared library that python/library makes. The
source of those is proved: for any bytes and any lengths each gives the answer that the rules (docs/RULES.md) define.
The cover itself is ordinary Python.

What breaks a rule is refused by the proved function, and raised as a Refusal with its number, its place and its words:

    >>> veilbuzz.read(loop[:1])
    Traceback (most recent call last):
    veilbuzz.Refusal: refused 1 at 0: the chart has fewer than 8 bytes (give the whole file)

A number that C would cut never comes to it, but raises a ValueError; what is no whole number where one is meant, True
and 1.0 among it, raises a TypeError:

    >>> veilbuzz.total(loop, analysis.table, hit=1, miss=70000, floors=[1, 1, 1], ceilings=[1, 10, 1])
    Traceback (most recent call last):
    ValueError: miss is 70000, and has to be from 0 to 65535

All that is given is copied first, and nothing of it is written. So any number of threads may call at the same time, and
their calls run side by side. `deadline`, which alone has floating-point numbers, needs the settings that a C program
starts with: what is rounded goes to the nearest number, subnormal numbers are not taken for 0, and nothing traps.
Python keeps them so; a module that was compiled with -ffast-math can change them when it is loaded.

Below, N is the number of a chart's nodes, B the number of its blocks, A the ways of a set. A reference touches the
block of its first byte, and then that of its last byte if that is another.
"""

import ctypes
import operator
import os
from collections import abc
from ctypes import POINTER, c_char_p, c_double, c_int64, c_size_t, c_uint8, c_uint16, c_uint32, c_uint64
from enum import IntEnum
from pathlib import Path
from typing import Any, NamedTuple, Optional, Sequence, Union

__all__ = [
    *["read", "node", "nodes", "blocks", "write", "analyse", "check", "total", "deadline", "bound"],
    *["Buffer", "Heading", "Header", "Fields", "Table", "Analysis", "Totals", "ClockSheet", "Deadline", "Judged"],
    *["Facts", "Certificate", "Start", "Kind", "Class", "Side", "DeadlineKind", "Refusal"],
    *["MOST_NODES", "MOST_BLOCKS", "MOST_WAYS", "LONGEST_CHART", "ENOUGH_PASSES"],
]

Buffer = Union[bytes, bytearray, memoryview]


# ---- The library ----


def _library_path() -> str:
    """What VEILBUZZ_LIBRARY names, or else the library beside this file, or else the one that python/library makes."""
    named = os.environ.get("VEILBUZZ_LIBRARY")
    if named:
        return os.path.abspath(named)
    here = Path(__file__).resolve().parent
    places = [here / "libveilbuzz.so", here.parent / "target" / "python" / "libveilbuzz.so"]
    for place in places:
        if place.is_file():
            return str(place)
    neither = f"there is neither {places[0]} nor {places[1]}"
    raise ImportError(f"{neither}: run python/library, which makes the second, or set VEILBUZZ_LIBRARY to its path")


def _loaded(path: str) -> ctypes.CDLL:
    try:
        return ctypes.CDLL(path)
    except OSError as error:
        raise ImportError(f"{path} cannot be loaded ({error}): run python/library, which prints its path") from None


_PATH = _library_path()
_LIBRARY = _loaded(_PATH)


def _lacking(name: str) -> ImportError:
    return ImportError(f"{_PATH} has no {name}: run python/library, which makes it anew")


def _function(name: str, result: Any, *arguments: Any) -> Any:
    """A function of the library, with the types that include/veilbuzz.h has."""
    try:
        function = getattr(_LIBRARY, name)
    except AttributeError:
        raise _lacking(name) from None
    function.restype = result
    function.argtypes = arguments
    return function


def _constant(name: str) -> int:
    try:
        return c_uint64.in_dll(_LIBRARY, name).value
    except ValueError:
        raise _lacking(name) from None


# A list is lent as a pointer and a length.
_BYTES = (POINTER(c_uint8), c_size_t)
_VISITS = (POINTER(c_uint16), c_size_t)
_BLOCKS = (POINTER(c_uint32), c_size_t)
_NUMBERS = (POINTER(c_uint64), c_size_t)
_SIGNED = (POINTER(c_int64), c_size_t)
_TIMES = (POINTER(c_double), c_size_t)

# What several functions take, in this order.
_ON_TABLE = (*_BYTES, *_BYTES * 3)
_ON_COSTS = (*_ON_TABLE, c_uint16, c_uint16)
_ON_VISITS = (*_ON_COSTS, *_VISITS, *_VISITS)
_CLOCK = (c_double, c_double, c_uint64, c_double, c_double)

_version = _function("veilbuzz_version", c_char_p)
_found = _function("veilbuzz_found", c_char_p, c_uint64)
_mend = _function("veilbuzz_mend", c_char_p, c_uint64)

_read = _function("veilbuzz_read", c_uint64, *_BYTES, *_NUMBERS, *_NUMBERS)
_node = _function("veilbuzz_node", c_uint64, *_BYTES, c_size_t, *_NUMBERS, *_NUMBERS)
_blocks = _function("veilbuzz_blocks", c_uint64, *_BYTES, *_BLOCKS, *_NUMBERS)
_write = _function("veilbuzz_write", c_uint64, *[c_uint64] * 6, *_NUMBERS * 6, *_BYTES, *_NUMBERS)
_analyse = _function("veilbuzz_analyse", c_uint64, *_BYTES, c_size_t, *_BLOCKS, *_BYTES * 4, *_NUMBERS)
_check = _function("veilbuzz_check", c_uint64, *_ON_TABLE, *_NUMBERS)
_total = _function("veilbuzz_total", c_uint64, *_ON_VISITS, *_NUMBERS)
_deadline = _function("veilbuzz_deadline", c_uint64, *_ON_VISITS, *_CLOCK, *_TIMES, *_NUMBERS)
_bound = _function("veilbuzz_bound", c_uint64, *_ON_COSTS, c_uint64, *_SIGNED * 4, c_uint64, *_NUMBERS)

__version__: str = _version().decode()

MOST_NODES: int = _constant("veilbuzz_most_nodes")
MOST_BLOCKS: int = _constant("veilbuzz_most_blocks")
MOST_WAYS: int = _constant("veilbuzz_most_ways")
LONGEST_CHART: int = _constant("veilbuzz_longest_chart")
ENOUGH_PASSES: int = _constant("veilbuzz_enough_passes")


# ---- What is told and given ----


class Start(IntEnum):
    """What the cache holds before a walk: anything, or nothing."""

    UNKNOWN = 0
    EMPTY = 1


class Kind(IntEnum):
    """What a node does: a bare step, which has no reference, a read or a write."""

    STEP = 0
    READ = 1
    WRITE = 2


class Class(IntEnum):
    """What is known of a touch (rule 8.1). A node has two classes, one for each touch that it can make."""

    UNREACHED = 0  # no walk comes here
    HIT = 1  # the touch always hits
    MISS = 2  # the touch always misses
    UNSURE = 3  # none of the others can be told
    NONE = 4  # the node makes no such touch
    KEPT = 5  # on any walk at most one of the touches of a block that are called so misses, and all others of them hit

    @property
    def word(self) -> str:
        """The word of the report."""
        return self.name.lower()


class Side(IntEnum):
    """Which bound a certificate is for: on what a walk costs at most, or at least."""

    HIGH = 0
    LOW = 1


class DeadlineKind(IntEnum):
    """Which of its two times a deadline has: neither, the latest, or both."""

    NONE = 0
    LATEST = 1
    WINDOW = 2


class Heading(NamedTuple):
    """What a chart's header is to say."""

    line_bits: int  # L: a line has 2^L bytes
    set_bits: int  # S: the cache has 2^S sets
    ways: int  # A: a set has A ways
    start: int  # one of Start
    nodes: int  # N
    entry: int  # the node that every walk begins at


class Header(NamedTuple):
    """What a chart's header says, as in a Heading, and how many blocks the references touch."""

    line_bits: int
    set_bits: int
    ways: int
    start: Start
    nodes: int
    entry: int
    blocks: int  # B


class Fields(NamedTuple):
    """The fields of a node's record (rule 2.1), or what is to be one."""

    kind: int = Kind.STEP  # one of Kind
    address: int = 0  # of the first byte; 0 at a bare step
    size: int = 0  # the size code: 0 is one byte, 1 is two, 2 is four; 0 at a bare step
    outs: int = 0  # how many arrows lead out
    first: int = 0  # the node that the first arrow leads to; 0 where there is none
    second: int = 0  # that of the second, likewise


class Table(NamedTuple):
    """A table, whoever made it. What is longer than used is not looked at."""

    must: Buffer  # the must ages on arrival, row after row, node by node: N * B are used
    may: Buffer  # the may ages, likewise
    marks: Buffer  # 1 where a walk comes, else 0: N are used


class Analysis(NamedTuple):
    """A settled analysis."""

    header: Header
    passes: int  # the passes made, the last one that changed nothing included
    blocks: tuple[int, ...]  # the block numbers, ascending
    classes: tuple[tuple[Class, Class], ...]  # of each node's first touch, and of its second
    table: Table


class Totals(NamedTuple):
    """What a walk costs that keeps within its floors and ceilings: no less than the low one and no more than the high."""

    low: int
    high: int


class ClockSheet(NamedTuple):
    """How long a cycle takes, and what is added once, both in microseconds (rule 17.1). Totals are of touches: all else
    that takes time has to be in what is added."""

    period: float
    overhead: float


class Deadline(NamedTuple):
    """No limit, a latest time, or an earliest and a latest time, in microseconds (rule 17.2). A limit is itself still
    met."""

    kind: int  # one of DeadlineKind
    earliest_time: float
    latest_time: float

    @classmethod
    def none(cls) -> "Deadline":
        """No limit: it is always met."""
        return cls(DeadlineKind.NONE, 0.0, 0.0)

    @classmethod
    def latest(cls, latest_time: float) -> "Deadline":
        """A latest time."""
        return cls(DeadlineKind.LATEST, 0.0, latest_time)

    @classmethod
    def window(cls, earliest_time: float, latest_time: float) -> "Deadline":
        """An earliest and a latest time."""
        return cls(DeadlineKind.WINDOW, earliest_time, latest_time)


class Judged(NamedTuple):
    """Whether a deadline is met, and the two totals in microseconds (rule 17.3). One that is too large is infinity."""

    met: bool
    low: float
    high: float


class Facts(NamedTuple):
    """What a caller knows of the walks that count (rule 18.1): of F facts the F limits, and N coefficients for each,
    fact after fact. A walk keeps a fact if its visits of the nodes, each times the node's coefficient there, come to no
    more than the limit."""

    coefficients: Sequence[int]
    limits: Sequence[int]


class Certificate(NamedTuple):
    """What shows that a bound follows from the facts, whoever made it (rule 18.2): a multiplier for each fact, none of
    them below 0, a potential for each node, and what all of these were multiplied by to make them whole."""

    multipliers: Sequence[int]
    potentials: Sequence[int]
    denominator: int


class Refusal(Exception):
    """A refusal of section 11 of the rules, or of 18 for 23 to 25. Its text says what was found and what to do."""

    number: int  # 1 to 18, or 23 to 25: nothing gives those between yet
    place: int  # the node at fault for 9, 10, 16, 17 and 25, else 0

    def __init__(self, number: int, place: int) -> None:
        super().__init__(number, place)
        self.number = _number("number", number, c_uint64)
        self.place = _number("place", place, c_uint64)

    @property
    def found(self) -> str:
        """What was found. It is empty for a number that nothing is refused with."""
        return (_found(self.number) or b"").decode()

    @property
    def mend(self) -> str:
        """What to do. It is empty for a number that nothing is refused with."""
        return (_mend(self.number) or b"").decode()

    def __str__(self) -> str:
        refused = f"refused {self.number} at {self.place}"
        return f"{refused}: {self.found} ({self.mend})" if self.found else refused


# ---- From Python to C and back ----

_RANGES = {
    c_uint16: (0, 2**16 - 1),
    c_uint64: (0, 2**64 - 1),
    c_int64: (-(2**63), 2**63 - 1),
}


def _type(value: object) -> str:
    return type(value).__name__


def _shown(number: int) -> str:
    """A number, or how long it is: Python writes none of many thousand digits."""
    return str(number) if number.bit_length() <= 128 else f"a number of {number.bit_length()} bits"


def _number(name: str, value: Any, c_type: Any) -> int:
    """A whole number that its type in C can hold."""
    if isinstance(value, bool) or not hasattr(type(value), "__index__"):
        raise TypeError(f"{name} has to be a whole number, not {_type(value)}")
    number = operator.index(value)
    lowest, highest = _RANGES[c_type]
    if not lowest <= number <= highest:
        raise ValueError(f"{name} is {_shown(number)}, and has to be from {lowest} to {highest}")
    return number


def _time(name: str, value: Any) -> float:
    """A number of microseconds. NaN and infinity are the proved function's to refuse."""
    if isinstance(value, bool) or not isinstance(value, (int, float)):
        raise TypeError(f"{name} has to be a number of microseconds, not {_type(value)}")
    try:
        time = float(value)
    except OverflowError:
        raise ValueError(f"{name} is {_shown(int(value))}, and no float is so large") from None
    if isinstance(value, int) and time != value:
        raise ValueError(f"{name} is {_shown(value)}, which is no float: the nearest one is {time!r}")
    return time


def _made(name: str, value: Any, wanted: type) -> Any:
    if not isinstance(value, wanted):
        raise TypeError(f"{name} has to be a {wanted.__name__}, not {_type(value)}")
    return value


def _sequence(name: str, values: Any) -> Any:
    if isinstance(values, str) or not isinstance(values, abc.Sequence):
        raise TypeError(f"{name} has to be a list or another sequence, not {_type(values)}")
    return values


def _bytes(name: str, value: Any) -> bytes:
    """A copy of bytes; of a memoryview in the order of its items, wherever they lie."""
    if not isinstance(value, (bytes, bytearray, memoryview)):
        raise TypeError(f"{name} has to be bytes, a bytearray or a memoryview, not {_type(value)}")
    if not isinstance(value, memoryview):
        return bytes(value)
    if value.itemsize != 1:
        raise TypeError(f"{name} has to be a memoryview of bytes, not of items of {value.itemsize} bytes")
    return value.tobytes()


def _lent(array: Any) -> tuple[Any, int]:
    """An array as C functions take it, by pointer and length."""
    return array, len(array)


def _buffer(name: str, value: Any) -> tuple[Any, int]:
    """A copy of bytes, lent."""
    copied = _bytes(name, value)
    return _lent((c_uint8 * len(copied)).from_buffer_copy(copied))


def _list(name: str, values: Any, c_type: Any) -> tuple[Any, int]:
    """A copy of a list of whole numbers, lent."""
    numbers = [_number(f"{name}[{place}]", value, c_type) for place, value in enumerate(_sequence(name, values))]
    return _lent((c_type * len(numbers))(*numbers))


def _on_table(chart: Any, table: Any) -> tuple[Any, ...]:
    must, may, marks = _made("table", table, Table)
    rows = (*_buffer("table.must", must), *_buffer("table.may", may), *_buffer("table.marks", marks))
    return (*_buffer("chart", chart), *rows)


def _on_costs(chart: Any, table: Any, hit: Any, miss: Any) -> tuple[Any, ...]:
    return (*_on_table(chart, table), _number("hit", hit, c_uint16), _number("miss", miss, c_uint16))


def _on_visits(chart: Any, table: Any, hit: Any, miss: Any, floors: Any, ceilings: Any) -> tuple[Any, ...]:
    visits = (*_list("floors", floors, c_uint16), *_list("ceilings", ceilings, c_uint16))
    return (*_on_costs(chart, table, hit, miss), *visits)


def _answered(function: Any, own: int, *arguments: Any) -> list[int]:
    """The numbers of its own that a function answers with, after number and place of a refusal; or that refusal."""
    answer = (c_uint64 * (2 + own))()
    number = function(*arguments, *_lent(answer))
    if number != 0:
        raise Refusal(number, answer[1])
    return answer[2:]


# ---- The nine functions, and `nodes` ----


def read(chart: Buffer) -> Header:
    """Reads a chart: its header and its number of blocks. Refusals 1 to 10."""
    told = (c_uint64 * 6)()
    (count,) = _answered(_read, 1, *_buffer("chart", chart), *_lent(told))
    line_bits, set_bits, ways, start, nodes, entry = told
    return Header(line_bits, set_bits, ways, Start(start), nodes, entry, count)


def node(chart: Buffer, number: int) -> Optional[Fields]:
    """Reads one node of a chart, for which all of it is read; None where it has no node of that number. Refusals 1 to 10."""
    told = (c_uint64 * 6)()
    (there,) = _answered(_node, 1, *_buffer("chart", chart), _number("number", number, c_uint64), *_lent(told))
    kind, address, size, outs, first, second = told
    return Fields(Kind(kind), address, size, outs, first, second) if there == 1 else None


def nodes(chart: Buffer) -> list[Fields]:
    """Reads all nodes of a chart, one after another. Refusals 1 to 10."""
    copied = _bytes("chart", chart)
    fields = (node(copied, number) for number in range(read(copied).nodes))
    return [told for told in fields if told is not None]


def blocks(chart: Buffer) -> tuple[int, ...]:
    """Lists the block numbers of a chart, ascending. Refusals 1 to 10."""
    room = (c_uint32 * MOST_BLOCKS)()
    (count,) = _answered(_blocks, 1, *_buffer("chart", chart), *_lent(room))
    return tuple(room[:count])


def write(heading: Union[Heading, Header], nodes: Sequence[Fields]) -> bytes:
    """Writes a chart from a heading, or from the header of another chart, and the fields of its nodes. Each number may
    be from 0 to 2^64 - 1, more than any field of a chart: one that is too large for its field is refused and not cut.
    Refusals 3 to 6 and 8 to 10; 8 is that there are not as many nodes as the heading says."""
    if not isinstance(heading, (Heading, Header)):
        raise TypeError(f"heading has to be a Heading or a Header, not {_type(heading)}")
    given: list[Any] = [_number(f"heading.{name}", getattr(heading, name), c_uint64) for name in Heading._fields]
    for place, fields in enumerate(_sequence("nodes", nodes)):
        _made(f"nodes[{place}]", fields, Fields)
    for column, name in enumerate(Fields._fields):
        given += _list(f"{name} of nodes", [fields[column] for fields in nodes], c_uint64)
    room = (c_uint8 * LONGEST_CHART)()
    (length,) = _answered(_write, 1, *given, *_lent(room))
    return bytes(room[:length])


def analyse(chart: Buffer, passes: int = ENOUGH_PASSES) -> Analysis:
    """Analyses a chart with at most so many passes, from 0 to 2^64 - 1. Refusals 1 to 10, and 12 where that is too few."""
    copied = _bytes("chart", chart)
    allowance = _number("passes", passes, c_uint64)
    header = read(copied)
    ages = header.nodes * header.blocks
    listed = (c_uint32 * header.blocks)()
    must, may, marks = (c_uint8 * ages)(), (c_uint8 * ages)(), (c_uint8 * header.nodes)()
    classes = (c_uint8 * (2 * header.nodes))()
    room = (*_lent(listed), *_lent(must), *_lent(may), *_lent(marks), *_lent(classes))
    made, _ = _answered(_analyse, 2, *_buffer("chart", copied), allowance, *room)
    both = tuple((Class(first), Class(second)) for first, second in zip(classes[::2], classes[1::2]))
    return Analysis(header, made, tuple(listed), both, Table(bytes(must), bytes(may), bytes(marks)))


def check(chart: Buffer, table: Table) -> bool:
    """Whether a table passes (rule 7.7), whoever made it. Refusals 1 to 11."""
    (yes,) = _answered(_check, 1, *_on_table(chart, table))
    return yes == 1


def total(
    chart: Buffer, table: Table, *, hit: int, miss: int, floors: Sequence[int], ceilings: Sequence[int]
) -> Totals:
    """The two totals under a table that passes, of what a hit and a miss cost, and of how often a walk comes to each
    node at least and at most: N floors and N ceilings. All of these are from 0 to 65535. Refusals 1 to 11 and 13 to
    17."""
    low, high = _answered(_total, 2, *_on_visits(chart, table, hit, miss, floors, ceilings))
    return Totals(low, high)


def deadline(
    chart: Buffer,
    table: Table,
    *,
    hit: int,
    miss: int,
    floors: Sequence[int],
    ceilings: Sequence[int],
    sheet: ClockSheet,
    deadline: Deadline,
) -> Judged:
    """Whether the totals under a table that passes, of costs in cycles, meet a deadline. A time is a float, or a whole
    number that a float can hold. Refusals 1 to 11 and 13 to 18."""
    period, overhead = _made("sheet", sheet, ClockSheet)
    kind, earliest, latest = _made("deadline", deadline, Deadline)
    figures = (c_double * 2)()
    (met,) = _answered(
        _deadline,
        1,
        *_on_visits(chart, table, hit, miss, floors, ceilings),
        _time("sheet.period", period),
        _time("sheet.overhead", overhead),
        _number("deadline.kind", kind, c_uint64),
        _time("deadline.earliest_time", earliest),
        _time("deadline.latest_time", latest),
        *_lent(figures),
    )
    low, high = figures
    return Judged(met == 1, low, high)


def bound(
    chart: Buffer, table: Table, *, hit: int, miss: int, side: int, facts: Facts, certificate: Certificate
) -> int:
    """The bound that a certificate shows under a table that passes (rule 18.6), for one of Side: a walk that keeps all
    facts costs no more than the high one and no less than the low one. Numbers of facts and certificate have 64 bits
    with a sign, but for the denominator, which has none; rule 18.8 says which of them are refused. Refusals 1 to 11,
    13, 15 and 23 to 25."""
    coefficients, limits = _made("facts", facts, Facts)
    multipliers, potentials, denominator = _made("certificate", certificate, Certificate)
    (shown,) = _answered(
        _bound,
        1,
        *_on_costs(chart, table, hit, miss),
        _number("side", side, c_uint64),
        *_list("facts.coefficients", coefficients, c_int64),
        *_list("facts.limits", limits, c_int64),
        *_list("certificate.multipliers", multipliers, c_int64),
        *_list("certificate.potentials", potentials, c_int64),
        _number("certificate.denominator", denominator, c_uint64),
    )
    return shown
