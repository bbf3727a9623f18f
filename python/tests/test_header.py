"""The module beside include/veilbuzz.h: the types of each function, the places of its answer, and each number that has a name."""

import ctypes
import re

import veilbuzz
from tests.given import HEADER, Case
from tests.test_buffers import CALLS, lent

TYPES = {
    "uint8_t": ctypes.c_uint8,
    "uint16_t": ctypes.c_uint16,
    "uint32_t": ctypes.c_uint32,
    "uint64_t": ctypes.c_uint64,
    "int64_t": ctypes.c_int64,
    "size_t": ctypes.c_size_t,
    "double": ctypes.c_double,
}


def prototypes():
    """The parameters of each function that is declared, as types of ctypes."""
    found = {}
    for name, parameters in re.findall(r"^uint64_t veilbuzz_(\w+)\(([^)]*)\);", HEADER, re.MULTILINE):
        found[name] = [c_type(parameter) for parameter in parameters.split(",")]
    return found


def c_type(parameter):
    word, pointer = re.fullmatch(r"\s*(?:const )?(\w+) (\*?)\w+", parameter).groups()
    return ctypes.POINTER(TYPES[word]) if pointer else TYPES[word]


def numbers():
    """The numbers of the enums, by name."""
    found = {}
    text = re.sub(r"/\*.*?\*/", "", HEADER, flags=re.DOTALL)
    for name, worth in re.findall(r"VEILBUZZ_(\w+) = ([^,}]+)", text):
        found[name] = eval(worth.replace("VEILBUZZ_", ""), {}, dict(found))
    return found


NUMBERS = numbers()


class Declared(Case):
    def test_each_function_has_the_types_of_its_prototype(self):
        self.assertEqual(sorted(f"_{name}" for name in prototypes()), sorted(CALLS))
        for name, types in prototypes().items():
            function = getattr(veilbuzz, f"_{name}")
            with self.subTest(name=name):
                self.assertEqual(function.__name__, f"veilbuzz_{name}")
                self.assertEqual(list(function.argtypes), types)
                self.assertIs(function.restype, ctypes.c_uint64)

    def test_each_function_is_lent_an_answer_of_its_length(self):
        for name in CALLS:
            with self.subTest(name=name):
                self.assertEqual(lent(name)[-1], NUMBERS[f"{name[1:].upper()}_LENGTH"])

    def test_other_lists_have_their_lengths(self):
        self.assertEqual(lent("_read")[3], NUMBERS["HEADER_LENGTH"])
        self.assertEqual(lent("_node")[4], NUMBERS["FIELDS_LENGTH"])
        self.assertEqual(lent("_deadline")[-3], NUMBERS["FIGURES_LENGTH"])

    def test_answers_are_read_at_their_places(self):
        self.assertEqual((NUMBERS["ANSWER_NUMBER"], NUMBERS["ANSWER_PLACE"]), (0, 1))
        for first in ["READ_BLOCKS", "NODE_THERE", "BLOCKS_COUNT", "WRITE_BYTES", "ANALYSE_PASSES", "CHECK_YES", "TOTAL_LOW"]:
            self.assertEqual(NUMBERS[first], 2)
        self.assertEqual((NUMBERS["DEADLINE_MET"], NUMBERS["BOUND_BOUND"]), (2, 2))
        self.assertEqual((NUMBERS["ANALYSE_BLOCKS"], NUMBERS["TOTAL_HIGH"]), (3, 3))
        self.assertEqual((NUMBERS["FIGURES_LOW"], NUMBERS["FIGURES_HIGH"]), (0, 1))

    def test_fields_stand_in_the_order_of_the_header(self):
        for prefix, names in [("HEADER", veilbuzz.Heading._fields), ("FIELDS", veilbuzz.Fields._fields)]:
            self.assertEqual([NUMBERS[f"{prefix}_{name.upper()}"] for name in names], list(range(6)))

    def test_each_number_with_a_name_is_that_of_the_header(self):
        for prefix, enum, count in [
            ("START", veilbuzz.Start, 2),
            ("KIND", veilbuzz.Kind, 3),
            ("CLASS", veilbuzz.Class, 6),
            ("SIDE", veilbuzz.Side, 2),
            ("DEADLINE", veilbuzz.DeadlineKind, 3),
        ]:
            self.assertEqual(len(enum), count)
            for member in enum:
                self.assertEqual(member, NUMBERS[f"{prefix}_{member.name}"])

    def test_the_limits_are_those_of_the_header(self):
        for name in ["MOST_NODES", "MOST_BLOCKS", "MOST_WAYS", "LONGEST_CHART", "ENOUGH_PASSES"]:
            self.assertEqual(getattr(veilbuzz, name), NUMBERS[name])

    def test_the_version_is_that_of_the_header(self):
        self.assertEqual([veilbuzz.__version__], re.findall(r'^#define VEILBUZZ_VERSION "([^"]+)"', HEADER, re.MULTILINE))
