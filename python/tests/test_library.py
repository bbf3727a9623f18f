"""python/library, which makes the shared library, and how the module finds it."""

import os
import re
import shutil
import subprocess
import sys
import tempfile
from pathlib import Path

import veilbuzz
from tests.given import ARCHIVE, HEADER, PYTHON, ROOT, Case

LIBRARY = Path(veilbuzz._PATH)
CONSTANTS = ["most_nodes", "most_blocks", "most_ways", "longest_chart", "enough_passes"]


def imported(folder, library=None):
    """Imports the module in a folder by a Python of its own; what is said on standard output, and on standard error."""
    surroundings = {name: value for name, value in os.environ.items() if name != "VEILBUZZ_LIBRARY"}
    if library is not None:
        surroundings["VEILBUZZ_LIBRARY"] = str(library)
    command = [sys.executable, "-B", "-s", "-c", "import veilbuzz; print(veilbuzz.__version__, veilbuzz._PATH)"]
    ended = subprocess.run(command, cwd=folder, env=surroundings, capture_output=True, text=True)
    return ended.stdout.strip(), ended.stderr


class Made(Case):
    def setUp(self):
        folder = tempfile.TemporaryDirectory()
        self.addCleanup(folder.cleanup)
        self.root = Path(folder.name).resolve()
        for name in ["python/library", "python/words.c", "python/veilbuzz.py", "include/veilbuzz.h", "tests/proving.sh"]:
            (self.root / name).parent.mkdir(exist_ok=True)
            shutil.copy(ROOT / name, self.root / name)

    def make(self, archive=ARCHIVE):
        surroundings = {**os.environ, "VEILBUZZ_ARCHIVE": str(archive)}
        return subprocess.run([self.root / "python" / "library"], env=surroundings, capture_output=True, text=True, cwd="/")

    def made(self):
        """Makes the library, and tells which file it is."""
        ended = self.make()
        self.assertEqual((ended.returncode, ended.stderr), (0, ""))
        self.assertEqual(ended.stdout, f"{self.root}/target/python/libveilbuzz.so\n")
        return os.stat(ended.stdout.strip()).st_ino

    def test_it_is_made_once(self):
        first = self.made()
        self.assertEqual(self.made(), first)

    def test_it_is_made_anew_if_what_it_is_made_from_has_changed(self):
        for name in ["python/words.c", "include/veilbuzz.h", "python/library"]:
            before = self.made()
            with open(self.root / name, "a") as file:
                file.write("\n")
            with self.subTest(name):
                self.assertNotEqual(self.made(), before)

    def test_it_is_made_anew_if_it_is_gone_or_damaged(self):
        self.made()
        library = self.root / "target/python/libveilbuzz.so"
        whole = library.read_bytes()
        library.unlink()
        self.made()
        library.write_bytes(whole[:1000])
        self.made()
        self.assertEqual(library.read_bytes(), whole)

    def test_another_archive_makes_another_library(self):
        before = self.made()
        shutil.copytree(ARCHIVE, self.root / "archive")
        self.assertEqual(self.make(self.root / "archive").returncode, 0)
        self.assertNotEqual(os.stat(self.root / "target/python/libveilbuzz.so").st_ino, before)

    def test_what_cannot_be_compiled_leaves_no_library_that_is_taken_for_it(self):
        self.made()
        (self.root / "python/words.c").write_text("no C\n")
        for _ in range(2):
            ended = self.make()
            self.assertNotEqual(ended.returncode, 0)
            self.assertEqual(ended.stdout, "")

    def test_without_an_archive_it_says_what_to_do(self):
        ended = self.make(self.root / "nowhere")
        self.assertEqual((ended.returncode, ended.stdout), (1, ""))
        self.assertIn("tests/archive makes it", ended.stderr)

    def test_the_module_finds_what_was_made(self):
        self.made()
        said, _ = imported(self.root / "python")
        self.assertEqual(said, f"{veilbuzz.__version__} {self.root}/target/python/libveilbuzz.so")

    def test_a_library_beside_the_module_is_taken_first(self):
        self.made()
        shutil.copy(LIBRARY, self.root / "python" / "libveilbuzz.so")
        said, _ = imported(self.root / "python")
        self.assertEqual(said, f"{veilbuzz.__version__} {self.root}/python/libveilbuzz.so")

    def test_the_one_that_is_named_is_taken_before_all(self):
        self.made()
        shutil.copy(LIBRARY, self.root / "named.so")
        said, _ = imported(self.root / "python", self.root / "named.so")
        self.assertEqual(said, f"{veilbuzz.__version__} {self.root}/named.so")
        said, _ = imported(self.root / "python", "../named.so")
        self.assertEqual(said, f"{veilbuzz.__version__} {self.root}/named.so")

    def test_without_a_library_it_says_what_to_run(self):
        said, error = imported(self.root / "python")
        self.assertEqual(said, "")
        self.assertRegex(error, "ImportError: there is neither .* nor .*: run python/library")

    def test_a_library_that_is_none(self):
        for name in [self.root / "nowhere.so", self.root / "python/words.c"]:
            said, error = imported(self.root / "python", name)
            self.assertEqual(said, "")
            self.assertRegex(error, f"ImportError: {re.escape(str(name))} cannot be loaded .*: run python/library")

    def test_a_library_of_something_else(self):
        other = self.root / "other.so"
        subprocess.run(["cc", "-shared", "-o", other, "-x", "c", "/dev/null"], check=True)
        said, error = imported(self.root / "python", other)
        self.assertEqual(said, "")
        self.assertRegex(error, "ImportError: .*/other.so has no veilbuzz_version: run python/library")


class Linked(Case):
    def test_it_shows_the_functions_and_the_limits_and_nothing_else(self):
        said = subprocess.run(["nm", "-D", "--defined-only", LIBRARY], check=True, capture_output=True, text=True).stdout
        functions = re.findall(r"^uint64_t veilbuzz_(\w+)\(", HEADER, re.MULTILINE)
        self.assertEqual(len(functions), 9)
        wanted = [f"veilbuzz_{name}" for name in [*functions, *CONSTANTS, "version", "found", "mend"]]
        self.assertEqual(sorted(line.split()[-1] for line in said.splitlines()), sorted(wanted))

    def test_it_needs_nothing_but_the_c_library_and_no_relocations_of_its_text(self):
        said = subprocess.run(["readelf", "-d", LIBRARY], check=True, capture_output=True, text=True).stdout
        self.assertEqual(re.findall(r"Shared library: \[(\w+)\.so", said), ["libc"])
        self.assertNotIn("TEXTREL", said)

    def test_the_module_has_no_table_of_words_of_its_own(self):
        source = (PYTHON / "veilbuzz.py").read_text(encoding="utf-8").split('"""', 2)[2]
        for number in [1, 5, 9, 18, 25]:
            self.assertNotIn(veilbuzz.Refusal(number, 0).found, source)
