"""What is written of the module: its examples are true, and each public name says what it is and takes."""

import ast
import doctest
import inspect
import os
import sys
import typing
from enum import IntEnum

import veilbuzz
from tests.given import PYTHON, ROOT, Case

PAGE = ROOT / "docs" / "PYTHON.md"
FRONT = ROOT / "README.md"
PUBLIC = {name: getattr(veilbuzz, name) for name in veilbuzz.__all__}
FUNCTIONS = {name: value for name, value in PUBLIC.items() if inspect.isfunction(value)}
CLASSES = {name: value for name, value in PUBLIC.items() if inspect.isclass(value)}
SOURCES = sorted(PYTHON.glob("*.py"))


def methods(a_class):
    """The public methods and properties that a class has itself."""
    for name, value in vars(a_class).items():
        function = value.fget if isinstance(value, property) else getattr(value, "__func__", value)
        if inspect.isfunction(function) and function.__module__ == "veilbuzz" and not name.startswith("_"):
            yield f"{a_class.__name__}.{name}", function


class Documents(Case):
    def test_the_examples_of_the_module(self):
        failed, tried = doctest.testmod(veilbuzz)
        self.assertEqual((failed, tried), (0, 7))

    def test_the_sessions_of_the_pages(self):
        self.addCleanup(os.chdir, os.getcwd())
        os.chdir(ROOT)
        for page, lines in [(PAGE, 19), (FRONT, 6)]:
            with self.subTest(page.name):
                failed, tried = doctest.testfile(str(page), module_relative=False, encoding="utf-8")
                self.assertEqual((failed, tried), (0, lines))

    def test_the_page_names_all_that_is_public(self):
        page = PAGE.read_text(encoding="utf-8")
        for name in PUBLIC.keys() - {"Buffer"}:
            with self.subTest(name):
                self.assertRegex(page, rf"`{name}\b|\b{name}[.(]")

    def test_all_that_is_public_is_listed(self):
        own = {
            name
            for name, value in vars(veilbuzz).items()
            if not name.startswith("_") and getattr(value, "__module__", None) == "veilbuzz"
        }
        self.assertEqual(own - set(PUBLIC), set())
        self.assertEqual(len(FUNCTIONS), 10)

    def test_each_function_has_types_and_says_what_it_does(self):
        of_classes = [pair for a_class in CLASSES.values() for pair in methods(a_class)]
        self.assertGreaterEqual(len(of_classes), 6)
        for name, function in [*FUNCTIONS.items(), *of_classes]:
            with self.subTest(name):
                signature = inspect.signature(function)
                self.assertIsNot(signature.return_annotation, inspect.Signature.empty)
                for parameter in signature.parameters.values():
                    if parameter.name not in ("self", "cls"):
                        self.assertIsNot(parameter.annotation, inspect.Parameter.empty)
                typing.get_type_hints(function)
                self.assertRegex(function.__doc__, r"^[A-Z][^\0]*\.$")

    def test_each_class_says_what_it_is(self):
        self.assertEqual(len(CLASSES), 17)
        for name, a_class in CLASSES.items():
            with self.subTest(name):
                self.assertRegex(a_class.__doc__, r"^[A-Z][^\0]*\.$")
                self.assertNotEqual(a_class.__doc__, IntEnum.__doc__)
                typing.get_type_hints(a_class)

    def test_each_function_says_which_refusals_there_are(self):
        for name, function in FUNCTIONS.items():
            self.assertIn("Refusals ", " ".join(function.__doc__.split()), name)

    def test_the_sources_are_python_3_9(self):
        self.assertGreaterEqual(len(SOURCES), 3)
        for path in SOURCES:
            ast.parse(path.read_text(encoding="utf-8"), str(path), feature_version=(3, 9))

    def test_no_outside_package_is_needed(self):
        own = {path.stem for path in SOURCES}
        for path in SOURCES:
            for statement in ast.walk(ast.parse(path.read_text(encoding="utf-8"))):
                names = [alias.name for alias in statement.names] if isinstance(statement, ast.Import) else []
                names += [statement.module] if isinstance(statement, ast.ImportFrom) else []
                for name in names:
                    self.assertIn(name.split(".")[0], own | set(getattr(sys, "stdlib_module_names", [name.split(".")[0]])))
