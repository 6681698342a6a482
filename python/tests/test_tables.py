"""What Python repeats from the headers: functions, numbers and names; and that the sources are valid in Python 3.9."""

import ast
import os
import re
import subprocess
import sys
import unittest
from pathlib import Path

import cindrolf
from cindrolf import _library

ROOT = Path(__file__).resolve().parents[2]
LOG = (ROOT / "include" / "cindrolf.h").read_text()
STORE = (ROOT / "include" / "cindrolf_store.h").read_text()


def declared(header):
    return set(re.findall(r"^(?!static)[a-z].*?[ *](cindrolf_[a-z_0-9]+)\(", header, re.MULTILINE))


def defined(header, prefix):
    return {name: int(value) for name, value in re.findall(rf"^#define {prefix}(\w+) (?:UINT64_C\()?(\d+)\)?$", header, re.MULTILINE)}


class Tables(unittest.TestCase):
    def test_functions(self):
        self.assertEqual(set(_library.STORE_FUNCTIONS), declared(STORE))
        self.assertLess(set(_library.LOG_FUNCTIONS), declared(LOG))

    def test_how_many_arguments(self):
        for header, functions in ((LOG, _library.LOG_FUNCTIONS), (STORE, _library.STORE_FUNCTIONS)):
            for name, (_, takes) in functions.items():
                given = re.search(rf"[ *]{name}\(([^)]*)\);", header).group(1)
                self.assertEqual(len(takes), 0 if given == "void" else given.count(",") + 1, name)

    def test_numbers(self):
        numbers = defined(LOG, "CINDROLF_")
        for name in ("STATE_WORDS", "ENTRY_WORDS", "SMALL_ENTRY_WORDS", "MARK_WORDS", "RIGHTS_WORDS", "TEXT_BYTES", "VERSION"):
            self.assertEqual(getattr(_library, name), numbers[name], name)
        self.assertEqual(cindrolf.SCORE_LIMIT, numbers["SCORE_LIMIT"])
        self.assertEqual(cindrolf._values.NO_STEP, numbers["NO_STEP"])
        self.assertEqual(f"0x{cindrolf.ALL_RIGHTS:X}", re.search(r"CINDROLF_ALL_RIGHTS UINT64_C\((.*)\)", LOG).group(1))
        store = defined(STORE, "CINDROLF_STORE_")
        self.assertEqual((_library.STORE_VERSION, _library.MESSAGE_BYTES, _library.ROW_BYTES),
                         (store["VERSION"], store["MESSAGE_BYTES"], store["ROW_BYTES"]))
        self.assertEqual(cindrolf.__version__, f"{numbers['VERSION']}.{store['VERSION']}")

    def test_names(self):
        steps = {name: number for name, number in defined(LOG, "CINDROLF_STEP_").items()}
        self.assertEqual({step.name: step.value for step in cindrolf.Step}, steps)
        kinds = defined(STORE, "CINDROLF_STORE_KIND_")
        self.assertEqual({kind.name: kind.value for kind in cindrolf.Kind}, kinds)
        statuses = re.findall(r"^    CINDROLF_STORE_(\w+) = (\d+)", STORE, re.MULTILINE)
        self.assertEqual([(status.name, str(status.value)) for status in cindrolf.Status], statuses)

    def test_an_exception_for_each_status(self):
        kinds = {kind.status for kind in cindrolf.Error.__subclasses__()}
        self.assertEqual(kinds, set(cindrolf.Status) - {cindrolf.Status.OK})

    def test_where_the_libraries_are(self):
        package = Path(cindrolf.__file__).parents[1]
        folder = Path(_library.store._name).parent

        def imported(**names):
            environment = {**os.environ, "PYTHONPATH": str(package), **names}
            command = [sys.executable, "-c", "import cindrolf; print(cindrolf._library.store._name)"]
            return subprocess.run(command, capture_output=True, text=True, env=environment)

        self.assertEqual(imported(CINDROLF_LIBRARY_DIR=str(folder)).stdout.strip(), _library.store._name)
        missing = imported(CINDROLF_LIBRARY_DIR=str(package))
        self.assertEqual((missing.returncode, missing.stdout), (1, ""))
        self.assertIn(f"ImportError: there are no libcindrolf.so.3 and libcindrolf_store.so.1 in {package}: run ./install", missing.stderr)

    def test_the_sources_are_of_python_3_9(self):
        sources = list((ROOT / "python").rglob("*.py"))
        self.assertGreater(len(sources), 8)
        for source in sources:
            tree = ast.parse(source.read_text(), str(source), feature_version=(3, 9))
            self.assertTrue(ast.get_docstring(tree), f"{source} does not say what it holds")

    def test_everything_public_has_a_docstring(self):
        for name in cindrolf.__all__:
            thing = getattr(cindrolf, name)
            for part, value in ([(name, thing)] + list(vars(thing).items()) if isinstance(thing, type) else [(name, thing)]):
                if callable(value) and not part.startswith("_"):
                    self.assertTrue(value.__doc__, f"{name}.{part}")


if __name__ == "__main__":
    unittest.main()
