"""Every session input of the repository, through Python, compared with the model's expected outputs."""

import contextlib
import re
import tempfile
import unittest
from pathlib import Path

import cindrolf

from . import session

ROOT = Path(__file__).resolve().parents[2]
INPUTS = ROOT / "crates" / "inputs"


@contextlib.contextmanager
def in_memory(clients):
    yield cindrolf.Log(clients)


def expected():
    """For each input its name, its transcript and its totals."""
    text = (INPUTS / "stdout").read_bytes().decode("latin-1")
    parts = re.split(r"^== (.*)\n", text, flags=re.MULTILINE)[1:]
    for name, printed in zip(parts[::2], parts[1::2]):
        transcript, totals = re.split(r"^-- total\n", printed, flags=re.MULTILINE)
        yield name, transcript, totals


class Sessions(unittest.TestCase):
    def test_every_input(self):
        names = []
        for name, transcript, totals in expected():
            with self.subTest(name):
                given = session.transcript((INPUTS / "data" / name).read_bytes(), in_memory)
                self.assertEqual(given, (transcript, totals))
            names.append(name)
        self.assertEqual(names, (INPUTS / "args").read_text().split())
        self.assertEqual(sorted(names), sorted(file.name for file in (INPUTS / "data").iterdir()))

    def test_examples_in_a_file(self):
        examples = sorted((ROOT / "examples").glob("*.session"))
        self.assertGreater(len(examples), 3)
        for example in examples:
            with self.subTest(example.name), tempfile.TemporaryDirectory() as folder:
                given = session.transcript(
                    example.read_bytes(), lambda clients: cindrolf.create(Path(folder) / "run.db", clients)
                )
                self.assertEqual(given[0], example.with_suffix(".out").read_text())
                self.assertEqual(given[1], example.with_suffix(".total").read_text())


if __name__ == "__main__":
    unittest.main()
