"""The examples in Python of docs/API.md, and examples/tree.py: each prints what it should."""

import os
import re
import shutil
import subprocess
import sys
import tempfile
import unittest
from pathlib import Path

from tests import support

_EXAMPLE = re.compile(r"^```python\n(.*?)^```\n(?:\nprints\n\n```text\n(.*?)^```\n)?", re.M | re.S)
DOCUMENTS = ("API.md",)
TREE = support.REPOSITORY / "examples" / "tree.py"
MATE = support.REPOSITORY / "examples" / "mate_in_one.pop"


def document(name: str) -> str:
    return (support.REPOSITORY / "docs" / name).read_text("utf-8")


def output_of(example: str) -> str:
    """What an example prints; its one argument is a file with a mate in one."""
    paths = {"PYTHONPATH": str(support.COMPANIONS), "PYTHONDONTWRITEBYTECODE": "1"}
    with tempfile.TemporaryDirectory() as room:
        done = subprocess.run(
            [sys.executable, "-W", "error", "-c", example, str(MATE)],
            cwd=room,
            env={**os.environ, **paths},
            stdin=subprocess.DEVNULL,
            capture_output=True,
            text=True,
            timeout=support.PATIENCE,
        )
    assert done.returncode == 0 and done.stderr == "", done.stderr
    return done.stdout


class Examples(unittest.TestCase):
    def test_each_prints_what_it_should(self) -> None:
        tried = 0
        for name in DOCUMENTS:
            for example, printed in _EXAMPLE.findall(document(name)):
                with self.subTest(name, example=example.split("\n")[2]):
                    said = output_of(example)
                    self.assertEqual(said, printed or said)
                    self.assertNotEqual(said, "")
                    tried += 1
        self.assertEqual(tried, 2)

    def test_a_tree_as_it_grows(self) -> None:
        """The program has thirty lines at most. A closed input doesn't stop it."""
        self.assertLessEqual(len(TREE.read_text().splitlines()), 30)
        wanted = "problem 1: #1\n1.Ra1-a8#\nplay: 1 solutions\n"
        self.assertEqual(output_of(TREE.read_text()), wanted)

    @unittest.skipUnless(shutil.which("mypy"), "mypy isn't installed")
    def test_they_are_typed(self) -> None:
        with tempfile.TemporaryDirectory() as room:
            files = [str(TREE)]
            for name in DOCUMENTS:
                for example, _ in _EXAMPLE.findall(document(name)):
                    files.append(str(Path(room, f"example_{len(files)}.py")))
                    Path(files[-1]).write_text(example)
            words = ["mypy", "--cache-dir", f"{room}/cache", *files]
            done = subprocess.run(words, cwd=support.REPOSITORY, capture_output=True, text=True)
        self.assertEqual(done.returncode, 0, done.stdout + done.stderr)
