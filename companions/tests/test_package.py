"""The package that pip installs: in a new environment every command runs, outside this repository."""

import os
import re
import shutil
import subprocess
import sys
import tempfile
import unittest
from pathlib import Path
from typing import Optional, Union

from tests import support

# What `pip install` needs without a network. (setuptools makes wheels by itself since 70.1.)
NEEDS = """
import setuptools
import pip, venv
if int(setuptools.__version__.split(".")[0]) < 71:
    import wheel
"""
LICENCES = ("LICENSE-MIT", "LICENSE-APACHE", "THIRD-PARTY")
PACKAGES = ("companions/pops", "companions/pops_companions")
SOURCES = ("pyproject.toml", "MANIFEST.in", "VERSION", "docs/API.md", *LICENCES, *PACKAGES)
PROGRAMS = ("pops", "pops-part", "pops-tries")
MATE = support.REPOSITORY / "examples" / "mate_in_one.pop"


def python() -> Optional[str]:
    """A Python that has what is needed."""
    for found in (sys.executable, "/usr/bin/python3"):
        if os.path.exists(found) and support.run([found, "-c", NEEDS]).status == 0:
            return found
    return None


PYTHON = python()


def commands() -> list[str]:
    """The commands that pyproject.toml names."""
    text = (support.REPOSITORY / "pyproject.toml").read_text("utf-8")
    return re.findall(r'^(\S+) = "pops_companions\.start:\w+"$', text, re.M)


def copied_sources(room: str) -> Path:
    """A copy of what the package is made of."""
    sources = Path(room, "sources")
    for name in SOURCES:
        (sources / name).parent.mkdir(parents=True, exist_ok=True)
        if (support.REPOSITORY / name).is_dir():
            # (other suites compile meanwhile: their unfinished files come and go)
            ignore = shutil.ignore_patterns("__pycache__")
            shutil.copytree(support.REPOSITORY / name, sources / name, ignore=ignore)
        else:
            shutil.copy(support.REPOSITORY / name, sources / name)
    return sources


def environment_with(room: str, package: Path) -> Path:
    """The commands of a new environment into which a package was installed, without a network."""
    assert PYTHON is not None
    new = Path(room, "new")
    subprocess.run(
        [PYTHON, "-m", "venv", "--system-site-packages", "--without-pip", new], check=True
    )
    words = ["--no-build-isolation", "--no-deps", "--no-index", "--no-cache-dir", "--quiet"]
    subprocess.run([new / "bin/python", "-m", "pip", "install", *words, package], check=True)
    return new / "bin"


@unittest.skipUnless(PYTHON, "no Python here has pip, venv, setuptools and wheel")
class Package(unittest.TestCase):
    room: "tempfile.TemporaryDirectory[str]"
    commands: Path

    @classmethod
    def setUpClass(cls) -> None:
        assert PYTHON is not None
        cls.room = tempfile.TemporaryDirectory()
        cls.addClassCleanup(cls.room.cleanup)
        sources = copied_sources(cls.room.name)
        cls.commands = environment_with(cls.room.name, sources)
        shutil.rmtree(sources)

    def said(self, name: str, *words: str, text: bytes = b"") -> bytes:
        """What an installed command writes, run in another folder."""
        done = subprocess.run(
            [self.commands / name, *words],
            cwd=self.room.name,
            input=text,
            capture_output=True,
            timeout=support.PATIENCE,
        )
        self.assertEqual(done.stderr.decode(), "", name)
        return done.stdout

    def test_it_contains_the_licences(self) -> None:
        for name in LICENCES:
            [found] = self.commands.parent.glob(f"lib/python3*/site-packages/pops*.dist-info/**/{name}")
            self.assertEqual(found.read_bytes(), (support.REPOSITORY / name).read_bytes())

    def test_each_command_helps(self) -> None:
        shown = {path.name for path in support.COMPANIONS.iterdir() if os.access(path, os.X_OK)}
        self.assertLessEqual(set(commands()), shown)
        self.assertEqual(len(commands()), 14)
        for name in commands():
            with self.subTest(name):
                self.assertTrue(self.said(name, "--help").startswith(f"usage: {name} ".encode()))

    def test_the_version(self) -> None:
        number = (support.REPOSITORY / "VERSION").read_text("ascii").split()[0]
        self.assertEqual(self.said("pops-explain", "--version"), f"pops-explain {number}\n".encode())

    def test_the_module(self) -> None:
        """It is imported, has its types, and names its version."""
        number = (support.REPOSITORY / "VERSION").read_text("ascii").split()[0]
        said = self.said(
            "python",
            "-I",
            "-c",
            "import os, pops; folder = os.path.dirname(pops.__file__);"
            " print(pops.__version__, os.path.isfile(os.path.join(folder, 'py.typed')))",
        )
        self.assertEqual(said, f"{number} True\n".encode())

    def test_a_fault_explained(self) -> None:
        text = MATE.read_bytes().replace(b"Ra1", b"Ra1,")
        said = self.said("pops-explain", "--pops", support.pops(), text=text)
        self.assertIn(b"The comma is part of the word", said)

    def test_a_report_with_its_shapes(self) -> None:
        self.assertIn(b"<svg", self.said("pops-page", str(MATE.with_suffix(".report"))))

    def test_one_command_runs_another(self) -> None:
        words = ["--pops", support.pops(), str(MATE), "-o", "sheet.html", "--seconds", str(support.PATIENCE)]
        said = self.said("pops-judge", *words)
        self.assertIn(b"1 problem: 1 sound", said)


def number() -> str:
    return (support.REPOSITORY / "VERSION").read_text("ascii").split()[0]


def is_accepted(package: Path) -> bool:
    """Whether twine accepts a package, where it is installed."""
    return shutil.which("twine") is None or support.run(["twine", "check", str(package)]).status == 0


@unittest.skipUnless(PYTHON, "no Python here has pip, venv, setuptools and wheel")
class Sources(unittest.TestCase):
    def test_the_archive_of_sources_has_its_version(self) -> None:
        assert PYTHON is not None
        with tempfile.TemporaryDirectory() as room:
            build = "from setuptools.build_meta import build_sdist; build_sdist('made')"
            subprocess.run(
                [PYTHON, "-c", build], cwd=copied_sources(room), check=True, capture_output=True
            )
            (archive,) = Path(room, "sources", "made").iterdir()
            self.assertEqual(archive.name, f"pops-{number()}.tar.gz")
            self.assertTrue(is_accepted(archive))
            commands = environment_with(room, archive)
            said = support.run([str(commands / "pops2json"), "--version"]).output
        self.assertEqual(said.decode(), f"pops2json {number()}\n")


@unittest.skipUnless(PYTHON, "no Python here has pip, venv, setuptools and wheel")
class Wheel(unittest.TestCase):
    def test_it_has_programs_companions_and_module(self) -> None:
        """It is made twice with the same bytes, and installed without other programs in sight."""
        made = support.run([str(support.REPOSITORY / "scripts" / "make-release"), "--wheel"])
        if made.status == 5 and "of these sources" in made.error:
            self.skipTest(made.error.strip())
        self.assertEqual((made.status, made.error), (0, ""))
        wheel = support.REPOSITORY / made.output.decode().split(":")[0]
        before = wheel.read_bytes()
        support.run([str(support.REPOSITORY / "scripts" / "make-release"), "--wheel"])
        self.assertEqual(wheel.read_bytes(), before)
        self.assertTrue(is_accepted(wheel))
        with tempfile.TemporaryDirectory() as room:
            commands = environment_with(room, wheel)
            for name in (*PROGRAMS, "python"):
                with self.subTest(name):
                    self.assertTrue(os.access(commands / name, os.X_OK))
            report = self.said(room, commands / "pops", str(MATE))
            self.assertEqual(report.encode(), MATE.with_suffix(".report").read_bytes())
            asked = "import pops; print(pops.Engine().program, pops.Engine(tries=True).program)"
            said = self.said(room, commands / "python", "-c", asked)
            self.assertEqual(said, f"{commands}/pops {commands}/pops-tries\n")
            self.assertIn("none faulty", self.said(room, commands / "pops-explain", str(MATE)))
            # (one that is cut shows its progress, if the machine is busy)
            made_parts = self.said(room, commands / "pops-many", "--split", "--split-after", "3600", str(MATE))
            self.assertEqual(made_parts, report)

    def said(self, room: str, *words: Union[str, Path]) -> str:
        """What a command says in an environment that names no other programs."""
        done = subprocess.run(
            words,
            cwd=room,
            env={"PATH": "/usr/bin:/bin"},
            capture_output=True,
            timeout=support.PATIENCE,
        )
        self.assertEqual((done.returncode, done.stderr.decode()), (0, ""))
        return done.stdout.decode()
