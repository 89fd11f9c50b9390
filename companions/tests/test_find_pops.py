"""Where the companions look for pops and pops-part; none of them builds them."""

import hashlib
import os
import shutil
import subprocess
import sys
import time
import unittest
from contextlib import redirect_stderr
from io import StringIO
from pathlib import Path
from typing import Optional

from pops_companions.many.program import without_script
from tests import support

# Prints the program that is found, or what to do.
FINDS = """
from pops_companions.many.program import MissingError, find, find_part_program
try:
    print({call})
except MissingError as error:
    print("missing:", error)
"""
# A companion and a suite: both look for pops.
TAKE_PROGRAMS = (support.COMPANIONS / "pops-many", support.REPOSITORY / "tests" / "companions")
FIND_PROGRAM = Path("scripts", "find-program")
# What it needs.
TOOLS = "bash cut dirname find grep readlink sed sh sha256sum sort uname xargs".split()


class Room(support.InRoom):
    """A room with repositories, folders of companions, and a program pops on the PATH."""

    def setUp(self) -> None:
        super().setUp()
        self.room = self.room.resolve()
        self.built = self.room / "built"
        self.elsewhere = self.program(self.room / "path" / "pops")
        self.tools = self.room / "tools"
        self.tools.mkdir()
        for name in TOOLS:
            (self.tools / name).symlink_to(str(shutil.which(name)))

    def program(self, path: Path) -> Path:
        """A program that notes that it was run, as no test expects."""
        path.parent.mkdir(parents=True, exist_ok=True)
        support.write_program(path, f"#!/bin/sh\necho run >> {self.built}\n")
        return path

    def companions(self, folder: Path) -> Path:
        ignore = shutil.ignore_patterns("__pycache__")
        shutil.copytree(support.PACKAGE, folder / support.PACKAGE.name, ignore=ignore)
        return folder

    def sources(self, root: Path) -> Path:
        """A folder with sources, and the script that says which programs are of them."""
        for name in ("pops", "pops_part"):
            source = root / "crates" / name / "src" / "main.rt"
            source.parent.mkdir(parents=True)
            source.write_text("fn main() {}\n")
            (root / "crates" / name / "out").mkdir()
        (root / "crates.txt").write_text("pops:\npops_part:\n")
        (root / "HANDLES").write_text("Handles allowed: none.\n")
        (root / "scripts").mkdir()
        shutil.copy(support.REPOSITORY / FIND_PROGRAM, root / FIND_PROGRAM)
        return root

    def repository(self) -> Path:
        """A repository without programs."""
        root = self.room / "repository"
        self.companions(root / "companions")
        self.sources(root)
        self.program(root / "pops")
        return root

    def released(self, root: Path) -> Path:
        """Makes a release of the sources as they stand. The released pops."""
        (root / "release").mkdir()
        for name in ("pops", "pops-part"):
            support.write_program(root / "release" / name, "#!/bin/sh\necho a report\n")
        words = [str(root / FIND_PROGRAM), "--sources"]
        sources = subprocess.run(words, capture_output=True, check=True).stdout.decode()
        sums = [
            f"{hashlib.sha256((root / 'release' / name).read_bytes()).hexdigest()}  {name}\n"
            for name in ("pops", "pops-part")
        ]
        (root / "release" / "BUILT").write_text(f"# sources {sources}{''.join(sums)}")
        return root / "release" / "pops"

    def found(
        self,
        companions: Path,
        named: Optional[str] = None,
        more: Optional[dict[str, str]] = None,
        path: Optional[Path] = None,
    ) -> str:
        return self.told(companions, f"find({named!r})", more, path)

    def told(
        self,
        companions: Path,
        call: str,
        more: Optional[dict[str, str]] = None,
        path: Optional[Path] = None,
    ) -> str:
        path = path or self.elsewhere.parent
        environment = {"PATH": f"{path}:{self.tools}", **(more or {})}
        done = subprocess.run(
            [sys.executable, "-B", "-c", FINDS.format(call=call)],
            cwd=companions,
            env=environment,
            capture_output=True,
            check=True,
        )
        self.assertFalse(self.built.exists(), "a program was run")
        return done.stdout.decode().strip()


class Places(Room):
    def unbuilt(self, root: Path) -> str:
        return (
            f"missing: there is no pops of these sources: build it by {root}/pops"
            f" {root}/examples/mate_in_one.pop, or name one with --pops"
        )

    def test_the_named_one_comes_first(self) -> None:
        root = self.repository()
        self.program(root / "crates" / "pops" / "out" / "pops")
        named, variable = (str(self.program(self.room / name)) for name in ("named", "variable"))
        companions = root / "companions"
        self.assertEqual(self.found(companions, named, {"POPS": variable}), named)
        self.assertEqual(self.found(companions, None, {"POPS": variable}), variable)
        self.assertEqual(
            self.found(companions, "nowhere", {"POPS": variable}),
            "missing: there is no program nowhere",
        )

    def test_the_built_one_of_a_repository(self) -> None:
        root = self.repository()
        nowhere = self.room / "nowhere"
        self.assertEqual(self.found(root / "companions"), str(self.elsewhere))
        self.assertEqual(self.found(root / "companions", path=nowhere), self.unbuilt(root))
        built = self.program(root / "crates" / "pops" / "out" / "pops")
        self.assertEqual(self.found(root / "companions"), str(built))
        source = root / "crates" / "pops" / "src"
        for moved in (source, source.parent):
            other = shutil.copytree(moved, self.room / "other")
            self.program(built)
            self.assertEqual(self.found(root / "companions"), str(built))
            moved.rename(self.room / f"old-{moved.name}")
            # (its files are older than the program)
            moved.symlink_to(other)
            self.assertEqual(self.found(root / "companions"), str(self.elsewhere), moved)
            moved.unlink()
            other.rename(moved)
            self.assertEqual(self.found(root / "companions"), str(self.elsewhere), moved)
        self.program(built)
        # (of a clock that was ahead: nobody knows which changes it has)
        os.utime(built, (time.time() + 86400,) * 2)
        self.assertEqual(self.found(root / "companions"), str(self.elsewhere))

    def test_the_released_one_of_a_repository(self) -> None:
        root = self.repository()
        released = self.released(root)
        self.assertEqual(self.found(root / "companions"), str(released))
        away = self.companions(self.room / "away")
        self.assertEqual(self.found(away, str(root / "pops")), str(released))
        built = self.program(root / "crates" / "pops" / "out" / "pops")
        self.assertEqual(self.found(root / "companions"), str(built))
        with (root / "crates" / "pops" / "src" / "main.rt").open("a") as source:
            source.write("// changed\n")
        os.utime(built, (1, 1))
        self.assertEqual(self.found(root / "companions"), str(self.elsewhere))
        nowhere = self.room / "nowhere"
        self.assertEqual(self.found(root / "companions", path=nowhere), self.unbuilt(root))

    def test_no_checksum_is_kept_of_which_a_command_was_killed(self) -> None:
        root = self.repository()
        self.released(root)
        # (nor is one of files that changed less than two seconds ago; on a busy machine one may be kept already)
        time.sleep(3)
        for kept in root.glob("out/sources*"):
            kept.unlink()
        for name in ("sort", "xargs"):
            with self.subTest(name):
                tool = self.tools / name
                tool.unlink()
                support.write_program(tool, "#!/bin/sh\nkill -KILL $$\n")
                words = [str(root / FIND_PROGRAM), "--released", "pops"]
                path = f"{self.tools}:/usr/bin:/bin"
                run = subprocess.run(words, env={"PATH": path}, capture_output=True)
                self.assertEqual((run.returncode, run.stdout), (1, b""))
                self.assertEqual([*root.glob("out/sources*")], [])
                tool.unlink()
                tool.symlink_to(str(shutil.which(name)))

    def test_a_repositorys_script_is_never_run(self) -> None:
        root = self.repository()
        linked = self.room / "linked" / "pops"
        linked.parent.mkdir()
        linked.symlink_to(root / "pops")
        away = self.companions(self.room / "away")
        self.assertEqual(self.found(away, str(root / "pops")), self.unbuilt(root))
        self.assertEqual(self.found(away, None, {"POPS": str(linked)}), self.unbuilt(root))
        self.assertEqual(self.found(away, path=linked.parent), self.unbuilt(root))
        built = self.program(root / "crates" / "pops" / "out" / "pops")
        self.assertEqual(self.found(away, str(root / "pops")), str(built))
        self.assertEqual(self.found(away, path=linked.parent), str(built))

    def test_the_one_installed_beside(self) -> None:
        prefix = self.room / "prefix"
        companions = self.companions(prefix / "share" / "pops" / "companions")
        self.assertEqual(self.found(companions), str(self.elsewhere))
        installed = self.program(prefix / "bin" / "pops")
        self.assertEqual(self.found(companions), str(installed))

    def test_what_bash_says_of_a_shortage_isnt_shown(self) -> None:
        root = self.repository()
        said = "echo 'find-program: fork: retry' >&2; echo 'pops: release/pops is damaged' >&2"
        support.write_program(root / FIND_PROGRAM, f"#!/bin/sh\n{said}; echo /found\n")
        with redirect_stderr(StringIO()) as shown:
            self.assertEqual(without_script(str(root / "pops"), "pops"), "/found")
        self.assertEqual(shown.getvalue(), "pops: release/pops is damaged\n")

    def test_nowhere(self) -> None:
        away = self.companions(self.room / "away")
        self.assertEqual(self.found(away), str(self.elsewhere))
        self.assertEqual(
            self.found(away, path=self.room / "nowhere"),
            "missing: there is no program pops: name it with --pops",
        )


class PartPrograms(Room):
    """Where pops-part is looked for."""

    def found_part(self, companions: Path, pops: Path, named: Optional[str] = None) -> str:
        call = f"find_part_program({named!r}, {str(pops)!r})"
        return self.told(companions, call, path=self.room / "nowhere")

    def test_the_one_beside_pops_or_built_with_it(self) -> None:
        root = self.repository()
        companions = root / "companions"
        script = f"{root}/pops-part --list {root}/examples/mate_in_one.pop"
        unbuilt = (
            f"missing: there is no pops-part of these sources: build it by {script},"
            " or name one with --pops-part"
        )
        self.assertEqual(self.found_part(companions, self.elsewhere), unbuilt)
        own = self.program(root / "crates" / "pops_part" / "out" / "pops_part")
        self.assertEqual(self.found_part(companions, self.elsewhere), str(own))
        self.assertEqual(self.found_part(companions, Path("/pops")), str(own))
        crates = self.sources(self.room / "other") / "crates"
        other = self.program(crates / "pops_part" / "out" / "pops_part")
        pops = self.program(crates / "pops" / "out" / "pops")
        self.assertEqual(self.found_part(companions, pops), str(other))
        beside = self.program(self.elsewhere.parent / "pops-part")
        self.assertEqual(self.found_part(companions, self.elsewhere), str(beside))
        named = self.program(self.room / "named")
        self.assertEqual(self.found_part(companions, self.elsewhere, str(named)), str(named))
        scripts = self.program(root / "pops-part")
        self.assertEqual(self.found_part(companions, pops, str(scripts)), str(own))

    def test_the_released_one_beside_the_released_pops(self) -> None:
        root = self.repository()
        released = self.released(root)
        away = self.companions(self.room / "away")
        beside = str(released.with_name("pops-part"))
        self.assertEqual(self.found_part(away, released), beside)
        self.assertEqual(self.found_part(root / "companions", self.elsewhere), beside)

    def test_no_part_program(self) -> None:
        away = self.companions(self.room / "away")
        self.assertEqual(
            self.found_part(away, self.elsewhere),
            "missing: there is no program pops-part, for --split: name it with --pops-part",
        )


class Told(unittest.TestCase):
    def test_help_says_where(self) -> None:
        for path in TAKE_PROGRAMS:
            said = " ".join(support.run([str(path), "--help"]).output.decode().split())
            for place in ("$POPS", "built in this repository", "../../../bin/pops", "on the PATH"):
                self.assertIn(place, said)

    def test_a_program_that_is_missing_is_told(self) -> None:
        for path in TAKE_PROGRAMS:
            done = subprocess.run(
                [sys.executable, str(path)],
                stdin=subprocess.DEVNULL,
                capture_output=True,
                env={**os.environ, "POPS": "nowhere"},
            )
            self.assertIn(done.returncode, (2, 3))
            said = f"{path.name}: there is no program nowhere\n"
            self.assertEqual(done.stderr.decode(), said)
