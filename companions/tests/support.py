"""What the tests share: where things are, runs of programs, the stored rows and examples."""

import contextlib
import importlib
import importlib.util
import os
import pty
import shutil
import subprocess
import sys
import tempfile
import unittest
from collections.abc import Callable, Sequence
from pathlib import Path
from types import ModuleType
from typing import Any, NamedTuple, TypeVar

COMPANIONS = Path(__file__).resolve().parent.parent
REPOSITORY = COMPANIONS.parent
PACKAGE = COMPANIONS / "pops_companions"
# The seconds after which a test gives up waiting: no busy machine takes so long.
PATIENCE = 7200
# Commands whose module has another name.
_OTHER_NAMES = {"pops-import": "import_", "pops-test": "soundness", "popeye-py": "popeye_py"}
Test = TypeVar("Test", bound=Callable[..., Any])

# The rows as files: NAME.in, NAME.out and NAME.options.
_ROOM = tempfile.TemporaryDirectory()
ROWS = Path(_ROOM.name)


def _written_rows() -> list[Path]:
    """Writes the files of all rows; returns their inputs."""
    place = importlib.util.spec_from_file_location("row_table", REPOSITORY / "tests/helpers/row_table.py")
    assert place is not None and place.loader is not None
    row_table = importlib.util.module_from_spec(place)
    place.loader.exec_module(row_table)
    inputs: list[Path] = row_table.write_files(ROWS)
    return inputs


_ROW_INPUTS = _written_rows()


class Outcome(NamedTuple):
    """What a program left: status, output, message."""

    status: int
    output: bytes
    error: str


def needs_module(name: str) -> Callable[[Test], Test]:
    """Leaves a test out, with a line that says so, where this module isn't installed."""
    return unittest.skipUnless(importlib.util.find_spec(name), f"{name} isn't installed")


def has_latex() -> bool:
    """Whether LaTeX is here with the package diagram, and with pstricks, which diagram loads."""
    if shutil.which("latex") is None or shutil.which("kpsewhich") is None:
        return False
    return run(["kpsewhich", "diagram.sty", "pstricks.sty"]).status == 0


def pops() -> str:
    """The program that the tests ask; `tests/companions` sets it."""
    return os.environ["POPS"]


def run(words: Sequence[str], text: bytes = b"") -> Outcome:
    """Runs a program on a standard input."""
    done = subprocess.run(list(words), input=text, capture_output=True, timeout=PATIENCE)
    return Outcome(done.returncode, done.stdout, done.stderr.decode("utf-8", "replace"))


def write_program(path: Path, text: str) -> str:
    """Writes a program: a script with its first line. Its path."""
    path.write_text(text, "utf-8")
    path.chmod(0o755)
    return str(path)


class InRoom(unittest.TestCase):
    """Tests that have a temporary folder each."""

    def setUp(self) -> None:
        room = tempfile.TemporaryDirectory()
        self.addCleanup(room.cleanup)
        self.room = Path(room.name)

    def write_program(self, name: str, text: str) -> str:
        return write_program(self.room / name, text)


def said_on_terminal(
    words: Sequence[str], text: bytes = b"", columns: int = 0, look: Callable[[str], None] = lambda _: None
) -> tuple[int, str]:
    """Status, and what a run writes to standard error, a terminal of that width. `look` gets all that is there so far."""
    terminal, other_side = pty.openpty()
    if columns:
        run(["stty", "-F", os.ttyname(other_side), "cols", str(columns)])
    said = b""
    with tempfile.TemporaryFile() as given:
        given.write(text)
        given.seek(0)
        with subprocess.Popen(words, stdin=given, stdout=subprocess.DEVNULL, stderr=other_side) as done:
            os.close(other_side)
            # (a terminal takes some pages only: a run that nobody reads would wait for ever; the last read fails)
            with contextlib.suppress(OSError):
                while more := os.read(terminal, 100000):
                    said += more
                    look(said.decode())
    os.close(terminal)
    return done.returncode, said.decode()


def companion(name: str, *words: str, text: bytes = b"") -> Outcome:
    """Runs a companion."""
    return run([sys.executable, str(COMPANIONS / name), *words], text)


def loaded(name: str) -> ModuleType:
    """A companion as a module, so that many runs of it take little time."""
    module = _OTHER_NAMES.get(name, name.removeprefix("pops-"))
    return importlib.import_module(f"pops_companions.commands.{module}")


def stored_inputs() -> list[Path]:
    """The inputs of all rows and examples."""
    examples = sorted((REPOSITORY / "examples").glob("*.pop"))
    assert _ROW_INPUTS and examples
    return _ROW_INPUTS + examples


def tries_inputs() -> list[Path]:
    """The inputs beside which the text of their tries is stored: NAME.tries."""
    inputs = sorted((REPOSITORY / "tests/tries").glob("*.pop"))
    assert inputs
    return inputs


def row_options(stored_input: Path) -> list[str]:
    """The options of `pops` for a row, or of `pops-tries` for an input of tries; none for an example."""
    options = stored_input.with_suffix(".options")
    return options.read_text().split() if options.exists() else []


def is_for_check(stored_input: Path) -> bool:
    """Whether a row's report is that of `--check`: no search of it ends in a lifetime."""
    return "--check" in row_options(stored_input)


def stored_report(stored_input: Path) -> Path:
    """The stored report of a row's or example's input."""
    return stored_input.with_suffix(".out" if stored_input.suffix == ".in" else ".report")


def stored_reports() -> list[Path]:
    """The reports of all rows and examples."""
    return [stored_report(path) for path in stored_inputs()]


class PlainItem(NamedTuple):
    """An item of a report as the tests read it by themselves: its lines, without the empty one."""

    lines: list[str]

    @property
    def board(self) -> list[str]:
        """The eight ranks of its board, rank 8 first, or nothing."""
        for place, line in enumerate(self.lines):
            if line == "  abcdefgh":
                return [rank[2:] for rank in self.lines[place - 8 : place]]
        return []


def plain_items(report: bytes) -> list[PlainItem]:
    """The items of a report whose titles are UTF-8: parted by the empty lines after them."""
    blocks = report.decode("utf-8").split("\n\n")
    assert blocks[-1] == ""
    return [PlainItem(block.split("\n")) for block in blocks[:-1]]
