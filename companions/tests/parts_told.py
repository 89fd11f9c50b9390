"""What pops-part writes for an input of one problem; a stand-in writes it where it isn't built.

The stand-in shares out what pops finds. Parts without solutions are made up: one before each part
whose first moves have an even sum of bytes, and one after all.
"""

import functools
import os
import re
import resource
import subprocess
from collections.abc import Sequence
from typing import NamedTuple, Optional

from pops_companions.many.program import MissingError, find_part_program

_TOTAL = re.compile(rb"^solutions: (\d+)(, stopped)?\n", re.MULTILINE)
_MOST = b"\nOption MaxSolutions 4000000000 End"
# The most processor seconds of a run: few for a problem that perhaps only a limit ends.
_SECONDS = 600
_SECONDS_WITH_LIMIT = 2


@functools.lru_cache(maxsize=None)
def program() -> Optional[str]:
    """The program pops-part, where it is built."""
    try:
        return find_part_program(None, os.environ["POPS"])
    except MissingError:
        return None


class Told(NamedTuple):
    """The list of a problem's parts, and the report of each part of each phase."""

    status: int
    listed: bytes
    parts: dict[str, list[bytes]]


@functools.lru_cache(maxsize=64)
def told(text: bytes, depth: int) -> Told:
    """What pops-part writes for a problem that is cut by `depth` half-moves.

    For a problem that only a limit ends, the stand-in writes it.
    """
    path = program()
    asked = None if path is None else _asked(path, text, depth)
    return asked or _shared(text, depth)


def count(text: bytes, depth: int) -> int:
    """How many parts a problem has; 0 where the program doesn't say."""
    path = program()
    listed = b"" if path is None else _run([path, "--list", "--depth", str(depth)], text).stdout
    return sum(map(int, re.findall(rb" (\d+)", listed)))


def answer(words: Sequence[str], text: bytes) -> bytes:
    """The output of pops-part with these words, for a list or parts that there are."""
    values = dict(zip(words[-2::-2], words[::-2]))
    problem = told(text, int(values["--depth"]))
    if "--list" in words:
        return problem.listed
    first, _, last = values["--part"].partition("..")
    return b"".join(problem.parts[values["--phase"]][int(first) - 1 : int(last or first)])


def _run(words: Sequence[str], text: bytes) -> "subprocess.CompletedProcess[bytes]":
    return subprocess.run(list(words), input=text, stdout=subprocess.PIPE)


def _run_in_time(words: Sequence[str], text: bytes) -> "subprocess.CompletedProcess[bytes]":
    """Runs a program, with a limit of processor seconds."""
    seconds = _SECONDS_WITH_LIMIT if b"MaxSolutions" in text else _SECONDS

    def limited() -> None:
        resource.setrlimit(resource.RLIMIT_CPU, (seconds, seconds))
        resource.setrlimit(resource.RLIMIT_CORE, (0, 0))

    return subprocess.run(list(words), input=text, stdout=subprocess.PIPE, preexec_fn=limited)


def _asked(path: str, text: bytes, depth: int) -> Optional[Told]:
    """What the program itself writes, all parts of a phase at once."""
    how = ["--depth", str(depth)]
    listed = _run([path, "--list", *how], text)
    parts: dict[str, list[bytes]] = {}
    for phase, count in re.findall(r"(set|play) (\d+)", listed.stdout.decode("ascii")):
        parts[phase] = []
        if count != "0":
            words = [path, "--item", "1", "--phase", phase, "--part", f"1..{count}", *how]
            whole = _run_in_time(words, text)
            if whole.returncode < 0:
                return None
            ends = [0] + [total.end() for total in _TOTAL.finditer(whole.stdout)]
            assert len(ends) == int(count) + 1
            parts[phase] = [whole.stdout[begin:end] for begin, end in zip(ends, ends[1:])]
    return Told(listed.returncode, listed.stdout, parts)


def _shared(text: bytes, depth: int) -> Told:
    """What pops finds, shared out."""
    checked = _run([os.environ["POPS"], "--check"], text).stdout
    if not checked.endswith(b"\nsound\n\n"):
        return Told(1, b"1: faulty\n", {})
    head = checked[: -len(b"sound\n\n")]
    stopped = [int(total[1]) for total in _TOTAL.finditer(_report(text)[len(head) :]) if total[2]]
    limit = min(stopped, default=float("inf"))
    is_help = head.rstrip(b"\n").rsplit(b"\n", 1)[-1].startswith(b"h")
    parts: dict[str, list[bytes]] = {}
    counts = []
    for phase, lines in _phases(_unlimited(text)[len(head) :]).items():
        if lines == [b"not possible"]:
            counts.append(f"{phase} not possible")
        else:
            shared = _by_first_moves(lines, depth if is_help else 1)
            parts[phase] = [_limited(part, limit) for part in shared]
            counts.append(f"{phase} {len(shared)}")
    return Told(0, f"1: {', '.join(counts)}\n".encode("ascii"), parts)


def _report(text: bytes) -> bytes:
    return _run([os.environ["POPS"]], text).stdout


def _unlimited(text: bytes) -> bytes:
    """The report with all solutions, where that takes no long."""
    open_text, ends = re.subn(rb"End(Problem)?\Z", b"", text)
    assert ends == 1
    done = _run_in_time([os.environ["POPS"]], open_text + _MOST)
    return _report(text) if done.returncode < 0 else done.stdout


def _phases(lines: bytes) -> dict[str, list[bytes]]:
    """The lines of each phase, without its total."""
    phases: dict[str, list[bytes]] = {}
    name = ""
    for line in _TOTAL.sub(b"", lines).splitlines():
        if line in (b"set", b"play"):
            name = line.decode("ascii")
            phases[name] = []
        elif line:
            phases[name].append(line)
    return phases


def _by_first_moves(lines: list[bytes], depth: int) -> list[list[bytes]]:
    """The lines of a phase, part by part."""
    parts: list[list[bytes]] = []
    last: Optional[list[bytes]] = None
    for line in lines:
        begins = last if line.startswith(b" ") else _moves(line)[:depth]
        if begins != last:
            if sum(b"".join(begins or [])) % 2 == 0:
                parts.append([])
            parts.append([])
            last = begins
        parts[-1].append(line)
    return parts + [[]]


def _moves(line: bytes) -> list[bytes]:
    """The half-moves of a line of help play."""
    moves: list[bytes] = []
    for word in line.split(b" "):
        if word.startswith(b"ep."):
            moves[-1] += b" " + word
        else:
            moves.append(re.sub(rb"^\d+\.+", b"", word))
    return moves


def _limited(lines: list[bytes], limit: float) -> bytes:
    """The report of a part, up to a limit of solutions."""
    shown: list[bytes] = []
    count = 0
    for line in lines:
        if not line.startswith(b" "):
            if count == limit:
                break
            count += 1
        shown.append(line + b"\n")
    return b"".join(shown) + b"solutions: %d%s\n" % (count, b", stopped" * (count == limit))
