"""The lines of a report that aren't moves, without their line ends (docs/report.ebnf)."""

import re

from pops_companions.chess.men import LETTERS

PROBLEM = re.compile(rb"problem ([1-9][0-9]{0,17})")
FAULT = re.compile(rb"line ([1-9][0-9]{0,17}): fault ([1-9][0-9]?): (.+)")
# A title or an author: no blank begins or ends it.
_TEXT = rb"[^\t\v\f\r \n](?:.{0,198}[^\t\v\f\r \n])?"
TEXT = re.compile(_TEXT)
TITLE = b"title: "
AUTHOR = b"author: "
RANK = re.compile(b"([1-8]) ([%s%s.]{8})" % (LETTERS.encode(), LETTERS.lower().encode()))
# The first and last rank have no pawns.
EDGES = (1, 8)
_LETTERS = {rank: b"KQRBSGNkqrbsgn." if rank in EDGES else b"KQRBSPGNkqrbspgn." for rank in range(1, 9)}
FILES = b"  abcdefgh"
# The first lines of an item with a board, up to the line of its files.
HEAD = re.compile(
    PROBLEM.pattern
    + rb"\n(?:title: (%s)\n)?(?:author: (%s)\n)?(" % (_TEXT, _TEXT)
    + b"".join(rb"%d [%s]{8}\n" % (rank, _LETTERS[rank]) for rank in range(8, 0, -1))
    + rb")"
    + FILES
    + rb"\n"
)
# The line of the stipulation and the line of the first phase.
FIRST_PHASE = re.compile(rb"([^ \n]+(?: [^ \n]+)?)\n(set|play)\n")
SOUND = b"sound"
NOT_POSSIBLE = b"not possible"
TOTAL = re.compile(rb"solutions: (0(?!,)|[1-9][0-9]{0,17})(, stopped)?")
# Ends each item.
ITEM_END = b"\n\n"
# How a total begins.
SOLUTIONS = b"solutions: "
# How the line begins that pops-many writes after the last line of a problem that it stopped.
UNFINISHED = b"unfinished: "


def in_a_line(text: str) -> str:
    r"""Returns a text as one line: a tab is `\t`, a line end `\n`, a backslash `\\`."""
    return text.replace("\\", "\\\\").replace("\t", "\\t").replace("\n", "\\n")


def problem_line(number: int) -> bytes:
    """Returns the first line of an item with its line end."""
    return b"problem %d\n" % number


def total_line(count: int, stopped: bool) -> bytes:
    """Returns the total of a phase with its line end."""
    return b"%s%d%s\n" % (SOLUTIONS, count, b", stopped" if stopped else b"")


def is_total(line: bytes) -> bool:
    """Returns whether a line with its line end says how many solutions a phase has."""
    return line.endswith(b"\n") and TOTAL.fullmatch(line, 0, len(line) - 1) is not None
