"""Shows explained faults as text: the place, the lines with their words marked, the words."""

import textwrap
from bisect import bisect_right

from pops_companions.explain.characters import beginning, shown, width
from pops_companions.explain.explaining import ExplainedFault
from pops_companions.input.words import Span, line_bounds

_WIDEST = 96
# Bytes between two marks that aren't shown together.
_FAR = 2 * _WIDEST
# The least that is shown of a line around marks.
_LEAST = 32
_WIDTH = 88
_TITLE_SHOWN = 60
_BLANKS = bytes.maketrans(b"\t\x0b\x0c\r", b"    ")


class Shower:
    """Shows the faults of one text, under its name."""

    def __init__(self, name: str, text: bytes):
        self._name = name
        self._text = text
        self._bounds = line_bounds(text)

    def text_of(self, explained: ExplainedFault) -> str:
        """Returns an explained fault as some lines of text."""
        fault = explained.fault
        head = f"{self._name}:{fault.line}: problem {explained.problem}"
        if explained.title is not None:
            head += f' "{beginning(explained.title, _TITLE_SHOWN)}"'
        lines = [f"{head}: fault {fault.number}: {fault.text}"]
        lines.extend(self._marked_lines(explained.explanation.marks))
        lines.extend(
            textwrap.wrap(
                explained.explanation.text,
                _WIDTH,
                initial_indent="  ",
                subsequent_indent="  ",
                break_long_words=False,
                break_on_hyphens=False,
            )
        )
        return "\n".join(lines) + "\n"

    def _marked_lines(self, marks: tuple[Span, ...]) -> list[str]:
        """Returns the lines that hold the marks, each with its number and a line of signs below it.
        """
        by_line: dict[int, list[Span]] = {}
        for mark in marks:
            by_line.setdefault(bisect_right(self._bounds, mark.start), []).append(mark)
        digits = max((len(str(line)) for line in by_line), default=0)
        lines = []
        for line, its_marks in by_line.items():
            start = self._bounds[line - 1]
            text, signs = marked(
                self._text[start : self._bounds[line] - 1],
                [(mark.start - start, mark.stop - start) for mark in its_marks],
            )
            lines.append(f"{line:{digits + 4}} | {text}")
            lines.append(f"{'':{digits + 4}} | {signs}")
        return lines


def marked(line: bytes, marks: list[tuple[int, int]]) -> tuple[str, str]:
    """Returns a line as it is shown, and the line of signs below its marked bytes.

    A long line is shown as far as its marks reach; where they are far apart, some bytes around each.
    """
    line = line.rstrip(b"\r").translate(_BLANKS)
    text = signs = ""
    end = 0
    groups = _near_marks(marks)
    for own in groups:
        start, stop = _part(line, own, max(_WIDEST // len(groups), _LEAST))
        start = max(start, end)
        head = "" if start == end else ".."
        text, signs, place = text + head, signs + " " * len(head), start
        for first, last in own:
            last = min(last, stop)
            between, word = shown(line[place:first]), shown(line[first:last])
            text += between + word
            signs += " " * width(between) + "^" * max(width(word), 1)
            place = last
        between = shown(line[place:stop])
        text, signs, end = text + between, signs + " " * width(between), stop
    return text + ("" if end == len(line) else ".."), signs.rstrip(" ")


def _near_marks(marks: list[tuple[int, int]]) -> list[list[tuple[int, int]]]:
    """Returns the marks of a line in groups that are far apart."""
    groups = [marks[:1]]
    for mark in marks[1:]:
        if mark[0] - groups[-1][-1][1] > _FAR:
            groups.append([])
        groups[-1].append(mark)
    return groups


def _part(line: bytes, marks: list[tuple[int, int]], widest: int) -> tuple[int, int]:
    """Returns the bytes to show of a line: all of it, or some around the marks."""
    if len(line) <= _WIDEST:
        return 0, len(line)
    first, last = marks[0][0], marks[-1][1]
    room = max(widest - (last - first), 0)
    start = max(first - room // 2, 0)
    stop = min(start + widest, len(line))
    start = max(stop - widest, 0)
    while 0 < start and line[start] & 0xC0 == 0x80:
        start -= 1
    while stop < len(line) and line[stop] & 0xC0 == 0x80:
        stop += 1
    return min(start, first), stop if len(marks) == 1 else max(stop, last)
