"""Short solutions: the input that asks for them, and its report."""

import re
from collections.abc import Iterable, Iterator
from dataclasses import dataclass, replace
from typing import Optional

from pops_companions.chess.stipulation import MOST_MOVES, Condition, Play, Stipulation
from pops_companions.input.given import GivenProblem
from pops_companions.input.words import is_short_for
from pops_companions.report.items import AnyItem, Board, PhaseKind, SoundItem

_OPTIONS_LEFT_OUT = ("setplay", "variation")
_TITLE = re.compile(rb"(\S+) of problem ([1-9][0-9]{0,8})")


class AnswersError(ValueError):
    """A report that isn't that of the shorter stipulations, with what is wrong."""


def shorter(stipulation: Stipulation) -> list[Stipulation]:
    """Returns the stipulations that must have no solution where this one is to have no short one.

    In battle play the next shorter one holds all shorter ones. Help play shows lines of one length
    alone, so all shorter ones are posed. Returns none for a stipulation that is too long for pops.
    """
    if stipulation.moves + stipulation.half_more > MOST_MOVES:
        return []
    if stipulation.play is not Play.HELP:
        moves = stipulation.moves - 1
        return [replace(stipulation, moves=moves)] if moves > 0 else []
    fewer = range(stipulation.least_moves, stipulation.moves)
    return [replace(stipulation, moves=moves) for moves in fewer]


def posed_problems(problems: Iterable[GivenProblem]) -> Iterator[list[str]]:
    """Yields the lines of each problem with a shorter stipulation; its title names the problem.

    Options stay, but for SetPlay and Variation: only the solutions are asked for.
    """
    for problem in problems:
        asked = problem.stipulation
        if asked is None:
            continue
        for stipulation in shorter(asked):
            title = f"Title {stipulation.text} of problem {problem.number}"
            yield [title, *_sections(problem, stipulation)]


def _sections(problem: GivenProblem, stipulation: Stipulation) -> Iterator[str]:
    """Yields its sections with another stipulation, each on a line; those left empty are left out."""
    for section in problem.sections:
        words = [
            word.decode("utf-8", "surrogateescape")
            for word in section.words
            if not any(is_short_for(word, option) for option in _OPTIONS_LEFT_OUT)
        ]
        if section.command == "Stipulation":
            words[1:] = [stipulation.text for _ in words[1:]]
        if len(words) > 1:
            yield " ".join(words)


@dataclass(frozen=True)
class _Answer:
    """The solutions of a posed problem. Without `complete` there may be more."""

    board: Optional[Board]
    condition: Optional[Condition]
    lines: tuple[str, ...]
    complete: bool


class ShortAnswers:
    """What the report of the posed problems says of each problem."""

    def __init__(self, items: Iterable[AnyItem]):
        """Reads the report. AnswersError where an item isn't of a posed problem."""
        self._answers: dict[tuple[int, str], _Answer] = {}
        for item in items:
            if not isinstance(item, SoundItem):
                continue
            whose = _TITLE.fullmatch(item.title or b"")
            if whose is None or whose[1].decode("latin-1") != item.stipulation.text:
                raise AnswersError(
                    f"problem {item.number} has no title as --pose gives it,"
                    f" such as '{item.stipulation.text} of problem 1'"
                )
            play = item.phase(PhaseKind.PLAY)
            if play is not None:
                key = (int(whose[2]), item.stipulation.text)
                complete = item.unfinished is None
                self._answers[key] = _Answer(item.board, item.condition, play.texts, complete)

    def of(self, item: SoundItem) -> Optional[tuple[str, ...]]:
        """Returns the short solutions of a problem, as far as they are known.

        None where none is known and a report of them is missing. AnswersError where the reports are
        of another problem.
        """
        lines: list[str] = []
        complete = True
        for stipulation in shorter(item.stipulation):
            answer = self._answers.get((item.number, stipulation.text))
            if answer is None:
                complete = False
                continue
            boards = {answer.board, item.board} - {None}
            if len(boards) > 1 or answer.condition is not item.condition:
                raise AnswersError(
                    f"'{stipulation.text} of problem {item.number}' is another problem there"
                )
            complete = complete and answer.complete
            lines.extend(answer.lines)
        return tuple(lines) if lines or complete else None
