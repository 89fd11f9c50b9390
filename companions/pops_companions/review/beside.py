"""What is known of the problems of a report beside it: wanted numbers, short solutions, tries."""

from collections.abc import Iterator
from contextlib import contextmanager
from dataclasses import dataclass
from typing import NoReturn, Optional

from pops_companions.chess.stipulation import Play
from pops_companions.command import DeviceError
from pops_companions.input.given import GivenProblem
from pops_companions.input.given_source import read_given
from pops_companions.report.items import AnyItem, FaultyItem, SoundItem
from pops_companions.report.source import opened_unfinished_report
from pops_companions.report.tries import TriesItem, is_of_item
from pops_companions.review.kept_text import KnownTries
from pops_companions.review.judging import Judgement, KeptJudgements, judged, missing
from pops_companions.review.posing import AnswersError, ShortAnswers

# Without an input no more problems than these are listed as missing.
_MOST_LACKING = 10_000


@dataclass
class Course:
    """How far a report was judged: its last problem, and how many it lacks so far."""

    last: int = 0
    lacking: int = 0


class Beside:
    """The input of a report and the report of the shorter stipulations, where they are named."""

    def __init__(
        self,
        companion: str,
        solutions: int,
        input_file: Optional[str],
        short_file: Optional[str],
        tries: KnownTries,
    ):
        """Reads both. `solutions` are wanted in help play where the input says nothing.

        `given` are the problems of the input, none where none is named. `tries` are the tries and
        threats of problems by their numbers, as far as they are known.
        """
        self._solutions = solutions
        self._tries = tries
        self._input_file = input_file
        self._short_file = short_file
        self.given: list[GivenProblem] = []
        self._answers: Optional[ShortAnswers] = None
        self._kept = KeptJudgements()
        if input_file is not None:
            self.given = read_given(companion, input_file)
        if short_file is not None:
            with opened_unfinished_report(companion, short_file, None, "utf-8") as items:
                with self._fitting_answers():
                    self._answers = ShortAnswers(items)

    def judgements(self, items: Iterator[AnyItem]) -> Iterator[Judgement]:
        """Judges the items of a report, and adds the problems that it lacks."""
        course = Course()
        yield from self.judgements_of_piece(items, course)
        yield from self.missing_at_end(course)

    def judgements_of_piece(
        self, items: Iterator[AnyItem], course: "Course"
    ) -> Iterator[Judgement]:
        """Judges the next items of a report, and adds the problems that it lacks before them."""
        for item in items:
            if item.number <= course.last:
                if self._input_file is not None or self._short_file is not None or self._tries:
                    options = "--input, --short and --tries"
                    raise DeviceError(f"{options} go with one report, not with several joined")
                course.last = 0
            course.lacking += item.number - course.last - 1
            self._refuse_far(item.number, course.lacking)
            yield from map(self._missing, range(course.last + 1, item.number))
            course.last = item.number
            yield self._judged(item)

    def missing_at_end(self, course: "Course") -> Iterator[Judgement]:
        """Yields the problems of the input after the last one of the report."""
        return map(self._missing, range(course.last + 1, len(self.given) + 1))

    def _given_of(self, number: int) -> Optional[GivenProblem]:
        return self.given[number - 1] if number <= len(self.given) else None

    def _missing(self, number: int) -> Judgement:
        judgement = missing(number)
        judgement.given = self._given_of(number)
        return judgement

    def may_lack(self, lacking: int) -> bool:
        """Returns whether `lacking` problems may be missing: with an input these are its own."""
        return self._input_file is not None or lacking <= _MOST_LACKING

    def _refuse_far(self, number: int, lacking: int) -> None:
        """Refuses a number that the input hasn't, or that leaves too many problems missing."""
        if not self.may_lack(lacking):
            message = f"problem {number} leaves more than {_MOST_LACKING} missing: name the --input"
            raise DeviceError(message)
        if self._input_file is not None and number > len(self.given):
            self._refuse_input(f"it has no problem {number}")

    def _judged(self, item: AnyItem) -> Judgement:
        wanted, short, tries = 1, None, None
        if isinstance(item, SoundItem):
            wanted = self._wanted(item)
            tries = self._tries_of(item)
            if self._answers is not None:
                with self._fitting_answers():
                    short = self._answers.of(item)
        if short is None and tries is None:
            judgement = self._kept.judged(item, wanted)
        else:
            judgement = judged(item, wanted, short, tries)
        judgement.given = self._given_of(item.number)
        return judgement

    def _tries_of(self, item: SoundItem) -> Optional[TriesItem]:
        tries = self._tries.get(item.number)
        if isinstance(tries, FaultyItem):
            message = f"the text of tries calls problem {item.number} faulty, and the report sound"
            raise DeviceError(message)
        if tries is not None:
            boards = {tries.board, item.board} - {None}
            theirs, ours = (tries.stipulation, tries.condition), (item.stipulation, item.condition)
            if len(boards) > 1 or theirs != ours or not is_of_item(tries, item):
                message = f"the text of tries has another problem {item.number} than the report"
                raise DeviceError(message)
        return tries

    def _wanted(self, item: SoundItem) -> int:
        usual = self._solutions if item.stipulation.play is Play.HELP else 1
        if self._input_file is None:
            return usual
        problem = self.given[item.number - 1]
        if problem.stipulation != item.stipulation:
            self._refuse_input(f"problem {item.number} has another stipulation there")
        return usual if problem.wanted is None else problem.wanted

    @contextmanager
    def _fitting_answers(self) -> Iterator[None]:
        try:
            yield
        except AnswersError as error:
            message = f"{self._short_file} doesn't answer what --pose asked: {error}"
            raise DeviceError(message) from None

    def _refuse_input(self, reason: str) -> NoReturn:
        raise DeviceError(f"{self._input_file} isn't the report's input: {reason}")
