"""Explains the faults of a report by the text that it is of."""

from collections.abc import Callable, Iterable, Iterator, Mapping
from dataclasses import dataclass
from typing import Optional

from pops_companions.explain import endings, men, misplaced, options, stipulations
from pops_companions.explain.case import Case, Explanation, at
from pops_companions.explain.sentences import sentence
from pops_companions.input.pieces import cut
from pops_companions.input.reading import FaultKind, Reading, read_piece
from pops_companions.input.words import Span, TextLine
from pops_companions.report.items import Fault, FaultyItem, Item


class OtherText(ValueError):
    """A report that isn't of the text at hand."""


@dataclass(frozen=True)
class ExplainedFault:
    """The fault of a problem with its explanation."""

    problem: int
    title: Optional[bytes]
    fault: Fault
    explanation: Explanation


def explain(
    text: bytes, items: Iterable[Item], places: Optional[Mapping[int, Span]] = None
) -> Iterator[ExplainedFault]:
    """Yields the faults of a report, explained one by one. OtherText where it isn't of this text.

    `places` has where pops finds the faults, by their problems, as far as that is known.
    """
    pieces = cut(text)
    last = 0
    for item in items:
        number = item.number
        if number <= last:
            raise OtherText("it is of several texts: give the report of one")
        last = number
        fault = item.fault if isinstance(item, FaultyItem) else None
        if fault is not None and fault.number in _WITHOUT_WORD:
            yield ExplainedFault(number, None, fault, at(sentence(_WITHOUT_WORD[fault.number])))
            continue
        if number > len(pieces):
            raise OtherText(f"it has problem {number}, and the text has {len(pieces)}")
        if fault is None:
            continue
        piece = pieces[number - 1]
        reading = read_piece(text, piece)
        _compare(text, number, fault, reading)
        _compare_place(number, reading, (places or {}).get(number))
        yield ExplainedFault(number, _title(reading), fault, explanation(text, reading))


def explanation(text: bytes, reading: Reading) -> Explanation:
    """Returns what is wrong with a faulty problem, and what to do."""
    assert reading.number is not None
    if reading.at is None:
        if reading.number is FaultKind.END_PROBLEM_MISSING:
            return endings.end_problem_missing(Case(text, reading))
        return misplaced.no_problem(text, bool(reading.text_lines))
    return _BY_WORD[reading.number](Case(text, reading))


def _square_missing(case: Case) -> Explanation:
    is_of_a_man = case.reading.section == "Pieces"
    return men.square_missing(case) if is_of_a_man else options.square_missing(case)


def _compare(text: bytes, number: int, fault: Fault, reading: Reading) -> None:
    line = text.count(b"\n") + 1 if reading.at is None else reading.word.line
    if (fault.number, fault.line) == (reading.number, line):
        return
    here = "no fault"
    if reading.number is not None:
        here = f"fault {reading.number.value} in line {line}"
    raise OtherText(
        f"it tells fault {fault.number} in line {fault.line} of problem {number}, and the text as"
        f" it is has {here} there"
    )


def _compare_place(number: int, reading: Reading, place: Optional[Span]) -> None:
    own = reading.fault_span
    if place is not None and place != own:
        raise OtherText(
            f"pops finds the fault of problem {number} in bytes {place.start} up to {place.stop}, and"
            f" the text as it is has it in bytes {own.start} up to {own.stop}"
        )


def _title(reading: Reading) -> Optional[bytes]:
    tokens = [*reading.tokens, *reading.later()]
    lines = [it for it in tokens if isinstance(it, TextLine) and it.name == "Title"]
    return lines[-1].text.strip() or None if lines else None


_WITHOUT_WORD: dict[int, str] = {
    FaultKind.INPUT_TOO_LONG: "input_too_long",
    FaultKind.DEVICE_FAILED: "device_failed",
}
_BY_WORD: dict[FaultKind, Callable[[Case], Explanation]] = {
    FaultKind.BEGIN_PROBLEM_MISSING: misplaced.begin_problem_missing,
    FaultKind.WORD_MISPLACED: misplaced.word_misplaced,
    FaultKind.WORD_TOO_LONG: misplaced.word_too_long,
    FaultKind.COLOUR_MISSING: men.colour_missing,
    FaultKind.SQUARE_TAKEN: men.square_taken,
    FaultKind.PAWN_ON_OUTER_RANK: men.pawn_on_outer_rank,
    FaultKind.SECOND_KING: men.second_king,
    FaultKind.BAD_STIPULATION: stipulations.bad_stipulation,
    FaultKind.SECOND_STIPULATION: stipulations.second_stipulation,
    FaultKind.STIPULATION_MISSING: endings.stipulation_missing,
    FaultKind.NO_MEN: endings.no_men,
    FaultKind.SECOND_CONDITION: options.second_condition,
    FaultKind.BAD_LIMIT: options.bad_limit,
    FaultKind.SQUARE_MISSING: _square_missing,
    FaultKind.EN_PASSANT_IMPOSSIBLE: options.en_passant_impossible,
    FaultKind.NONE_CASTLES_THERE: options.none_castles_there,
    FaultKind.KING_MISSING: men.king_missing,
    FaultKind.WAITING_SIDE_IN_CHECK: men.waiting_side_in_check,
}
