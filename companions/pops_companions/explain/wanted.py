"""Numbers that stand after a stipulation, as magazines write them: `2.1.1.1`, `2 sol.`, `(3+1)`."""

import math
import re
from typing import Optional

from pops_companions.chess.stipulation import Play, Stipulation
from pops_companions.explain.case import Case, Explanation
from pops_companions.explain.characters import decoded
from pops_companions.explain.sentences import DATA

# As 2.1.1.1, 2.1.., 3.1;1.1 and 0.2.1.1; not 2 alone.
_COUNTS = re.compile(r"\(?[0-9]{1,3}(?:[.,;]+[0-9]{1,3})*[.,;]*(?:\)[.,;]*)?")
_HALF = re.compile(r"^(h[#=][0-9]+)(?:,5(?![0-9]|\.[0-9])|½)", re.IGNORECASE)
_OR_ANOTHER = re.compile(r"^[^0-9]*[0-9]+[,;:/(\[]+[0-9]+$")
_OF_MEN = re.compile(r"\(?[0-9]{1,2}(?:\+[0-9]{1,2}){1,2}\)?[.,;]*")
_JOINED = re.compile(r"(.*?[^;:,(\[/])[;:,(\[/]+([0-9]+(?:[.,;][0-9]+)*)[.,;]*[)\]]?")
_OF_SOLUTIONS = re.compile(
    rf"\(?([1-9][0-9]{{0,3}}) ?(?:{DATA['stipulations']['solutions']})[.,;]*(?:\)[.,;]*)?", re.IGNORECASE
)


def numbers(case: Case) -> Optional[Explanation]:
    """Explains a number of solutions after a stipulation."""
    reading = case.reading
    if reading.section != "Stipulation" or reading.stipulation is None:
        return None
    said = _in_words(case)
    if said is not None:
        return said
    if not _COUNTS.fullmatch(case.plain) or re.fullmatch("[0-9]+", case.plain):
        return None
    return _counted(case, reading.stipulation)


def men(case: Case) -> Optional[Explanation]:
    """Explains the numbers of men after a stipulation."""
    is_after = case.reading.section == "Stipulation" and case.reading.stipulation is not None
    if not is_after or not _OF_MEN.fullmatch(case.plain):
        return None
    return case.tells("count_of_men")


def _in_words(case: Case) -> Optional[Explanation]:
    """Explains a number with a word, as `2 solutions`."""
    words = case.rest_of_line(2)
    for several in (words, words[:1]):
        found = _OF_SOLUTIONS.fullmatch(" ".join(decoded(it.bytes) for it in several))
        if found is not None:
            spans = [it.span for it in several]
            return case.tells("solutions_in_words", *spans, count=int(found[1]))
    return None


def _counted(case: Case, stipulation: Stipulation) -> Optional[Explanation]:
    """Explains numbers, one for each half-move or fewer: a 0 in front says that White begins."""
    values = _numbers(case.plain)
    half_moves = stipulation.half_moves
    if "." not in case.plain and len(values) != half_moves:
        return None
    is_help, starts_later = stipulation.play is Play.HELP, values[0] == 0
    count = math.prod(values[1:] if is_help and starts_later else values)
    most = half_moves + (1 if starts_later and stipulation.half_more else 0)
    if not count or len(values) > most:
        return case.tells("count_unclear")
    if not starts_later or stipulation.half_more:
        return case.tells("count_of_solutions", count=count)
    half = f"h{stipulation.goal.value}{stipulation.moves - 1}.5"
    return case.tells("count_where_white_begins", half=half, count=count)


def joined(case: Case) -> Optional[Explanation]:
    """Explains a number of solutions in one word with the stipulation, as `h#2;2.1.1.1`."""
    # (in `h#2,5` the comma is a point)
    found = _JOINED.fullmatch(_HALF.sub(r"\g<1>.5", case.plain))
    if found is None or not case.fits(found[1]):
        return None
    # (`#2/3` and `#3,2` may be two mates, `h#2;5` one of a half-move more)
    if _OR_ANOTHER.search(case.plain):
        return None
    count = math.prod(_numbers(found[2]))
    if not count:
        return case.tells("count_unclear")
    return case.tells("counted", second=found[2], first=found[1], count=count)


def _numbers(text: str) -> list[int]:
    """Returns the numbers of a text as 2.1.1.1."""
    return [int(it) for it in re.findall("[0-9]+", text)]
