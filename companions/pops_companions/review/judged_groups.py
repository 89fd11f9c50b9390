"""Judgements of problems with their twins: one verdict for all of them."""

from collections import deque
from collections.abc import Iterable, Iterator, Sequence
from typing import NamedTuple

from pops_companions.input.given import GivenProblem
from pops_companions.report.items import AnyItem, HeadlessItem
from pops_companions.review.judging import Judgement, Verdict
from pops_companions.show.titles import printable
from pops_companions.show.twins import Group, groups

_VERDICTS = list(Verdict)


class JudgedGroup(NamedTuple):
    """A problem with its twins, and the judgement of each."""

    group: Group
    judgements: tuple[Judgement, ...]

    @property
    def verdict(self) -> Verdict:
        """The worst verdict of its twins."""
        if len(self.judgements) == 1:
            return self.judgements[0].verdict
        return max((it.verdict for it in self.judgements), key=_VERDICTS.index)

    @property
    def headings(self) -> Iterator[tuple[str, Judgement]]:
        """Each twin's label and change, as `b) Move a1 b2`, with its judgement."""
        return zip((printable(twin.heading) for twin in self.group.twins), self.judgements)


def judged_groups(
    judgements: Iterable[Judgement], given: Sequence[GivenProblem], encoding: str, apart: bool
) -> Iterator[JudgedGroup]:
    """Groups the judgements of twins; `apart` leaves each one alone."""
    waiting: deque[Judgement] = deque()

    def items() -> Iterator[AnyItem]:
        for judgement in judgements:
            waiting.append(judgement)
            yield judgement.item or HeadlessItem(judgement.number, "not in the report")

    for group in groups(items(), given, encoding, apart):
        yield JudgedGroup(group, tuple(waiting.popleft() for _ in group.twins))
