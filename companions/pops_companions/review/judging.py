"""The judgement of a problem by its report; docs/SOUNDNESS.md states what each word means."""

from collections import Counter
from collections.abc import Sequence
from copy import copy
from dataclasses import dataclass, field
from enum import Enum
from typing import Optional, Union

from pops_companions.chess.game_counts import impossible_counts, surely_begun
from pops_companions.chess.stipulation import Play, Stipulation
from pops_companions.input.given import GivenProblem
from pops_companions.report.events import Menace
from pops_companions.report.items import (
    AnyItem,
    Board,
    FaultyItem,
    HeadlessItem,
    Node,
    Phase,
    PhaseKind,
    SoundItem,
)
from pops_companions.report.moves import Mark, PlayedMove
from pops_companions.report.tries import FirstMove, TriesItem
from pops_companions.review.duals import Dual, Place, late_partings, reaches, tree_duals
from pops_companions.review.mates import mates_in
from pops_companions.review.naming import counted


# The most lines of a problem whose judgement is kept for others with the same play, and how many are
# kept.
_MOST_LINES = 20
_MOST_KEPT = 1024


class Verdict(Enum):
    """What a problem is found to be, the worst last."""

    SOUND = "sound"
    UNDECIDED = "undecided"
    UNSOUND = "unsound"
    FAULTY = "faulty"

    # (a member is its own only equal; Enum's hash takes longer)
    __hash__ = object.__hash__


class Weight(Enum):
    """What a finding does to the verdict."""

    NOTE = "note"
    OPEN = "open"
    FLAW = "flaw"
    FAULT = "fault"

    # (a member is its own only equal; Enum's hash takes longer)
    __hash__ = object.__hash__


# What a key does, by its trait.
_TRAITS = {"check": "gives check", "capture": "captures"}
# The verdict on a problem by the heaviest of its findings; without one of these it is sound.
_VERDICTS = {Weight.FAULT: Verdict.FAULTY, Weight.FLAW: Verdict.UNSOUND, Weight.OPEN: Verdict.UNDECIDED}


@dataclass(frozen=True)
class Finding:
    """Something found, in words, with the moves that show it.

    `is_of_solutions` says that the solutions show these moves too.
    """

    weight: Weight
    text: str
    lines: Sequence[Union[str, Dual]] = ()
    is_of_solutions: bool = False


@dataclass
class Judgement:
    """A problem with all that was found; without an item the report lacks it.

    `given` is the problem in the input, if there is one. A number is None where the report doesn't
    show it.
    """

    number: int
    item: Optional[AnyItem]
    given: Optional[GivenProblem] = None
    findings: list[Finding] = field(default_factory=list)
    solutions: Optional[int] = None
    stopped: bool = False
    wanted: Optional[int] = None
    short_solutions: Optional[int] = None
    duals_at_the_end: Optional[int] = None
    duals_earlier: Optional[int] = None
    set_solutions: Optional[int] = None
    unprovided_checks: Optional[int] = None
    threats: Optional[int] = None
    tries: Optional[int] = None
    # What each key threatens: the number of its threats, or `zugzwang`.
    menaces: tuple[str, ...] = ()
    # Men that no game can have, as `White has 9 pawns`.
    impossible_men: tuple[str, ...] = ()
    # What the keys do, as `check` and `capture`.
    key_traits: tuple[str, ...] = ()
    # What all mates of help play are, as `model mates`.
    keywords: Sequence[str] = ()

    @property
    def verdict(self) -> Verdict:
        weights = [finding.weight for finding in self.findings]
        for weight, verdict in _VERDICTS.items():
            if weight in weights:
                return verdict
        return Verdict.SOUND

    @property
    def reasons(self) -> list[str]:
        """What decides the verdict, in words; nothing for a sound problem."""
        return [finding.text for finding in self.findings if finding.weight is not Weight.NOTE]

    def of_another(self, item: SoundItem) -> "Judgement":
        """Returns the judgement of another problem, of which the same was found."""
        other = copy(self)
        other.number, other.item = item.number, item
        return other

    def find(
        self, weight: Weight, text: str, lines: Sequence[Union[str, Dual]] = (), in_solutions: bool = False
    ) -> None:
        """Adds a finding; `in_solutions` says that its moves are among the solutions."""
        self.findings.append(Finding(weight, text, lines, in_solutions))


def judged(
    item: AnyItem,
    wanted: int,
    short: Optional[tuple[str, ...]],
    tries: Optional[TriesItem] = None,
) -> Judgement:
    """Returns the judgement of an item, by the number of solutions that it should have.

    `short` are the short solutions that were found elsewhere, None where none were looked for.
    `tries` are the problem's tries and threats, where they are known.
    """
    judgement = Judgement(item.number, item)
    if isinstance(item, FaultyItem):
        fault = item.fault
        judgement.find(Weight.FAULT, f"line {fault.line}: fault {fault.number}: {fault.text}")
        return judgement
    if isinstance(item, HeadlessItem):
        judgement.find(Weight.OPEN, f"unfinished: {item.unfinished}")
        return judgement
    judgement.wanted = wanted
    if item.board is not None:
        _warn_of_men(judgement, item.board)
    play = item.phase(PhaseKind.PLAY)
    if item.unfinished is not None and (play is None or play.total is None):
        _judge_unfinished(judgement, item, play, short)
    elif play is None or play.total is None:
        judgement.find(Weight.OPEN, "not solved")
    else:
        _judge_solved(judgement, item, play, short, tries)
    return judgement


def _judge_solved(
    judgement: Judgement,
    item: SoundItem,
    play: Phase,
    short: Optional[tuple[str, ...]],
    tries: Optional[TriesItem],
) -> None:
    """Judges a problem whose play has a total."""
    _judge_number(judgement, item.stipulation, play)
    _judge_keys(judgement, item.stipulation, play)
    _judge_short_solutions(judgement, item.stipulation, play, short)
    if tries is None or tries.total is None:
        _judge_duals(judgement, item.stipulation, play)
    else:
        _judge_duals_after_defences(judgement, item.stipulation, tries)
        _judge_keys_by_tries(judgement, tries)
        # (in a problem of one move each other move would be a try)
        if item.stipulation.half_moves > 1:
            _judge_tries(judgement, tries)
    _judge_set_play(judgement, item, play)
    if item.board is not None and item.stipulation.play is Play.HELP:
        judgement.keywords = mates_in(item, item.board.letters)
    if judgement.keywords:
        judgement.find(Weight.NOTE, f"all mates: {', '.join(judgement.keywords)}")


class KeptJudgements:
    """Judgements by the report alone: problems of battle play that show the same play share one."""

    def __init__(self) -> None:
        # (a problem that is kept keeps its phases, so that no others get their id)
        self._kept: dict[tuple[int, int], Judgement] = {}

    def judged(self, item: AnyItem, wanted: int) -> Judgement:
        """Returns what `judged` does without short solutions and tries."""
        if not isinstance(item, SoundItem) or not _is_judged_by_play(item):
            return judged(item, wanted, None)
        key = id(item.phases), wanted
        kept = self._kept.get(key)
        if kept is not None and isinstance(kept.item, SoundItem):
            if kept.item.phases is item.phases and kept.item.stipulation == item.stipulation:
                return kept.of_another(item)
        judgement = judged(item, wanted, None)
        if len(self._kept) >= _MOST_KEPT:
            self._kept.clear()
        self._kept[key] = judgement
        return judgement


def _is_judged_by_play(item: SoundItem) -> bool:
    """Returns whether the judgement depends on few lines of play alone: on no man, and no mate of help
    play.
    """
    if not item.phases or item.unfinished is not None or item.stipulation.play is Play.HELP:
        return False
    if sum([len(phase.lines) for phase in item.phases]) > _MOST_LINES:
        return False
    letters = "" if item.board is None else item.board.letters
    return surely_begun(letters) and not _has_nightriders_alone(letters)


def _has_nightriders_alone(letters: str) -> bool:
    """Returns whether a printed board has nightriders and no knights."""
    return ("N" in letters or "n" in letters) and not ("S" in letters or "s" in letters)


def _warn_of_men(judgement: Judgement, board: Board) -> None:
    """Notes nightriders without knights, and counts of men that no game can have."""
    letters = board.letters
    if _has_nightriders_alone(letters):
        judgement.find(Weight.NOTE, "N is a nightrider here, and there is no knight: knights are S")
    if surely_begun(letters):
        return
    judgement.impossible_men = tuple(impossible_counts(board.men))
    for text in judgement.impossible_men:
        judgement.find(Weight.NOTE, f"no game has these men: {text}")


def _judge_unfinished(
    judgement: Judgement, item: SoundItem, play: Optional[Phase], short: Optional[tuple[str, ...]]
) -> None:
    """Judges by what was found before the problem was stopped; whatever is missing stays open.

    The variations below a key may be cut, so that only keys that reach the goal at once are known
    to be short.
    """
    assert judgement.wanted is not None
    solutions = () if play is None else play.solutions
    found, wanted = len(solutions), judgement.wanted
    judgement.solutions, judgement.stopped = found, True
    word = "solution" if item.stipulation.play is Play.HELP else "key"
    lines = () if play is None else play.texts
    if found > wanted:
        text = f"cooked: at least {counted(found, word)}, {wanted} wanted"
        judgement.find(Weight.FLAW, text, lines, True)
    stipulation = item.stipulation
    ending = [] if play is None else [it.text for it in play.nodes if _ends(it.move)]
    asked = tuple(dict.fromkeys((*(short or ()), *ending)))
    if stipulation.moves > stipulation.least_moves and asked:
        judgement.short_solutions = len(asked)
        judgement.find(Weight.FLAW, f"at least {counted(len(asked), 'short solution')}", asked)
    if found > wanted:
        judgement.find(Weight.OPEN, f"unfinished: {item.unfinished}")
        return
    so_far = f"at least {counted(found, word)}, {wanted} wanted" if found else f"no {word} so far"
    judgement.find(Weight.OPEN, f"unfinished: {so_far} ({item.unfinished})", lines, True)


def missing(number: int) -> Judgement:
    """Returns the judgement of a problem that isn't in the report."""
    judgement = Judgement(number, None)
    judgement.find(Weight.OPEN, "not in the report")
    return judgement


def _judge_number(judgement: Judgement, stipulation: Stipulation, play: Phase) -> None:
    assert play.total is not None and judgement.wanted is not None
    found, wanted = play.total.count, judgement.wanted
    judgement.solutions, judgement.stopped = found, play.total.stopped
    word = "solution" if stipulation.play is Play.HELP else "key"
    least = "at least " if judgement.stopped else ""
    said = f"{least}{counted(found, word)}, {wanted} wanted"
    weight, text = Weight.FLAW, "no solution"
    if found > wanted:
        text = f"cooked: {said}"
    elif judgement.stopped:
        weight, text = Weight.OPEN, f"stopped: {said}"
    elif 0 < found < wanted:
        text = f"solutions missing: {said}"
    elif found:
        return
    judgement.find(weight, text, play.texts, True)


def _judge_keys(judgement: Judgement, stipulation: Stipulation, play: Phase) -> None:
    """Notes keys that give check or capture; in one move each key ends the problem."""
    if stipulation.moves == 1:
        return
    traits: dict[str, None] = {}
    for key in play.nodes:
        move = key.move
        found = ["check"] * (move.mark is Mark.CHECK) + ["capture"] * move.capture
        if found:
            text = " and ".join(_TRAITS[trait] for trait in found)
            judgement.find(Weight.NOTE, f"the key {text}", (key.text,))
            traits.update(dict.fromkeys(found))
    judgement.key_traits = tuple(traits)


def _judge_short_solutions(
    judgement: Judgement, stipulation: Stipulation, play: Phase, asked: Optional[tuple[str, ...]]
) -> None:
    if stipulation.moves <= stipulation.least_moves:
        asked = ()
    lines = dict.fromkeys(asked or ())
    all_shown = stipulation.play is not Play.HELP and not judgement.stopped
    for key in play.nodes:
        if not key.below and not _ends(key.move):
            all_shown = False
        elif not reaches(key, 2 * stipulation.moves - 1):
            lines.setdefault(key.text)
    if lines:
        judgement.find(Weight.FLAW, counted(len(lines), "short solution"), tuple(lines))
    elif asked is None and not all_shown:
        judgement.find(Weight.OPEN, "short solutions not looked for")
        return
    judgement.short_solutions = len(lines)


def _ends(move: PlayedMove) -> bool:
    return move.mark in (Mark.MATE, Mark.STALEMATE)


def _judge_duals(judgement: Judgement, stipulation: Stipulation, play: Phase) -> None:
    if stipulation.play is Play.HELP:
        duals = list(late_partings(play.help_lines))
    else:
        keys = play.nodes
        if any(not key.below and not _ends(key.move) for key in keys):
            judgement.find(Weight.NOTE, "duals not shown: they need Variation")
            return
        duals = list(tree_duals(keys))
    _count_duals(judgement, stipulation, duals)


def _judge_duals_after_defences(
    judgement: Judgement, stipulation: Stipulation, tries: TriesItem
) -> None:
    """Judges the duals after replies that parry the threats; others are no defences."""
    if stipulation.moves > 2 and any(map(_is_cut, tries.keys)):
        judgement.find(Weight.NOTE, "duals not shown: they need Variation")
        return
    keys = (Node(key.text, key.move, list(key.defences)) for key in tries.keys)
    _count_duals(judgement, stipulation, list(tree_duals(keys)))


def _is_cut(key: FirstMove) -> bool:
    """Returns whether a continuation of White is shown without what follows it."""
    continuations = (move for defence in key.defences for move in defence.below)
    return any(not move.below and not _ends(move.move) for move in (*key.threats, *continuations))


def _judge_keys_by_tries(judgement: Judgement, tries: TriesItem) -> None:
    """Says what each key threatens."""
    for key in tries.keys:
        move = key.text[:-1]
        if key.menace is Menace.THREAT:
            text = f"{move}: {counted(len(key.threats), 'threat')}"
            judgement.find(Weight.NOTE, text, (_choices(key.threats),), True)
        elif key.menace is not None:
            judgement.find(Weight.NOTE, f"{move}: {key.menace.value}")
    judgement.menaces = tuple(
        "zugzwang" if key.menace is Menace.ZUGZWANG else str(len(key.threats)) for key in tries.keys
    )
    if len(tries.keys) == 1:
        judgement.threats = len(tries.keys[0].threats)


def _judge_tries(judgement: Judgement, tries: TriesItem) -> None:
    """Says which tries have one refutation."""
    close = [one for one in tries.tries if one.is_stalemate or len(one.refutations) == 1]
    judgement.tries = len(close)
    if close:
        text = ("1 try" if len(close) == 1 else f"{len(close)} tries") + " with one refutation"
        lines = tuple(f"{one.text} {_refuted(one)}" for one in close)
        judgement.find(Weight.NOTE, text, lines, True)


def _refuted(one: FirstMove) -> str:
    """Returns what alone refutes a try."""
    return "stalemate" if one.is_stalemate else f"{one.refutations[0].move.text}!"


def _choices(nodes: tuple[Node, ...]) -> str:
    """Returns moves of White in one line: `2.Qf1-g1# | Qf1-h3#`."""
    first, *others = nodes
    return " | ".join([first.text.strip(), *(node.move.text for node in others)])


def _count_duals(judgement: Judgement, stipulation: Stipulation, duals: list[Dual]) -> None:
    at_the_end = [dual for dual in duals if dual.place is Place.AT_THE_END]
    earlier = [dual for dual in duals if dual.place is Place.EARLIER]
    judgement.duals_at_the_end, judgement.duals_earlier = len(at_the_end), len(earlier)
    goal = stipulation.goal.word
    _find_duals(judgement, f"at the {goal}", at_the_end)
    _find_duals(judgement, f"before the {goal}", earlier)


def _find_duals(judgement: Judgement, where: str, duals: list[Dual]) -> None:
    if not duals:
        return
    moves = Counter(dual.move for dual in duals)
    places = ", ".join(f"{count} on move {move}" for move, count in sorted(moves.items()))
    promotions = sum(dual.by_promotion for dual in duals)
    of_these = f"; {promotions} by promotion alone" if promotions else ""
    text = f"{counted(len(duals), 'dual')} {where}: {places}{of_these}"
    judgement.find(Weight.NOTE, text, duals)


def _judge_set_play(judgement: Judgement, item: SoundItem, play: Phase) -> None:
    phase = item.phase(PhaseKind.SET)
    if phase is None or (phase.total is None and phase.is_possible):
        return
    if phase.total is None:
        judgement.find(Weight.NOTE, "set play not possible")
        return
    judgement.set_solutions = phase.total.count
    least = "at least " if phase.total.stopped else ""
    if item.stipulation.play is Play.HELP:
        text = f"set play: {least}{counted(phase.total.count, 'solution')}"
        judgement.find(Weight.NOTE, text, phase.texts, True)
        return
    provided = phase.nodes
    choices = sum(len(node.below) > 1 for node in provided)
    text = f"set play: {least}{counted(len(provided), 'move')} of Black provided for"
    if choices:
        text += f", {choices} with a choice"
    judgement.find(Weight.NOTE, text, tuple(map(_with_continuations, provided)), True)
    keys = play.nodes
    if phase.total.stopped or not any(key.below for key in keys):
        return
    unprovided = _unprovided_checks(provided, keys)
    judgement.unprovided_checks = len(unprovided)
    if unprovided:
        judgement.find(Weight.NOTE, counted(len(unprovided), "unprovided check"), unprovided)


def _with_continuations(node: Node) -> str:
    choices = [below.text.strip() for below in node.below]
    return " | ".join([f"{node.text} {choices[0]}", *choices[1:]]) if choices else node.text


def _unprovided_checks(provided: list[Node], keys: list[Node]) -> tuple[str, ...]:
    """Returns the checks of Black after the keys that set play doesn't show, by their squares."""
    known = {_step(node.move) for node in provided}
    checks: dict[str, None] = {}
    for key in keys:
        for defence in key.below:
            if defence.move.mark is Mark.CHECK and _step(defence.move) not in known:
                checks.setdefault(defence.text.strip())
    return tuple(checks)


def _step(move: PlayedMove) -> tuple[object, ...]:
    return move.origin, move.arrival, move.promotion
