"""What reports and texts of tries say as JSON objects; *.schema.json state their schemas."""

import json
import re
from enum import Enum
from functools import lru_cache
from typing import Any, Optional, Union

from pops_companions.chess.stipulation import Stipulation
from pops_companions.input.given import GivenProblem
from pops_companions.report import events, items
from pops_companions.report.moves import PlayedMove
from pops_companions.report.tries import AnyTriesItem, FirstMove, TriesItem
from pops_companions.show.titles import shown
from pops_companions.stored import stored

Json = dict[str, Any]
_REFERENCE = re.compile(r'"#/\$defs/(\w+)"')


class Form(Enum):
    """What an object is of; its value is the name of its schema."""

    ITEM = "item"
    TRIES = "tries"
    EVENT = "event"


def schema(form: Form) -> Json:
    """Returns the JSON Schema of an object, with all that it refers to."""
    made: Json = stored(f"show/{form.value}.schema.json")
    item, tries = (stored(f"show/{it.value}.schema.json") for it in (Form.ITEM, Form.TRIES))
    shared = {**item["$defs"], **tries["$defs"]}
    own: Json = made["$defs"]
    while lacking := set(_REFERENCE.findall(json.dumps(made))) - set(own):
        own.update((name, shared[name]) for name in sorted(lacking))
    return made


def item_object(
    item: Union[items.AnyItem, AnyTriesItem], encoding: str, given: Optional[GivenProblem] = None
) -> Json:
    """Returns the object of an item; title, author and origin that aren't in the encoding are
    Latin-1.

    With the problem of the input it also has its origin, and if it has no head title and author.
    """
    names = {} if given is None else _names(given, given, encoding)
    if isinstance(item, items.FaultyItem):
        return {"number": item.number, "sound": False, **names, "fault": _fault(item.fault)}
    if isinstance(item, items.HeadlessItem):
        return {"number": item.number, **names, "unfinished": item.unfinished}
    solutions = _tries(item) if isinstance(item, TriesItem) else _phases(item)
    ending = {} if item.unfinished is None else {"unfinished": item.unfinished}
    return {
        "number": item.number,
        "sound": True,
        **_names(item, given, encoding),
        **_head(item),
        **solutions,
        **ending,
    }


def _fault(fault: items.Fault) -> Json:
    return {"line": fault.line, "number": fault.number, "text": fault.text}


def _head(source: Union[items.SoundItem, TriesItem, events.HeadEvent]) -> Json:
    return {
        "board": None if source.board is None else _board(source.board),
        "stipulation": _stipulation(source.stipulation),
        "condition": None if source.condition is None else source.condition.value,
    }


def _names(
    source: Union[items.SoundItem, TriesItem, events.HeadEvent, GivenProblem],
    given: Optional[GivenProblem],
    encoding: str,
) -> Json:
    names = {"title": _text(source.title, encoding), "author": _text(source.author, encoding)}
    if given is not None:
        names["origin"] = _text(given.origin, encoding)
    return names


def _text(text: Optional[bytes], encoding: str) -> Optional[str]:
    return None if text is None else shown(text, encoding)


def _board(board: items.Board) -> Json:
    men = [
        {"square": square.name, "colour": man.colour.value, "man": man.kind.word}
        for square, man in board.men.items()
    ]
    return {"ranks": list(board.ranks), "men": men}


def _stipulation(stipulation: Stipulation) -> Json:
    return {
        "text": stipulation.text,
        "play": stipulation.play.value,
        "goal": stipulation.goal.word,
        "moves": stipulation.moves,
        "half_moves": stipulation.half_moves,
    }


def _phases(item: items.SoundItem) -> Json:
    return {"phases": None if item.phases is None else [_phase(phase) for phase in item.phases]}


def _phase(phase: items.Phase) -> Json:
    if not phase.is_possible:
        return {"phase": phase.kind.value, "possible": False}
    return {
        "phase": phase.kind.value,
        "possible": True,
        "count": None if phase.total is None else phase.total.count,
        "stopped": phase.total is not None and phase.total.stopped,
        "solutions": [_solution(solution) for solution in phase.solutions],
    }


def _tries(item: TriesItem) -> Json:
    return {
        "set": None if item.set_play is None else _phase(item.set_play),
        "keys": [_first_move(one) for one in item.keys],
        "count": None if item.total is None else item.total.count,
        "stopped": item.total is not None and item.total.stopped,
        "tries": [_first_move(one) for one in item.tries],
    }


def _first_move(first: FirstMove) -> Json:
    return {
        "text": first.text,
        "move": _move(first.move),
        "menace": None if first.menace is None else first.menace.value,
        "threats": [_solution(node) for node in first.threats],
        "defences": [_solution(node) for node in first.defences],
        "refutations": [_solution(node) for node in first.refutations],
        "stalemate": first.is_stalemate,
    }


def _solution(solution: Union[items.HelpLine, items.Node]) -> Json:
    if isinstance(solution, items.HelpLine):
        return {"text": solution.text, "moves": [_move(move) for move in solution.moves]}
    below = [_solution(node) for node in solution.below]
    return {"text": solution.text.lstrip(" "), "move": _move(solution.move), "below": below}


# (the lines of a long report have few moves, of which each takes more memory than its line)
@lru_cache(maxsize=1 << 14)
def _move(move: PlayedMove) -> Json:
    rebirth = move.rebirth
    return {
        "text": move.text,
        "half": move.half,
        "side": move.side.value,
        "man": move.kind.word,
        "from": move.origin.name,
        "to": move.arrival.name,
        "capture": move.capture,
        "en_passant": move.en_passant,
        "castling": None if move.castling is None else move.castling.value,
        "promotion": None if move.promotion is None else move.promotion.word,
        "rebirth": None
        if rebirth is None
        else {
            "square": rebirth.square.name,
            "colour": rebirth.man.colour.value,
            "man": rebirth.man.kind.word,
        },
        "mark": None if move.mark is None else move.mark.name.lower(),
    }


def event_object(event: events.Event, encoding: str) -> Json:
    """Returns the object of an event."""
    made: Json = {"event": _event_name(type(event).__name__)}
    if isinstance(event, events.HeadEvent):
        names = _names(event, None, encoding)
        return {**made, "problem": event.problem, **names, **_head(event)}
    for name, value in vars(event).items():
        made.update(_said(name, value))
    return made


@lru_cache(maxsize=None)
def _event_name(kind: str) -> str:
    """Returns what an object calls an event: `not_possible` for NotPossibleEvent."""
    return "_".join(re.findall("[A-Z][a-z]+", kind)[:-1]).lower()


def _said(name: str, value: object) -> Json:
    """Returns what a field of an event says; a line and a total say several things."""
    if isinstance(value, items.HelpLine):
        return _solution(value)
    if isinstance(value, items.Total):
        return {"count": value.count, "stopped": value.stopped}
    if isinstance(value, items.Fault):
        return {name: _fault(value)}
    if isinstance(value, PlayedMove):
        return {name: _move(value)}
    if isinstance(value, events.FirstMoveKind):
        return {name: value.name.lower()}
    return {name: value.value if isinstance(value, Enum) else value}
