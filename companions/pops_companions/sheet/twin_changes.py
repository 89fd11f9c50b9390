"""What makes a twin, as magazines print it: `Ra1→b2`, `–Pc3`, `+bQd4`, `Sa1↔Bb2`, `h#3`."""

import re
from collections.abc import Iterator, Mapping
from typing import Optional

from pops_companions.chess.attacks import Men
from pops_companions.chess.men import Changes, Man, Square
from pops_companions.report.items import AnyItem, Board, SoundItem
from pops_companions.sheet.languages import COLOUR_MARKS, MARKS, Language
from pops_companions.show.twins import Twin

# With more changes a twin is shown as the input says it.
_MOST_CHANGES = 6
_ROTATE = re.compile(r"\bRotate (90|180|270)\b", re.IGNORECASE)
_MIRROR = re.compile(r"\bMirror ([a-h][1-8])<-+>([a-h][1-8])", re.IGNORECASE)
_SHIFT = re.compile(r"\bShift ([a-h][1-8]) ([a-h][1-8])", re.IGNORECASE)
_EXCHANGED = re.compile(r"\bPolishType\b", re.IGNORECASE)
_CONTINUED = re.compile(r"\bContinued\b", re.IGNORECASE)


def change_of(
    twin: Twin, first: Twin, before: Twin, boards: Mapping[int, Board], words: Language
) -> str:
    """Returns what makes a twin of the first one, or of the one before it, if it goes on from there.

    Men are marked as in lines. What isn't known is as the input says it.
    """
    said = twin.change
    if twin.label.is_duplex:
        return words.reversed
    is_continued = _CONTINUED.search(said) is not None
    found, rest = _of_board(_CONTINUED.sub("", said), words)
    if found and rest.strip(" ,"):
        return said
    base = before if is_continued else first
    board, of_base = boards.get(twin.item.number), boards.get(base.item.number)
    if not found and board is not None and of_base is not None:
        found = list(_of_men(of_base.men, board.men))
        if len(found) > _MOST_CHANGES:
            return said
    asked, asked_before = _asked(twin.item), _asked(base.item)
    if asked is not None and asked_before is not None and asked != asked_before:
        found.append(words.asked(asked))
    if not found:
        return said
    return f"{words.continued} " * is_continued + ", ".join(found)


def _asked(item: AnyItem) -> Optional[str]:
    return item.asked if isinstance(item, SoundItem) else None


def _of_board(said: str, words: Language) -> tuple[list[str], str]:
    """Returns the changes of the whole board, and what else is said."""
    found: list[str] = []
    for pattern, text, sign in (
        (_ROTATE, words.rotated, ""),
        (_MIRROR, words.mirrored, "↔"),
        (_SHIFT, words.shifted, "→"),
        (_EXCHANGED, words.exchanged, ""),
    ):
        for parts in pattern.finditer(said):
            found.append(text.format(sign.join(parts.groups())))
        said = pattern.sub("", said)
    return found, said


def _of_men(before: Men, now: Men) -> Iterator[str]:
    """Yields how some men become others: exchanged, moved, in place of another, gone, new."""
    changes = Changes(before, now)
    gone, new = changes.gone, changes.new
    yield from _exchanged(gone, new)
    for man, square, target in changes.moved():
        yield f"{_shown(man, square)}→{target.name}"
    for square in [it for it in gone if it in new]:
        old, man = gone.pop(square), new.pop(square)
        colour = "" if old.colour is man.colour else COLOUR_MARKS[man.colour]
        yield f"{_shown(old, square)}={colour}{MARKS[man.kind]}"
    yield from (f"–{_shown(man, square)}" for square, man in gone.items())
    for square, man in new.items():
        yield f"+{COLOUR_MARKS[man.colour]}{_shown(man, square)}"


def _exchanged(gone: dict[Square, Man], new: dict[Square, Man]) -> Iterator[str]:
    """Yields the pairs of men that changed places, and takes them out."""
    squares = sorted((it for it in gone if it in new), key=lambda square: square.name)
    for place, one in enumerate(squares):
        for other in squares[place + 1 :]:
            if one not in gone or other not in gone:
                continue
            if (gone[one], gone[other]) == (new[other], new[one]):
                yield f"{_shown(gone[one], one)}↔{_shown(gone[other], other)}"
                for square in (one, other):
                    del gone[square], new[square]


def _shown(man: Man, square: Square) -> str:
    return MARKS[man.kind] + square.name
