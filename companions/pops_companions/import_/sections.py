"""Stipulations and conditions among the words of a text."""

import re
from typing import Optional

from pops_companions.chess.stipulation import Condition
from pops_companions.import_.language import meaning, meaning_of_three, table_of
from pops_companions.import_.words import Unreadable, Word, Words

_CONDITIONS = table_of((condition.value, condition.value) for condition in Condition)
# pops knows no two at once, and a message names fewer.
_MOST_CONDITIONS = 100
# As 2, 2.1.1.1 and 2.1..: how many solutions there are, by how many half-moves they part.
_MOST_WANTED = 999_999_999
_WANTED = re.compile(r"[1-9][0-9]{0,8}(\.[1-9][0-9]{0,8})*\.*")


def wanted_of(text: str) -> Optional[int]:
    """Returns the number of solutions that 2.1.1.1 stands for, the product; None for another text, or
    for a product that is too great.
    """
    if not _WANTED.fullmatch(text):
        return None
    wanted = 1
    for number in re.findall("[0-9]+", text):
        wanted *= int(number)
        if wanted > _MOST_WANTED:
            return None
    return wanted


def take_wanted(words: Words) -> tuple[Optional[int], str]:
    """Takes a number of solutions with points after a stipulation, as 2.1..; and its text."""
    word = words.peek()
    wanted = None if word is None or "." not in word.text else wanted_of(word.text)
    return (None, "") if wanted is None else (wanted, words.take().text)


def take_stipulation(words: Words) -> str:
    """Returns the word of a stipulation; its number may stand by itself."""
    word = words.peek()
    if word is None or _is_command(word, words):
        raise Unreadable(words.line, "the stipulation is missing")
    text = words.take().text
    number = words.peek()
    if text[-1] in "#=" and number is not None and re.fullmatch(r"\d+(\.5)?", number.text):
        text += words.take().text
    return text


def _is_command(word: Word, words: Words) -> bool:
    """Returns whether a word is a command or short for one."""
    return meaning_of_three(word.key, words.language.commands) is not None


def is_condition(text: str) -> bool:
    """Returns whether a word is a condition that pops knows, or short for one."""
    return meaning_of_three(text.lower(), _CONDITIONS) is not None


def take_conditions(words: Words, before: tuple[str, ...] = ()) -> tuple[str, ...]:
    """Returns the words up to the first command, or to the next change of a twin, added to those
    before.

    A condition that stands twice is one.
    """
    conditions: list[str] = []
    for word in words.ahead():
        if _is_command(word, words):
            break
        twinning = meaning(word.key, words.language.twinnings)
        if conditions and words.of_twin and twinning is not None:
            break
        words.take()
        conditions.append(meaning_of_three(word.key, _CONDITIONS) or word.text)
    return tuple(dict.fromkeys(before + tuple(conditions)))[:_MOST_CONDITIONS]
