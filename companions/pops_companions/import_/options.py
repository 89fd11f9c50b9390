"""The options of Popeye's inputs."""

from typing import Optional

from pops_companions.chess.men import Square
from pops_companions.import_.draft import Draft
from pops_companions.import_.language import LEFT_OUT, OWN_OPTIONS, meaning, meaning_of_three
from pops_companions.import_.men import is_of_squares, take_squares
from pops_companions.import_.words import Message, Unreadable, Words
from pops_companions.input.reading import CASTLING_SQUARES, MOST_SOLUTIONS

_LONGEST_NUMBER = 10


def read_options(words: Words, draft: Draft) -> None:
    """Options up to the first command."""
    for word in words.ahead():
        option = meaning_of_three(word.key, words.language.options, OWN_OPTIONS)
        if option is None:
            if meaning(word.key, words.language.commands) is not None:
                return
            raise Unreadable(word.line, f"pops knows no option {word.text}")
        words.take()
        _read_option(words, option, draft)


def _read_option(words: Words, option: str, draft: Draft) -> None:
    options = draft.options
    line = words.line
    if option in ("SetPlay", "Variation", "NoBoard"):
        if option not in options.words:
            options.words.append(option)
    elif option == "MaxSolutions":
        options.max_solutions = _solutions(words)
    elif option == "EnPassant":
        squares = take_squares(words, option)
        if len(squares) > 1:
            raise Unreadable(line, "pops knows no EnPassant of several squares")
        options.crossed = squares[0]
    elif option == "NoCastling":
        _read_no_castling(words, draft)
    elif option == "Duplex":
        options.turned = True
    elif option == "HalfDuplex":
        options.plain, options.turned = False, True
    elif option == "WhiteToPlay":
        options.white_to_play = True
    elif option in LEFT_OUT:
        value = _number(words)
        if option == "Try":
            options.refutations = max(options.refutations, 1)
        elif option == "Defence" and value is not None:
            options.refutations = int(value)
        text = option if value is None else f"{option} {value}"
        draft.notes.append(Message(line, f"{text} left out: {LEFT_OUT[option]}"))
    else:
        draft.faults.append(Message(line, f"pops knows no option {option}"))


def option_left_out(remark: str) -> Optional[str]:
    """Returns the option that a Remark says was left out, with its number; None for other Remarks."""
    said, _, reason = remark.partition(" left out: ")
    name, _, number = said.partition(" ")
    is_one = LEFT_OUT.get(name) == reason
    return said if is_one and (not number or number.isdecimal()) else None


def _number(words: Words) -> Optional[str]:
    word = words.peek()
    if word is None or not word.text.isdecimal() or len(word.text) > _LONGEST_NUMBER:
        return None
    return words.take().text


def _solutions(words: Words) -> int:
    text = _number(words)
    if text is None or not 1 <= int(text) <= MOST_SOLUTIONS:
        raise Unreadable(words.line, f"MaxSolutions needs a number from 1 to {MOST_SOLUTIONS:,}")
    return int(text)


def _read_no_castling(words: Words, draft: Draft) -> None:
    """Squares in one or more words; those where no man can castle are left out."""
    squares = take_squares(words, "NoCastling")
    for word in words.ahead():
        if not is_of_squares(word):
            break
        squares += Square.of_names(words.take().key)
    for square in squares:
        if square.name not in CASTLING_SQUARES:
            text = f"NoCastling {square.name} left out: no man on {square.name} can castle"
            draft.notes.append(Message(words.line, text))
        elif square not in draft.options.may_not_castle:
            draft.options.may_not_castle.append(square)
