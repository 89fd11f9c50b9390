"""Reads inputs of Popeye."""

import re
from collections.abc import Container
from typing import Optional

from pops_companions.chess.men import Kind, Man
from pops_companions.import_.draft import Draft, Twin
from pops_companions.import_.language import (
    ENGLISH,
    LANGUAGES,
    TEXT_COMMANDS,
    Language,
    folded,
    meaning,
    meaning_of_three,
)
from pops_companions.import_.men import PlacedMan, read_forsyth, read_men
from pops_companions.import_.options import read_options
from pops_companions.import_.sections import take_conditions, take_stipulation, take_wanted
from pops_companions.import_.twins import read_twin
from pops_companions.import_.words import Message, Unreadable, Word, Words

_FIRST_WORD = re.compile(r"(?:^|\n)[^\w\n]*([^\W\d_]+)")
_GAME_ARRAY = "rsbqkbsr/pppppppp/8/8/8/8/PPPPPPPP/RSBQKBSR"
# Where Popeye writes; a file's name may follow.
_OUTPUTS = ("Protocol", "LaTeX", "LaTeXPieces", "Trace")
_SECOND_BLOCK = (
    "it comes after EndProblem, where neither Popeye nor pops reads on, and so do those after it:"
    " write NextProblem for EndProblem and the BeginProblem after it"
)
_UNREADABLE = {
    "BeginProblem": "a second BeginProblem: NextProblem parts problems",
    "SStipulation": "pops knows no SStipulation",
    "InputFile": "InputFile isn't followed: give that file by itself",
    "ZeroPosition": "ZeroPosition comes after a twin",
}


def read_popeye(text: str) -> list[Draft]:
    """Returns the problems of an input of Popeye. Unreadable where no problem begins."""
    beginning = _beginning(text)
    if beginning is None:
        raise Unreadable(1, "there is no BeginProblem, AnfangProblem or DebutProbleme")
    language, start = beginning
    first_line = text.count("\n", 0, start) + 1
    drafts = _Reader(Words(text, language, start, first_line)).drafts()
    before = []
    for number, line in enumerate(text[:start].split("\n")[:-1], start=1):
        if line.strip():
            before.append(Message(number, f"skipped before the first problem: {line.strip()}"))
    drafts[0].notes = before + drafts[0].notes
    return drafts


def begins(text: str) -> bool:
    """Returns whether a problem of Popeye begins somewhere in a text."""
    return _beginning(text) is not None


def _beginning(text: str) -> Optional[tuple[Language, int]]:
    """Returns the language of the word that begins the first problem, and where that word ends.

    It is the first one of its line.
    """
    for found in _FIRST_WORD.finditer(text):
        word = folded(found[1])
        for language in LANGUAGES:
            if meaning_of_three(word, language.commands) == "BeginProblem":
                return language, found.end()
    return None


class _Reader:
    """Reads the problems of a text whose first word has been taken."""

    def __init__(self, words: Words):
        self._words = words

    def drafts(self) -> list[Draft]:
        drafts: list[Draft] = []
        closed: Optional[str] = "NextProblem"
        while closed == "NextProblem":
            draft = Draft(len(drafts) + 1, self._words.line)
            drafts.append(draft)
            closed = self._problem(draft)
            draft.texts.extend(self._words.texts)
            self._words.texts = []
            draft.tell_of_skipped(self._words)
        if closed == "EndProblem":
            self._tell_of_rest(drafts)
        return drafts

    def _tell_of_rest(self, drafts: list[Draft]) -> None:
        """Notes what follows EndProblem; another block there is a problem that is left out."""
        line = self._words.line
        rest = self._words.take_all()
        if not rest.strip():
            return
        another = _beginning(rest)
        if another is None:
            drafts[-1].notes.append(Message(line, "nothing after EndProblem is read"))
            return
        line += rest.count("\n", 0, another[1])
        lost = Draft(len(drafts) + 1, line)
        lost.faults.append(Message(line, _SECOND_BLOCK))
        drafts.append(lost)

    def _problem(self, draft: Draft) -> Optional[str]:
        """Reads a problem and the word that closes it; what that is, None at the text's end."""
        try:
            return self._sections(draft)
        except Unreadable as error:
            draft.faults.append(error.message)
        self._skip_to(("NextProblem", "EndProblem"))
        return None if self._words.peek() is None else self._command(self._words.take())

    def _command(self, word: Word) -> Optional[str]:
        return meaning(word.key, self._words.language.commands)

    def _skip_to(self, commands: Container[Optional[str]]) -> None:
        """Skips the words up to one of the commands."""
        for word in self._words.ahead():
            if meaning_of_three(word.key, self._words.language.commands) in commands:
                return
            self._words.take()

    def _sections(self, draft: Draft) -> str:
        for word in self._words.ahead():
            command = self._command(word)
            if command is None:
                raise Unreadable(word.line, self._unknown(word))
            self._words.take()
            if command in ("NextProblem", "EndProblem"):
                return command
            self._section(command, draft)
        raise Unreadable(self._words.line, "the text ends before EndProblem")

    def _unknown(self, word: Word) -> str:
        own = self._words.language
        for language in LANGUAGES:
            if meaning_of_three(word.key, language.commands) is not None:
                return f"{word.text} is {language.name}, and the text began in {own.name}"
        return f"{word.text} isn't known here"

    def _section(self, command: str, draft: Draft) -> None:
        words = self._words
        if command in TEXT_COMMANDS:
            words.put_text_line_aside(command)
        elif command in _OUTPUTS:
            text = f"{command} {words.take_rest()}".strip()
            why = "pops writes only to standard output"
            draft.notes.append(Message(words.line, f"{text} left out: {why}"))
        elif command == "Twin" or (command == "ZeroPosition" and not draft.twins):
            draft.first = draft.first and command == "Twin"
            self._twin(command, draft)
        elif command in _UNREADABLE:
            raise Unreadable(words.line, _UNREADABLE[command])
        elif draft.twins:
            raise Unreadable(words.line, f"{command} comes after a twin")
        else:
            self._of_setting(command, draft)

    def _of_setting(self, command: str, draft: Draft) -> None:
        words, setting = self._words, draft.setting
        if command == "Pieces":
            place(draft, read_men(words))
        elif command == "Forsyth":
            place(draft, self._forsyth(draft))
        elif command == "Array":
            men = read_forsyth(_GAME_ARRAY, ENGLISH.letters)
            place(draft, [PlacedMan(square, man, words.line) for square, man in men.items()])
        elif command == "Stipulation":
            if setting.stipulation is not None:
                raise Unreadable(words.line, "a second stipulation")
            setting.stipulation = take_stipulation(words)
            wanted, text = take_wanted(words)
            if wanted is not None:
                draft.want(wanted, text)
        elif command == "Condition":
            setting.conditions = take_conditions(words, setting.conditions)
        elif command == "Option":
            read_options(words, draft)

    def _forsyth(self, draft: Draft) -> list[PlacedMan]:
        words = self._words
        if words.peek() is None:
            raise Unreadable(words.line, "a position is missing after Forsyth")
        word = words.take()
        try:
            men = read_forsyth(word.text, words.language.letters)
        except ValueError as error:
            raise Unreadable(word.line, f"Forsyth {word.text}: {error}") from None
        following = words.peek()
        if following is not None and following.text in ("w", "b"):
            raise Unreadable(word.line, "Forsyth is followed by the fields of a FEN: see fen2pop")
        if any(isinstance(man, Man) and man.kind is Kind.NIGHTRIDER for man in men.values()):
            text = "N is a nightrider in Forsyth, as in Popeye"
            draft.notes.append(Message(word.line, text))
        return [PlacedMan(square, man, word.line) for square, man in men.items()]

    def _twin(self, command: str, draft: Draft) -> None:
        """Reads a twin. ZeroPosition may stand by itself, before the twin a)."""
        number = len(draft.twins) + (1 if draft.first else 0)
        twin = Twin(label_of_twin(number), self._words.line)
        try:
            read_twin(self._words, twin)
            word = self._words.peek()
            if word is not None and self._command(word) is None:
                raise Unreadable(word.line, self._unknown(word))
        except Unreadable as error:
            twin.faults.append(error.message)
            self._skip_to(("Twin", "NextProblem", "EndProblem"))
        if command == "Twin" or twin.changes or twin.faults:
            draft.twins.append(twin)


def label_of_twin(number: int) -> str:
    """As `a)` for 0 and `b)` for 1; `27)` follows `z)`."""
    return f"{chr(ord('a') + number)})" if number < 26 else f"{number + 1})"


def place(draft: Draft, men: list[PlacedMan]) -> None:
    """Adds men to the setting; two on a square are a fault."""
    for square, man, line in men:
        if square in draft.setting.men:
            draft.faults.append(Message(line, f"two men on {square.name}"))
        draft.setting.men[square] = man
