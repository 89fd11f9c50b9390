"""Mends a fault as far as its explanation says how, and finds the faults of a problem after its first one.

What an explanation says to write is written, and kept if the fault is gone then: if pops would read
on, past the place of the fault.
"""

import re
from collections.abc import Iterator, Sequence
from typing import Optional

from pops_companions.explain.case import Case, Explanation, known
from pops_companions.explain.characters import decoded, with_blanks
from pops_companions.explain.explaining import ExplainedFault, explanation
from pops_companions.explain.fault_texts import FAULT_TEXTS
from pops_companions.explain.near import Edit, Near, near_of
from pops_companions.explain.other_men import letters_of, men_words
from pops_companions.explain.vocabulary import alphabets_of, is_unread_command, unread
from pops_companions.input.pieces import Piece, cut
from pops_companions.input.reading import (
    CASTLING_SQUARES,
    CLOSING,
    COLOURS,
    COMMANDS,
    CONDITIONS,
    OPTIONS,
    FaultKind,
    Reading,
    is_man,
    read_on,
    read_piece,
    squares_of,
)
from pops_companions.input.words import TEXT_WORDS, Span, named
from pops_companions.report.items import Fault

_QUOTED = "`([^`]+)`"
_BEFORE = re.compile(rf"(?:[Ww]rite {_QUOTED} before |^{_QUOTED} is missing before )")
_IN_PLACE = re.compile(
    rf"(?:[Ww]rite|Type the word again:|It looks like|digit 1 is meant:|A bishop is one word:) "
    rf"{_QUOTED}(?=[.,]| in place of| in its place)"
)
_JOINED = re.compile(rf"^{_QUOTED} is one word, without a blank")
_LONGER = re.compile(rf"Write three letters or more: {_QUOTED} or {_QUOTED}")
_LEFT_OUT = re.compile(
    r"Leave (?:it|`BeginProblem`) out(?:\.$|: )|(?:stipulation|condition) .* Leave one out"
)
_SQUARE_LEFT_OUT = re.compile(r"(?:names .* twice|was given before, .*)\. Leave one out")
_BLANKS_IN_PLACE = re.compile("Type (?:a blank|blanks) in (?:its|their) place")
# Where men may have the letters of that language, a word alone isn't mended.
_IN_ANOTHER_LANGUAGE = re.compile(
    rf" is (?:German|French), .* Write `(?:BeginProblem|Pieces|White|Black)`|Then {_QUOTED} is "
)
_LANGUAGE = re.compile(" is (German|French), and pops reads only English")
# What takes the rest of its line, or a line of its own, in place of the marked word or after it.
_REMARK_IN_PLACE = re.compile("Write `(Remark solutions [0-9]+)` in its place")
_REMARK_TOO = re.compile(f"Write {_QUOTED}, and `(Remark solutions [0-9]+)`")
_STAR = re.compile("A star means set play, .*: `Stipulation ([^`]+)` and `(Option SetPlay)`")
# A command without the word that was left out.
_BARE = re.compile(rb"(?i)^[ \t]*(?:sti|con|opt)[a-z]*[ \t]+$")
# The number that goes with an option of Popeye.
_ITS_NUMBER = re.compile(rb"[ \t]+[0-9]+(?!\S)")
# Words by which a line may say something else than its other words do.
_DENIED = re.compile(
    rb"(?i)(?:^|[^a-z])(not|no|none|or|off|false|without|except|nicht|keine?|ohne|oder|aus|pas|non|sans|ou)(?![a-z])"
    rb"|[=:][ \t]*0"
)
# How many bytes of a line are looked at on either side of an edit.
_OF_LINE = 1000
# A sign that begins a comment, or denies, right before a word.
_SIGN_FIRST = re.compile(rb"(?:[;!~*]|//|/\*|--?)[A-Za-z]")
_SIGN_OF_NOT = re.compile(rb"[!~-][ \t]*[A-Za-z]")
_SIGN_OF_MAN = re.compile(rb"^[-!][A-Za-z]|[*+=~]")
# A side, without a man after it: `Black to move`.
_SIDE = re.compile(
    rb"(?i)(?:^|[^a-z])(?:white|weiss|blancs?|black|schwarz|noirs?)(?![a-z])(?![ \t:]*[a-z]?[a-h][1-8])"
)
# A square, or a stipulation.
_OF_A_PROBLEM = re.compile(rb"(?i)[a-h][1-8]|[#=][1-9]")
_BYTE_ORDER_MARK = "\ufeff".encode("utf-8")
MOST_FAULTS = 50
# What may only be missing because a word before was passed over.
_AT_THE_END = (
    FaultKind.STIPULATION_MISSING,
    FaultKind.NO_MEN,
    FaultKind.EN_PASSANT_IMPOSSIBLE,
    FaultKind.KING_MISSING,
    FaultKind.WAITING_SIDE_IN_CHECK,
)


def read_number(text: bytes, number: int) -> Optional[Reading]:
    """Reads a problem by its number; None where the text has no problem of this number."""
    pieces = cut(text)
    if number > len(pieces):
        return None
    return read_piece(text, pieces[number - 1])


def edit_for(
    text: bytes,
    number: int,
    reading: Reading,
    in_any_language: bool = False,
    known: Optional[Explanation] = None,
) -> Optional[Edit]:
    """Returns the edit that mends a problem's fault; None where the explanation names none.

    `in_any_language` mends also where the men may have the letters of another language; `known` is
    the explanation, where the caller has it.
    """
    empty = _leaving_out(text, reading)
    if empty is not None:
        return empty
    said = explanation(text, reading) if known is None else known
    if not in_any_language and _may_be_in_another_language(text, reading, said):
        return None
    left = len(text) - reading.fault_span.stop
    for edit in _proposed(text, reading, said):
        if _is_unsure(text, reading, edit):
            continue
        changed = edit.of(text)
        # (only what may have changed is read again)
        before = reading.before_fault()
        stays = before.stays(changed, edit.span.start)
        again = read_on(changed, before) if stays else read_number(changed, number)
        if again is None:
            continue
        if again.number is None or len(changed) - again.fault_span.start <= left:
            return edit
    return None


def _may_be_in_another_language(text: bytes, reading: Reading, said: Explanation) -> bool:
    """Returns whether the men may have the letters of another language, which an explanation names."""
    if _IN_ANOTHER_LANGUAGE.search(said.text):
        return True
    language = _LANGUAGE.search(said.text)
    if language is None or reading.at is None:
        return False
    letters = letters_of(men_words(Case(text, reading)))
    spoken = [it for it in alphabets_of("".join(letters)) if language[1] in it.languages]
    kinds = [(letter, it.kind(letter)) for it in spoken for letter in letters]
    return any(kind is None or kind.value != letter for letter, kind in kinds)


def _is_unsure(text: bytes, reading: Reading, edit: Edit) -> bool:
    """Returns whether the line of an edit may mean another problem, as `#2 or #3` or `SetPlay=0`,
    or Black to move. A stipulation says nothing of sides.
    """
    start, stop = edit.span.start, edit.span.stop
    if reading.at is None or b"\n" in text[start:stop]:
        return False
    before = text[max(start - _OF_LINE, 0) : start].rpartition(b"\n")[2]
    after = text[stop : stop + _OF_LINE].partition(b"\n")[0]
    if reading.section == "Stipulation" and _SIDE.search(before + b" " + after):
        return True
    own_bytes = text[start:stop]
    is_command = reading.section != "Pieces"
    # (in Popeye's boards `-R` is black and `=R` neutral)
    if not is_command and _SIGN_OF_MAN.search(own_bytes):
        return True
    may_deny = is_command and _SIGN_OF_NOT.match(own_bytes + after) is not None
    if may_deny or _SIGN_FIRST.match(own_bytes) and not before.strip():
        return True
    if _takes_men_over(reading, edit):
        return True
    is_short = len(own_bytes) == 2 and named(edit.text, TEXT_WORDS) is not None
    if edit.text == b"Remark " or is_short:
        is_beside = bool(before.strip()) and reading.section == "Condition"
        has_number = re.search(rb"[0-9]", reading.word.bytes) is not None
        if is_beside or has_number or _says_more(Case(text, reading), after):
            return True
    own = _DENIED.search(own_bytes)
    # (`No Board` becomes NoBoard)
    if own is not None and not edit.text.lower().startswith((own[1] or own[0]).lower()):
        return True
    return _DENIED.search(before) is not None or _DENIED.search(after) is not None


def _takes_men_over(reading: Reading, edit: Edit) -> bool:
    """Returns whether a colour written before one man would hold for the man after it, which may have
    the colour before, as in `White Kg6 bQa8 Ra1 Black Kg8`.
    """
    colour = named(edit.text.split(b" ")[0], COLOURS)
    if colour is None or reading.section != "Pieces" or b" " not in edit.text:
        return False
    words = (*reading.words, *reading.words_after())
    after = next((it for it in words if it.start >= edit.span.stop), None)
    is_other = reading.colour is None or reading.colour.name != colour.upper()
    return is_other and after is not None and is_man(after.bytes)


def _says_more(case: Case, comment: bytes) -> bool:
    """Returns whether a comment may belong to the problem: it names a rule, a square, a stipulation or
    what pops would read there, as in `h#2 -- Circe`.
    """
    # (a star is set play)
    if _OF_A_PROBLEM.search(comment) or comment.strip() == b"*":
        return True
    words = dict.fromkeys(re.findall(rb"[A-Za-z]+", comment))
    return any(
        named(word, (*CONDITIONS, *OPTIONS)) is not None
        or unread(decoded(word)) is not None
        or case.fits(decoded(word))
        for word in words
    )


def _leaving_out(text: bytes, reading: Reading) -> Optional[Edit]:
    """Returns the edit that leaves out a NextProblem before the end of a problem that has nothing else, or
    after BeginProblem. A text line there may be of a problem that is lost.
    """
    if reading.number is not FaultKind.STIPULATION_MISSING:
        return None
    words = reading.tokens[:-1]
    if not reading.first and not words:
        before = known(Case(text, reading).span_before)
        return Edit(Span(before.start, reading.word.start), b"")
    if reading.first and len(words) == 1 and named(reading.word.bytes, ["NextProblem"]) is not None:
        return Edit(Span(words[0].span.stop, reading.word.span.stop), b"")
    return None


def _proposed(text: bytes, reading: Reading, said: Explanation) -> Iterator[Edit]:
    """Yields what an explanation says to write, as edits."""
    yield from _of_whole_text(text, said)
    if reading.at is None:
        if reading.number is FaultKind.END_PROBLEM_MISSING and "has no `EndProblem`" in said.text:
            end = Span(len(text), len(text))
            yield Edit(end, (b"" if text.endswith(b"\n") else b"\n") + b"EndProblem\n")
        yield from _in_place(text, said.marks, said.text)
        return
    word = reading.word
    before = _BEFORE.search(said.text)
    if before is not None:
        wanted = (before[1] or before[2]).encode("utf-8")
        yield Edit(Span(word.start, word.start), wanted + b" ")
        return
    yield from _taken_out(text, reading, said.text)
    yield from _on_own_lines(text, reading, said)
    crossed = re.search(r"write `EnPassant ([a-h][1-8])`", said.text)
    if crossed is not None and reading.crossed_word is not None:
        yield Edit(reading.crossed_word.span, crossed[1].encode("ascii"))
        return
    yield from _in_place(text, said.marks, said.text)


def _of_whole_text(text: bytes, said: Explanation) -> Iterator[Edit]:
    whole = Span(0, len(text))
    if said.text.startswith("The text is in UTF-16"):
        for encoding in ("utf-16", "utf-16-le", "utf-16-be"):
            try:
                yield Edit(whole, text.decode(encoding).encode("utf-8"))
            except UnicodeDecodeError:
                pass
    if "lines end in carriage returns only" in said.text:
        yield Edit(whole, text.replace(b"\r", b"\n"))


def _taken_out(text: bytes, reading: Reading, said: str) -> Iterator[Edit]:
    """Yields a word, a square of it or a mark in it that is left out."""
    word = reading.word
    if said.startswith("There is a byte order mark"):
        yield Edit(word.span, word.bytes.replace(_BYTE_ORDER_MARK, b""))
    if _BLANKS_IN_PLACE.search(said):
        yield Edit(word.span, with_blanks(decoded(word.bytes)).encode("utf-8"))
    if _SQUARE_LEFT_OUT.search(said) and reading.square is not None:
        place = reading.square_place
        rest = word.bytes[:place] + word.bytes[place + 2 :]
        yield Edit(word.span, rest if squares_of(rest[1:]) else b"")
    if _LEFT_OUT.search(said):
        yield Edit(_with_its_own(text, word.span), b"")
    if said.startswith("`BeginProblem` comes once"):
        yield Edit(word.span, b"NextProblem")


def _with_its_own(text: bytes, word: Span) -> Span:
    """Returns a word with its number, and with the command or the blanks that it leaves alone."""
    number = _ITS_NUMBER.match(text, word.stop)
    stop = word.stop if number is None else number.end()
    line = text.rfind(b"\n", 0, word.start) + 1
    is_last = text[stop : stop + 1] in (b"", b"\r", b"\n")
    if is_last and _BARE.match(text[line : word.start]):
        return Span(line, text.find(b"\n", stop) + 1 or stop)
    return Span(_end_of_word_before(text, word), stop)


def _end_of_word_before(text: bytes, word: Span) -> int:
    """Returns where the blanks before a word begin; the word's start if it begins its line."""
    before = text[text.rfind(b"\n", 0, word.start) + 1 : word.start]
    return word.start - (len(before) - len(before.rstrip(b" \t")) if before.strip() else 0)


def _on_own_lines(text: bytes, reading: Reading, said: Explanation) -> Iterator[Edit]:
    """Yields what an explanation writes on a line of its own: a Remark, or the option of set play.
    """
    word = Span(reading.word.start, max([reading.word.span.stop, *(it.stop for it in said.marks)]))
    end = text.find(b"\n", word.stop)
    rest = text[word.stop : len(text) if end < 0 else end].strip()
    after = b"\n" if rest else b""
    remark = _REMARK_IN_PLACE.search(said.text)
    if remark is not None:
        start = _end_of_word_before(text, word)
        before = b"\n" if start < word.start else b""
        yield Edit(Span(start, word.stop), before + remark[1].encode("ascii") + after)
    both = _REMARK_TOO.search(said.text)
    if both is not None:
        yield Edit(word, f"{both[1]}\n{both[2]}".encode("utf-8") + after)
    star = _STAR.search(said.text)
    if star is not None and reading.opener is not None:
        stipulation, option = star[1].encode("utf-8"), star[2].encode("ascii")
        if not rest:
            yield Edit(word, stipulation + b"\n" + option)
        else:
            # (the rest of the line belongs to the stipulation)
            opener = text[reading.opener.start : word.start]
            whole = Span(reading.opener.start, word.stop)
            yield Edit(whole, option + b"\n" + opener + stipulation)


def _in_place(text: bytes, marks: tuple[Span, ...], said: str) -> Iterator[Edit]:
    """Yields what replaces the marked words, which are neighbours, or one of them."""
    longer = _LONGER.search(said)
    found = [_IN_PLACE.search(said), _JOINED.search(said)]
    texts = ([longer[2]] if longer else []) + [it[1] for it in found if it is not None]
    for wanted in texts:
        if marks and not text[marks[0].start : marks[-1].stop].count(b"\n"):
            yield Edit(Span(marks[0].start, marks[-1].stop), wanted.encode("utf-8"))
        for mark in marks:
            yield Edit(mark, wanted.encode("utf-8"))


def further_faults(
    text: bytes, pieces: Sequence[Piece], number: int, title: Optional[bytes] = None
) -> Iterator[ExplainedFault]:
    """Yields the faults of a problem with this title after its first one, as pops would report them
    once those before are mended or passed over.

    A word that can't be mended is passed over; what is missing at the end of the problem may be
    missing for that alone, and isn't reported then, nor is each word before `BeginProblem`.
    """
    if number > len(pieces):
        return
    near = near_of(text, pieces, number)
    is_passed_over = False
    for fault in range(MOST_FAULTS):
        reading = near.read()
        if reading is None or reading.number is None:
            return
        if is_passed_over and reading.number in _AT_THE_END:
            return
        said = explanation(near.text, reading)
        if fault > 0 and not (is_passed_over and reading.number is FaultKind.BEGIN_PROBLEM_MISSING):
            marks = tuple(map(near.in_whole, said.marks))
            at, piece = reading.fault_span.start, pieces[number - 1]
            line = piece.line + text.count(b"\n", piece.start, near.in_whole(Span(at, at)).start)
            found = Fault(line, reading.number.value, FAULT_TEXTS[reading.number])
            yield ExplainedFault(number, title, found, Explanation(said.text, marks))
        edit = edit_for(near.text, near.number, reading, in_any_language=True, known=said)
        if edit is None:
            if reading.at is None or reading.number in _AT_THE_END:
                return
            edits = _passing_over(near.text, reading)
            is_passed_over = True
        else:
            edits = [edit]
        for one in edits:
            # (without its end the problem would go on with the next one's words)
            if one.span == Span(0, len(near.text)) or not one.text and _ends_problem(near, one.span):
                return
            near.change(one)


def _ends_problem(near: Near, place: Span) -> bool:
    """Returns whether a word that ends a problem stands there."""
    words = near.text[place.start : place.stop].split()
    return any(named(word, CLOSING) is not None for word in words)


def _passing_over(text: bytes, reading: Reading) -> list[Edit]:
    """Returns the edits that pass over a faulty word, the last place of the text first.

    An option that awaits its value goes with the word, and alone where the word can't be its value;
    the rest of its line goes with a command of Popeye.
    """
    word, option = reading.word, reading.option
    if is_unread_command(decoded(word.bytes)):
        end = text.find(b"\n", word.start)
        return [Edit(Span(word.start, len(text) if end < 0 else end), b"")]
    if reading.number is FaultKind.NONE_CASTLES_THERE:
        return [Edit(word.span, CASTLING_SQUARES[0].encode("ascii"))]
    if option is None or reading.awaited is None:
        return [Edit(word.span, b"")]
    is_next = named(word.bytes, (*COMMANDS, *OPTIONS)) is not None
    return [*([] if is_next else [Edit(word.span, b"")]), Edit(option.span, b"")]
