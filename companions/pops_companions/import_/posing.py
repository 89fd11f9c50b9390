"""Problems as pops reads them, made of those that other programs give."""

import re
from collections.abc import Iterator
from dataclasses import dataclass, field, replace
from typing import NamedTuple, Optional

from pops_companions.chess.men import Colour, Kind, Man, Square
from pops_companions.chess.stipulation import Condition, Goal, Stipulation
from pops_companions.import_.draft import Draft, Impossible, Options, Setting
from pops_companions.import_.twins import with_other_colour
from pops_companions.import_.words import Message
from pops_companions.input.given import LONGEST_TEXT
from pops_companions.input.reading import en_passant_wants
from pops_companions.input.writing import pieces_line, posing_lines

# How much of what is said of a whole problem its further twins repeat: Origins, and notes, and how
# many letters of each.
_MOST_REPEATED = 20
_MOST_LETTERS = 1000
# How much of a stipulation or a condition that pops doesn't know is repeated, for each twin.
_MOST_QUOTED = 100
# The label of the problem that twins are made of.
_FIRST_LABEL = "a)"
# The Remark of a problem with colours turned, by Duplex or HalfDuplex.
COLOURS_TURNED = "duplex: colours turned round"
# The Remark of the first twin, which the men follow, where all twins are made of a position that is none.
ZERO_POSITION = "zero position: "


class Posed(NamedTuple):
    """A problem for pops: its lines, or why it has none. Its label is another one than its twins'."""

    label: str
    line: int
    lines: list[str]
    notes: list[Message]
    faults: list[Message]


@dataclass
class _Version:
    """A problem or a twin of it, played by White or with colours turned."""

    label: str
    line: int
    setting: Setting
    options: Options
    remarks: list[str] = field(default_factory=list)
    notes: list[Message] = field(default_factory=list)
    faults: list[Message] = field(default_factory=list)


class _Said(NamedTuple):
    """What a draft says of all its problems: their names, and Remarks."""

    title: str
    author: str
    origins: list[str]
    remarks: list[str]
    wanted: list[str]
    notes: list[Message]

    @staticmethod
    def of(draft: Draft) -> "_Said":
        texts: dict[str, list[str]] = {}
        remarks: list[str] = []
        for command, text in draft.texts:
            texts.setdefault(command, []).append(text)
            if command in ("Remark", "Award"):
                remarks.append(text if command == "Remark" else f"Award {text}")
        men = {square: man for square, man in draft.setting.men.items() if isinstance(man, Man)}
        if not draft.first and men and len(men) == len(draft.setting.men):
            remarks.append(pieces_line(men).replace("Pieces ", ZERO_POSITION, 1))
        return _Said(
            "; ".join(filter(None, texts.get("Title", ()))),
            "; ".join(filter(None, texts.get("Author", ()))),
            texts.get("Origin", []),
            remarks,
            [] if draft.wanted is None else [f"solutions {draft.wanted}"],
            draft.notes,
        )


def posed(draft: Draft) -> list[Posed]:
    """Returns all problems that a draft holds, as far as pops can read them."""
    faults = list(draft.faults)
    if not draft.first and not draft.twins and not faults:
        faults.append(Message(draft.line, "ZeroPosition without a twin"))
    if faults:
        return [Posed("", draft.line, [], [], faults)]
    made: list[Posed] = []
    said = _Said.of(draft)
    is_first = True
    for version in _versions(draft):
        for part in _parts(version):
            made.append(_posed(said, part, is_first))
            is_first = is_first and not made[-1].lines
    return _without_lost_twins(made) if draft.first else made


def _without_lost_twins(made: list[Posed]) -> list[Posed]:
    """Returns the problems, where all but the first of twins are left out without its label."""
    first, *twins = made
    if first.label != _FIRST_LABEL or not first.lines or any(twin.lines for twin in twins):
        return made
    label = f" {_FIRST_LABEL}"
    lines = [line[: -len(label)] if line.startswith("Title ") else line for line in first.lines]
    own = [line for line in lines if line != "Title"]
    return [Posed(first.label, first.line, own, first.notes, first.faults), *twins]


def _versions(draft: Draft) -> Iterator[_Version]:
    """Yields the problem and its twins."""
    if draft.first:
        label = _FIRST_LABEL if draft.twins else ""
        yield _Version(label, draft.line, draft.setting, draft.options)
    setting: Optional[Setting] = draft.setting
    for twin in draft.twins:
        version = _Version(twin.label, twin.line, draft.setting, draft.options)
        version.faults.extend(twin.faults)
        if not twin.changes and not twin.faults:
            version.faults.append(Message(twin.line, "a twin without a change"))
        if not twin.continued:
            setting = draft.setting
        elif setting is None:
            version.faults.append(Message(twin.line, "it continues a twin that can't be made"))
        texts = ["continued"] * twin.continued + [change.text for change in twin.changes]
        version.remarks.append(f"{twin.label} {', '.join(texts)}")
        if setting is not None and not version.faults:
            for change in twin.changes:
                said: list[str] = []
                try:
                    setting = change.made(setting, said)
                except Impossible as error:
                    version.faults.append(Message(change.line, str(error)))
                    break
                version.notes.extend(Message(change.line, text) for text in said)
        if version.faults:
            setting = None
        else:
            assert setting is not None
            version.setting = setting
        yield version


def _parts(version: _Version) -> Iterator[_Version]:
    """Yields the version as the options ask for it: as it is, with colours turned, or both."""
    if version.options.plain or version.faults:
        yield version
    if version.options.turned and not version.faults:
        yield _turned(version)


def _turned(version: _Version) -> _Version:
    """Returns the version with the colours turned round, rank 1 becoming rank 8."""
    options = version.options
    men = {square.mirrored: with_other_colour(man) for square, man in version.setting.men.items()}
    may_not_castle = [square.mirrored for square in options.may_not_castle]
    crossed = None if options.crossed is None else options.crossed.mirrored
    return replace(
        version,
        label=f"{version.label} duplex".strip(),
        setting=replace(version.setting, men=men),
        options=replace(options, crossed=crossed, may_not_castle=may_not_castle),
        remarks=[*version.remarks, COLOURS_TURNED],
        notes=[] if options.plain else list(version.notes),
    )


def _posed(said: _Said, version: _Version, is_first: bool) -> Posed:
    faults = list(version.faults)
    notes = list(version.notes)
    lines: list[str] = []
    if not faults:
        checked = _Checked(version, notes)
        faults.extend(Message(version.line, text) for text in checked.faults)
        if not faults:
            lines = _texts(said, version, notes, is_first) + checked.lines()
    return Posed(version.label, version.line, lines, notes, faults)


class _Checked:
    """A version, asked whether pops can read it."""

    def __init__(self, version: _Version, notes: list[Message]):
        self.faults: list[str] = []
        self._version = version
        self._notes = notes
        self._crossed = version.options.crossed
        self._men = self._own_men()
        self._stipulation = self._own_stipulation()
        self._condition = self._own_condition()
        if not self.faults:
            self._check_men()

    def _own_men(self) -> dict[Square, Man]:
        men = {}
        for square, man in self._version.setting.men.items():
            if isinstance(man, Man):
                men[square] = man
            else:
                self.faults.append(f"pops knows no {man}, on {square.name}")
        return men

    def _own_stipulation(self) -> Optional[Stipulation]:
        text = self._version.setting.stipulation
        if text is None:
            self.faults.append("there is no stipulation")
            return None
        # Popeye reads #02 as #2.
        plain = re.sub("([#=])0+(?=[0-9])", r"\1", text.lower())
        try:
            stipulation = Stipulation.of_text(plain)
        except ValueError:
            self.faults.append(f"pops knows no stipulation {_quoted(text)}")
            return None
        if self._version.options.white_to_play:
            stipulation = self._with_white_to_play(stipulation)
        if not stipulation.is_in_range:
            shown, least, most = _quoted(text), stipulation.least_moves, stipulation.most_moves
            self.faults.append(f"stipulation {shown} has more or fewer moves than {least} to {most}")
        return stipulation

    def _with_white_to_play(self, stipulation: Stipulation) -> Stipulation:
        line = self._version.line
        if stipulation.starter is Colour.WHITE:
            self._notes.append(Message(line, "WhiteToPlay left out: White starts anyway"))
            return stipulation
        changed = Stipulation(stipulation.play, stipulation.goal, stipulation.moves - 1, True)
        text = f"WhiteToPlay: {stipulation.text} is written {changed.text}"
        self._notes.append(Message(line, text))
        return changed

    def _own_condition(self) -> Optional[Condition]:
        conditions = self._version.setting.conditions
        if not conditions:
            return None
        text = " ".join(conditions)
        try:
            return Condition(text)
        except ValueError:
            self.faults.append(f"pops knows no condition {_quoted(text)}")
            return None

    def _check_men(self) -> None:
        """Returns what pops would report as a fault of the diagram, but for checks."""
        stipulation = self._stipulation
        assert stipulation is not None
        if not self._men:
            self.faults.append("there are no men")
        for square, man in self._men.items():
            if man.kind is Kind.PAWN and square.rank in (1, 8):
                self.faults.append(f"a pawn is on {square.name}")
        mated = stipulation.last_side.opponent
        men = list(self._men.values())
        for colour in Colour:
            kings = men.count(Man(colour, Kind.KING))
            if kings > 1:
                self.faults.append(f"{kings} {colour.value} kings")
            if kings == 0 and colour is mated and stipulation.goal is Goal.MATE and self._men:
                self.faults.append(f"there is no {colour.value} king")
        self._check_crossed(stipulation.starter)

    def _check_crossed(self, starter: Colour) -> None:
        """In a duplex the en passant square may be meant for the first move of only one side."""
        options = self._version.options
        if options.crossed is None or self._was_crossed(options.crossed, starter):
            return
        name = options.crossed.name
        duplex = options.plain and options.turned
        if duplex and self._was_crossed(options.crossed, starter.opponent):
            text = f"EnPassant {name} left out: it is for the other side's first move"
            self._notes.append(Message(self._version.line, text))
            self._crossed = None
        else:
            self.faults.append(f"no pawn can just have crossed {name}")

    def _was_crossed(self, square: Square, starter: Colour) -> bool:
        return en_passant_wants(self._men, starter, square).holds

    def lines(self) -> list[str]:
        """Returns men, stipulation, condition and options."""
        assert self._stipulation is not None
        options = self._version.options
        words = list(options.words)
        if options.max_solutions is not None:
            words.append(f"MaxSolutions {options.max_solutions}")
        if self._crossed is not None:
            words.append(f"EnPassant {self._crossed.name}")
        if options.may_not_castle:
            words.append("NoCastling " + "".join(one.name for one in options.may_not_castle))
        return posing_lines(self._men, self._stipulation, self._condition, words)


def _texts(said: _Said, version: _Version, notes: list[Message], is_first: bool) -> list[str]:
    """Returns the lines of text: what pops prints, and Remarks for all else.

    The draft's own Remarks stand with the first of its problems alone.
    """
    lines = []
    remarks = []
    for command, whole, label in (
        ("Title", said.title, version.label),
        ("Author", said.author, ""),
    ):
        text = _shortened(whole, LONGEST_TEXT - len(f" {label}".rstrip()))
        if text != whole:
            remarks += [f"{command} {whole}"] * is_first
            shortened = f"{command} shortened to {LONGEST_TEXT} bytes: see Remark"
            notes.append(Message(version.line, shortened))
        if text or label:
            lines.append(" ".join(filter(None, (command, text, label))))
    origins, told = said.origins, [note.text for note in said.notes]
    if not is_first:
        origins, told = _repeated(origins), _repeated(told)
    lines += [f"Origin {text}" for text in origins]
    remarks += [*(said.remarks if is_first else ()), *said.wanted, *version.remarks]
    remarks += [*told, *(note.text for note in notes)]
    lines += [f"Remark {remark}" for remark in remarks if remark]
    return [line.replace("\n", " ") for line in lines]


def _repeated(texts: list[str]) -> list[str]:
    """Returns the texts that further twins repeat: the first ones, as far as there is room."""
    end, letters = 0, 0
    while end < min(len(texts), _MOST_REPEATED) and letters + len(texts[end]) <= _MOST_LETTERS:
        letters += len(texts[end])
        end += 1
    return texts[:end]


def _quoted(text: str) -> str:
    """Returns what is unknown as messages show it."""
    return text if len(text) <= _MOST_QUOTED else f"{text[:_MOST_QUOTED]} .."


def _shortened(text: str, most: int) -> str:
    """Returns as many letters of the text as fit into this many bytes."""
    if len(text) <= most and len(text.encode("utf-8", "replace")) <= most:
        return text
    data = text[:most].encode("utf-8", "replace")
    return data[:most].decode("utf-8", "ignore").rstrip()
