"""A sheet as a LaTeX document of the package diagram, chess-problem-diagrams (Debian:
texlive-games, texlive-pstricks)."""

import unicodedata
from collections.abc import Iterable

from pops_companions.sheet.entries import Entry, Part, index_of
from pops_companions.sheet.languages import Language, marked_as
from pops_companions.sheet.latex_letters import letters_of
from pops_companions.show.authors import joined
from pops_companions.show.latex import KINDS, Sheet, escaped, latex

_CLASS = "\\documentclass[a4paper]{article}\n"
_HEAD = r"""\usepackage{diagram}
\nocomputer
\setlength{\lineskip}{2ex}
\setlength{\lineskiplimit}{-1ex}
"""
_BETWEEN = "\\hspace{1em}\n"
# A line of many moves may be broken after each.
_BREAKS = {ord(sign): sign + r"\allowbreak{}" for sign in ",/"}

def as_latex(
    entries: Iterable[Entry], language: Language, heading: str, encoding: str, figures: bool
) -> str:
    """Returns the document of a sheet: diagrams, solutions, and the index of authors.

    A problem without a diagram, as a faulty one, is a box of text among the diagrams.
    """
    all_entries = list(entries)
    men = {kind: rf"\w{name}{{}}" for kind, name in KINDS.items()} if figures else {}
    marks = {**marked_as(language, men), **_BREAKS}
    parts = ["\\begin{document}\n\\raggedright\n", f"\\section*{{{escaped(heading)}}}\n"]
    # (the diagrams of a paragraph are set side by side, as many as a line holds)
    parts += [_problem(entry, encoding, language, marks) + _BETWEEN for entry in all_entries]
    parts.append("\n\\putsol\n")
    index = index_of(all_entries)
    if index:
        parts.append(f"\n\\section*{{{escaped(language.authors)}}}\n")
    for name, own in index:
        numbers = ", ".join(entry.number for entry in own)
        parts.append(f"{escaped(name)} \\dotfill\\ {numbers}\\par\n")
    parts.append("\\end{document}\n")
    text = unicodedata.normalize("NFC", "".join(parts))
    return "".join([_CLASS, letters_of(text), _HEAD, text])


def _problem(entry: Entry, encoding: str, language: Language, marks: dict[int, str]) -> str:
    """Returns a diagram with its solution, or a box of text."""
    if entry.board is None:
        return _box(entry, marks)
    lines = [line for part in entry.parts for line in _part(part, marks)]
    twins = [escaped(heading).translate(marks) for heading in entry.twins]
    own = (entry.number, entry.source, entry.award, entry.asked, twins, lines, language.fairy_men)
    return latex(entry.group, entry.board, encoding, Sheet(*own))


def _box(entry: Entry, marks: dict[int, str]) -> str:
    """Returns a problem without a diagram: number, authors, title, source, and its fault."""
    lines = [rf"\textbf{{{entry.number}}} {escaped(joined(entry.authors))}".rstrip()]
    lines += [escaped(text) for text in (entry.title, entry.origin) if text]
    lines += [line for part in entry.parts for line in _part(part, marks)]
    # (a line break would take `[` or a star for its own)
    text = "\\\\\n".join("{}" * line.startswith(("[", "*")) + line for line in lines)
    return f"\\begin{{minipage}}[t]{{.3\\linewidth}}\\raggedright\n{text}\n\\end{{minipage}}\n"


def _part(part: Part, marks: dict[int, str]) -> list[str]:
    heading = escaped(part.heading).translate(marks)
    lines = [rf"\textbf{{{heading}}}"] if heading else []
    lines += [rf"\textbf{{{escaped(part.fault)}}}"] if part.fault else []
    for block in part.blocks:
        if len(part.blocks) > 1:
            lines.append(rf"\textit{{{escaped(block.heading)}}}")
        for line in block.lines:
            indent = rf"\hspace*{{{line.level}em}}" if line.level else ""
            lines.append(indent + escaped(line.text).translate(marks))
    return lines + ([rf"\textit{{{escaped(part.note)}}}"] if part.note else [])
