"""Tables that companions write: a line for each row, with tabs between its cells."""

import re
import unicodedata
from collections.abc import Iterable

from pops_companions.report.lines import in_a_line

# What a text begins with that a spreadsheet computes, also in another width.
_OF_FORMULAS = ("=", "+", "-", "@")
_ENDS_OF_CELLS = ("\t", "\r", "\n")
# Parts cells for a reader that takes no comma for an end: to it a quote after a comma is none.
_PARTING = re.compile("([;\t\r\n\u2028\u2029])")
_PARTING_IN_A_ROW = re.compile("([,;\t\r\n\u2028\u2029])")


def row_of(cells: Iterable[object]) -> str:
    r"""Returns a row with its line end. In a cell a tab is `\t`, a line end `\n`, a backslash `\\`, and `'`
    is in front of a text that a spreadsheet would compute.
    """
    return "\t".join(map(_cell, cells)) + "\n"


def _cell(value: object) -> str:
    text = str(value)
    if isinstance(value, str):
        # (a quote may open a cell)
        text = f"'{value}" if _is_formula(value.replace('"', "")) else value
        text = uncomputed(text, _PARTING_IN_A_ROW)
    return in_a_line(text)


def uncomputed(text: str, parting: "re.Pattern[str]" = _PARTING) -> str:
    """Returns a text with an apostrophe in front of what a spreadsheet would compute, also after what
    may part cells, where a quote may open one.
    """
    first, *others = parting.split(text)
    others[1::2] = [f"'{it}" if _is_formula(it.replace('"', "")) else it for it in others[1::2]]
    return "".join([f"'{first}" if _is_formula(text) else first, *others])


def _is_formula(text: str) -> bool:
    """Returns whether a spreadsheet may compute a text: some drop what nobody sees in front."""
    sign = next((it for it in text if unicodedata.category(it)[0] not in "CZ"), "")
    return text.startswith(_ENDS_OF_CELLS) or unicodedata.normalize("NFKC", sign) in _OF_FORMULAS
