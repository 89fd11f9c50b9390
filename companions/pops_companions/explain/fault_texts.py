"""The texts of faults, as pops reports them, and in other languages."""

from collections.abc import Mapping

from pops_companions.input.reading import FaultKind
from pops_companions.stored import stored

_TEXTS: Mapping[str, list[str]] = stored("input/fault_texts.json")


def fault_texts(code: str) -> dict[FaultKind, str]:
    """Returns the texts in a language."""
    return dict(zip(FaultKind, _TEXTS[code]))


FAULT_TEXTS = fault_texts("en")
