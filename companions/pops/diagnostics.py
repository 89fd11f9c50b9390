"""What is wrong with a text of problems."""

from typing import Optional, Union

from pops.engine import Engine
from pops_companions.explain.diagnostics import Diagnostic, diagnostics
from pops_companions.many.fault_places import places_of
from pops_companions.report.reader import read_report


def explain(
    text: Union[str, bytes], engine: Optional[Engine] = None, every: bool = False
) -> list[Diagnostic]:
    """Returns the fault of each faulty problem of a text with its likely cause and a fix, and what
    may not be meant.

    `every` is whether the faults after the first one of a problem are found too; they have no fix.
    """
    data = text if isinstance(text, bytes) else text.encode("utf-8", "surrogateescape")
    engine = engine or Engine()
    result = engine.check(data).result
    places = places_of(data, engine.program) if result.status else {}
    return list(diagnostics(data, read_report([result.text]), every, places))
