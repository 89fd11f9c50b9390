"""Where the faults of a text are, as pops-part lists them: its list is proved."""

import re

from pops_companions.command import DeviceError
from pops_companions.input.words import Span
from pops_companions.many.program import FAULTY, SOUND, Runs, find_part_program

_LISTED = re.compile(rb"(?<!\d)(\d+): fault \d+, line \d+, bytes (\d+) up to (\d+)\n")


def places_of(text: bytes, pops: str) -> dict[int, Span]:
    """Returns the bytes of the faulty word of each faulty problem, by the pops-part of this pops; none
    where there is no pops-part, or an older one that doesn't list them.
    """
    try:
        run = Runs("pops-part", [find_part_program(None, pops)]).outcome(["--faults"], text)
    except DeviceError:
        return {}
    if run.status not in (SOUND, FAULTY):
        return {}
    listed = _LISTED.finditer(run.output)
    return {int(it[1]): Span(int(it[2]), int(it[3])) for it in listed}
