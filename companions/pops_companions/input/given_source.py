"""An input of pops that a companion reads next to its report."""

import sys
from typing import Optional

from pops_companions import command
from pops_companions.command import DeviceError
from pops_companions.input.given import GivenProblem, given_problems
from pops_companions.input.pieces import rest_of
from pops_companions.report.source import is_input


def read_given(companion: str, file: Optional[str]) -> list[GivenProblem]:
    """Returns the problems of an input; what follows its EndProblem is reported on standard error.
    CommandError where it is no input.
    """
    name, text = file or "standard input", command.read_all(file)
    refuse_other_text(name, text)
    warn_of_rest(companion, name, text)
    return given_problems(text)


def refuse_other_text(name: str, text: bytes) -> None:
    """Raises CommandError where no line of a text is one of an input of pops."""
    if not any(map(is_input, text.split(b"\n"))):
        message = (
            f"{name} is no input of pops: pops-import makes one of Popeye inputs and YAML,"
            " pops-explain says what is wrong with another text"
        )
        raise DeviceError(message)


def warn_of_rest(companion: str, name: str, text: bytes) -> None:
    """Says on standard error what follows the EndProblem of an input."""
    rest = rest_of(text)
    if rest is not None:
        print(f"{companion}: {name}: {rest.text}", file=sys.stderr)
