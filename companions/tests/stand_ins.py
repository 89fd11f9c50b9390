"""Programs in the place of others, which stay the same whatever they do."""

from pathlib import Path

from tests import support


def stand_in(path: Path, does: str) -> str:
    """Writes a program of the shell whose bytes don't depend on what it does: that is in another file."""
    Path(f"{path}.sh").write_text(does)
    return support.write_program(path, f"#!/bin/sh\n. '{path}.sh'\n")
