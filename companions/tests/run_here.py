"""Runs of companions within the tests' own process, where many runs would take long."""

import functools
import io
import sys
from types import ModuleType
from unittest import mock

from tests import support

_loaded = functools.lru_cache(maxsize=None)(support.loaded)


def companion(name: str, *words: str, text: bytes = b"") -> support.Outcome:
    """As support.companion: status, output and what was said on standard error."""
    module: ModuleType = _loaded(name)
    source = io.TextIOWrapper(io.BytesIO(text))
    written, error = io.BytesIO(), io.StringIO()
    output = io.TextIOWrapper(written, "utf-8")
    arguments: list[str] = [name, *words]
    status = 0
    # (this process goes on after it)
    signals = mock.patch.multiple("pops_companions.interrupts", begin=mock.DEFAULT, end=mock.DEFAULT)
    with signals, mock.patch.multiple(sys, argv=arguments, stdin=source, stdout=output, stderr=error):
        try:
            module.command.run(name, module.main)
        except SystemExit as end:
            status = int(end.code or 0)
        output.flush()
    return support.Outcome(status, written.getvalue(), error.getvalue())
