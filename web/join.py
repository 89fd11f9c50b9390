#!/usr/bin/env python3
"""Joins the page's modules into one script.

  web/join.py            prints the script of web/page.js and of all modules that it imports
  web/join.py FILE       the same for another module
  web/join.py --module FILE    the same as a module, which exports what FILE exports

Each module comes once, after the modules that it imports, without its lines of import and export: all share one scope. A fault ends
with status 1: a missing module, a missing export, modules that import each other, a name that two modules declare, or a line of import
or export in another form than `import { one, two } from './file.js';` and `export` before a declaration.
"""
import os
import re
import sys
from typing import NamedTuple

import from_python

HERE = os.path.dirname(os.path.realpath(__file__))
IMPORT = re.compile(r"^import \{([^}]*)\} from '(\.[^']*)';\n", re.M)
DECLARED = re.compile(r"^(export )?(?:async )?(?:const|let|class|function\*?) ([\w$]+)", re.M)
EXPORT = re.compile(r"^export (?=(?:async )?(?:const|let|class|function)\b)", re.M)
OTHER_FORM = re.compile(r"^(?:import|export)\b.*", re.M)


class JoinError(Exception):
    """Modules that can't be joined, and why."""


class Module(NamedTuple):
    """A module: the names that it imports from each file, the names that it exports and declares, and the text that is joined."""

    imports: dict[str, list[str]]
    exports: set[str]
    names: list[str]
    body: str


def text_of(path: str) -> str:
    if os.path.abspath(path) == from_python.MADE:
        return from_python.made()
    with open(path, encoding="utf-8") as file:
        return file.read()


def read_module(path: str, importer: str = "") -> Module:
    """Reads a module.

    Raises JoinError if the file is missing, or if it imports or exports in another form.
    """
    try:
        text = text_of(path)
    except FileNotFoundError as fault:
        raise JoinError(f"{importer or 'the page'} imports {path}, which is missing") from fault
    except from_python.UntranslatedError as fault:
        raise JoinError(str(fault)) from fault
    imports: dict[str, list[str]] = {}
    for names, source in IMPORT.findall(text):
        wanted = os.path.normpath(os.path.join(os.path.dirname(path), source))
        imports.setdefault(wanted, []).extend(name.strip() for name in names.split(",") if name.strip())
    declared = DECLARED.findall(text)
    body = EXPORT.sub("", IMPORT.sub("", text))
    other = OTHER_FORM.search(body)
    if other:
        raise JoinError(f"{path}: `{other[0]}` is a line of import or export in another form")
    return Module(imports, {name for mark, name in declared if mark}, [name for _, name in declared], body)


def modules_of(path: str) -> dict[str, Module]:
    """Returns a module and all that it imports, by path, each after those that it imports.

    Raises JoinError for a fault of `read_module`, a missing export, and modules that import each other.
    """
    found: dict[str, Module] = {}

    def visit(at: str, importers: list[str]) -> None:
        if at in importers:
            raise JoinError(f"modules import each other: {' > '.join([*importers[importers.index(at):], at])}")
        if at in found:
            return
        module = read_module(at, importers[-1] if importers else "")
        for wanted, names in module.imports.items():
            visit(wanted, [*importers, at])
            for name in names:
                if name not in found[wanted].exports:
                    raise JoinError(f"{at} imports {name} from {wanted}, which doesn't export it")
        found[at] = module

    visit(os.path.normpath(path), [])
    return found


def joined(path: str) -> str:
    """Returns the script of a module and of all that it imports.

    Raises JoinError for a fault of `modules_of`, and for a name that two modules declare.
    """
    owners: dict[str, str] = {}
    modules = modules_of(path)
    for at, module in modules.items():
        for name in module.names:
            if owners.setdefault(name, at) != at:
                raise JoinError(f"{owners[name]} and {at} both declare {name}")
    return "\n".join(["'use strict';", *(module.body for module in modules.values())])


def main() -> None:
    words = sys.argv[1:] or [f"{HERE}/page.js"]
    try:
        script = joined(words[-1])
        if words[0] == "--module":
            script += f"\nexport {{ {', '.join(sorted(read_module(words[-1]).exports))} }};"
    except JoinError as fault:
        sys.exit(f"join: {fault}")
    sys.stdout.buffer.write(f"{script}\n".encode())


if __name__ == "__main__":
    main()
