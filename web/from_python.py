#!/usr/bin/env python3
"""Makes the page's module of what the companions have in Python: web/out/companions.js, which isn't tracked.

It translates the definitions that PARTS names, and all that these use, one to one: Python is the source, and `web/python.js` has what
Python's own types and modules do. Types, docstrings, `assert` and `lru_cache` are left out. Bytes become strings of characters up to
U+00FF. A form of Python that has no translation here ends with status 1 and names its line: it is written in a simpler form, or gets a translation.
"""
import ast
import json
import os
import re
import sys
from collections.abc import Iterable, Iterator
from typing import NamedTuple, Optional, Union

HERE = os.path.dirname(os.path.realpath(__file__))
COMPANIONS = f"{HERE}/../companions"
MADE = f"{HERE}/out/companions.js"
# What the page uses, by module; JavaScript exports it by these names.
PARTS = {
    "pops_companions.chess.attacks": ("attackers",),
    "pops_companions.chess.game_counts": ("impossible",),
    "pops_companions.chess.men": ("Colour", "Kind", "Man", "Square"),
    "pops_companions.chess.stipulation": ("Condition", "Stipulation"),
    "pops_companions.explain.characters": ("decoded", "shown"),
    "pops_companions.explain.explaining": ("explanation",),
    "pops_companions.explain.sentences": ("DATA", "sentence"),
    "pops_companions.explain.mending": ("edit_for", "read_number"),
    "pops_companions.explain.vocabulary": ("foreign", "unread"),
    "pops_companions.export.problems": ("joined", "read_problems"),
    "pops_companions.export.yaml_form": ("yaml_of",),
    "pops_companions.import_.options": ("option_left_out",),
    "pops_companions.import_.popeye": ("begins", "read_popeye"),
    "pops_companions.import_.posing": ("posed",),
    "pops_companions.import_.words": ("Unreadable",),
    "pops_companions.import_.yaml_problems": ("read_yaml",),
    "pops_companions.input.given": ("given_problems",),
    "pops_companions.input.writing": ("text_of_problems",),
    "pops_companions.input.pieces": ("cut",),
    "pops_companions.input.reading": ("FaultKind", "read_piece"),
    "pops_companions.report.events": ("Menace",),
    "pops_companions.report.items": ("Board", "Fault", "FaultyItem", "HeadlessItem", "HelpLine", "Node", "Phase", "PhaseKind", "SoundItem", "Total"),
    "pops_companions.report.moves": ("read_move",),
    "pops_companions.report.steps": ("rebirth_square",),
    "pops_companions.report.tries": ("FirstMove", "TriesItem"),
    "pops_companions.sheet.as_latex": ("as_latex",),
    "pops_companions.sheet.entries": ("Sheet", "boards_of"),
    "pops_companions.sheet.languages": ("LANGUAGES", "marked_as"),
    "pops_companions.sheet.latex_letters": ("beyond_latex",),
    "pops_companions.sheet.solution": ("Solution", "lines_of"),
    "pops_companions.show.as_json": ("item_object",),
    "pops_companions.show.diagram": ("diagram", "diagram_file"),
    "pops_companions.show.page": ("Page",),
    "pops_companions.show.twins": ("groups", "label_and_title"),
}
# Modules that JavaScript has by hand.
BY_HAND = {
    "pops_companions.import_.yaml_text": "../yaml.js",
    "pops_companions.show.men_shapes": "../shapes.js",
    "pops_companions.sheet.latex_commands": "../letters.js",
}
PACKAGE = "pops_companions"
# The module whose functions return a table of JSON or a text, which becomes part of the script.
STORED = f"{PACKAGE}.stored"
RESERVED = frozenset("case default new function var delete this switch void with const let export enum super".split())
# Methods of Python's own types, which web/python.js has as functions.
METHODS = frozenset(
    "add append casefold count decode encode endswith extend find format get index isalnum isalpha isascii isdecimal isdigit islower isupper items"
    " isprintable join keys lower lstrip partition pop replace rfind rpartition rstrip setdefault split startswith strip title translate"
    " update upper values".split()
)
# Methods of Python's patterns and of documents, which objects of JavaScript have by the same names.
METHODS_ALIKE = frozenset("end findall finditer fullmatch group groups match node search start sub".split())
OPERATORS: dict[type, str] = {
    ast.Lt: "({} < {})", ast.LtE: "({} <= {})", ast.Gt: "({} > {})", ast.GtE: "({} >= {})", ast.Is: "({} === {})", ast.IsNot: "({} !== {})",
    ast.Eq: "py.eq({}, {})", ast.NotEq: "!py.eq({}, {})", ast.In: "py.has({1}, {0})", ast.NotIn: "!py.has({1}, {0})",
    ast.Sub: "({} - {})", ast.Div: "({} / {})", ast.Mod: "py.percent({}, {})", ast.LShift: "({} << {})", ast.FloorDiv: "Math.floor({} / {})",
    ast.Add: "py.plus({}, {})", ast.Mult: "py.times({}, {})", ast.BitAnd: "py.common({}, {})", ast.BitOr: "py.joined({}, {})",
}
COMPREHENSIONS: dict[type, str] = {ast.GeneratorExp: "{}", ast.ListComp: "[...{}]", ast.SetComp: "py.set({})", ast.DictComp: "py.dict({})"}
STATEMENTS: dict[type, list[str]] = {ast.Assert: [], ast.Pass: [], ast.Break: ["break;"], ast.Continue: ["continue;"]}

Function = Union[ast.FunctionDef, ast.Lambda]
# The names of arguments, and whether others are taken too.
Signature = tuple[list[str], bool]
Comprehension = Union[ast.ListComp, ast.SetComp, ast.DictComp, ast.GeneratorExp]


class UntranslatedError(Exception):
    """A form of Python that has no translation, and its line."""


class Source(NamedTuple):
    """A module: its path, its definitions by name, and where each imported name comes from: a module and a name, or a module alone."""

    path: str
    definitions: dict[str, ast.stmt]
    imports: dict[str, tuple[str, str]]


def path_of(module: str) -> str:
    return f"{COMPANIONS}/{module.replace('.', '/')}.py"


def is_module(name: str) -> bool:
    return name.startswith(PACKAGE) and os.path.exists(path_of(name))


def names_in(target: ast.AST) -> list[str]:
    """Returns the names that an assignment sets."""
    return [it.id for it in ast.walk(target) if isinstance(it, ast.Name) and isinstance(it.ctx, ast.Store)]


def targets_of(node: Union[ast.Assign, ast.AnnAssign]) -> list[ast.expr]:
    return node.targets if isinstance(node, ast.Assign) else [node.target]


def read_source(module: str) -> Source:
    path = path_of(module)
    with open(path, encoding="utf-8") as file:
        tree = ast.parse(file.read(), path)
    definitions: dict[str, ast.stmt] = {}
    imports: dict[str, tuple[str, str]] = {}
    for it in tree.body:
        if isinstance(it, ast.ImportFrom):
            for name in it.names:
                whole = f"{it.module}.{name.name}"
                imports[name.asname or name.name] = (whole, "") if is_module(whole) else (str(it.module), name.name)
        elif isinstance(it, ast.Import):
            imports.update({name.name: (name.name, "") for name in it.names})
        elif isinstance(it, (ast.FunctionDef, ast.ClassDef)):
            definitions[it.name] = it
        elif isinstance(it, (ast.Assign, ast.AnnAssign)):
            for target in targets_of(it):
                definitions.update(dict.fromkeys(names_in(target), it))
        elif not is_docstring(it) and not isinstance(it, ast.If):
            raise UntranslatedError(f"{path}:{it.lineno}: no translation of what a module does beside definitions")
    return Source(path, definitions, imports)


class Program:
    """The modules, and which of their definitions are used."""

    def __init__(self) -> None:
        self.sources: dict[str, Source] = {}
        self.used: set[tuple[str, str]] = set()
        self.order: list[str] = []
        for module, names in PARTS.items():
            for name in names:
                self.use(module, name)

    def source(self, module: str) -> Source:
        if module not in self.sources:
            self.sources[module] = read_source(module)
            for wanted, _ in self.sources[module].imports.values():
                if is_module(wanted) and wanted not in BY_HAND:
                    self.source(wanted)
            self.order.append(module)
        return self.sources[module]

    def use(self, module: str, name: str) -> None:
        """Marks a definition as used, and all that it uses."""
        if module == STORED or (module, name) in self.used or name not in self.source(module).definitions:
            return
        self.used.add((module, name))
        for it in without_types(self.source(module).definitions[name]):
            if isinstance(it, (ast.Name, ast.Attribute)):
                found = self.found(module, it)
                if found and found[0] in self.sources:
                    self.use(*found)

    def found(self, module: str, it: ast.expr) -> Optional[tuple[str, str]]:
        """Returns the module and the name of what a name or an attribute of a module is; None for others."""
        source = self.sources[module]
        if isinstance(it, ast.Name):
            if it.id in source.definitions:
                return module, it.id
            return source.imports.get(it.id)
        if isinstance(it, ast.Attribute) and isinstance(it.value, ast.Name):
            place, name = source.imports.get(it.value.id, ("", "-"))
            return None if name else (place, it.attr)
        return None

    def definition(self, place: Optional[tuple[str, str]]) -> Optional[ast.stmt]:
        return self.sources[place[0]].definitions.get(place[1]) if place and place[0] in self.sources else None


def without_types(node: ast.AST) -> Iterator[ast.AST]:
    """Yields a node and the nodes below it, without the types of arguments and variables, and without `assert`."""
    yield node
    for name, value in ast.iter_fields(node):
        if name in ("annotation", "returns"):
            continue
        for it in value if isinstance(value, list) else [value]:
            if isinstance(it, ast.AST) and not isinstance(it, ast.Assert):
                yield from without_types(it)


def own_nodes(node: ast.AST) -> Iterator[ast.AST]:
    """Yields the nodes of a function, but not of functions and comprehensions in it."""
    for it in ast.iter_child_nodes(node):
        yield it
        if not isinstance(it, (ast.FunctionDef, ast.Lambda, ast.ListComp, ast.SetComp, ast.DictComp, ast.GeneratorExp)):
            yield from own_nodes(it)


def arguments_of(node: Function) -> list[str]:
    return [it.arg for it in ast.iter_child_nodes(node.args) if isinstance(it, ast.arg)]


def locals_of(node: ast.FunctionDef) -> list[str]:
    """Returns the names that a function sets, without its arguments."""
    named = (it.id for it in own_nodes(node) if isinstance(it, ast.Name) and isinstance(it.ctx, ast.Store))
    caught = (it.name for it in own_nodes(node) if isinstance(it, ast.ExceptHandler) and it.name)
    return [it for it in dict.fromkeys([*named, *caught]) if it not in arguments_of(node)]


def decorators_of(node: Union[ast.FunctionDef, ast.ClassDef]) -> set[str]:
    return {ast.unparse(it).split("(")[0] for it in node.decorator_list}


def fields_of(node: ast.ClassDef) -> dict[str, Optional[ast.expr]]:
    """Returns the fields of a class, with the values that they have if they aren't given."""
    return {it.target.id: it.value for it in node.body if isinstance(it, ast.AnnAssign) and isinstance(it.target, ast.Name)}


def signature(node: Union[ast.FunctionDef, ast.ClassDef]) -> Signature:
    """Returns the names of arguments without `self`, of a class those with which it is called, and whether others are taken too."""
    if isinstance(node, ast.ClassDef):
        begins = [it for it in node.body if isinstance(it, ast.FunctionDef) and it.name == "__init__"]
        return signature(begins[0]) if begins else ([*fields_of(node)], False)
    args = node.args
    return [it.arg for it in (*args.posonlyargs, *args.args, *args.kwonlyargs) if it.arg != "self"], bool(args.kwarg)


def is_docstring(node: ast.stmt) -> bool:
    return isinstance(node, ast.Expr) and isinstance(node.value, ast.Constant)


def indented(lines: Iterable[str]) -> list[str]:
    return [f" {it}" for it in lines]


class Writer:
    """Writes definitions in JavaScript."""

    def __init__(self, program: Program):
        self.program = program
        self.module = ""
        self.scopes: list[set[str]] = []
        self.by_hand: dict[str, set[str]] = {}

    def fail(self, node: ast.AST, what: str) -> UntranslatedError:
        path = os.path.relpath(self.program.sources[self.module].path)
        return UntranslatedError(f"{path}:{getattr(node, 'lineno', '?')}: no translation of {what}")

    # Names.

    def global_name(self, module: str, name: str) -> str:
        *_, folder, own = module.split(".")
        is_alone = sum(it.endswith(f".{own}") for it in self.program.sources) == 1
        return f"{name}${own if is_alone else folder.rstrip('_') + '_' + own}"

    def place_of(self, node: ast.expr) -> Optional[tuple[str, str]]:
        """Returns the module and the name of what is defined outside of the functions at hand; None for others."""
        name = node.value if isinstance(node, ast.Attribute) else node
        if not isinstance(name, ast.Name) or any(name.id in it for it in self.scopes):
            return None
        return self.program.found(self.module, node)

    def name(self, node: ast.expr, name: str) -> str:
        place = self.place_of(node)
        if place is None:
            is_local = any(name in it for it in self.scopes)
            return f"{name}$" if name in RESERVED else name if is_local else f"py.{name}"
        if place[0] in BY_HAND:
            self.by_hand.setdefault(BY_HAND[place[0]], set()).add(place[1])
            return place[1]
        if self.program.definition(place):
            return self.global_name(*place)
        return f"py.{place[0].rsplit('.', maxsplit=1)[-1]}" + (f".{place[1]}" if place[1] else "")

    # Expressions.

    def value(self, node: ast.expr) -> str:
        write = getattr(self, f"value_{type(node).__name__}", None)
        if write is None:
            raise self.fail(node, type(node).__name__)
        said: str = write(node)
        return said

    def values(self, nodes: Iterable[ast.expr]) -> str:
        return ", ".join(self.value(it) for it in nodes)

    def value_Constant(self, node: ast.Constant) -> str:
        if isinstance(node.value, bytes):
            return json.dumps(node.value.decode("latin-1"))
        return json.dumps(node.value)

    def value_Name(self, node: ast.Name) -> str:
        return self.name(node, node.id)

    def value_Attribute(self, node: ast.Attribute) -> str:
        return self.name(node, node.attr) if self.place_of(node) else f"{self.value(node.value)}.{node.attr}"

    def value_Tuple(self, node: Union[ast.Tuple, ast.List]) -> str:
        return f"[{self.values(node.elts)}]"

    value_List = value_Tuple

    def value_Set(self, node: ast.Set) -> str:
        return f"py.set([{self.values(node.elts)}])"

    def value_Dict(self, node: ast.Dict) -> str:
        pairs = (
            f"...py.items({self.value(value)})" if key is None else f"[{self.value(key)}, {self.value(value)}]"
            for key, value in zip(node.keys, node.values)
        )
        return f"py.dict([{', '.join(pairs)}])"

    def value_Starred(self, node: ast.Starred) -> str:
        return f"...{self.value(node.value)}" if isinstance(node.ctx, ast.Store) else f"...py.iter({self.value(node.value)})"

    def value_JoinedStr(self, node: ast.JoinedStr) -> str:
        return "`" + "".join(self.part(it) for it in node.values) + "`"

    def part(self, node: ast.expr) -> str:
        """Returns a part of a text with values."""
        if isinstance(node, ast.Constant):
            return json.dumps(node.value)[1:-1].replace('\\"', '"').replace("`", "\\`").replace("${", "\\${")
        assert isinstance(node, ast.FormattedValue)
        if node.conversion == ord("r"):
            return f"${{py.repr({self.value(node.value)})}}"
        if node.format_spec is None:
            return f"${{{self.value(node.value)}}}"
        return f"${{py.formatted({self.value(node.value)}, {self.value(node.format_spec)})}}"

    def value_Subscript(self, node: ast.Subscript) -> str:
        if not isinstance(node.slice, ast.Slice):
            return f"py.at({self.value(node.value)}, {self.value(node.slice)})"
        if node.slice.step:
            raise self.fail(node, "a step")
        ends = (self.value(it) if it else "null" for it in (node.slice.lower, node.slice.upper))
        return f"py.slice({self.value(node.value)}, {', '.join(ends)})"

    def value_UnaryOp(self, node: ast.UnaryOp) -> str:
        return f"!{self.test(node.operand)}" if isinstance(node.op, ast.Not) else f"-{self.value(node.operand)}"

    def value_BinOp(self, node: ast.BinOp) -> str:
        return self.operated(node.op, node.left, node.right)

    def operated(self, op: Union[ast.operator, ast.cmpop], left: ast.expr, right: ast.expr) -> str:
        form = OPERATORS.get(type(op))
        if form is None:
            raise self.fail(left, type(op).__name__)
        return form.format(self.value(left), self.value(right))

    def value_BoolOp(self, node: ast.BoolOp) -> str:
        said = self.value(node.values[-1])
        for it in reversed(node.values[:-1]):
            said = f"py.{'or' if isinstance(node.op, ast.Or) else 'and'}({self.value(it)}, () => {said})"
        return said

    def test(self, node: ast.expr) -> str:
        """Returns a condition."""
        if isinstance(node, ast.BoolOp):
            return f"({(' || ' if isinstance(node.op, ast.Or) else ' && ').join(self.test(it) for it in node.values)})"
        return f"py.bool({self.value(node)})"

    def value_IfExp(self, node: ast.IfExp) -> str:
        return f"({self.test(node.test)} ? {self.value(node.body)} : {self.value(node.orelse)})"

    def value_Compare(self, node: ast.Compare) -> str:
        sides = [node.left, *node.comparators]
        found = [self.operated(op, one, two) for op, one, two in zip(node.ops, sides, sides[1:])]
        return found[0] if len(found) == 1 else f"({' && '.join(found)})"

    def value_Lambda(self, node: ast.Lambda) -> str:
        with_names = set(arguments_of(node))
        self.scopes.append(with_names)
        said = f"({', '.join(self.parameters(node))}) => {self.value(node.body)}"
        self.scopes.pop()
        return f"({said})"

    def value_GeneratorExp(self, node: Comprehension) -> str:
        said: list[str] = []
        before = len(self.scopes)
        for loop in node.generators:
            # (the outermost list is read outside)
            loops = f"py.iter({self.value(loop.iter)})"
            self.scopes.append(set(names_in(loop.target)))
            said.append(f"for (const {self.value(loop.target)} of {loops})")
            said.extend(f"if ({self.test(it)})" for it in loop.ifs)
        one = f"[{self.value(node.key)}, {self.value(node.value)}]" if isinstance(node, ast.DictComp) else self.value(node.elt)
        del self.scopes[before:]
        return COMPREHENSIONS[type(node)].format(f"(function* () {{ {' '.join(said)} yield {one}; }})()")

    value_ListComp = value_SetComp = value_DictComp = value_GeneratorExp

    # Calls.

    def value_Call(self, node: ast.Call) -> str:
        function = node.func
        place = self.place_of(function)
        if place and place[0] == STORED and isinstance(node.args[0], ast.Constant):
            with open(f"{COMPANIONS}/{PACKAGE}/{node.args[0].value}", encoding="utf-8") as file:
                return json.dumps(json.load(file) if place[1] == "stored" else file.read(), ensure_ascii=False)
        definition = self.program.definition(place)
        if isinstance(definition, ast.ClassDef):
            bases = {ast.unparse(it) for it in definition.bases}
            made = self.value(function)
            if any(it.arg is None for it in node.keywords):
                return f"py.record({made}, {self.arguments(node, None)})"
            said = self.arguments(node, signature(definition))
            return f"{made}.of({said})" if bases & {"Enum", "IntEnum"} else f"new {made}({said})"
        if isinstance(definition, ast.FunctionDef):
            return f"{self.value(function)}({self.arguments(node, signature(definition))})"
        if isinstance(function, ast.Attribute) and place is None:
            if function.attr in METHODS:
                said = self.arguments(node, None)
                return f"py.{function.attr}({self.value(function.value)}{', ' if said else ''}{said})"
            owner = self.value(function.value)
            is_module = re.fullmatch(r"py\.\w+", owner) is not None
            if not (is_module or function.attr in METHODS_ALIKE or self.has_member(function.attr)):
                raise self.fail(node, f"the method {function.attr}")
            return f"{owner}.{function.attr}({self.arguments(node, self.method(function.attr))})"
        if place == ("re", "compile"):
            return self.pattern(node)
        return f"{self.value(function)}({self.arguments(node, None)})"

    def pattern(self, node: ast.Call) -> str:
        """Returns a compiled pattern. One of bytes knows only signs of ASCII."""
        is_of_bytes = any(isinstance(it, ast.Constant) and isinstance(it.value, bytes) for it in ast.walk(node.args[0]))
        said = [self.value(it) for it in node.args]
        if is_of_bytes:
            said[1:] = [f"py.joined({said[1]}, py.re.ASCII)" if said[1:] else "py.re.ASCII"]
        return f"py.re.compile({', '.join(said)})"

    def members(self) -> Iterator[ast.stmt]:
        """Yields methods and fields of our classes."""
        for source in self.program.sources.values():
            for it in source.definitions.values():
                yield from it.body if isinstance(it, ast.ClassDef) else ()

    def has_member(self, name: str) -> bool:
        """Returns whether a class of ours has a method, or a field that can be called, with this name."""
        return any(name == getattr(it, "name", "") or isinstance(it, ast.AnnAssign) and name in names_in(it.target) for it in self.members())

    def method(self, name: str) -> Optional[Signature]:
        """Returns the arguments of a method that only one of our classes has."""
        found = [it for it in self.members() if isinstance(it, ast.FunctionDef) and it.name == name]
        return signature(found[0]) if len(found) == 1 and not decorators_of(found[0]) else None

    def arguments(self, node: ast.Call, wanted: Optional[Signature]) -> str:
        """Returns the arguments of a call: those with names at their places, or at the end as an object."""
        plain = [self.value(it) for it in node.args]
        pairs = {it.arg: self.value(it.value) for it in node.keywords if it.arg}
        spread = [f"...py.fields({self.value(it.value)})" for it in node.keywords if it.arg is None]
        names, takes_others = wanted or ([], False)
        if wanted is None or not (takes_others or pairs or spread):
            return ", ".join([*plain, *self.as_object(pairs, spread)])
        own, rest = plain[: len(names)], plain[len(names) :]
        last = len(names) if takes_others else max([len(own), *(names.index(it) + 1 for it in pairs if it in names)])
        own += [pairs.pop(it, "undefined") for it in names[len(own) : last]]
        if pairs and not takes_others:
            raise self.fail(node, f"the argument {next(iter(pairs))}")
        return ", ".join([*own, *(self.as_object(pairs, spread) or ["{}"] if takes_others else []), *rest])

    def as_object(self, pairs: dict[str, str], spread: list[str]) -> list[str]:
        if not pairs and not spread:
            return []
        return [f"{{ {', '.join([*spread, *(f'{name}: {value}' for name, value in pairs.items())])} }}"]

    def parameters(self, node: Function) -> list[str]:
        """Returns the names of arguments with their defaults, without `self`."""
        args = node.args
        plain = [*args.posonlyargs, *args.args]
        defaults = [*[None] * (len(plain) - len(args.defaults)), *args.defaults]
        pairs = [*zip(plain, defaults), *zip(args.kwonlyargs, args.kw_defaults)]
        said = [it.arg + (f" = {self.value(default)}" if default else "") for it, default in pairs if it.arg != "self"]
        said = [f"{it}$" if it in RESERVED else it for it in said]
        return [*said, *([args.kwarg.arg] if args.kwarg else []), *([f"...{args.vararg.arg}"] if args.vararg else [])]

    # Statements.

    def body(self, nodes: Iterable[ast.stmt]) -> list[str]:
        said: list[str] = []
        for it in nodes:
            if is_docstring(it):
                continue
            write = getattr(self, f"write_{type(it).__name__}", None)
            if write is None and type(it) not in STATEMENTS:
                raise self.fail(it, type(it).__name__)
            said += write(it) if write else STATEMENTS[type(it)]
        return indented(said)

    def block(self, head: str, nodes: Iterable[ast.stmt]) -> list[str]:
        return [f"{head} {{", *self.body(nodes), "}"]

    def write_Expr(self, node: ast.Expr) -> list[str]:
        if isinstance(node.value, (ast.Yield, ast.YieldFrom)):
            star, of = ("*", "py.iter") if isinstance(node.value, ast.YieldFrom) else ("", "")
            return [f"yield{star} {of}({self.value(node.value.value) if node.value.value else 'null'});"]
        call = node.value
        if isinstance(call, ast.Call) and ast.unparse(call.func) == "super().__init__":
            return [f"super({self.values(call.args)});", "const self = this;"]
        return [f"{self.value(node.value)};"]

    def write_Return(self, node: ast.Return) -> list[str]:
        return [f"return {self.value(node.value) if node.value else 'null'};"]

    def assigned(self, target: ast.expr, value: str) -> str:
        if isinstance(target, ast.Subscript):
            return f"py.put({self.value(target.value)}, {self.value(target.slice)}, {value});"
        if isinstance(target, ast.Tuple) and not all(isinstance(it, (ast.Name, ast.Attribute, ast.Starred)) for it in target.elts):
            parts = "".join(f" {self.assigned(it, f'$all[{place}]')}" for place, it in enumerate(target.elts))
            return f"{{ const $all = {value};{parts} }}"
        return f"{self.value(target)} = {value};"

    def write_Assign(self, node: ast.Assign) -> list[str]:
        said = [self.assigned(node.targets[-1], self.value(node.value))]
        return said + [self.assigned(it, self.value(node.targets[-1])) for it in reversed(node.targets[:-1])]

    def write_AnnAssign(self, node: ast.AnnAssign) -> list[str]:
        return [self.assigned(node.target, self.value(node.value))] if node.value else []

    def write_Delete(self, node: ast.Delete) -> list[str]:
        places = (it for it in node.targets if isinstance(it, ast.Subscript))
        return [f"py.pop({self.value(it.value)}, {self.value(it.slice)});" for it in places]

    def write_AugAssign(self, node: ast.AugAssign) -> list[str]:
        return [self.assigned(node.target, self.value(ast.copy_location(ast.BinOp(node.target, node.op, node.value), node)))]

    def write_If(self, node: ast.If) -> list[str]:
        said = self.block(f"if ({self.test(node.test)})", node.body)
        return [*said[:-1], *self.block("} else", node.orelse)] if node.orelse else said

    def write_While(self, node: ast.While) -> list[str]:
        return self.block(f"while ({self.test(node.test)})", node.body)

    def write_For(self, node: ast.For) -> list[str]:
        if node.orelse:
            raise self.fail(node, "else of a loop")
        return self.block(f"for ({self.value(node.target)} of py.iter({self.value(node.iter)}))", node.body)

    def write_Raise(self, node: ast.Raise) -> list[str]:
        if node.exc is None:
            return ["throw $fault;"]
        said = self.value(node.exc)
        return [f"throw {'' if said.startswith('new ') else 'new '}{said};"]

    def write_Try(self, node: ast.Try) -> list[str]:
        said = self.block("try", node.body)
        if node.handlers:
            said[-1] = "} catch ($fault) {"
            for place, it in enumerate(node.handlers):
                said += indented(self.handler(it, "if" if place == 0 else "else if"))
            said += [" else throw $fault;", "}"]
        return said if not node.finalbody else [*said[:-1], *self.block("} finally", node.finalbody)]

    def handler(self, node: ast.ExceptHandler, when: str) -> list[str]:
        kind = self.value(node.type) if node.type else "Error"
        named = [f" {node.name} = $fault;"] if node.name else []
        return [f"{when} (py.isinstance($fault, {kind})) {{", *named, *self.body(node.body), "}"]

    def write_FunctionDef(self, node: ast.FunctionDef) -> list[str]:
        return self.function(node, node.name)

    def function(self, node: ast.FunctionDef, name: str, mark: str = "function") -> list[str]:
        inner = [it.name for it in own_nodes(node) if isinstance(it, ast.FunctionDef)]
        own = [it for it in locals_of(node) if it not in inner]
        self.scopes.append({*arguments_of(node), *own, *inner})
        said = self.body(node.body)
        star = "*" if any(isinstance(it, (ast.Yield, ast.YieldFrom)) for it in own_nodes(node)) else ""
        head = f"{mark}{star} {name}({', '.join(self.parameters(node))})"
        self.scopes.pop()
        names = [f"{it}$" if it in RESERVED else it for it in own]
        starts = [f" let {', '.join(names)};"] if names else []
        if "self" in arguments_of(node) and not any(it.startswith(" super(") for it in said):
            starts.insert(0, " const self = this;")
        return [f"{head} {{", *starts, *said, "}"]

    # Definitions.

    def class_of(self, name: str, node: ast.ClassDef) -> list[str]:
        bases = [ast.unparse(it) for it in node.bases]
        is_record = "NamedTuple" in bases or bool(decorators_of(node) & {"dataclass"})
        is_enum = bool({"Enum", "IntEnum"} & set(bases))
        base = "py.Record" if is_record else "py.Enum" if is_enum else self.value(node.bases[0]) if bases else ""
        said = self.record(node) if is_record else []
        members: list[str] = []
        for it in node.body:
            if isinstance(it, ast.FunctionDef):
                said += self.member(it)
            elif isinstance(it, ast.Assign) and is_enum and names_in(it.targets[0]) != ["__hash__"]:
                members.append(f"{names_in(it.targets[0])[0]}: {self.value(it.value)}")
        after = [f"py.members({name}, {{ {', '.join(members)} }});"] if is_enum else []
        return [f"class {name}{f' extends {base}' if base else ''} {{", *indented(said), "}", *after]

    def record(self, node: ast.ClassDef) -> list[str]:
        given = [name + (f" = {self.default(value)}" if value else "") for name, value in fields_of(node).items()]
        sets = [f" this.{it} = {it};" for it in fields_of(node)]
        return [f"static fields = {json.dumps([*fields_of(node)])};", f"constructor({', '.join(given)}) {{", " super();", *sets, "}"]

    def default(self, node: ast.expr) -> str:
        """Returns the value of a field that isn't given."""
        if isinstance(node, ast.Call) and isinstance(node.func, ast.Name) and node.func.id == "field":
            (factory,) = (it.value for it in node.keywords if it.arg == "default_factory")
            return self.value_Call(ast.copy_location(ast.Call(factory, [], []), node))
        return self.value(node)

    def member(self, node: ast.FunctionDef) -> list[str]:
        marks = {"property": "get", "staticmethod": "static"}
        if decorators_of(node) - {*marks}:
            raise self.fail(node, "this decorator")
        name = "constructor" if node.name == "__init__" else node.name
        return self.function(node, name, "".join(marks[it] for it in decorators_of(node)))

    def constant(self, module: str, node: Union[ast.Assign, ast.AnnAssign]) -> list[str]:
        assert node.value is not None
        said = []
        value = self.value(node.value)
        for target in reversed(targets_of(node)):
            names = [self.global_name(module, it) for it in names_in(target)]
            made = names[0] if isinstance(target, ast.Name) else f"[{', '.join(names)}]"
            said.append(f"const {made} = {value};")
            value = names[0]
        return said

    def definition(self, module: str, name: str, node: ast.stmt) -> list[str]:
        self.module = module
        said = self.global_name(module, name)
        if isinstance(node, ast.ClassDef):
            return self.class_of(said, node)
        if isinstance(node, ast.FunctionDef):
            function = self.function(node, said)
            # (what lru_cache keeps changes no result)
            for it in (it for it in node.decorator_list if not ast.unparse(it).startswith("lru_cache")):
                function = [f"const {said} = {self.value(it)}({function[0]}", *function[1:-1], "});"]
            return function
        assert isinstance(node, (ast.Assign, ast.AnnAssign))
        return self.constant(module, node)

    def all(self) -> list[str]:
        said: list[str] = []
        for module in self.program.order:
            done: set[int] = set()
            for name, node in self.program.sources[module].definitions.items():
                if (module, name) in self.program.used and id(node) not in done:
                    done.add(id(node))
                    said += self.definition(module, name, node)
        return said


def made() -> str:
    """Returns the module. Raises UntranslatedError."""
    program = Program()
    writer = Writer(program)
    said = writer.all()
    hand = [f"import {{ {', '.join(sorted(names))} }} from '{path}';" for path, names in sorted(writer.by_hand.items())]
    in_camel = {name: re.sub("_(.)", lambda found: found[1].upper(), name) for names in PARTS.values() for name in names}
    parts = [f" {in_camel[name]}: {writer.global_name(module, name)}," for module, names in PARTS.items() for name in names]
    head = ["// @ts-nocheck", "// Made by web/from_python.py.", "import { py } from '../python.js';", *hand]
    return "\n".join([*head, "", *said, "", "/** @type {any} */", "export const companions = {", *parts, " dict: py.dict,", " encoded: text => py.encode(text, 'utf-8'),", "};", ""])


def main() -> None:
    """Writes the file, which others may be reading, at once."""
    try:
        text = made()
    except UntranslatedError as fault:
        sys.exit(f"from_python: {fault}")
    os.makedirs(os.path.dirname(MADE), exist_ok=True)
    with open(f"{MADE}.{os.getpid()}", "w", encoding="utf-8") as file:
        file.write(text)
    os.replace(f"{MADE}.{os.getpid()}", MADE)


if __name__ == "__main__":
    main()
