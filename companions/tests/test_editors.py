"""Editor files: what Vim and VS Code highlight and fold is what pops reads."""

import json
import re
import shutil
import subprocess
import tempfile
import unittest
from pathlib import Path

from tests import support

EDITORS = support.REPOSITORY / "editors"
VSCODE = EDITORS / "vscode"

# What a word is, in VS Code's grammar and in Vim's.
KINDS = {
    "control": ("keyword.control.pop", "popCommand"),
    "section": ("keyword.other.pop", "popCommand"),
    "colour": ("storage.type.colour.pop", "popColour"),
    "men": ("variable.other.men.pop", "popMen"),
    "squares": ("variable.other.squares.pop", "popSquares"),
    "stipulation": ("constant.language.stipulation.pop", "popStipulation"),
    "condition": ("support.constant.condition.pop", "popCondition"),
    "option": ("support.function.option.pop", "popOption"),
    "number": ("constant.numeric.pop", "popNumber"),
    "": ("", ""),
}


def forms(word: str, least: int = 3) -> list[str]:
    return [word[:length] for length in range(least, len(word) + 1)]


WORDS: dict[str, list[str]] = {
    "control": forms("BeginProblem") + forms("nextproblem"),
    "section": forms("Pieces") + forms("Stipulation") + forms("Condition") + forms("OPTION"),
    "colour": forms("White", 1) + forms("black", 1),
    "men": ["Kg6", "pa2b2c2", "Na1", "GH8"],
    "squares": ["e4", "a1h8", "E1"],
    "stipulation": ["#1", "#16", "s#2", "h=3", "h#2.5", "h=0.5", "S=1"],
    "condition": forms("Circe") + forms("Madrasi"),
    "option": forms("SetPlay") + forms("Variation") + forms("NoBoard") + forms("MaxSolutions")
    + forms("EnPassant") + forms("NoCastling"),
    "number": ["5", "4000000000"],
    "": ["Be", "BeginProblems", "Kg9", "Kg6,", "2#", "h#", "s#2.5", "#02", "#", "Variations", "Ra1-a2",
         "Twin", "Anticirce"],
}  # fmt: skip


class VsCode(unittest.TestCase):
    def setUp(self) -> None:
        self.grammar = json.loads((VSCODE / "syntaxes" / "pop.tmLanguage.json").read_text())

    def scope(self, word: str) -> str:
        for pattern in self.grammar["patterns"]:
            text = re.sub(r"\\x\{(\w{4})\}", r"\\u\1", pattern.get("match") or pattern["begin"])
            if re.match(text, word) and re.fullmatch(text, word):
                return str(pattern.get("name", ""))
        return ""

    def test_each_word_in_each_form(self) -> None:
        for kind, words in WORDS.items():
            for word in words:
                with self.subTest(word):
                    self.assertEqual(self.scope(word), KINDS[kind][0])

    def test_text_lines_take_the_rest_of_their_line(self) -> None:
        self.assertEqual(self.scope("Remark Pieces White Kg6"), "comment.line.remark.pop")
        (pattern,) = [it for it in self.grammar["patterns"] if "captures" in it]
        found = re.search(pattern["match"], "Option NoBoard Tit Kg6 is here")
        assert found is not None
        self.assertEqual(found.groups(), ("Tit", " Kg6 is here"))

    def test_files_that_the_package_names(self) -> None:
        package = json.loads((VSCODE / "package.json").read_text())
        grammar, language = (
            package["contributes"]["grammars"][0],
            package["contributes"]["languages"][0],
        )
        for name in (grammar["path"], language["configuration"], package["main"]):
            self.assertTrue((VSCODE / name).is_file(), name)
        self.assertEqual(grammar["scopeName"], self.grammar["scopeName"])
        self.assertEqual(language["extensions"], [".pop"])
        configuration = json.loads((VSCODE / "language-configuration.json").read_text())
        self.assertEqual(configuration["comments"]["lineComment"].strip(), "Remark")

    def test_folds(self) -> None:
        if shutil.which("node") is None:
            print("test_editors: no node here: the folds of VS Code weren't tried")
            return
        script = (
            f"const it = require({json.dumps(str(VSCODE / 'extension.js'))});"
            "console.log(JSON.stringify(it.problemRanges(JSON.parse(process.argv[1]))));"
        )
        lines = [
            "Remark",
            "Begin",
            "Pie",
            "NEXTProblem x",
            "Title Next",
            "",
            "endproblem",
            "Beg",
            "x",
        ]
        done = subprocess.run(
            ["node", "-e", script, json.dumps(lines)], capture_output=True, text=True, check=True
        )
        self.assertEqual(json.loads(done.stdout), [[1, 2], [3, 5]])


def has_vim() -> bool:
    """Whether there is a Vim that highlights; without one the tests of it say so and pass."""
    program = shutil.which("vim")
    words = [program or "false", "--version"]
    found = b"+syntax" in subprocess.run(words, capture_output=True).stdout
    if not found:
        print("test_editors: no vim with syntax here: Vim's files weren't tried")
    return found


class Vim(unittest.TestCase):
    def said(self, text: str, script: str) -> list[str]:
        """What Vim writes when a script has run over a text."""
        with tempfile.TemporaryDirectory() as room:
            source, target = Path(room) / "some.pop", Path(room) / "said"
            source.write_text(text, "utf-8")
            commands = Path(room) / "commands.vim"
            commands.write_text(
                f"set nocompatible encoding=utf-8 runtimepath^={EDITORS / 'vim'}\n"
                f"filetype plugin on\nsyntax on\nedit {source}\n{script}\n"
                f"call writefile(g:said, '{target}')\nquitall!\n"
            )
            words = ["vim", "-es", "-N", "-u", "NONE", "-i", "NONE", "-S", str(commands)]
            done = subprocess.run(words, stdin=subprocess.DEVNULL, capture_output=True, timeout=support.PATIENCE)
            self.assertTrue(target.is_file(), done)
            return target.read_text("utf-8").splitlines()

    GROUPS = (
        "let g:said = map(range(1, line('$')),"
        " \"synIDattr(synID(v:val, col([v:val, '$']) - 1, 1), 'name')\")"
    )

    def test_each_word_in_each_form(self) -> None:
        if not has_vim():
            return
        pairs = [(kind, word) for kind, words in WORDS.items() for word in words]
        said = self.said("".join(f"{word}\n" for _, word in pairs), self.GROUPS)
        for (kind, word), group in zip(pairs, said):
            with self.subTest(word):
                self.assertEqual(group, KINDS[kind][1])

    def test_text_lines_and_the_end(self) -> None:
        if not has_vim():
            return
        text = (
            "BeginProblem\nTitle A\nRemark Kg6\nOption NoBoard Rem Kg6\nSti #1\u00a0\nEnd\nPieces\n"
        )
        wanted = ["popCommand", "popText", "popRemark", "popRemark", "popInvisible", "popCommand",
                  "popUnread"]  # fmt: skip
        self.assertEqual(self.said(text, self.GROUPS), wanted)

    def test_folds_and_comments(self) -> None:
        if not has_vim():
            return
        text = "BeginProblem\nTitle A\nSti #2\nnext\nPie\nEndProblem\nrest\n"
        script = (
            "let g:said = map(range(1, line('$')), 'foldlevel(v:val)') +"
            " [&commentstring, foldtextresult(1)]"
        )
        said = self.said(text, script)
        self.assertEqual(said, ["1"] * 5 + ["0"] * 2 + ["Remark %s", "- #2, A "])
