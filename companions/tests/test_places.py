"""Where faults are: the companions' own reading finds the words that pops-part finds, whose places are
proved."""

import os
import random
import re
import unittest
from typing import NamedTuple, Optional
from unittest import mock

import pops
from pops_companions.explain.explaining import OtherText, explain
from pops_companions.input.pieces import cut
from pops_companions.input.reading import FaultKind, read_piece
from pops_companions.input.words import Span
from pops_companions.many.fault_places import places_of
from pops_companions.report.reader import read_report
from tests import made_inputs, parts_told, support
from tests.slips import slips
from tests.stand_ins import stand_in

_LISTED = re.compile(rb"(\d+): fault (\d+), line (\d+), bytes (\d+) up to (\d+)\n")
# Faults that no text shows to the companions.
_WITHOUT_WORD = (FaultKind.INPUT_TOO_LONG, FaultKind.DEVICE_FAILED)


class Place(NamedTuple):
    """A fault: its problem, kind and line, and the bytes where it is found."""

    problem: int
    kind: FaultKind
    line: int
    start: int
    stop: int


def listed(program: str, text: bytes) -> list[Place]:
    """The faults of a text as pops-part lists them."""
    said = support.run([program, "--faults"], text).output
    found = list(_LISTED.finditer(said))
    assert b"".join(it[0] for it in found) == said, said
    rows = [[int(number) for number in it.groups()] for it in found]
    return [Place(row[0], FaultKind(row[1]), *row[2:]) for row in rows]


def read(text: bytes) -> list[Place]:
    """The faults of a text as the companions read it."""
    places = []
    for piece in cut(text):
        reading = read_piece(text, piece)
        if reading.number is not None:
            span = Span(len(text), len(text)) if reading.at is None else reading.word.span
            line = text.count(b"\n", 0, span.start) + 1
            places.append(Place(piece.number, reading.number, line, span.start, span.stop))
    return places


class Places(unittest.TestCase):
    program: Optional[str]

    def setUp(self) -> None:
        self.program = parts_told.program()
        if self.program is None:
            self.skipTest("pops-part isn't built")

    def assert_same(self, text: bytes) -> list[Place]:
        assert self.program is not None
        told = listed(self.program, text)
        self.assertEqual(read(text), told)
        return told

    def test_all_slips(self) -> None:
        count = 0
        for slip in slips():
            with self.subTest(f"line {slip.place} of the list"):
                count += len(self.assert_same(slip.text))
        self.assertGreaterEqual(count, 300)

    def test_made_inputs(self) -> None:
        chance = random.Random(35)
        kinds: set[FaultKind] = set()
        for _ in range(600):
            text = made_inputs.made_input(chance)
            with self.subTest(text):
                kinds.update(it.kind for it in self.assert_same(text))
        self.assertGreater(len(kinds), 12)

    def test_every_kind(self) -> None:
        whole = "Pieces White Kg6 Ra1 Black Kg8 Stipulation #1"
        blocks = (
            "Dg6",
            "x" * 161,
            "Pieces Kg6",
            "Pieces White Kg6 Ra1g6",
            "Pieces White Pa8",
            "Pieces White Kg6g7",
            "Stipulation #0",
            "Stipulation #1 #1",
            "Pieces White Kg6 Ra1 Black Kg8",
            "Stipulation #1",
            "Condition Circe Circe",
            "Option MaxSolutions 0",
            "Pieces White Kg6 R",
            f"{whole} Option EnPassant a6",
            "Option NoCastling a2",
            "Pieces White Kg6 Stipulation #1",
            "Pieces White Kg6 Ra8 Black Kg8 Stipulation #1",
            "Title open",
        )
        text = "\nNextProblem\n".join(("Begun", *blocks)).encode("ascii")
        kinds = {it.kind for it in self.assert_same(text)}
        self.assertEqual(set(FaultKind) - kinds, set(_WITHOUT_WORD))

    def test_places_of_a_program(self) -> None:
        assert self.program is not None
        with mock.patch.dict(os.environ, POPS_PART=self.program):
            self.assertEqual(places_of(TEXT, support.pops()), {1: OWN})


TEXT = b"BeginProblem\nPieces White Kg6 Ta1 Ta1 Black Kg8\nStipulation #1\nEndProblem\n"
OWN = Span(TEXT.index(b"Ta1"), TEXT.index(b"Ta1") + 3)
OTHER = Span(OWN.stop + 1, OWN.stop + 4)


class Explained(support.InRoom):
    """Only the word that pops-part finds is explained."""

    def pops_part(self, does: str) -> str:
        return stand_in(self.room / "pops-part", does)

    def test_another_place_is_refused(self) -> None:
        report = support.run([support.pops(), "--check"], TEXT).output
        items = list(read_report([report]))
        right: tuple[Optional[dict[int, Span]], ...] = (None, {}, {1: OWN}, {2: OTHER})
        for places in right:
            with self.subTest(places):
                self.assertEqual(len(list(explain(TEXT, items, places))), 1)
        with self.assertRaisesRegex(OtherText, f"bytes {OTHER.start} up to {OTHER.stop}, and"):
            list(explain(TEXT, items, {1: OTHER}))

    def said(self, does: str, *words: str) -> support.Outcome:
        with mock.patch.dict(os.environ, POPS_PART=self.pops_part(does)):
            return support.companion("pops-explain", *words, text=TEXT)

    def test_the_command_refuses_another_place(self) -> None:
        line = f"1: fault 2, line 2, bytes {OTHER.start} up to {OTHER.stop}"
        for words in ((), ("--json",), ("--all",)):
            with self.subTest(words):
                status, _, error = self.said(f"echo '{line}'; exit 1", *words)
                self.assertEqual(status, 3)
                self.assertIn("what pops said is no report of standard input: pops finds", error)

    def test_the_module_refuses_another_place(self) -> None:
        line = f"1: fault 2, line 2, bytes {OTHER.start} up to {OTHER.stop}"
        engine = pops.Engine(support.pops())
        with mock.patch.dict(os.environ, POPS_PART=self.pops_part(f"echo '{line}'; exit 1")):
            self.assertRaisesRegex(OtherText, "pops finds", pops.explain, TEXT, engine)

    def test_a_sound_text_needs_no_places(self) -> None:
        noted = self.room / "noted"
        with mock.patch.dict(os.environ, POPS_PART=self.pops_part(f"echo run >> '{noted}'")):
            said = support.companion("pops-explain", text=TEXT.replace(b"Ta1 Ta1", b"Ra1"))
            self.assertEqual((said.status, noted.exists()), (0, False))
            support.companion("pops-explain", text=TEXT)
            self.assertTrue(noted.exists())

    def test_the_command_explains_without_places(self) -> None:
        line = "1: fault 2, line 2, bytes"
        wanted = self.said(f"echo '{line} {OWN.start} up to {OWN.stop}'; exit 1")
        self.assertEqual((wanted.status, wanted.error), (1, ""))
        self.assertIn(b"rook in German", wanted.output)
        for does in ("exit 2", f"echo '{line} {OTHER.start} up to {OTHER.stop}'; exit 3"):
            with self.subTest(does):
                self.assertEqual(self.said(does), wanted)
