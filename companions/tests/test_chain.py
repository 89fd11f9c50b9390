"""All companions together: positions in, a page of diagrams and JSON out."""

import json
import random
import tempfile
import unittest
from pathlib import Path

from tests import support, test_fen2pop, test_pages


class Chain(unittest.TestCase):
    def test_a_hundred_positions_become_a_page(self) -> None:
        chance = random.Random(100)
        fens = [test_fen2pop.made_fen(chance) for _ in range(100)]
        with tempfile.TemporaryDirectory() as name:
            room = Path(name)
            (room / "some.fen").write_text("\n".join(fens))
            problems, report, page = room / "some.pop", room / "some.report", room / "some.html"
            words = ["-s", "#1", "-f", str(room / "some.fen"), "-o", str(problems)]
            self.assertEqual(support.companion("fen2pop", *words)[:2], (0, b""))
            words = ["--pops", support.pops(), str(problems), "-o", str(report)]
            self.assertEqual(support.companion("pops-many", *words), (1, b"", ""))
            alone = support.run([support.pops(), str(problems)])
            self.assertEqual((alone.status, alone.output), (1, report.read_bytes()))
            words = [str(report), "-o", str(page)]
            self.assertEqual(support.companion("pops-page", *words), (0, b"", ""))
            articles = test_pages.SeenPage(page.read_text("utf-8")).articles
            outcome = support.companion("pops2json", str(report))
        objects = [json.loads(line) for line in outcome.output.splitlines()]
        self.assertEqual((len(articles), len(objects)), (100, 100))
        sound = [one for one in objects if one["sound"]]
        self.assertTrue(20 < len(sound) < 100, len(sound))
        for fen, article, one in zip(fens, articles, objects):
            with self.subTest(fen):
                men = sum(1 for letter in fen.split()[0] if letter.isalpha())
                self.assertEqual(len(article.men), men if one["sound"] else 0)

    def test_positions_with_published_keys(self) -> None:
        """The file of data holds mates in two whose keys are known from the literature."""
        source = support.COMPANIONS / "data" / "mates_in_two.epd"
        problems = support.companion("fen2pop", "-f", str(source)).output
        report = support.companion("pops-many", "--pops", support.pops(), text=problems).output
        objects = [
            json.loads(line)
            for line in support.companion("pops2json", text=report).output.splitlines()
        ]
        keys = [[node["move"]["text"] for node in one["phases"][0]["solutions"]] for one in objects]
        self.assertEqual(
            keys, [["Ra1-a6"], ["Qb3-b8+"], ["Qf3-f6+"], ["Bc4*f7+"], ["Qf4-h6+"], ["Qf3*c6+"]]
        )
        self.assertEqual(objects[0]["title"], "Paul Morphy, 1856")
