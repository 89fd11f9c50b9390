"""Pages: the right man on the right square, and every word of the report in its place."""

import tempfile
import unittest
from html.parser import HTMLParser
from pathlib import Path
from typing import Optional

from tests import run_here, support

NAMES = {
    "k": "king",
    "q": "queen",
    "r": "rook",
    "b": "bishop",
    "s": "knight",
    "p": "pawn",
    "g": "grasshopper",
    "n": "nightrider",
}
TAGS_WITHOUT_END = {"meta"}


CHECKED = b"problem 1\n#1\nsound\n\n"


class SeenArticle:
    """What stands in one article: its words, and the men of its diagram by place."""

    def __init__(self, name: Optional[str]) -> None:
        self.name = name
        self.links: list[Optional[str]] = []
        self.words: list[str] = []
        self.diagrams = 0
        self.men: dict[tuple[float, float], tuple[str, str]] = {}


class SeenPage(HTMLParser):
    """A page as a browser reads it; elements left open or closed twice are refused."""

    def __init__(self, page: str):
        super().__init__()
        self.articles: list[SeenArticle] = []
        self.shapes: dict[str, list[dict[str, Optional[str]]]] = {}
        self.open: list[tuple[str, dict[str, Optional[str]]]] = []
        self.feed(page)
        self.close()
        assert not self.open, self.open

    @property
    def _inside(self) -> Optional[SeenArticle]:
        return self.articles[-1] if any(tag == "article" for tag, _ in self.open) else None

    def handle_starttag(self, tag: str, attributes: list[tuple[str, Optional[str]]]) -> None:
        values = dict(attributes)
        if tag not in TAGS_WITHOUT_END:
            self.open.append((tag, values))
        if tag == "article":
            self.articles.append(SeenArticle(values.get("id")))
        if tag == "pre":
            self.articles[-1].words.append("")
        self._see(tag, values)

    def handle_startendtag(self, tag: str, attributes: list[tuple[str, Optional[str]]]) -> None:
        self._see(tag, dict(attributes))

    def _see(self, tag: str, values: dict[str, Optional[str]]) -> None:
        article = self._inside
        if article is None:
            groups = [place["id"] for name, place in self.open if name == "g" and "id" in place]
            if groups:
                self.shapes.setdefault(str(groups[-1]), []).append({"tag": tag, **values})
        elif tag == "svg":
            article.diagrams += 1
        elif tag == "a":
            article.links.append(values["href"])
        elif tag == "use" and values["xlink:href"] != "#board":
            (colour,) = [str(place["class"]) for name, place in self.open if "fill" in place]
            kind = str(values["xlink:href"])[1:]
            place = (float(str(values["x"])), float(str(values["y"])))
            assert place not in article.men
            article.men[place] = (colour, kind)

    def handle_endtag(self, tag: str) -> None:
        assert self.open and self.open[-1][0] == tag, (tag, self.open)
        self.open.pop()

    def handle_data(self, data: str) -> None:
        article = self._inside
        if article is not None and any(tag == "pre" for tag, _ in self.open):
            article.words[-1] += data
        elif article is not None:
            article.words.append(data)


def page_of(report: bytes, *words: str) -> SeenPage:
    outcome = support.companion("pops-page", *words, text=report)
    assert outcome.status == 0 and outcome.error == "", outcome
    return SeenPage(outcome.output.decode("utf-8"))


class Diagrams(unittest.TestCase):
    def test_right_man_on_right_square_of_every_stored_report(self) -> None:
        reports = [path.read_bytes() for path in support.stored_reports()]
        items = [item for report in reports for item in support.plain_items(report)]
        page = page_of(b"".join(reports))
        self.assertEqual(len(page.articles), len(items))
        boards = 0
        for place, (article, item) in enumerate(zip(page.articles, items)):
            with self.subTest(place=place, item=item.lines):
                self.assertEqual(article.diagrams, 1 if item.board else 0)
                self.assertEqual(self.squares(article), self.wanted(item))
                boards += article.diagrams
        self.assertGreater(boards, 50)

    def squares(self, article: SeenArticle) -> dict[str, tuple[str, str]]:
        """The men by square: the board begins 22 units from the left, a square has 45 units."""
        men = {}
        for (x, y), man in article.men.items():
            file, rank = (x - 22) / 45, 7 - y / 45
            self.assertEqual((file, rank), (int(file), int(rank)))
            men["abcdefgh"[int(file)] + str(int(rank) + 1)] = man
        return men

    @staticmethod
    def wanted(item: support.PlainItem) -> dict[str, tuple[str, str]]:
        men = {}
        for rank, line in zip("87654321", item.board):
            for file, letter in zip("abcdefgh", line):
                if letter != ".":
                    colour = "white" if letter.isupper() else "black"
                    men[file + rank] = (colour, NAMES[letter.lower()])
        return men

    def test_fairy_men_are_turned_upside_down(self) -> None:
        page = page_of(CHECKED)
        for fairy, upright in (("grasshopper", "queen"), ("nightrider", "knight")):
            self.assertIn(
                {"tag": "use", "xlink:href": f"#{upright}", "transform": "rotate(180 22.5 22.5)"},
                page.shapes[fairy],
            )
        self.assertEqual(set(NAMES.values()) - set(page.shapes), set())

    def test_a1_is_dark_and_half_the_squares_are(self) -> None:
        page = page_of(CHECKED)
        (dark,) = [part for part in page.shapes["board"] if part.get("fill") == "url(#hatching)"]
        corners = str(dark["d"]).split("z")[:-1]
        self.assertEqual(len(corners), 32)
        self.assertIn("M22 315h45v45h-45", corners)


class Words(unittest.TestCase):
    def test_every_line_of_every_stored_report_is_shown_in_order(self) -> None:
        report = b"".join(path.read_bytes() for path in support.stored_reports())
        for article, item in zip(page_of(report).articles, support.plain_items(report)):
            with self.subTest(item=item.lines):
                self.check(article, item)

    def check(self, article: SeenArticle, item: support.PlainItem) -> None:
        text = "\n".join(word for words in article.words for word in words.split("\n"))
        place = 0
        board = {f"{8 - row} {rank}" for row, rank in enumerate(item.board)} | {"  abcdefgh"}
        for line in item.lines:
            if line in board:
                continue
            shown = line.split(": ", 1)[1] if line.startswith(("title: ", "author: ")) else line
            found = text.find(shown, place)
            self.assertGreaterEqual(found, 0, f"{line!r} isn't shown behind {text[:place]!r}")
            place = found + len(shown)

    def test_titles_are_text_and_no_markup(self) -> None:
        report = "problem 1\ntitle: <b>&amp; é</b>\nauthor: \"x\" 'y' \x1b\n#1\nsound\n\n".encode()
        (article,) = page_of(report).articles
        self.assertIn("<b>&amp; é</b>", article.words)
        self.assertIn("\"x\" 'y' \ufffd", article.words)

    def test_titles_in_another_encoding(self) -> None:
        report = b"problem 1\ntitle: R\xe9ti\n#1\nsound\n\n"
        report += b"problem 2\nauthor: Ko\xbeelj\n#1\nsound\n\n"
        (article, _) = page_of(report, "--encoding", "latin-1").articles
        self.assertIn("Réti", article.words)
        outcome = support.companion("pops-page", text=report)
        self.assertEqual(outcome.status, 0)
        self.assertIn("Réti", SeenPage(outcome.output.decode("utf-8")).articles[0].words)
        self.assertEqual(
            outcome.error,
            "pops-page: standard input: title or author of problem 1, and of 1 more, isn't utf-8"
            " and is read as latin-1; --encoding names another\n",
        )

    def test_an_input_that_is_another_text(self) -> None:
        with tempfile.NamedTemporaryFile(suffix=".pop") as other:
            for text in (b"", CHECKED, b"\0\xff"):
                Path(other.name).write_bytes(text)
                for words in (["pops-page"], ["pops2json"], ["pops-test"], ["pops-diagram", "--svg", "-o", f"{other.name}-"]):
                    with self.subTest(words, text=text):
                        outcome = run_here.companion(*words, "--input", other.name, text=CHECKED)
                        self.assertEqual((outcome.status, outcome.output), (3, b""))
                        self.assertIn(f"{other.name} is no input of pops: ", outcome.error)

    def test_each_article_has_a_link_to_itself(self) -> None:
        faulty = b"problem 2\nline 3: fault 11: no men\n\n"
        articles = page_of((CHECKED + faulty) + CHECKED + (CHECKED + faulty)).articles
        names = ["problem-1", "problem-2", "problem-2-1", "problem-3-1", "problem-3-2"]
        self.assertEqual([article.name for article in articles], names)
        self.assertEqual([article.links for article in articles], [[f"#{name}"] for name in names])

    def test_no_board_is_said(self) -> None:
        (article,) = page_of(CHECKED).articles
        self.assertEqual(article.diagrams, 0)
        self.assertIn("The report shows no board.", article.words)


class Totals(unittest.TestCase):
    def test_what_they_mean(self) -> None:
        for play, total, wanted in (
            ("", "solutions: 0", "(no solution)"),
            ("1.Ra1-a8#\n1.Rb1-b8#\n", "solutions: 2", "(2 keys)"),
            ("1.Ra1-a8#\n", "solutions: 1", None),
            ("1.Ra1-a8#\n", "solutions: 1, stopped", None),
        ):
            with self.subTest(total):
                report = f"problem 1\n#1\nplay\n{play}{total}\n\n".encode()
                (article,) = page_of(report).articles
                meant = [word for word in article.words if word.startswith("(")]
                self.assertEqual(meant, [wanted] if wanted else [])
        help_lines = b"problem 1\nh#0.5\nplay\n1...Ra1-a8#\n1...Rb1-b8#\nsolutions: 2\n\n"
        self.assertNotIn("(2 keys)", page_of(help_lines).articles[0].words)


class Unfinished(unittest.TestCase):
    def test_stopped_problems_are_marked(self) -> None:
        report = CHECKED + b"problem 2\nh#1\nplay\n1.Kh8-g8 Ra1-a8#\n"
        mark = b"unfinished: stopped after 5 s (some.pop, line 9)\n\n"
        article = page_of(report + mark).articles[1]
        self.assertEqual(article.words.count(mark.decode().strip()), 1)
        self.assertIn("1.Kh8-g8 Ra1-a8#", article.words)

    def test_a_report_that_ends_inside_a_problem(self) -> None:
        for end in (b"problem 2\n", b"problem 2\nh#1\nplay\n1.Kh8-g8 Ra1-a8#\n1.Kh8-g8"):
            outcome = support.companion("pops-page", text=CHECKED + end)
            self.assertEqual(outcome.status, 1)
            self.assertEqual(outcome.error, "pops-page: the report ends inside problem 2\n")
            article = SeenPage(outcome.output.decode("utf-8")).articles[1]
            self.assertIn("unfinished: the report ends here", article.words)


class Inputs(unittest.TestCase):
    """What the input of a report adds, and twins as one problem."""

    TWINS = (
        b"BeginProblem\nTitle A pair a)\nAuthor A. A.\nOrigin Die Schwalbe 1977\n"
        b"Pieces White Kg6 Ra1 Black Kh8\nStipulation h#1\n"
        b"NextProblem\nTitle A pair b)\nAuthor A. A.\nRemark b) Move a1 b2\n"
        b"Pieces White Kg6 Rb2 Black Kh8\nStipulation h#1\n"
        b"NextProblem\nTitle Another\nPieces White Kg6 Ra1 Black Kh8\nStipulation h#1\nEndProblem"
    )

    def shown(self, *words: str) -> SeenPage:
        with tempfile.TemporaryDirectory() as room:
            given = Path(room) / "given.pop"
            given.write_bytes(self.TWINS)
            words = tuple(str(given) if word == "GIVEN" else word for word in words)
            return page_of(support.run([support.pops(), str(given)]).output, *words)

    def test_origin(self) -> None:
        page = self.shown("--input", "GIVEN")
        self.assertIn("Die Schwalbe 1977", page.articles[0].words)

    def test_twins_share_a_diagram(self) -> None:
        cases: list[tuple[list[str], str]] = [(["--input", "GIVEN"], "Move a1 b2"), ([], "white Ra1 to b2")]
        for words, said in cases:
            twins, other = self.shown(*words).articles
            self.assertEqual((twins.diagrams, len(twins.men), other.diagrams), (1, 3, 1))
            self.assertEqual(twins.words.count("A pair"), 1)
            self.assertIn(f"b) {said}", twins.words)
            self.assertIn("problems 1 to 2", twins.words)
            self.assertEqual((twins.name, other.name), ("problem-1", "problem-3"))
            self.assertLess(twins.words.index("1.Kh8-g8 Ra1-a8#"), twins.words.index(f"b) {said}"))

    def test_apart(self) -> None:
        self.assertEqual(len(self.shown("--apart").articles), 3)


class Command(unittest.TestCase):
    def test_output_file_and_heading(self) -> None:
        report = support.REPOSITORY / "examples/grasshopper.report"
        with tempfile.TemporaryDirectory() as room:
            target = Path(room) / "page.html"
            outcome = support.companion(
                "pops-page", str(report), "-o", str(target), "--heading", "Old & new"
            )
            self.assertEqual(outcome, (0, b"", ""))
            page = target.read_text("utf-8")
            self.assertEqual([path.name for path in Path(room).iterdir()], ["page.html"])
        self.assertIn("<h1>Old &amp; new</h1>", page)
        self.assertEqual(len(SeenPage(page).articles), 1)

    def test_a_wrong_report_leaves_the_old_page(self) -> None:
        with tempfile.TemporaryDirectory() as room:
            target = Path(room) / "page.html"
            target.write_text("old")
            outcome = support.companion("pops-page", "-o", str(target), text=b"problem 1\n#0.5\n")
            self.assertEqual(outcome.status, 3)
            self.assertIn("standard input is no report of pops: line 2", outcome.error)
            self.assertEqual(target.read_text(), "old")
            self.assertEqual(len(list(Path(room).iterdir())), 1)

    def test_an_empty_report_is_told(self) -> None:
        with tempfile.TemporaryDirectory() as room:
            report, target = Path(room) / "empty.report", Path(room) / "page.html"
            report.touch()
            outcome = support.companion("pops-page", str(report), "-o", str(target))
            told = f"pops-page: {report} is empty: no report of pops\n"
            self.assertEqual(outcome, (3, b"", told))
            self.assertFalse(target.exists())

    def test_mistakes_have_a_line_and_a_status(self) -> None:
        missing = support.companion("pops-page", "nowhere.report")
        self.assertEqual(missing.status, 3)
        self.assertEqual(
            missing.error, "pops-page: cannot open nowhere.report: No such file or directory\n"
        )
        self.assertEqual(support.companion("pops-page", "--fast").status, 2)
        self.assertEqual(support.companion("pops-page", "--encoding", "base64").status, 2)
        into_nowhere = support.companion("pops-page", "-o", "nowhere/page.html")
        self.assertEqual(into_nowhere.status, 3)
        self.assertIn("cannot write", into_nowhere.error)

    def test_help(self) -> None:
        outcome = support.companion("pops-page", "--help")
        self.assertEqual(outcome.status, 0)
        self.assertIn(b"example:", outcome.output)
