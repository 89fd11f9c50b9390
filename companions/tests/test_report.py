"""The reading of reports: what each line says, and that no cut or changed report is taken."""

import io
import unittest
from typing import Union

from pops_companions.chess.men import Colour, Kind, Man, Square
from pops_companions.chess.stipulation import Condition, Goal, Play, Stipulation
from pops_companions.report.items import (
    FaultyItem,
    HelpLine,
    Item,
    Node,
    PhaseKind,
    SoundItem,
    named_items,
)
from pops_companions.report.moves import Castling, Mark
from pops_companions.report.reader import (
    CUT,
    Allowed,
    ReportError,
    ReportReader,
    read_events,
    read_report,
    read_unfinished_report,
)
from tests import support


def read(text: str) -> list[Item]:
    return list(read_report(io.BytesIO(text.encode())))


def solutions(
    stipulation: str, *lines: str, phase: str = "play", count: int = 1
) -> tuple[Union[HelpLine, Node], ...]:
    """The solutions of a phase of these lines."""
    play = f"{phase}\n" + "".join(line + "\n" for line in lines) + f"solutions: {count}\n"
    rest = "play\nsolutions: 0\n" if phase == "set" else ""
    (item,) = read(f"problem 1\n{stipulation}\n{play}{rest}\n")
    assert isinstance(item, SoundItem) and item.phases is not None
    return item.phases[0].solutions


def nodes_of(stipulation: str, *lines: str, count: int = 1) -> list[Node]:
    """The moves of battle play of these lines."""
    found = [it for it in solutions(stipulation, *lines, count=count) if isinstance(it, Node)]
    assert len(found) == count
    return found


class Items(unittest.TestCase):
    def test_every_stored_report_is_read(self) -> None:
        for path in support.stored_reports():
            with self.subTest(path.name):
                items = list(read_report(io.BytesIO(path.read_bytes())))
                plain = support.plain_items(path.read_bytes())
                self.assertEqual(len(items), len(plain))
                for item, lines in zip(items, plain):
                    self.assertEqual(lines.lines[0], f"problem {item.number}")

    def test_faulty_sound_and_checked_items(self) -> None:
        faulty, sound, checked = read(
            "problem 1\nline 9: fault 14: square expected\n\n"
            "problem 2\ntitle: A\nauthor: B\nh=2.5 Circe\nset\nnot possible\nplay\nsolutions: 0\n\n"
            "problem 3\n#2 Madrasi\nsound\n\n"
        )
        assert isinstance(faulty, FaultyItem)
        self.assertEqual((faulty.fault.line, faulty.fault.number), (9, 14))
        self.assertEqual(faulty.fault.text, "square expected")
        assert isinstance(sound, SoundItem) and sound.phases is not None
        self.assertEqual((sound.title, sound.author), (b"A", b"B"))
        self.assertEqual(sound.stipulation, Stipulation(Play.HELP, Goal.STALEMATE, 2, True))
        self.assertIs(sound.condition, Condition.CIRCE)
        self.assertEqual([phase.kind for phase in sound.phases], [PhaseKind.SET, PhaseKind.PLAY])
        self.assertIsNone(sound.phases[0].total)
        assert isinstance(checked, SoundItem)
        self.assertIsNone(checked.phases)
        self.assertIs(checked.condition, Condition.MADRASI)

    def test_titles_keep_their_bytes(self) -> None:
        (item,) = read_report(io.BytesIO(b"problem 1\ntitle: \xff\x00 play\r\xc3\n#1\nsound\n\n"))
        assert isinstance(item, SoundItem)
        self.assertEqual(item.title, b"\xff\x00 play\r\xc3")

    def test_men_of_a_board(self) -> None:
        (item,) = read(
            "problem 1\n8 ....k..g\n7 ........\n6 ........\n5 ........\n4 ...N....\n3 ........\n"
            "2 ........\n1 s...K...\n  abcdefgh\n#1\nsound\n\n"
        )
        assert isinstance(item, SoundItem) and item.board is not None
        men = {square.name: man for square, man in item.board.men.items()}
        self.assertEqual(
            men,
            {
                "e8": Man(Colour.BLACK, Kind.KING),
                "h8": Man(Colour.BLACK, Kind.GRASSHOPPER),
                "d4": Man(Colour.WHITE, Kind.NIGHTRIDER),
                "a1": Man(Colour.BLACK, Kind.KNIGHT),
                "e1": Man(Colour.WHITE, Kind.KING),
            },
        )

    def test_like_ranks_of_boards_are_kept_once(self) -> None:
        board = "".join(f"{rank} .....Q..\n" for rank in range(8, 0, -1)) + "  abcdefgh\n"
        items = read("".join(f"problem {number}\n{board}={number}\nsound\n\n" for number in (1, 2)))
        ranks = [rank for it in items if isinstance(it, SoundItem) and it.board for rank in it.board.ranks]
        self.assertEqual((len(ranks), len(set(map(id, ranks)))), (16, 1))

    def test_reports_one_behind_the_other(self) -> None:
        one = "problem 1\n#1\nsound\n\nproblem 2\n#1\nsound\n\n"
        self.assertEqual([item.number for item in read(one + one)], [1, 2, 1, 2])

    def test_numbers_with_gaps(self) -> None:
        """As pops-many --seconds leaves them; a number that doesn't grow begins another report."""
        numbers = [2, 3, 7, 2, 5, 5, 1]
        items = read("".join(f"problem {number}\n#1\nsound\n\n" for number in numbers))
        self.assertEqual([item.number for item in items], numbers)
        names = [name for name, _ in named_items(items)]
        self.assertEqual(names, ["2", "3", "7", "2-2", "2-5", "3-5", "4-1"])

    def test_an_empty_text_has_no_items(self) -> None:
        self.assertEqual(read(""), [])


class Moves(unittest.TestCase):
    def test_en_passant_with_rebirth(self) -> None:
        (node,) = nodes_of("#1 Circe", "1.e5*d6 ep.[+bPd7]#")
        move = node.move
        self.assertEqual((move.kind, move.origin.name, move.arrival.name), (Kind.PAWN, "e5", "d6"))
        self.assertTrue(move.capture and move.en_passant)
        assert move.rebirth is not None
        self.assertEqual(move.rebirth.man, Man(Colour.BLACK, Kind.PAWN))
        self.assertEqual(move.rebirth.square, Square(4, 7))
        self.assertIs(move.mark, Mark.MATE)

    def test_promotion_and_stalemate(self) -> None:
        nodes = nodes_of("=1", "1.f7-f8=Q=", "1.Rb2-b7=", "1.g7*h8=N=", count=3)
        promotions = [node.move.promotion for node in nodes]
        self.assertEqual(promotions, [Kind.QUEEN, None, Kind.NIGHTRIDER])
        marks = [node.move.mark for node in nodes]
        self.assertEqual(marks, [Mark.STALEMATE] * 3)

    def test_castling_of_either_side(self) -> None:
        (line,) = solutions("h#1", "1.0-0-0 0-0#")
        assert isinstance(line, HelpLine)
        black, white = line.moves
        self.assertEqual((black.castling, white.castling), (Castling.LONG, Castling.SHORT))
        self.assertEqual((black.origin.name, black.arrival.name), ("e8", "c8"))
        self.assertEqual((white.origin.name, white.arrival.name), ("e1", "g1"))
        self.assertEqual((black.side, white.side), (Colour.BLACK, Colour.WHITE))
        self.assertEqual((black.mark, white.mark), (None, Mark.MATE))

    def test_numbers_of_help_lines(self) -> None:
        cases = [
            ("h#2", "play", "1.Kh8-g8 Ra1-b1 2.Kg8-h8 Rb1-b8#", [1, 2, 3, 4]),
            ("h#2", "set", "1...Ra1-b1 2.Kg8-h8 Rb1-b8#", [2, 3, 4]),
            ("h#1.5", "play", "1...Ra1-b1 2.Kh8-g8 Rb1-b8#", [2, 3, 4]),
            ("h#1.5", "set", "2.Kh8-g8 Rb1-b8#", [3, 4]),
        ]
        for stipulation, phase, line, halves in cases:
            with self.subTest(line):
                (solution,) = solutions(stipulation, line, phase=phase)
                assert isinstance(solution, HelpLine)
                self.assertEqual([move.half for move in solution.moves], halves)
                self.assertIs(solution.moves[-1].side, Colour.WHITE)

    def test_a_move_of_help_lines_is_read_once(self) -> None:
        again, passant = "1.Kh8-g8 Ra1-b1 2.Kg8-h8 Rb1-b8#", "1.e4*d3 ep. Ra1-b1 2.Kg8-h8 Rb1-b8#"
        lines = [again, again.replace("Kg8-h8", "Kg8-f8"), passant, passant.replace("b8", "b7")]
        found = solutions("h#2", *lines, count=len(lines))
        self.assertEqual([it.text for it in found], lines)
        moves = [it.moves for it in found if isinstance(it, HelpLine)]
        self.assertEqual([[it.text for it in line] for line in moves[::2]], [
            ["Kh8-g8", "Ra1-b1", "Kg8-h8", "Rb1-b8#"],
            ["e4*d3 ep.", "Ra1-b1", "Kg8-h8", "Rb1-b8#"],
        ])
        for place in (0, 1, 3):
            self.assertIs(moves[0][place], moves[1][place])
        self.assertEqual(moves[2][:3], moves[3][:3])

    def test_known_moves_are_of_their_half_move(self) -> None:
        play = "play\n1.Kh8-g8 Ra1-b1#\n1.Kh8-h7 Ra1-b1#\nsolutions: 2\n"
        other = "set\n1...Ra1-b1#\n1...Ra1-c1#\nsolutions: 2\n" + play
        for report in (f"problem 1\nh#1\n{play}\nproblem 2\nh#1\n{other}\n", f"problem 1\nh#1\n{other}\n"):
            halves = [
                [move.half for line in phase.solutions if isinstance(line, HelpLine) for move in line.moves]
                for item in read(report)
                if isinstance(item, SoundItem)
                for phase in item.phases or ()
            ]
            self.assertLessEqual({tuple(it) for it in halves}, {(1, 2, 1, 2), (2, 2)})

    def test_tree_of_a_battle(self) -> None:
        first, second = nodes_of(
            "#3", "1.Ra1-a2", "  1...Kb8-c8", "    2.Ra2-a8#", "  1...Kb8-a8", "    2.Ra2-a3#", "1.Ra1-a3#", count=2
        )
        self.assertEqual([node.move.origin.name for node in first.below], ["b8", "b8"])
        self.assertEqual(first.below[0].below[0].move.half, 3)
        self.assertEqual([len(node.below) for node in first.below], [1, 1])
        self.assertEqual(second.below, [])


class Refusals(unittest.TestCase):
    def test_a_cut_report_is_refused(self) -> None:
        whole = (support.ROWS / "three_problems.out").read_bytes()
        ends = {0} | {
            place + 2 for place in range(len(whole)) if whole[place : place + 2] == b"\n\n"
        }
        for length in range(len(whole) + 1):
            with self.subTest(length=length):
                reading = read_report(io.BytesIO(whole[:length]))
                if length in ends:
                    list(reading)
                else:
                    with self.assertRaises(ReportError):
                        list(reading)

    def test_changed_reports_are_refused_at_their_line(self) -> None:
        battle = "problem 1\ns#1\nplay\n1.Ra1-a2\n  1...Kh8-g8#\nsolutions: 1\n\n"
        self.assertEqual(len(read(battle)), 1)
        changes = [
            ("problem 1", "problem 0", 1),
            ("problem 1", "problem 01", 1),
            ("problem 1", "problem one", 1),
            ("problem 1", "problem 1 ", 1),
            ("s#1", "r#2", 2),
            ("s#1", "s#2.5", 2),
            ("s#1", "s#1 Circe Circe", 2),
            ("play", "Play", 3),
            ("1.Ra1-a2", "2.Ra1-a2", 4),
            ("1.Ra1-a2", "1.Ra1-a9", 4),
            ("1.Ra1-a2", "1.Ra1-a2 2.Ra2-a3", 4),
            ("  1...Kh8-g8", " 1...Kh8-g8", 5),
            ("  1...Kh8-g8", "    2.Kh8-g8", 5),
            ("solutions: 1", "solutions: 2", 6),
            ("solutions: 1\n\n", "solutions: 1\nplay\n\n", 7),
        ]
        for old, new, line in changes:
            with self.subTest(new):
                with self.assertRaises(ReportError) as refused:
                    read(battle.replace(old, new, 1))
                self.assertEqual(refused.exception.line, line)

    def test_known_moves_elsewhere_are_refused(self) -> None:
        known = "1.Kh8-g8 Ra1-a8"
        for line in (
            "1.Kh8-g8 1.Kh8-g8",
            "Ra1-a8 1.Kh8-g8",
            "1.Kh8-g8",
            "1.Kh8-g8 Ra1-a8 ",
            "1.Kh8-g8 Ra1-a8 2.Kh8-g8",
        ):
            with self.subTest(line), self.assertRaises(ReportError):
                solutions("h#1", known, known, line, count=3)

    def test_help_lines_of_another_length_are_refused(self) -> None:
        for line in (
            "1.Kh8-g8",
            "1.Kh8-g8 Ra1-a8# 2.Kg8-h8",
            "1.Kh8-g8 1...Ra1-a8#",
            "1.Kh8-g8  Ra1-a8#",
        ):
            with self.subTest(line), self.assertRaises(ReportError):
                solutions("h#1", line)


# What a report shows after its number, with a man on each square that the lines below need.
RANKS = ["......k.", "P.......", "......K.", "........", "........", "........", "........", "R..Q...R"]
BOARD = "".join(f"{8 - place} {rank}\n" for place, rank in enumerate(RANKS)) + "  abcdefgh\n"
RIGHT = {
    "#1": ["1.Ra1-b1#", "1.a7-a8=Q#", "1.Rh1-h8#"],
    "=1": ["1.Ra1-b1="],
    "#2": ["1.Ra1-b1", "  1...Kg8-h8", "    2.Rh1-h7#", "    2.Rb1-b8#", "  1...Kg8-f8", "    2.Rb1-b8#", "1.Rh1-h8#"],
    "#3": ["1.Ra1-b1", "1.Rh1-h5", "1.Qd1-d8#"],
    "s#1": ["1.Ra1-b1", "  1...Kg8-h8#", "  1...Kg8-f8#"],
    "h#1": ["1.Kg8-h8 Qd1-d8#", "1.Kg8-h8 Ra1-b1#", "1.Kg8-f8 Qd1-d8#"],
    "h#1.5": ["1...Ra1-a2 2.Kg8-h8 Ra2-b2#", "1...Qd1-d2 2.Kg8-h8 Qd2-d8#"],
}
WRONG = [
    ("#1", "1.Ra1-b1#", "1.Ra1-b1", "no mate"),
    ("#1", "1.Ra1-b1#", "1.Ra1-b1+", "check only"),
    ("#1", "1.Ra1-b1#", "1.Ra1-b1=", "stalemate where mate is the goal"),
    ("=1", "1.Ra1-b1=", "1.Ra1-b1#", "mate where stalemate is the goal"),
    ("#1", "1.Ra1-b1#", "1.Ra1-c3#", "no move of a rook"),
    ("#1", "1.Ra1-b1#", "1.Ra1-a8#", "over a pawn"),
    ("#1", "1.Ra1-b1#", "1.Ra1*b1#", "a capture of nothing"),
    ("#1", "1.Ra1-b1#", "1.Ra1-a7#", "to an own man"),
    ("#1", "1.Ra1-b1#", "1.Ra1*a7#", "a capture of an own man"),
    ("#1", "1.Ra1-b1#", "1.Rb1-b8#", "from an empty square"),
    ("#1", "1.Ra1-b1#", "1.Qa1-b1#", "another man"),
    ("#1", "1.Ra1-b1#", "1.ra1-b1#", "a small letter"),
    ("#1", "1.Ra1-b1#", "1.Kg6-h6=Q#", "a king that promotes"),
    ("#1", "1.Ra1-b1#", "1.Ra1-b1 ep.#", "a rook en passant"),
    ("#1", "1.Ra1-b1#", "1.0-0-0#", "castling without a king there"),
    ("#1", "1.a7-a8=Q#", "1.a7-a8#", "a pawn on the last rank"),
    ("#1", "1.a7-a8=Q#", "1.a7-a8=K#", "a pawn that becomes king"),
    ("#1", "1.a7-a8=Q#", "1.Ra1-b1#", "a move twice"),
    ("#2", "    2.Rb1-b8#", "    2.Rb1-b8", "no mate at the end"),
    ("#2", "    2.Rb1-b8#", "    2.Ra1-a2#", "a man that left"),
    ("#2", "    2.Rb1-b8#", "    2.Rh1-h7#", "a continuation twice"),
    ("#2", "  1...Kg8-f8", "  1...Kg8-h8", "a defence twice"),
    ("#2", "  1...Kg8-f8", "  1...Kg8-f8=", "a stalemate"),
    ("#2", "  1...Kg8-f8", "  1...Kg8-f8#", "Black mates"),
    ("#2", "  1...Kg8-f8\n    2.Rb1-b8#", "  1...Kg8-f8", "a defence without a continuation"),
    ("#2", "1.Rh1-h8#", "1.Rh1-h8", "a key without defences"),
    ("#2", "1.Rh1-h8#", "1.Rh1-h8#\n  1...Kg8-h8", "a move below a mate"),
    ("#3", "1.Rh1-h5", "1.Ra1-b1", "a key twice, without what is below it"),
    ("#3", "1.Rh1-h5", "1.Rh1-h5\n  1...Kg8-h8\n    2.Rb1-b8#", "what is below one key alone"),
    ("s#1", "1.Ra1-b1", "1.Ra1-b1#", "White mates in a selfmate"),
    ("s#1", "  1...Kg8-f8#", "  1...Kg8-f8", "no mate of White"),
    ("s#1", "  1...Kg8-f8#", "  1...Kg8-e8#", "no move of a king"),
    ("h#1", "1.Kg8-h8 Ra1-b1#", "1.Kg8-h8 Ra1-b1", "no mate"),
    ("h#1", "1.Kg8-h8 Ra1-b1#", "1.Kg8-h8# Ra1-b1#", "a mate in the middle"),
    ("h#1", "1.Kg8-h8 Ra1-b1#", "1.Kg8-h8= Ra1-b1#", "a stalemate in the middle"),
    ("h#1", "1.Kg8-h8 Ra1-b1#", "1.Kg8-h8 Qd1-d8#", "a line twice"),
    ("h#1", "1.Kg8-h8 Ra1-b1#", "1.Kg8-h8 Ra2-a3#", "a man that isn't there"),
    ("h#1", "1.Kg8-h8 Ra1-b1#", "1.Ka8-b8 Ra1-b1#", "a king that isn't there"),
    ("h#1", "1.Kg8-f8 Qd1-d8#", "1.Kg8-f8 Qd1-d8#\n1.Kg8-h8 Qd1-a4#", "a first move again"),
    ("h#1.5", "2.Kg8-h8 Ra2-b2#", "2.Kg8-h8 Ra1-b1#", "a man that left"),
]


class Strictness(unittest.TestCase):
    """What pops never writes is refused with its line, however it is read, also after like problems."""

    def text(self, asked: str, lines: str, board: str = BOARD) -> str:
        count = sum(line[0] != " " for line in lines.split("\n"))
        return f"{board}{asked}\nplay\n{lines}\nsolutions: {count}\n\n"

    def refused(self, text: str) -> int:
        """The line that each way of reading refuses, of the whole and line by line."""
        found = set()
        for pieces in ([text.encode()], text.encode().splitlines(keepends=True)):
            for reading in (read_report(pieces), read_events(ReportReader(Allowed.UNFINISHED), pieces)):
                with self.assertRaises(ReportError) as refused:
                    list(reading)
                found.add(refused.exception.line)
        self.assertEqual(len(found), 1)
        return found.pop()

    def test_what_no_problem_shows(self) -> None:
        for asked, old, new, what in WRONG:
            right = "\n".join(RIGHT[asked])
            self.assertIn(old, right)
            wrong = right.replace(old, new, 1)
            like = f"problem 1\n{self.text(asked, right)}problem 2\n{self.text(asked, right)}"
            with self.subTest(what):
                self.assertEqual(len(read(like)), 2)
                for before in ("", like):
                    line = self.refused(f"{before}problem 3\n{self.text(asked, wrong)}")
                    begin = before.count("\n") + 12
                    self.assertIn(line, range(begin, begin + wrong.count("\n") + 3))

    def test_the_board_of_a_like_problem(self) -> None:
        """Problems that show the same share it, but not where the men of a board can't play it."""
        for asked, lines in RIGHT.items():
            like = self.text(asked, "\n".join(lines))
            for other in (like.replace("1 R..Q...R", "1 ...Q...."), like.replace("......k.", ".....k..", 1)):
                before = "".join(f"problem {number}\n{like}" for number in range(1, 5))
                self.assertEqual(len(read(before + f"problem 5\n{like.partition('abcdefgh')[2][1:]}")), 5)
                if "Kg8" in like or "...Q...." in other:
                    with self.subTest(other):
                        self.assertGreater(self.refused(f"{before}problem 5\n{other}"), before.count("\n"))

    def test_rebirths(self) -> None:
        board = BOARD.replace("2 ........", "2 .r......").replace("1 R..Q...R", "1 .R......").replace("7 P", "7 .")
        right = self.text("#1 Circe", "1.Rb1*b2[+brh8]#".replace("br", "bR"), board)
        self.assertEqual(len(read(f"problem 1\n{right}")), 1)
        for old, new in (
            (" Circe", ""),
            (" Circe", " Madrasi"),
            ("bRh8", "bRa8"),
            ("bRh8", "wRh1"),
            ("bRh8", "bQd8"),
            ("Rb1*b2", "Rb1-b2"),
            ("......k.", "......kb"),
        ):
            with self.subTest(new):
                self.refused("problem 1\n" + right.replace(old, new, 1))

    def test_heads_totals_and_faults(self) -> None:
        right = f"problem 1\ntitle: A\nauthor: B\n{self.text('#1', RIGHT['#1'][0])}"
        self.assertEqual(len(read(right)), 1)
        for old, new in (
            ("title: A", "title: "),
            ("title: A", "title: A "),
            ("author: B", "author: " + "x" * 201),
            ("8 ......k.", "8 .....Pk."),
            ("1 R..Q...R", "1 R..Q..pR"),
            ("8 ......k.", "8 ......kk"),
            ("#1\n", "#17\n"),
            ("#1\n", "#0\n"),
            ("#1\n", "h#16.5\n"),
            ("play\n1.Ra1-b1#\nsolutions: 1", "play\nnot possible"),
            ("1.Ra1-b1#\nsolutions: 1", "solutions: 0, stopped"),
        ):
            with self.subTest(new):
                self.assertIn(old, right)
                self.refused(right.replace(old, new, 1))
        for wrong in ("fault 11: no man", "fault 12: no men"):
            self.refused(f"problem 1\nline 3: {wrong}\n\n")

    def test_the_mated_king_is_on_the_board(self) -> None:
        board = "8 ......K.\n" + "".join(f"{it} ........\n" for it in range(7, 0, -1)) + "  abcdefgh\n"
        for asked, king in (("#1", "k"), ("h#1", "k"), ("s#1", "K")):
            for said in ("sound", "play\nsolutions: 0"):
                wrong = board.replace("K", "R" if king == "K" else "K")
                right = wrong.replace(".", king, 1)
                with self.subTest(asked, said=said):
                    before = f"problem 1\n{right}{asked}\n{said}\n\n"
                    self.assertEqual(len(list(read_report([before.encode()]))), 1)
                    line = self.refused(f"{before}problem 2\n{wrong}{asked}\n{said}\n\n")
                    self.assertEqual(line, before.count("\n") + 11)

    def test_set_play_without_a_total(self) -> None:
        """Only an unfinished problem may lack it, whatever was read before."""
        cut = self.text("#1", RIGHT["#1"][0]).replace("#1\n", "#1\nset\n", 1)
        marked = cut[:-1] + "unfinished: stopped after 1 s\n\n"
        for end, reason in ((marked, "stopped after 1 s"), (cut[:-1], CUT)):
            (item,) = read_unfinished_report([f"problem 1\n{end}".encode()])
            self.assertTrue(isinstance(item, SoundItem) and item.unfinished == reason)
        whole = [f"problem 1\n{cut}".encode()]
        with self.assertRaisesRegex(ReportError, "line 16: expected why the problem is unfinished"):
            list(read_unfinished_report(whole))
        with self.assertRaisesRegex(ReportError, "line 13: expected a move"):
            list(read_report(whole))

    def test_set_play_without_its_continuations(self) -> None:
        for lines in ("1...Kg8-h8\n", "1...Kg8-h8\n1...Kg8-f8\n  2.Rh1-h8#\n"):
            count = lines.count("\n1") + 1
            self.refused(f"problem 1\n#2\nset\n{lines}solutions: {count}\nplay\nsolutions: 0\n\n")


class Stipulations(unittest.TestCase):
    def test_half_moves_and_starter(self) -> None:
        cases = [
            ("#2", 3, Colour.WHITE),
            ("s#2", 4, Colour.WHITE),
            ("h#2", 4, Colour.BLACK),
            ("h#2.5", 5, Colour.WHITE),
            ("h#0.5", 1, Colour.WHITE),
            ("=16", 31, Colour.WHITE),
            ("s=3", 6, Colour.WHITE),
            ("h=2", 4, Colour.BLACK),
            ("h=15.5", 31, Colour.WHITE),
        ]
        for text, half_moves, starter in cases:
            with self.subTest(text):
                stipulation = Stipulation.of_text(text)
                self.assertEqual(stipulation.half_moves, half_moves)
                self.assertIs(stipulation.starter, starter)
                self.assertEqual(stipulation.text, text)

    def test_other_words_are_none(self) -> None:
        for text in (
            "",
            "#",
            "2",
            "#02",
            "H#2",
            "#2.5",
            "s#1.5",
            "h#2.",
            "h#2.50",
            "r#2",
            "#2 ",
            "#²",
        ):
            with self.subTest(text), self.assertRaises(ValueError):
                Stipulation.of_text(text)
