"""Cases of the page worked out by hand, for tests/page."""

import json
from typing import Any, Optional

# A name, a script, the value that the script takes, and its result.
Case = tuple[str, str, Any, Any]
# A name, a text, its report, and steps, each a script with its value.
Use = tuple[str, str, Optional[str], list[tuple[str, Any]]]
EMPTY = "BeginProblem\nStipulation #1\nEndProblem\n"

# Men of a text of one problem, and positions after moves: 'Kg6' of White and 'kg6' of Black, joined by blanks.
AFTER = "(() => { const men = menOf(blockAt(given[0], 0)).men; const moves = movesOf(given[1], given[2] === 'help'); " \
    "return sidesOf(moves.reduce(after, men)).trim(); })()"
CHANGED = "(men => men && sidesOf(men).trim())(given[1] === 'exchange' ? exchanged(menOf(blockAt(given[0], 0)).men) " \
    ": changed(menOf(blockAt(given[0], 0)).men, given[1]))"
FIELD = "withField(given[0], 0, given[1], given[2])"
ROWS = "(() => { const item = itemsOf(given)[0]; const said = row => [row.moves.map(it => it.label).join(' '), " \
    "...row.below.map(said)]; return item.phases.map(it => rowsOf(it, item.asked.isHelp).map(said)); })()"


def posed(men: str, *lines: str) -> str:
    """Writes a text of one problem."""
    return "\n".join(["BeginProblem", f"Pieces {men}", *lines, "EndProblem", ""])


SAID = "(([men, from, to, promotion = null, isCirce = false]) => moveBetween(menOf(blockAt(`BeginProblem Pieces ${men}`, 0)).men, " \
    "{ from, to, promotion, half: 1, isCirce }).said)(given)"
FEN = "fenOfBlock(given, blockAt(given, 0))"
MEN = "sidesOf(readFen(given).men).trim()"
# Twins as pops-import writes them: by a Remark, by their men, by a diagram of their own, as duplex, a faulty one; and a problem alone.
TWINS = "\n".join([
    "BeginProblem", "Title A pair a)", "Author A. B.", "Origin A magazine, 1999", "Pieces White Kg6 Ra1 Black Kh8", "Stipulation h#1",
    "NextProblem", "Title A pair b)", "Author A. B.", "Remark b) Move a1 b2", "Pieces White Kg6 Rb2 Black Kh8", "Stipulation h#1",
    "NextProblem", "Title A pair c)", "Author A. B.", "Pieces White Kg6 Rb2 Black Kh8 Pa7", "Stipulation h#1.5",
    "NextProblem", "Title A pair d)", "Author A. B.", "Pieces White Kb3 Rb2 Sd4 Black Ka1 Pa7", "Stipulation h#1",
    "NextProblem", "Title A pair d) duplex", "Author A. B.", "Pieces White Ka8 Black Kb6 Rb7", "Stipulation h#1",
    "NextProblem", "Title A pair e)", "Author A. B.", "Pieces White Ka8 Kb6", "Stipulation h#1",
    "NextProblem", "Title Another", "Origin Here", "Origin There", "Pieces White Kg6 Ra1 Black Kg8", "Stipulation #1", "EndProblem", ""])
POSITIONS: list[Case] = [
    ("a move", AFTER, [posed("White Kg6 Ra1 Black Kg8"), "1.Ra1-a8#", "battle"], "White Kg6 Ra8 Black Kg8"),
    ("a capture", AFTER, [posed("White Kg6 Ra1 Black Kg8 Pa5"), "1.Ra1*a5", "battle"], "White Kg6 Ra5 Black Kg8"),
    ("White castles short", AFTER, [posed("White Ke1 Rh1 Black Kf3"), "1.0-0", "battle"], "White Kg1 Rf1 Black Kf3"),
    ("Black castles long in help play", AFTER, [posed("White Ka1 Black Ke8 Ra8"), "1.0-0-0", "help"], "White Ka1 Black Kc8 Rd8"),
    ("en passant", AFTER, [posed("White Kg6 Pe5 Black Kh8 Pd5"), "1.e5*d6 ep.", "battle"], "White Kg6 Pd6 Black Kh8"),
    ("en passant with rebirth", AFTER, [posed("White Kg6 Pe5 Black Kh8 Pd5"), "1.e5*d6 ep.[+bPd7]#", "battle"],
     "White Kg6 Pd6 Black Kh8 Pd7"),
    ("a promotion", AFTER, [posed("White Kg6 Pa7 Black Kg8"), "1.a7-a8=Q#", "battle"], "White Kg6 Qa8 Black Kg8"),
    ("a promotion to nightrider with capture", AFTER, [posed("White Kg6 Pa7 Black Kg8 Rb8"), "1.a7*b8=N", "battle"],
     "White Kg6 Nb8 Black Kg8"),
    ("a rebirth", AFTER, [posed("White Ke1 Rb7 Black Kf3 Sd8"), "1.Sd8*b7[+wRh1] 0-0#", "help"], "White Kg1 Rf1 Black Kf3 Sb7"),
    ("a grasshopper and its rebirth on the far side", AFTER, [posed("White Kg6 Ra5 Black Kg8 Ga8"), "1...Ra5*a8[+bGa1]#", "help"],
     "White Kg6 Ra8 Black Kg8 Ga1"),
    ("a grasshopper's hop", AFTER, [posed("White Ga1 Pa4 Black Kg8"), "1.Ga1-a5", "battle"], "White Pa4 Ga5 Black Kg8"),
    ("a line of help play", AFTER, [posed("White Kg6 Ra1 Black Kh7"), "1.Kh7-h8 Ra1-b1 2.Kh8-g8 Rb1-b8#", "help"],
     "White Kg6 Rb8 Black Kg8"),
    ("half a move more in front", AFTER, [posed("White Kg6 Ra1 Black Kh8"), "1...Ra1-b1 2.Kh8-g8 Rb1-b8#", "help"],
     "White Kg6 Rb8 Black Kg8"),
    ("shift", CHANGED, [posed("White Kg6 Black Kg8 Pa2"), "right"], "White Kh6 Black Kh8 Pb2"),
    ("shift off the board", CHANGED, [posed("White Kg6 Black Kg8 Pa2"), "left"], None),
    ("mirror", CHANGED, [posed("White Kg6 Black Ga8"), "mirror"], "White Kb6 Black Gh8"),
    ("mirror upright", CHANGED, [posed("White Kg6 Pa2 Black Ga8"), "upright"], "White Kg3 Pa7 Black Ga1"),
    ("turn", CHANGED, [posed("White Ka1 Black Ka8"), "turn"], "White Ka8 Black Kh8"),
    ("exchange", CHANGED, [posed("White Kg6 Pa2 Black Kg8"), "exchange"], "White Kg1 Black Kg3 Pa7"),
    ("the men of FEN", "sidesOf(readFen(given).men).trim()", "r3k3/8/8/3pP3/8/8/8/N3K2R w K d6 0 1",
     "White Ke1 Rh1 Sa1 Pe5 Black Ke8 Ra8 Pd5"),
    ("what FEN bars", "(({ turn, noCastling, crossed }) => [turn, noCastling, crossed])(readFen(given))",
     "r3k3/8/8/3pP3/8/8/8/N3K2R w K d6 0 1", ["w", ["a8"], "d6"]),
    ("FEN of a board", FEN, posed("White Ke1 Rh1 Sa1 Pe5 Black Ke8 Ra8 Pd5"), "r3k3/8/8/3pP3/8/8/8/N3K2R w Kq - 0 1"),
    ("FEN of help play, of barred castling and of a pawn that has just moved", FEN,
     posed("White Ke1 Ra1h1 Pe4 Black Ke8 Ra8h8", "Stipulation h#2", "Option EnPassant e3 NoCastling a1e8"), "r3k2r/8/8/8/4P3/8/8/R3K2R b K e3 0 1"),
    ("FEN of fairy men", FEN, posed("White Ka1 Ga2 Sa3 Na4 Black Kh1 Gh2 Sh3 Nh4", "Stipulation h#2.5"), "8/8/8/8/(N)6(n)/N6n/G6g/K6k w - - 0 1"),
    ("brackets and grasshoppers in FEN", MEN, "8/8/8/8/(N)6(n)/N6n/G6g/K5(g)k w", "White Ka1 Sa3 Ga2 Na4 Black Kh1 Sh3 Gg1h2 Nh4"),
    ("Popeye's letters in FEN", MEN, "8/8/8/8/N6n/S6s/G6g/K6k", "White Ka1 Sa3 Ga2 Na4 Black Kh1 Sh3 Gh2 Nh4"),
    ("a capture played", SAID, ["White Ra1 Black Pa5", "a1", "a5"], "Ra1*a5"),
    ("castling played", SAID, ["White Ke1 Rh1 Black Ke8", "e1", "g1"], "0-0"),
    ("long castling played", SAID, ["White Ke1 Black Ke8 Ra8", "e8", "c8"], "0-0-0"),
    ("no castling over a man", SAID, ["White Ke1 Black Ke8 Ra8 Sb8", "e8", "c8"], "Ke8-c8"),
    ("no castling without the rook", SAID, ["White Ke1 Ra1", "e1", "g1"], "Ke1-g1"),
    ("en passant played", SAID, ["White Pe5 Black Pd5", "e5", "d6"], "e5*d6 ep."),
    ("a promotion played", SAID, ["White Pe7 Black Rd8", "e7", "d8", "S"], "e7*d8=S"),
    *[(f"reborn: {men} {to}", SAID, [men, men[7:9], to, None, True], said) for men, to, said in (
        ("White Ra1 Black Sa5", "a5", "Ra1*a5[+bSb8]"), ("White Ra1 Black Sa4", "a4", "Ra1*a4[+bSg8]"), ("White Ra1 Black Qa4 Bd8", "a4", "Ra1*a4"),
        ("White Ra1 Black Pa4", "a4", "Ra1*a4[+bPa7]"), ("White Ra1 Black Ga4", "a4", "Ra1*a4[+bGa1]"), ("White Ra1 Black Ra8", "a8", "Ra1*a8"))],
    ("half-moves of battle play", "[['w', []], ['b', []], ['b', [1]], ['w', [1]], ['w', [2]]].map(([colour, halves]) => halfAfter(halves.map(half => ({ half })), colour, { isHelp: false, isHalf: false }))", 0, [1, 2, 2, 3, 3]),
    ("half-moves of help play", "[['b', []], ['w', []], ['w', [1]]].map(([colour, halves]) => halfAfter(halves.map(half => ({ half })), colour, { isHelp: true, isHalf: false }))", 0, [1, 2, 2]),
    ("half-moves of help play that White begins", "halfAfter([], 'w', { isHelp: true, isHalf: true })", 0, 2),
    *[(f"after half-move {half} of {word}", "stipulationAfter(given[0], given[1])", [word, half], wanted) for word, half, wanted in (
        ("#2", 1, {"word": "#2", "isSet": True}), ("#2", 2, {"word": "#1", "isSet": False}), ("#2", 3, None), ("#3", 3, {"word": "#2", "isSet": True}),
        ("s#2", 3, {"word": "s#1", "isSet": True}), ("s#2", 4, None), ("h#2", 1, {"word": "h#1.5", "isSet": False}), ("h#2", 2, {"word": "h#1", "isSet": False}),
        ("h=2", 3, {"word": "h=0.5", "isSet": False}), ("h#2", 4, None), ("h#1.5", 2, {"word": "h#1", "isSet": False}), ("h#1.5", 4, None), ("x", 1, None))],
    ("men at home that have moved may not castle", "barredAfter(new Map(given[0]), given[1], ['a8'])",
     [[["e1", "wK"], ["h1", "wR"], ["a1", "wR"], ["e8", "bK"], ["a8", "bR"]], [{"from": "h1", "to": "h2"}, {"from": "h2", "to": "h1"}]], ["h1", "a8"]),
    ("a double step", "withReached(given, blocksOf(given)[0], { men: new Map([['e4', 'wP']]), moves: [{ kind: 'P', colour: 'w', from: 'e2', to: 'e4' }] })",
     posed("White Pe2", "Stipulation h#2"), posed("White Pe4", "Stipulation h#2", "Option EnPassant e3")),
    *[(f"a FEN of the page read again: {it}", "(text => fenOfBlock(withFen(text, 0, readFen(given)), blocksOf(withFen(text, 0, readFen(given)))[0]))"
       "('BeginProblem\\nStipulation ' + (given.includes(' b ') ? 'h#2' : '#2') + '\\nEndProblem\\n')", it, it)
      for it in ("r3k2r/8/8/8/8/8/8/R3K2R w KQkq - 0 1", "r3k2r/8/8/8/8/8/8/R3K2R b Qk - 0 1", "4k3/8/8/3pP3/8/8/8/4K3 w - d6 0 1", "8/8/8/8/(N)6(n)/N6n/G6g/K6k w - - 0 1")],
    ("one step for all of a FEN", "withFen(given[0], 0, readFen(given[1]))", [posed("White Ka1", "Stipulation #2"), "r3k2r/8/8/8/8/8/8/R3K2R w KQ - 0 1"],
     posed("White Ke1 Ra1h1 Black Ke8 Ra8h8", "Stipulation #2", "Option NoCastling h8a8")),
    *[(f"no FEN: {it}", "readFen(given)", it, None)
      for it in ("", "8/8/8/8/8/8/8", "9/8/8/8/8/8/8/8", "........./8/8/8/8/8/8/8", "8/8/8/8/8/8/8/8 x", "8/8/8/8/8/8/8/8 w Z", "<b>",
                "8/8/8/8/8/8/8/8 w - - 0 1 2", "8/8/8/8/8/8/8/(X)7", "8/8/8/8/8/8/8/(8)")],
]
BATTLE = "problem 1\n#2\nplay\n1.Qh8-b2\n  1...Ke1-d1\n    2.Rc7-c1#\n  1...a6-a5\n    2.Rc7-c1#\n1.Qh8-h1+\nsolutions: 2\n\n"
HELP = "problem 1\nh#1.5\nplay\n1...Ra1-b1 2.Kh8-g8 Rb1-b8#\n1...Ra1-b1 2.Kh8-h7 Rb1-h1#\n1...Ra1-c1 2.Kh8-g8 Rc1-c8#\nsolutions: 3\n\n"
TREES: list[Case] = [
    ("a tree", ROWS, BATTLE, [[["1.Qh8-b2", ["1...Ke1-d1", ["2.Rc7-c1#"]], ["1...a6-a5", ["2.Rc7-c1#"]]], ["1.Qh8-h1+"]]]),
    ("lines that begin alike", ROWS, HELP,
     [[["1...Ra1-b1", ["2.Kh8-g8 Rb1-b8#"], ["2.Kh8-h7 Rb1-h1#"]], ["1...Ra1-c1 2.Kh8-g8 Rc1-c8#"]]]),
    ("a beginning", ROWS, BATTLE[:60], [[["1.Qh8-b2", ["1...Ke1-d1", ["2.Rc7-c1#"]]]]]),
    ("a line that is none", "itemsOf(given).length", "problem 1\n#1\nplay\n<img src=x>\nsolutions: 0\n\nproblem 2\n", 1),
    ("no report", "itemsOf(given).length", "<script>\n", 0),
    ("a fault", "itemsOf(given)[0].fault", "problem 1\nline 3: fault 8: bad stipulation\n\n",
     {"line": 3, "number": 8, "text": "bad stipulation"}),
    ("markup in a title", "sheetOf(itemsOf(given), 'a').includes('<img')", "problem 1\ntitle: <img src=x onerror=a()>\n#1\nsound\n\n",
     False),
    ("markup in a drawing's title", "diagramFile(new Map(), given).includes('<img')", "<img>", False),
]
ODD = ("beg Remark stays\n  pie wh kg6 ra1\nRemark in between\n b kg8\nsti #1 opt max\nRemark x\n 5 var\nOdd words <b>\n"
       "opt noc a1 h1 setp\nend tail\n")
FIELDS: list[Case] = [
    ("men on both sides of a remark", "sidesOf(menOf(blockAt(given, 0)).men).trim()", ODD, "White Kg6 Ra1 Black Kg8"),
    ("fields of an odd text", "(fields => [...FLAGS, ...VALUES, 'stipulation'].map(name => valueOf(fields, name)))"
     "(fieldsOf(given, blockAt(given, 0)))", ODD, ["", "", None, "5", None, "a1 h1", "#1"]),
    ("another stipulation", FIELD, [ODD, "Stipulation", "h#2"], ODD.replace("#1", "h#2")),
    ("a number after a remark", FIELD, [ODD, "MaxSolutions", "7"], ODD.replace(" 5 var", " 7 var")),
    ("no such option", FIELD, [ODD, "Variation", None], ODD.replace(" 5 var", " 5")),
    ("one option of several", FIELD, [ODD, "NoCastling", None], ODD.replace("opt noc a1 h1 setp", "opt setp")),
    ("a title", FIELD, [posed("White Ka1"), "Title", "A\nB"], "BeginProblem\nTitle A B\nPieces White Ka1\nEndProblem\n"),
    ("no title", FIELD, ["BeginProblem\nTitle A\nEndProblem\n", "Title", ""], "BeginProblem\nEndProblem\n"),
    ("an option", FIELD, [posed("White Ka1"), "SetPlay", ""], posed("White Ka1", "Option SetPlay")),
    ("a second option", FIELD, [posed("White Ka1", "Option SetPlay"), "MaxSolutions", "2"],
     posed("White Ka1", "Option SetPlay MaxSolutions 2")),
    ("no option", FIELD, [posed("White Ka1", "Option SetPlay"), "SetPlay", None], posed("White Ka1")),
    ("a condition", FIELD, [posed("White Ka1"), "Condition", "Circe"], posed("White Ka1", "Condition Circe")),
    ("no condition", FIELD, [posed("White Ka1", "Condition Circe"), "Condition", ""], posed("White Ka1")),
    ("no men", "withMen(given, 0, new Map())", posed("White Ka1", "Stipulation #1"), EMPTY),
    ("words that are no men", "menOf(blockAt(given, 0)).unknown", posed("White Ka1 Xe4 Ka1"), ["Xe4", "Ka1"]),
    ("the second problem", "blockAt(given, 60).number", posed("White Ka1").replace("End", "Next") + "Pieces White Kb1\nEndProblem\n", 2),
    ("nothing after the end", "blocksOf(given).length", posed("White Ka1") + "NextProblem\nEndProblem\n", 1),
    ("a line", "(({ from, to }) => given.slice(from, to))(lineAt(given, 2))", "a\nbc\nd", "bc"),
    *[(f"a link of {it!r}", "textOfFragment(fragmentOf(given))", it, it)
      for it in (ODD, "é ♞ + % & # = \u0000 \U0001f600", "<script>alert(1)</script>", "a=b&text=c")],
    ("a link too long", "fragmentOf('a'.repeat(given))", 40000, None),
    ("no text in a link", "textOfFragment(given)", "#a", None),
    ("kept once, newest first", "['a', 'b', 'a'].reduce((list, text, at) => withKept(list, { text, time: at + 1 }), [])", 0,
     [{"text": "a", "time": 3}, {"text": "b", "time": 2}]),
    ("a store that someone else wrote", "[keptOf('x'), keptOf('{}'), keptOf('[1]'), keptOf('[{\"text\":1}]')]", 0, [[], [], [], []]),
    ("a file in UTF-8", "textOfBytes(new Uint8Array(given))", [0x61, 0xC3, 0xA9], {"text": "aé", "isUtf8": True}),
    ("a file of other bytes", "textOfBytes(new Uint8Array(given)).isUtf8", [0x61, 0xFF, 0x00], False),
    ("steps", "(it => { it.add('b'); it.add('b'); it.go(-1); it.add('c'); return [it.texts, it.go(1), it.go(-1), it.has(-1)]; })(new Steps('a'))",
     0, [["a", "c"], None, "a", False]),
    ("a million words", "blocksOf('BeginProblem ' + 'K '.repeat(given))[0].words.length", 500000, 500000),
]


# Parts passed in some order, each with its number: what is shown after each, and how it ends.
GIVEN_PARTS = """(([count, limit, parts]) => {
  const piece = new PhasePiece({ kind: 'play', parts: count }, limit ?? Infinity);
  const shown = [piece.more()];
  for (const [number, text, isCut] of parts) {
    piece.take(number, solutionsOf(text, Boolean(isCut)));
    shown.push(piece.more());
  }
  return [shown, piece.last, piece.isWhole, piece.isCut];
})(given)
"""
A, B, C = "1.Ra1-a8#\n", "1.Rb1-b8#\n", "1.Qh1-a1\n  1...Ka8-b8\n    2.Qa1-a7#\n"
NONE = "solutions: 0\n"
ONE = "solutions: 1\n"
JOINED: list[Case] = [
    ("parts in order", GIVEN_PARTS, [3, None, [[1, A + ONE], [2, NONE], [3, C + ONE]]],
     [["play\n", A, "", C + "solutions: 2\n"], 3, True, False]),
    ("parts in any order", GIVEN_PARTS, [3, None, [[3, C + ONE], [2, B + ONE], [1, A + ONE]]],
     [["play\n", "", "", A + B + C + "solutions: 3\n"], 3, True, False]),
    ("no part", GIVEN_PARTS, [0, None, []], [["play\nsolutions: 0\n"], 0, True, False]),
    ("a limit within a part", GIVEN_PARTS, [4, 2, [[1, A + ONE], [2, B + C + "solutions: 2, stopped\n"]]],
     [["play\n", A, B + "solutions: 2, stopped\n"], 2, True, False]),
    ("a limit at a part's end", GIVEN_PARTS, [4, 2, [[2, B + ONE], [1, A + ONE]]],
     [["play\n", "", A + B + "solutions: 2, stopped\n"], 2, True, False]),
    ("a limit reached by later parts first", GIVEN_PARTS, [4, 1, [[3, C + "solutions: 1, stopped\n"], [2, NONE], [1, NONE]]],
     [["play\n", "", "", C + "solutions: 1, stopped\n"], 3, True, False]),
    ("a limit that isn't reached", GIVEN_PARTS, [2, 3, [[1, A + ONE], [2, B + ONE]]],
     [["play\n", A, B + "solutions: 2\n"], 2, True, False]),
    ("a part that is cut", GIVEN_PARTS, [3, None, [[2, A + B + "1.Rc", True], [1, NONE]]], [["play\n", "", A + B], 2, False, True]),
    ("a part that is cut after the limit", GIVEN_PARTS, [3, 1, [[1, A + B + "1.Rc", True]]],
     [["play\n", A + "solutions: 1, stopped\n"], 1, True, False]),
    ("a phase that can't stand", "new PhasePiece(listOf(given)[0], Infinity).more()", "1: set not possible, play 3\n", "set\nnot possible\n"),
    ("a list of both phases", "listOf(given)", "1: set 4, play 12\n", [{"kind": "set", "parts": 4}, {"kind": "play", "parts": 12}]),
    ("a list of play alone", "listOf(given)", "1: play 0\n", [{"kind": "play", "parts": 0}]),
    *[(f"no list: {it!r}", "listOf(given)", it, {"thrown": f"Error: no list of parts: {it}"}) for it in ("", "1: faulty\n", "2: play 3\n")],
    *[(f"no part: {it!r}", "solutionsOf(given, false)", it, {"thrown": f"Error: no part: {it}"})
      for it in ("", A, A + NONE, ONE, A + ONE + B, "  1...Ka8-b8\n" + ONE)],
    ("heads", "headsOf(given)", "problem 1\ntitle: sound\nh#1.5 Circe\nsound\n\nproblem 2\nline 3: fault 8: bad stipulation\n\n",
     [{"text": "problem 1\ntitle: sound\nh#1.5 Circe\n", "isSound": True, "isHelp": True, "halfMoves": 3},
      {"text": "problem 2\nline 3: fault 8: bad stipulation\n\n", "isSound": False, "isHelp": False, "halfMoves": 0}]),
    ("items in their own texts", "itemTexts(given)", "beg a\nRemark end b\nnex c end d\nend",
     ["beg a\nRemark end b\nEndProblem\n", "BeginProblem c EndProblem\n"]),
    ("an item that isn't closed", "itemTexts(given)", "beg a\nnextproblem b", ["beg a\nEndProblem\n", "BeginProblem b"]),
    ("a limit", "limitOf(given)", "beg opt maxs 3 sti #1 opt max\nRemark x\n 7 setp end", 7),
    ("no limit", "limitOf(given) === Infinity", "beg sti #1 end", True),
]


# Uses of the page: a text, its report, and steps, each a script with its value; worked out by hand.
TWO = posed("White Ke1 Rh1 Black Ke8", "Stipulation #1").replace("End", "Next") + "Pieces White Kg6 Ra1 Black Kg8\nStipulation #1\nEndProblem\n"
MATE = "problem 1\n#1\nplay\n1.Ra1-a8#\nsolutions: 1\n\n"
TWO_MATES = "problem 1\n#1\nplay\nsolutions: 0\n\n" + MATE.replace("problem 1", "problem 2")
NOTE = "element('note').textContent"
CASTLES = "4k2r/8/8/8/8/8/8/4K2R w K - 0 1"
# Texts of other programs with men, stipulation and names, as pops-import reads them.
PAIR = "BeginProblem\nTitle A pair\nPieces White Kg6 Ra1 Black Kh8\nStipulation h#1\nOption Try\nTwin Move a1 b2\nTwin Continued Exchange g6 h8\nEndProblem\n"
GERMAN = "AnfangProblem\nTitel Ein Matt\nSteine Weiss Kg6 Ta1 Bb2 Schwarz Kg8 Lc8\nForderung #2\nOption Variante\nEndeProblem\n"
FRENCH = "DebutProbleme\nForsyth 6r1/8/6R1/8/8/8/8/T7\nEnonce #1\nFinProbleme\n"
ZERO = "BeginProblem\nPieces White Kg6 Ra1 Black Kh8\nStipulation h#1\nZeroPosition Move a1 b1\nTwin Rotate 90\nTwin Mirror a1h1\nTwin PolishType\n" \
    "Twin Add Black Pa7\nTwin Substitute R Q\nTwin Stipulation h=1\nTwin Remove a1 Add White Qa1\nEndProblem\n"
WANTED = "BeginProblem\nPieces White Kg6 Ra1 Black Kh8\nStipulation h#1.5 2.1..\nEndProblem\n"
YAML = ("---\nauthors:\n  - Composer, Anna\n  - \"Solver, \\\"Bert\\\"\"\nsource: Die Schwalbe\nalgebraic:\n  white: [Kg3, Qc4,\n    Rb3, Pa2]\n  black: [Kh1, Pa7]\n"
        "stipulation: \"h#2\"\noptions:\n  - SetPlay\nconditions: [Circe]\ntwins:\n  b: Move a2 a3\n  c: \"Continued Remove a7\"\ncomments:\n  - >\n    A note of\n    two lines.\n"
        "---\nalgebraic:\n  white:\n    - Kg6\n    - Ra1\n  black: [Kg8]\nstipulation: '#1'\n")
YAML_LISTS = ("---\n- algebraic: {white: [Kg6, Ra1], black: [Kh8]}\n  stipulation: h#1\n  reprints:\n    -   source: Elsewhere\n        date: 1980\n"
              "    - source: \"A: B\"\n  comments:\n  - http://a\n  - see: here\n- algebraic:\n    white: [Kg6, Ra1]\n    black: [Kg8]\n  stipulation: '#1'\n")
PLAYED = posed("White Kg6 Ra1 Black Kh8", "Stipulation #2", "Option Variation").replace("Pieces", "Title A try\nPieces", 1)
BENCH: list[Use] = [
    ("a FEN pasted while a solution is stepped through", TWO, TWO_MATES,
     [("tree.onward(), state.number", 2), (f"paste('{CASTLES}'), textNow()",
       TWO.replace("White Kg6 Ra1 Black Kg8", "White Ke1 Rh1 Black Ke8 Rh8").replace("#1\nEndP", "#1\nOption NoCastling h8\nEndP")),
      ("state.walked", None), ("goSteps(-1), textNow()", TWO)]),
    ("a field changed while a solution is stepped through", TWO, TWO_MATES,
     [("tree.onward(), element('field-Stipulation').value = '#2', fieldChanged('Stipulation'), textNow()", TWO[::-1].replace("1#", "2#", 1)[::-1])]),
    ("the fields of the problem stepped through", TWO.replace("#1", "#3", 1), TWO_MATES, [("tree.onward(), element('field-Stipulation').value + element('field-Moves').value", "#1")]),
    ("a step through the report of another text", TWO, TWO_MATES,
     [(f"setText({json.dumps(TWO)}.replace('Kg8', 'Kh8')), tree.onward(), changeBoard('mirror'), textNow()",
       TWO.replace("White Ke1 Rh1 Black Ke8", "White Kd1 Ra1 Black Kd8").replace("Kg8", "Kh8"))]),
    ("a step through the report of a problem that didn't change", TWO, TWO_MATES,
     [(f"setText({json.dumps(TWO)}.replace('Ke8', 'Kd8')), tree.onward(), changeBoard('mirror'), textNow()",
       TWO.replace("Ke8", "Kd8").replace("White Kg6 Ra1 Black Kg8", "White Kb6 Rh1 Black Kb8"))]),
    ("a man set while a solution is stepped through", TWO, TWO_MATES,
     [("tree.onward(), board.set('a2', 'wP'), textNow()", TWO.replace("Kg6 Ra1", "Kg6 Ra1 Pa2"))]),
    ("a man dragged from the palette", EMPTY, None,
     [("drag(element('men').children[1], 'e4'), textNow()", EMPTY.replace("Stip", "Pieces White Ke4\nStip")),
      ("drag(element('men').children[1], 'nowhere'), textNow()", EMPTY.replace("Stip", "Pieces White Ke4\nStip"))]),
    ("a man dragged from a square, and off the board", posed("White Ke4"), None,
     [("drag(element('e4'), 'e5'), textNow()", posed("White Ke5")), ("drag(element('e5'), 'nowhere'), textNow()", posed("White Ke5").replace("Pieces White Ke5\n", ""))]),
    ("a note of a man held", posed("White Ke4"), None, [("board.click('e4'), " + NOTE, "white king e4: where to? Escape cancels"), ("board.click('e4'), " + NOTE, "")]),
    ("a note of an unknown word", posed("White Ke4 Xe5"), None,
     [("board.set('a2', 'wP'), " + NOTE, "the board has no man for a word of Pieces, and would lose it: Xe5"),
      ("setText(textNow() + ' '), " + NOTE, "the board has no man for a word of Pieces, and would lose it: Xe5"), ("setText(textNow().replace(' Xe5', '')), " + NOTE, "")]),
    ("a note of a FEN", posed("White Ke4"), None,
     [("paste('8/8/8/8/8/8/8/K7 b - - 0 1'), " + NOTE, "the position of the FEN was set; Black is to move in it: the stipulation says who starts"),
      ("board.set('a2', 'wP'), " + NOTE, "")]),
    ("a note of no FEN", posed("White Ke4"), None,
     [("element('fen').value = 'x', element('fen').onchange(), " + NOTE + ".slice(0, 9)", "not a FEN"), ("element('fen').value = '', element('fen').oninput(), " + NOTE, "")]),
    ("a note of no report", posed("White Ke4"), None, [("state.items = [], OUTS.outReport(), " + NOTE, "solve first: there is no report yet"), (f"report({json.dumps(MATE)}), notes.check(), " + NOTE, "")]),
    ("the board's own FEN", posed("White Ke1 Ra1h1 Black Ke8 Ra8 Pe5", "Stipulation #2", "Option EnPassant e6 NoCastling a8 h1"), None,
     [("element('fen').value", "r3k3/8/8/4p3/8/8/8/R3K2R w Q e6 0 1")]),
    ("a second text after EndProblem", posed("White Ka1") + "\n" + posed("White Kb1"), None,
     [("element('tail').hidden", False), ("element('tail').firstElementChild.textContent.slice(0, 84)", "Nothing after EndProblem in line 3 is read, and the text goes on in line 5: NextProb"),
      ("element('join').onclick(), textNow()", posed("White Ka1").replace("End", "Next") + "\n" + posed("White Kb1").partition("\n")[2]), ("element('tail').hidden", True)]),
    ("words after EndProblem", posed("White Ka1") + "the end\n", None, [("[element('tail').hidden, element('join').hidden]", [False, True])]),
    ("what was found", EMPTY, MATE, [("element('tree').textContent.includes('problem 1 · #1 · 1 key')", True), ("sayDone(say('status0'), 5)", "no faults in the text: 1 key; 5 ms")]),
    ("two keys", EMPTY, MATE.replace("s: 1", "s: 2"), [("sayDone(say('status0'), 5)", "no faults in the text: 2 keys; 5 ms")]),
    ("no key", EMPTY, MATE.replace("s: 1", "s: 0"), [("sayDone(say('status0'), 5)", "no faults in the text: no solution; 5 ms")]),
    ("help play, stopped", EMPTY, "problem 1\nh#1\nplay\n1.Kg8-h8 Ra1-h1#\nsolutions: 1, stopped\n\n", [("sayFound(state.items[0])", "1 solution at least")]),
    ("an input of Popeye pasted", EMPTY, None,
     [(f"paste({json.dumps(PAIR)}), blocksOf(textNow()).length", 3), ("element('twins').textContent", "a)b)c)"), (NOTE, "the text became problems of pops"), ("goSteps(-1), textNow()", EMPTY)]),
    ("the list of problems", TWO, None,
     [("[element('contents').hidden, element('problems').textContent]", [False, "1. #1 · White Ke1 Rh1 Black Ke82. #1 · White Kg6 Ra1 Black Kg8"]),
      ("goToProblem(2), [state.number, element('text').selectionStart, element('g8').dataset.man, element('problems').value]", [2, TWO.index("NextProblem"), "bK", "2"]),
      ("element('twins').hidden", True)]),
    ("a text of one problem", posed("White Ke1"), None, [("element('contents').hidden", True)]),
    ("twins under one diagram", TWINS, None,
     [("[element('twins').hidden, element('twins').textContent]", [False, "a)b)c)d)d) duplexe)"]),
      ("goToProblem(2), element('twins').textContent", "a)b)c)d)d) duplexe)Move a1 b2"),
      ("element('twins').children[2].onclick(), element('twins').textContent", "a)b)c)d)d) duplexe)white Ra1 to b2, with black Pa7, h#1.5"),
      ("fillPrint(), element('print').children[0].textContent", "A pairA. B.A magazine, 1999h#1(2+1)"),
      ("element('print').children[1].textContent.split('\\n').slice(0, 2)", ["a)", "b) Move a1 b2"]),
      ("goToProblem(7), element('twins').hidden", True)]),
    ("moves played on the board", PLAYED, None,
     [("togglePlaying(), move('a1', 'a7'), [element('reached').textContent, element('h8').dataset.man, element('a7').dataset.man, element('line').hidden]", ["1.Ra1-a7", "bK", "wR", False]),
      ("move('h8', 'g8'), element('reached').textContent", "1...Kh8-g8"), ("goBack(), element('reached').textContent", "1.Ra1-a7"), ("textNow()", PLAYED),
      ("move('h8', 'g8'), solveFromHere(), textNow()", PLAYED.replace("EndProblem", "NextProblem\nTitle A try after 1.Ra1-a7 1...Kh8-g8\nPieces White Kg6 Ra7 Black Kg8\nStipulation #1\nOption Variation\nEndProblem")),
      ("[state.number, state.walked]", [2, None]), ("goSteps(-1), textNow()", PLAYED)]),
    ("after White's move", PLAYED, None,
     [("move('a1', 'a7'), solveFromHere(), textNow().slice(textNow().indexOf('Next'))",
       "NextProblem\nTitle A try after 1.Ra1-a7\nPieces White Kg6 Ra7 Black Kh8\nStipulation #2\nOption SetPlay Variation\nEndProblem\n"), ("togglePlaying(), state.isPlaying", False)]),
    ("a move from a position of the solutions becomes the problem", TWO, TWO_MATES,
     [("tree.onward(), move('g8', 'h7'), element('reached').textContent", "1...Kg8-h7"), ("makeProblem(), textNow()", TWO.replace("Kg6 Ra1 Black Kg8", "Kg6 Ra8 Black Kh7"))]),
    ("the play is over", TWO, TWO_MATES, [("tree.onward(), solveFromHere(), " + NOTE, "the play is over here: nothing is left to solve"), ("textNow()", TWO)]),
    ("a pawn that promotes", posed("White Ka1 Pb7 Black Kh8 Rc8 Gd5", "Stipulation #2"), None,
     [("togglePlaying(), move('b7', 'c8'), [element('promotion').hidden, element('promotion').children.length]", [False, 5]),
      ("element('promotion').children[4].onclick(), element('reached').textContent", "1.b7*c8=G"), ("togglePlaying(), leave(), [state.walked, element('line').hidden]", [None, True])]),
    ("a text that was tested alone", EMPTY, "problem 1\n#1\nsound\n\n", [("element('tree').textContent.includes('sound')", False), ("sayDone(say('status0'), 5)", "no faults in the text; 5 ms")]),
]
SHIFT = "BeginProblem\nPieces White Kg6 Rb1 Black Kg8\nStipulation h#1\nTwin Shift b1 a1\nEndProblem\n"
IMPORTS: list[tuple[str, str]] = [("twins", PAIR), ("a shift", SHIFT), ("German", GERMAN), ("French", FRENCH), ("a zero position", ZERO), ("a wanted number", WANTED), ("YAML", YAML), ("YAML, lists of mappings", YAML_LISTS), ("duplex", PAIR.replace("Try", "Duplex"))]
REFUSED: list[tuple[str, str, str]] = [
    ("an unknown man", PAIR.replace("Ra1", "Ra1 LEb1"), "pops knows no white LE, on b1"), ("quodlibet", PAIR.replace("Try", "Quodlibet"), "pops knows no option Quodlibet"),
    ("a condition", PAIR.replace("Option Try", "Condition Koeko"), "pops knows no condition Koeko"), ("no man to move", PAIR.replace("Move a1", "Move a3"), "there is no man on a3 to move"),
    ("a fault", PAIR.replace("Black Kh8", "Black Pa7"), "Problem 1 a) was left out: there is no black king"), ("neutral men", YAML.replace("white: [Kg3", "neutral: [Kg3"), "pops knows no neutral K, on g3"),
    ("a key twice", YAML.replace("source:", "conditions: [Circe]\nsource:"), "this isn't read as YAML: conditions"), ("men of no side", YAML.replace("white: [Kg3", "red: [Kg3"), "red is none of white, black and neutral"),
    ("an alias", YAML.replace("source: Die Schwalbe", "source: *one"), "this isn't read as YAML: *one"), ("check", PAIR.replace("Black Kh8", "Black Kh8 Rg1"), "Problem 1 a) was left out: In `h#1` Black moves first, and could take the white king on g6: the rook on g1 attacks it."),
]
OWN = [posed("White Kg6 Ra1 Black Kg8", "Stipulation #1"), posed("White Kg6 Ta1 Black Kg8", "Stipulation #1"), "", "Hello", "title: a\nauthor: b\n"]
