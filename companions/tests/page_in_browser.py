"""What `companions/try-browser` does with the page that solves: a problem entered by mouse, solved, folded, walked
through, stopped, printed; tries and threats; texts pasted and dropped, hostile ones too; no server contacted."""

import base64
import json
import re
import time
from collections.abc import Callable
from pathlib import Path
from typing import Optional

from tests.browser_pipe import Browser, BrowserError, BrowserGoneError

READY = "document.getElementById('solve') && !document.getElementById('solve').disabled"
IDLE = "document.getElementById('stop').disabled"
SOLVED = f"{IDLE} && state.report.endsWith('\\n\\n')"
# A telephone: its width, the height that the browser leaves to a page, the least width, the least square, the least of the solutions in sight.
NARROW = 360
LEAST_HEIGHT = 660
LEAST_WIDTH = 336
LEAST_SQUARE = 41
LEAST_OF_SOLUTIONS = 120
# The least width and height of what is pressed.
LEAST_SIZE = 18
# The manual's problem: the key is 1.Qh8-b2, and 1.Qh8-h2 fails to 1...Ke1-d1.
MATE_IN_TWO = "BeginProblem\nPieces White Kd6 Qh8 Rc7 Black Ke1 Pa6\nStipulation #2\nOption Variation\nEndProblem\n"
# After 1...Kd3 set play mates by 2.Qd4, the play also by another move.
SET_AND_PLAY = "BeginProblem\nPieces White Ke5 Qf2 Rg2 Bd7 Sh3 Black Kc4 Pb2\nStipulation #2\nOption Variation SetPlay\nEndProblem\n"
# A page that reads a long text again for each of its words takes hours.
SECONDS_OF_A_LONG_TEXT = 600
HOSTILE = "<img src=x onerror='window.ran = 1'><script>window.ran = 1</script>\"'&"
CONTROL = 2


class Page:
    """The page in a browser, with what was found wrong."""

    def __init__(self, browser: Browser, page: Path, pictures: Optional[Path]):
        self.browser = browser
        self.address = page.resolve().as_uri()
        self.pictures = pictures
        self.wrong: list[str] = []

    def holds(self, well: bool, what: str) -> None:
        if not well:
            self.wrong.append(what)

    def told(self, identity: str) -> str:
        return str(self.browser.run(f"document.getElementById('{identity}').textContent"))

    def text(self) -> str:
        return str(self.browser.run("document.getElementById('text').value"))

    def open(self, text: Optional[str] = None) -> None:
        self.browser.open(self.address, READY)
        if text is not None:
            self.browser.run(f"takeText({json.dumps(text)})")

    def solve(self) -> None:
        self.browser.click("#solve")
        # (a long text is read first, and the report before it is there meanwhile)
        self.browser.wait(f"{SOLVED} && state.isSolved()")

    def solve_and_stop(self, text: str) -> None:
        """Solves a text that would take years, by one worker, for a second."""
        self.open(text)
        self.browser.run("Object.defineProperty(navigator, 'hardwareConcurrency', { value: 1 })")
        self.solve_for_a_second()

    def solve_for_a_second(self) -> None:
        self.browser.click("#solve")
        self.browser.wait("Number(/: ([0-9]+) s/.exec(document.getElementById('state').textContent)?.[1]) >= 1")
        self.browser.click("#stop")
        self.holds("stopped after" in self.told("state"), self.told("state"))
        self.browser.wait(READY)

    def row(self, said: str, part: str = "move") -> str:
        """A selector of what unfolds the first row with this text, or of its move."""
        self.browser.run(
            "document.querySelector('.sought')?.classList.remove('sought');"
            f"[...document.querySelectorAll('#tree li')].find(it => it.querySelector('.move').textContent === {json.dumps(said)})"
            f".querySelector('.{part}').classList.add('sought')"
        )
        return ".sought"

    def men(self, *squares: str) -> str:
        """The men on these squares of the board, as `wK,,bP`."""
        return str(self.browser.run(f"{json.dumps(squares)}.map(it => document.getElementById(it).dataset.man).join()"))

    def picture(self, name: str) -> None:
        if self.pictures is not None:
            self.browser.picture(self.pictures / name)


def entered(page: Page) -> None:
    """A mate in two set by mouse, one man by touch, one by key; moved, taken back."""
    browser = page.browser
    browser.size(1280, 800)
    page.open("BeginProblem\nStipulation #2\nOption Variation\nEndProblem\n")
    for tool, square in (("wK", "d6"), ("wQ", "h8"), ("wR", "c6"), ("bK", "e1")):
        browser.click(f"#men [data-tool={tool}]")
        browser.click(f"#{square}")
    browser.click("#men [data-tool=hand]")
    browser.drag("#c6", "#c7")
    browser.run("document.getElementById('a5').focus()")
    browser.key("ArrowUp")
    browser.key("p", "KeyP")
    page.holds("Pieces White Kd6 Qh8 Rc7 Black Ke1 Pa6" in page.text(), f"set by mouse: {page.text()}")
    browser.key("z", "KeyZ", modifiers=CONTROL)
    page.holds("Pa6" not in page.text(), "undone")
    browser.click("#redo")
    page.holds("Pa6" in page.text(), "done again")
    browser.touch("#h8")
    browser.touch("#h7")
    page.holds("Qh7" in page.text(), f"moved by touch: {page.text()}")
    browser.click("#undo")
    walked_through(page)


def walked_through(page: Page) -> None:
    """It is solved and walked through."""
    browser = page.browser
    page.solve()
    page.holds("1.Qh8-b2" in page.told("tree"), "the key is shown")
    page.holds("Ke1-d1" not in page.told("tree"), "the tree begins folded")
    browser.click("#tree .turn")
    browser.click("#tree .move")
    browser.key("ArrowRight")
    browser.key("ArrowRight")
    page.holds(page.told("reached") == "2.Rc7-c1#", f"walked to {page.told('reached')}")
    men = page.men("c1", "d1", "b2", "e1", "h8")
    page.holds(men == "wR,bK,wQ,,", f"the position after three half-moves: {men}")
    page.picture("page.png")
    label = browser.run("document.getElementById('d1').getAttribute('aria-label')")
    page.holds(label == "d1 black king", f"a square is read as {label}")
    page.holds("rank 2: white queen b2" in page.told("ranks"), "ranks are read")
    browser.key("ArrowLeft")
    page.holds(page.told("reached") == "1...Ke1-d1", "a move back")
    browser.key("Escape")
    page.holds(browser.run("document.getElementById('h8').dataset.man") == "wQ", "back at the diagram")
    browser.click("#fold")
    page.holds(not browser.run("document.querySelector('#tree ul ul').offsetHeight"), "folded")


def printed(page: Page) -> None:
    """What goes to a printer fills one sheet."""
    sheet = page.browser.printed()
    pages = sheet.count(b"/Type /Page\n") + sheet.count(b"/Type /Page ")
    page.holds(pages == 1, f"printed on {pages} sheets")
    page.holds(page.browser.run("document.querySelectorAll('#print svg use').length") == 6, "the printed men")
    if page.pictures is not None:
        (page.pictures / "printed.pdf").write_bytes(sheet)


def stopped(page: Page) -> None:
    """An h#8 that would take years."""
    page.solve_and_stop("BeginProblem\nTitle Stopped\nPieces White Kd1 Ra1 Bc1 Pa2 Black Ke8 Qb8 Pa7\nStipulation h#8\nEndProblem\n")
    page.holds("Stopped" in page.told("kept-list"), "a text that was stopped is kept")


def asked(page: Page) -> None:
    """Another language chosen during a search: the page asks before it ends the search."""
    browser = page.browser
    page.open("BeginProblem\nPieces White Ke1 Ra1 Rh1 Black Ke8 Pa7b7\nStipulation h#8\nEndProblem\n")
    browser.click("#solve")
    browser.run("setTimeout(() => { document.getElementById('language').value = 'de'; document.getElementById('language').onchange(); })")
    leave_or_stay(page, is_left=False)
    page.holds(not browser.run(IDLE), "it still solves")
    browser.click("#stop")
    browser.wait(READY)
    browser.run("localStorage.removeItem('pops.language')")


def with_tries(page: Page) -> None:
    """Tries, threats and refutations: folded, unfolded, walked through, stopped; none with 0 refutations; help play is solved without."""
    browser = page.browser
    browser.size(1280, 800)
    page.open(MATE_IN_TWO)
    page.holds(not browser.run("document.getElementById('most').offsetParent"), "no number of refutations without tries")
    browser.click("#tries")
    page.solve()
    shown = page.told("tree")
    page.holds(all(it in shown for it in ("1.Qh8-b2!", "1.Qh8-h2?", "1 key, ")), f"a key and a try: {shown}")
    folded = str(browser.run("document.getElementById('tree').innerText"))
    page.holds("1.Qh8-h2?… but 1...Ke1-d1!" in folded.replace(" …", "…").replace("\n", ""), f"a folded try shows its refutation: {folded}")
    browser.click(page.row("1.Qh8-h2?", "turn"))
    browser.click(page.row("threat", "turn"))
    browser.click(page.row("but", "turn"))
    browser.click(page.row("2.Rc7-c1#"))
    page.holds(page.men("e1", "h2", "c1") == "bK,wQ,wR", f"a threat, as if Black passed: {page.men('e1', 'h2', 'c1')}")
    browser.click(page.row("1...Ke1-d1!"))
    page.holds(page.told("reached") == "1...Ke1-d1!", f"walked to {page.told('reached')}")
    page.holds(page.men("d1", "e1", "h2", "h8") == "bK,,wQ,", f"the refutation of a try: {page.men('d1', 'e1', 'h2', 'h8')}")
    page.picture("tries.png")
    browser.click(page.row("but"))
    page.holds(page.men("d1", "e1", "h2") == ",bK,wQ", "a word shows the position before its row")
    browser.click("#fold")
    page.holds(not browser.run("document.querySelector('#tree ul ul').offsetHeight"), "tries folded")
    browser.run("document.getElementById('refutations').select()")
    browser.call("Input.insertText", text="0")
    page.solve()
    page.holds("1.Qh8-b2!" in page.told("tree") and "?" not in page.told("tree"), "no tries with 0 refutations")
    browser.run(f"takeText({json.dumps(MATE_IN_TWO.replace('#2', 'h#2'))})")
    page.solve()
    page.holds("solutions: " in page.told("tree") and "tries" not in page.told("tree"), f"help play is solved without tries: {page.told('tree')}")
    browser.run(f"takeText({json.dumps(MATE_IN_TWO.replace('Rc7 ', '').replace('#2', '#9'))})")
    page.solve_for_a_second()
    browser.click("#tries")
    browser.run(f"takeText({json.dumps(MATE_IN_TWO)})")
    page.solve()
    page.holds("1.Qh8-b2" in page.told("tree") and "!" not in page.told("tree"), "the switch is off")


def compared(page: Page) -> None:
    """Set play, tries and play side by side, with what changes."""
    browser = page.browser
    browser.size(1280, 800)
    page.open(SET_AND_PLAY)
    browser.click("#tries")
    page.solve()
    browser.click("#tree .compared summary")
    browser.wait("document.querySelector('#tree table tr') !== null")
    table = browser.run("[...document.querySelectorAll('#tree table tr')].map(it => [...it.children].map(cell => cell.textContent).join('|')).join('\\n')")
    page.holds("set play" in table.partition("\n")[0], f"side by side: {table}")
    page.holds(browser.run("document.querySelectorAll('#tree td.changed').length") > 1, f"changed mates are marked: {table}")
    page.picture("compared.png")
    browser.click("#tries")


# Run in the page: no part of a problem begins while the report is longer than `most` characters.
HELD = """
(() => {
  const { free } = Crew.prototype;
  window.most = 1000;
  Crew.prototype.free = async function () {
    await free.call(this);
    while (state.report.length > most) await new Promise(go => { setTimeout(go, 20); });
  };
})()
"""


def grown(page: Page) -> None:
    """A report of 100,000 lines, by two workers: walked while it grows, then stopped."""
    browser = page.browser
    page.open("BeginProblem\nPieces White Ke1 Qd1 Ra1 Black Ke8 Pa7b7\nStipulation h#3.5\nOption SetPlay\nEndProblem\n")
    browser.run("Object.defineProperty(navigator, 'hardwareConcurrency', { value: 2 })")
    browser.run(HELD)
    browser.click("#solve")
    # (it is shown a number of lines at a time, and the tree grows later)
    drawn_up_to = "(document.getElementById('moreReport').click(), document.getElementById('report').textContent.length > most)"
    browser.wait(drawn_up_to)
    browser.wait("document.querySelector('#tree .move') !== null")
    browser.click("#tree .move")
    browser.key("ArrowRight")
    reached = page.told("reached")
    browser.run("most = state.report.length + 1000")
    browser.wait(drawn_up_to)
    marked = browser.run("document.querySelectorAll('#tree [aria-current]').length")
    page.holds(reached != "" and page.told("reached") == reached and marked == 1, f"walked to {reached} while the report grew")
    page.holds(", parts: " in page.told("state"), page.told("state"))
    browser.click("#stop")
    page.holds("this is a beginning" in page.told("state"), page.told("state"))
    page.holds(not browser.run("document.getElementById('beginning').hidden"), "a beginning is marked")
    report = page.told("report")
    page.holds(report.startswith("problem 1\n") and not report.endswith("\n\n"), "the beginning is kept")
    drawn = "(tree.foldAll(true), document.getElementById('tree').textContent)"
    page.holds(browser.run(f"{drawn} === (drawReport(), {drawn})"), "what grew is what is drawn at once")
    browser.wait(READY)


def faulty(page: Page) -> None:
    """Faults at their lines, and fields that leave the rest of a text alone."""
    page.open("BeginProblem\nPieces White Kg6 Ta1 Black Kg8\nStipulation #1\nNextProblem\nRemark odd <b>\nEndProblem\n")
    page.browser.run("document.getElementById('check').checked = true")
    page.solve()
    marks = page.browser.run("[...document.querySelectorAll('#gutter span')].map(it => it.dataset.line).join()")
    page.holds(marks == "2,6", f"marked lines: {marks}")
    page.holds("It is the rook in German: write `Ra1`" in page.told("tree"), "the words of pops-explain")
    page.holds(page.browser.run("document.querySelector('#tree mark').textContent") == "Ta1", "the faulty word is marked")
    page.picture("faults.png")
    page.browser.click("#tree .fault > button")
    selected = page.browser.run("(it => it.value.slice(it.selectionStart, it.selectionEnd))(document.getElementById('text'))")
    page.holds(selected == "Pieces White Kg6 Ta1 Black Kg8", f"the faulty line: {selected}")


def corrected(page: Page) -> None:
    """Options of Popeye left out by one click, which switches tries on; the whole text converted by another."""
    browser = page.browser
    browser.size(1280, 800)
    page.open()
    # (the page keeps its switches, which other looks have changed)
    browser.run("document.getElementById('check').checked = false; document.getElementById('refutations').value = 1")
    text = MATE_IN_TWO.replace("Variation", "Variation Try Threat 2 Intelligent")
    browser.run(f"setText({json.dumps(text)})")
    page.solve()
    page.holds("the switch “tries and threats” of this page shows tries" in page.told("tree"), page.told("tree"))
    page.picture("corrected.png")
    browser.click("#tree .fault .corrected + button")
    page.holds(page.text() == MATE_IN_TWO and browser.run("document.getElementById('tries').checked"), f"corrected: {page.text()}")
    page.solve()
    page.holds("1.Qh8-h2?" in page.told("tree"), "tries are shown")
    browser.click("#undo")
    page.solve()
    browser.click("#tree .fault > button:last-child")
    page.holds("Remark Try left out" in page.text() and "Option Variation\n" in page.text(), f"converted: {page.text()}")
    browser.click("#tries")


def seconds(page: Page, script: str) -> float:
    """How long a script takes in the page."""
    return float(page.browser.run(f"(() => {{ const begun = performance.now(); {script}; return (performance.now() - begun) / 1000; }})()"))


def hostile(page: Page) -> None:
    """Markup, 65,536 words, any bytes, 20,000 lines: the page stays usable, and nothing of them runs."""
    browser = page.browser
    page.open(f"BeginProblem\nTitle {HOSTILE}\nAuthor {HOSTILE}\nPieces White Kg6 Ra1 Black Kg8\nStipulation #1\nEndProblem\n")
    page.solve()
    browser.run("for (const [name, act] of Object.entries(OUTS)) if (name !== 'outPrint' && name !== 'outLink') act()")
    browser.run("fillPrint()")
    page.holds("<img" in page.told("tree"), "a title's markup is shown as it stands")
    address = browser.run("location.href.split('#')[0] + fragmentOf(textNow())")
    browser.open(address, READY)
    page.holds(HOSTILE in page.text(), "a link carries it")
    for what, script in (
        ("words", "'BeginProblem\\n' + 'Kg6 '.repeat(65536)"),
        ("lines", "'BeginProblem\\n' + 'Kg6\\n'.repeat(65536)"),
        ("bytes", "textOfBytes(Uint8Array.from({ length: 200000 }, (_, at) => at * 7919 >> 3)).text"),
    ):
        page.holds(seconds(page, f"takeText({script})") < SECONDS_OF_A_LONG_TEXT, f"{what} take too long")
        page.solve()
        page.holds("fault" in page.told("tree"), f"{what}: a fault is told")
    browser.run(
        "(() => { state.report = 'problem 1\\nh#1\\nplay\\n' + '1.Kg8-h8 Ra1-h1#\\n1.Kg8-f8 Ra1-a8#\\n'.repeat(10000)"
        " + 'solutions: 20000\\n\\n'; state.solved = ''; })()"
    )
    page.holds(seconds(page, "drawReport(); tree.foldAll(true)") < SECONDS_OF_A_LONG_TEXT, "a report of 20,000 lines takes too long")
    page.holds(browser.run("document.querySelectorAll('#tree li').length") < 3000, "not all rows are drawn at once")
    page.holds(not browser.run("window.ran"), "something of a text ran")


GIVEN = """
(() => {
  const given = new DataTransfer();
  const [kind, said] = %s;
  if (kind === 'drop') given.items.add(new File([new TextEncoder().encode(said)], 'given.pop'));
  else given.setData('text/plain', said);
  const event = { bubbles: true, cancelable: true };
  document.body.dispatchEvent(kind === 'drop' ? new DragEvent('drop', { ...event, dataTransfer: given })
    : new ClipboardEvent('paste', { ...event, clipboardData: given }));
})()
"""


def given(page: Page) -> None:
    """Positions and texts pasted and dropped, fields typed, and what is kept when the page is opened again."""
    browser = page.browser
    page.open("BeginProblem\nRemark stays\nStipulation #1\nEndProblem\n")
    browser.run(GIVEN % json.dumps(["paste", "6k1/8/6K1/8/8/8/8/R7 w - - 0 1"]))
    wanted = "BeginProblem\nPieces White Kg6 Ra1 Black Kg8\nRemark stays\nStipulation #1\nEndProblem\n"
    page.holds(page.text() == wanted, f"a FEN pasted: {page.text()}")
    browser.click("#field-Title")
    browser.call("Input.insertText", text="Typed here")
    browser.key("Tab")
    page.holds("Title Typed here\n" in page.text(), f"a title typed: {page.text()}")
    browser.click("#field-SetPlay")
    page.holds("Option SetPlay\nEndProblem" in page.text(), f"an option ticked: {page.text()}")
    page.solve()
    browser.open(page.address, READY)
    page.holds("Typed here" in page.text() and "Typed here" in page.told("kept-list"), "kept")
    dropped = "BeginProblem\nPieces White Kb6 Black Kb8\nEndProblem\n"
    browser.run(GIVEN % json.dumps(["drop", dropped]))
    browser.wait(f"document.getElementById('text').value === {json.dumps(dropped)}")
    browser.run("document.getElementById('text').focus(); document.getElementById('text').select()")
    browser.call("Input.insertText", text="Beg Pie Wh Ka1 Bl Kc1 Ga8 Sti #1 End")
    browser.wait("document.getElementById('a8').dataset.man === 'bG'")
    browser.run("takeText('BeginProblem\\n'.repeat(5000)); document.getElementById('text').focus()")
    browser.call("Input.insertText", text="x")
    browser.run("document.getElementById('text').select()")
    # (as the browser's menu does)
    browser.call("Input.dispatchKeyEvent", type="keyDown", key="Undo", commands=["undo"])
    page.holds(browser.run("textNow() === 'BeginProblem\\n'.repeat(5000)"), f"the browser's own undo: {browser.run('textNow().length')} letters")
    browser.run("document.getElementById('kept').open = true")
    browser.click("#forget")
    page.holds(not page.told("kept-list"), "forgotten")


def aged(page: Page) -> None:
    """Solutions after a man was moved: marked at once, also while the former problem is being solved; as before after undo."""
    browser = page.browser
    browser.size(1280, 800)
    grey = "getComputedStyle(document.querySelector('#tree .move')).color === 'rgb(106, 103, 95)'"
    page.open(MATE_IN_TWO)
    page.solve()
    page.holds(not browser.run(grey) and "not of this" not in page.told("state"), "solutions of this position")
    browser.drag("#h8", "#g8")
    shown = browser.run("document.querySelector('#tree section').innerText")
    page.holds(browser.run(grey) and "Not of this position" in shown, f"marked after a move: {shown}")
    page.holds(page.told("state").startswith("not of this position: "), page.told("state"))
    page.picture("aged.png")
    browser.click("#undo")
    shown = browser.run("document.querySelector('#tree section').innerText")
    page.holds(not browser.run(grey) and "Not of this position" not in shown, f"not marked after undo: {shown}")
    page.open(MATE_IN_TWO.replace("#2", "#9").replace("Pieces", "Title A long one\nPieces").replace("Rc7 ", ""))
    browser.click("#solve")
    browser.wait("document.getElementById('state').textContent.startsWith('solving A long one: ')")
    browser.drag("#h8", "#g8")
    page.holds(page.told("state").startswith("not of this position: solving A long one: "), page.told("state"))
    browser.click("#stop")
    browser.wait(READY)


def live(page: Page) -> None:
    """One problem of several solved; then after each change of it, unfolded rows staying so; not after a long search."""
    browser = page.browser
    browser.size(1280, 800)
    page.open(MATE_IN_TWO)
    page.holds(not browser.run("document.getElementById('solveThis').offsetParent"), "one problem has one button")
    page.open(MATE_IN_TWO.replace("End", "Next") + MATE_IN_TWO.partition("\n")[2])
    browser.run("goToProblem(2)")
    browser.click("#solveThis")
    browser.wait(SOLVED)
    page.holds(page.told("report").startswith("problem 2\n") and page.told("report").count("problem ") == 1, page.told("report"))
    browser.click("#solve")
    browser.wait(SOLVED)
    page.holds(page.told("report").count("problem ") == 2, page.told("report"))
    page.open(MATE_IN_TWO)
    # (each search is quick by a clock that stands still: on a busy machine none may be)
    browser.run("performance.now = () => 0")
    page.solve()
    browser.click(page.row("1.Qh8-b2", "turn"))
    browser.click("#live")
    page.picture("live.png")
    browser.drag("#a6", "#a5")
    browser.wait(f"{SOLVED} && state.solved.includes('Pa5')")
    page.holds("1.Qh8-b2" in page.told("tree") and "not of this" not in page.told("state"), f"solved after a move: {page.told('tree')}")
    page.holds("1...Ke1-d1" in browser.run("document.getElementById('tree').innerText"), "what was unfolded stays so")
    browser.run("delete performance.now; state.followers.length = 0; setText(textNow().replace('#2', '#9')); liveChanged()")
    browser.wait("!document.getElementById('stop').disabled && Number(/: ([0-9]+) s/.exec(document.getElementById('state').textContent)?.[1]) >= 1")
    browser.click("#stop")
    browser.wait(READY)
    page.holds("waits: the last search took" in page.told("liveState"), page.told("liveState"))
    browser.drag("#a5", "#a6")
    page.holds(browser.run("new Promise(go => setTimeout(() => go(document.getElementById('stop').disabled), 300))"), "no search after a long one")
    browser.click("#live")


# Run in the page: the names of files that would be saved, instead of saving them.
SAVED = "window.saved = []; HTMLAnchorElement.prototype.click = function () { saved.push(this.download); }"


def edited(page: Page) -> None:
    """The stipulation by choice and number, the board from the other side, mirrored and cleared; files named after the title."""
    browser = page.browser
    browser.size(1280, 800)
    page.open(MATE_IN_TWO.replace("Pieces", "Title Of the page\nPieces"))
    browser.run("(it => { it.value = 'h#'; it.dispatchEvent(new Event('change')); })(document.getElementById('field-Stipulation'))")
    browser.run("document.getElementById('field-Moves').select()")
    browser.call("Input.insertText", text="2.5")
    browser.key("Tab")
    page.holds("Stipulation h#2.5\n" in page.text(), f"a stipulation chosen: {page.text()}")
    browser.run("setText(textNow().replace('h#2.5', '#2'))")
    top = "document.elementFromPoint(...(it => [it.left + 20, it.top + 20])(document.getElementById('squares').getBoundingClientRect())).id"
    page.holds(browser.run(top) == "a8", "a8 is at the top left")
    browser.click("#flip")
    page.holds(browser.run(top) == "h1", "h1 is at the top left of the flipped board")
    browser.drag("#h8", "#h7")
    page.holds("Qh7" in page.text(), f"moved on the flipped board: {page.text()}")
    page.picture("flipped.png")
    browser.click("#flip")
    browser.click("#upright")
    page.holds("White Kd3 Qh2 Rc2 Black Ke8 Pa3" in page.text(), f"mirrored upright: {page.text()}")
    browser.run(SAVED)
    browser.run("OUTS.outText(); OUTS.outSvg()")
    page.holds(browser.run("saved.join()") == "Of-the-page.pop,Of-the-page.svg", f"files: {browser.run('saved.join()')}")
    browser.run("OUTS.outLink()")
    browser.wait("document.getElementById('note').textContent.includes('link')")
    page.holds("works only here" in page.told("note"), page.told("note"))
    browser.click("#clear")
    page.holds(page.text() == "BeginProblem\nStipulation #2\nOption Variation\nEndProblem\n", f"cleared: {page.text()}")


# Run in the page: the picture on the browser's clipboard.
PICTURE = """
(async () => {
  const [item] = await navigator.clipboard.read();
  const picture = await createImageBitmap(await item.getType('image/png'));
  const canvas = Object.assign(document.createElement('canvas'), { width: picture.width, height: picture.height });
  const pen = canvas.getContext('2d');
  pen.drawImage(picture, 0, 0);
  const inked = pen.getImageData(0, 0, picture.width, picture.height).data.reduce((sum, it, at) => sum + (at % 4 === 0 && it < 100), 0);
  return { width: picture.width, inked, url: canvas.toDataURL() };
})()
"""


def given_away(page: Page) -> None:
    """The diagram as a picture, the solution in short notation, LaTeX and YAML."""
    browser = page.browser
    browser.allow("clipboardReadWrite", "clipboardSanitizedWrite")
    page.open(MATE_IN_TWO)
    browser.run(SAVED)
    browser.click("#outCopyShort")
    page.holds("solve first" in page.told("note"), f"no solution to copy: {page.told('note')}")
    page.solve()
    is_copied = "document.getElementById('note').textContent === 'copied'"
    browser.click("#outCopyShort")
    browser.wait(is_copied)
    short = browser.run("navigator.clipboard.readText()")
    page.holds("1.Qb2!" in short and "1...Kd1,Kf1,a5 2.Rc1#" in short, f"copied: {short}")
    browser.run("note('')")
    browser.click("#outCopyDiagram")
    browser.wait(is_copied)
    copied = browser.run(PICTURE)
    page.holds(copied["width"] > 700 and copied["inked"] > 20000, f"a picture {copied['width']} wide, {copied['inked']} pixels of it dark")
    if page.pictures is not None:
        (page.pictures / "diagram.png").write_bytes(base64.b64decode(copied["url"].partition(",")[2]))
    browser.run("OUTS.outLatex(); OUTS.outYaml(); OUTS.outPng()")
    browser.wait("saved.length === 3")
    page.holds(browser.run("saved.join()") == "pops.tex,pops.yaml,pops.png", f"saved: {browser.run('saved.join()')}")


# Run in the page: how many turns of others come while something is awaited.
TURNS = "(() => { window.turns = 0; const turn = () => { turns++; setTimeout(turn); }; turn(); })()"


def beside(page: Page) -> None:
    """A long collection of YAML becomes problems, and its solutions files and a copy, while the page reacts."""
    browser = page.browser
    browser.allow("clipboardReadWrite", "clipboardSanitizedWrite")
    page.open()
    browser.run(SAVED)
    one = "---\nalgebraic:\n  white: [Kg6, Ra1]\n  black: [Kg8]\nstipulation: '#1'\n"
    browser.run(TURNS)
    # (in one script: between two the text may be read already, and few turns be left)
    pasted = (GIVEN % json.dumps(["paste", one * 200])).strip()
    note = browser.run(f"{pasted}; turns = 0; document.getElementById('note').textContent")
    page.holds("being read" in note, f"a long text is read beside the page: {note}")
    browser.wait("document.getElementById('note').textContent.includes('became problems')")
    page.holds(browser.run("turns > 1 && blocksOf(textNow()).length === 200"), "200 problems, while the page reacts")
    page.solve()
    browser.run("OUTS.outPage(); OUTS.outJson(); OUTS.outLatex(); OUTS.outYaml()")
    browser.wait("saved.length === 4")
    names = sorted(browser.run("saved"))
    page.holds(names == ["pops.html", "pops.json", "pops.tex", "pops.yaml"], f"saved: {names}")
    browser.click("#outCopyShort")
    browser.wait("document.getElementById('note').textContent === 'copied'")
    short = browser.run("navigator.clipboard.readText()")
    page.holds(short == "1.Ra8#!\n", f"copied: {short}")


def linked(page: Page) -> None:
    """A link opened beside a problem in work: in the tab of the work and in a new one; undo and solutions after a reload."""
    browser = page.browser
    page.open()
    browser.run("forgetAll()")
    own = MATE_IN_TWO.replace("Pieces", "Title In work\nPieces")
    browser.run(f"setText({json.dumps(own)})")
    page.solve()
    browser.run("forgetAll()")
    link = browser.run(f"location.href.split('#')[0] + fragmentOf({json.dumps(MATE_IN_TWO.replace('Pieces', 'Title Linked' + chr(10) + 'Pieces'))})")
    browser.open(link, READY)
    page.holds("Title Linked" in page.text(), f"the link's text: {page.text()}")
    page.holds("In work" in page.told("kept-list") and "from a link" in page.told("kept-list"), f"both are kept: {page.told('kept-list')}")
    page.picture("linked.png")
    browser.click("#undo")
    page.holds(page.text() == own and "1.Qh8-b2" in page.told("tree"), f"undo brings back the text in work: {page.text()}")
    browser.drag("#h8", "#g8")
    moved = page.text()
    browser.run("window.isBefore = true; location.reload()")
    browser.wait(f"!window.isBefore && {READY}")
    page.holds(page.text() == moved and "Qg8" in moved, f"a reload keeps what was changed after the link: {page.text()}")
    page.holds("1.Qh8-b2" in page.told("tree"), "a reload keeps the solutions")
    browser.click("#undo")
    page.holds(page.text() == own, f"undo after a reload: {page.text()}")


def leave_or_stay(page: Page, is_left: bool) -> None:
    """Leaves the page or stays, once the browser asks which."""
    end = time.monotonic() + SECONDS_OF_A_LONG_TEXT
    while True:
        try:
            page.browser.call("Page.handleJavaScriptDialog", accept=is_left)
            return
        except BrowserGoneError:
            raise
        except BrowserError:
            if time.monotonic() > end:
                raise
            time.sleep(0.05)


def unkept(page: Page) -> None:
    """A text that the browser has no room for: said at once, asked before the page is left; the one before is there after a reload."""
    browser = page.browser
    page.open(MATE_IN_TWO)
    # (a browser asks only where the page was used)
    browser.click("#count")
    browser.run("window.isBefore = true; takeText(textNow().replace('Pieces', `Remark ${'x'.repeat(6 * 2 ** 20)}\\nPieces`))")
    browser.wait("!document.getElementById('unkept').hidden")
    page.holds("save it as a file" in page.told("unkept"), page.told("unkept"))
    browser.run("setTimeout(() => location.reload())")
    leave_or_stay(page, is_left=False)
    page.holds(browser.run("window.isBefore && textNow().length") > 6 << 20, "the page stays")
    browser.run("setTimeout(() => location.reload())")
    leave_or_stay(page, is_left=True)
    browser.wait(f"!window.isBefore && {READY}")
    page.holds(page.text() == MATE_IN_TWO and "is lost" in page.told("note"), f"after a reload: {page.text()[:200]}, {page.told('note')}")


def composed(page: Page) -> None:
    """A man dragged from the palette; a FEN pasted while a solution is stepped through; a move played, and solved from there."""
    browser = page.browser
    browser.size(1280, 800)
    page.open(MATE_IN_TWO.replace(" Pa6", ""))
    browser.drag("#men [data-tool=bP]", "#a6")
    page.holds("Black Ke1 Pa6" in page.text(), f"dragged from the palette: {page.text()}")
    page.solve()
    browser.click("#tree .move")
    browser.run(GIVEN % json.dumps(["paste", "4k2r/8/8/8/8/8/8/4K2R w K - 0 1"]))
    page.holds("Pieces White Ke1 Rh1 Black Ke8 Rh8\n" in page.text() and "NoCastling h8" in page.text(), f"a FEN: {page.text()}")
    browser.click("#undo")
    page.holds("Pieces White Kd6 Qh8 Rc7 Black Ke1 Pa6\n" in page.text(), "one undo for a FEN")
    browser.click("#playing")
    browser.drag("#h8", "#h2")
    page.holds(page.told("reached") == "1.Qh8-h2", f"played: {page.told('reached')}")
    page.picture("played.png")
    browser.click("#fromHere")
    browser.wait(SOLVED)
    page.holds("1...Ke1-f1" in page.told("tree") and "1...Ke1-d1" not in page.told("tree"), "the refutation of a try")
    page.holds(browser.run("document.getElementById('problems').value") == "2", "the position is a problem of its own")


def without_engine(page: Page) -> None:
    """A browser that refuses the engine, as one would that is too old."""
    browser = page.browser
    refuses = "WebAssembly.compile = () => Promise.reject(new WebAssembly.CompileError('refused'))"
    script = browser.call("Page.addScriptToEvaluateOnNewDocument", source=refuses)["identifier"]
    browser.open(page.address, "document.getElementById('state').textContent.includes('refused')")
    page.holds("Firefox 104" in page.told("state"), f"the page says what to do: {page.told('state')}")
    page.holds(browser.run("document.getElementById('solve').disabled"), "nothing is solved")
    browser.click("#men [data-tool=wQ]")
    browser.click("#b4")
    page.holds(bool(re.search(r"White .*Q(\w\w)*b4", page.text())), f"the board works: {page.text()}")
    browser.call("Page.removeScriptToEvaluateOnNewDocument", identifier=script)


def narrow(page: Page) -> None:
    """On a telephone nothing stands outside, and each thing to press is large enough."""
    browser = page.browser
    browser.size(NARROW, 780)
    page.open("BeginProblem\nPieces White Kc1 Ge3 Na4 Black Ka1 Gh5 Ne7\nStipulation h#2\nOption Variation\nEndProblem\n")
    page.solve()
    fits(page)
    nameless = browser.run(
        "[...document.querySelectorAll('button, input:not([hidden]), select, textarea')].filter(it =>"
        " !it.getAttribute('aria-label') && !it.textContent.trim() && !it.labels?.length).map(it => it.id || it.className)"
    )
    page.holds(not nameless, f"without a name: {nameless}")
    browser.run("scrollTo(0, 0)")
    edges = "['squares', 'solve', 'solutions', 'position', 'problem'].map(it => document.getElementById(it).getBoundingClientRect().top)"
    tops = browser.run(edges)
    page.holds(tops == sorted(tops) and tops[2] < LEAST_HEIGHT - LEAST_OF_SOLUTIONS, f"solutions come right below Solve: {tops}")
    width = browser.run("document.querySelector('#squares button').getBoundingClientRect().width")
    page.holds(width >= LEAST_SQUARE, f"squares of {width} pixels")
    page.picture("narrow.png")
    browser.click("#tree .move")
    top, bottom = browser.run("(it => [it.top, it.bottom])(document.getElementById('squares').getBoundingClientRect())")
    page.holds(0 <= top < bottom < 400, f"the board stays in sight: {top} to {bottom}")
    browser.click("#tries")
    fits(page)
    page.picture("narrow_tries.png")


def spoken(page: Page) -> None:
    """The page in German and in French, also on a telephone; text, solutions and undo stay."""
    browser = page.browser
    browser.size(1280, 800)
    page.open(MATE_IN_TWO)
    browser.run("changeBoard('mirror'); changeBoard('mirror')")
    page.solve()
    for code, solve, found in (("de", "Lösen", "1 Schlüssel"), ("fr", "Résoudre", "1 clé"), ("en", "Solve", "1 key")):
        browser.run("window.isBefore = true")
        browser.run(f"(it => {{ it.value = '{code}'; it.dispatchEvent(new Event('change')); }})(document.getElementById('language'))")
        browser.wait(f"!window.isBefore && {READY}")
        page.holds(page.told("solve") == solve and found in page.told("tree"), f"{code}: {page.told('solve')}, {page.told('tree')}")
        title = browser.run("document.title")
        page.holds(title == "pops: " + str(browser.run("say('subtitle')")), f"{code}: the window is called {title}")
        page.holds(page.text() == MATE_IN_TWO and not browser.run("document.getElementById('undo').disabled"), f"{code}: the text and undo stay")
        heights = browser.run("[...document.querySelectorAll('#fields .values input')].map(it => it.offsetHeight)")
        page.holds(len(set(heights)) == 1, f"{code}: fields of different heights, {heights}")
        page.picture(f"page_{code}.png")
        browser.size(NARROW, 780)
        fits(page)
        browser.size(1280, 800)


def fits(page: Page) -> None:
    """Nothing stands outside of the narrow page or takes its width, and nothing is too small to press."""
    width, used = page.browser.run("[document.documentElement.scrollWidth, document.querySelector('main').offsetWidth]")
    page.holds(width <= NARROW, f"the page is {width} wide")
    page.holds(used >= LEAST_WIDTH, f"the page uses {used} of {width}")
    small = page.browser.run(
        "[...document.querySelectorAll('button, input, select')].filter(it =>"
        f" it.offsetParent && Math.min(it.offsetWidth, it.offsetHeight) < {LEAST_SIZE}).map(it => it.id)"
    )
    page.holds(not small, f"too small to press: {small}")


LOOKS: list[Callable[[Page], None]] = [
    entered,
    printed,
    with_tries,
    compared,
    stopped,
    asked,
    grown,
    faulty,
    corrected,
    given,
    aged,
    live,
    edited,
    given_away,
    beside,
    linked,
    unkept,
    composed,
    without_engine,
    hostile,
    narrow,
    spoken,
]


def look(browser: Browser, file: Path, pictures: Optional[Path] = None) -> dict[str, list[str]]:
    """Uses the page in a browser. Returns what is wrong, by what was tried."""
    return {one.__name__: used(browser, Page(browser, file, pictures), one) for one in LOOKS}


def used(browser: Browser, page: Page, one: Callable[[Page], None]) -> list[str]:
    """Uses the page in one way. Returns what is wrong. The page contacts no server, and no script throws."""
    browser.events.clear()
    try:
        one(page)
    except BrowserGoneError as error:
        raise BrowserGoneError(f"{one.__name__}: {error}") from None
    except BrowserError as error:
        page.wrong.append(str(error))
    for event in browser.events:
        if event["method"] == "Network.requestWillBeSent":
            address = event["params"]["request"]["url"]
            page.holds(address.startswith(("file:", "blob:", "data:")), f"asked for {address[:80]}")
        elif event["method"] == "Runtime.exceptionThrown":
            page.wrong.append(f"thrown: {json.dumps(event['params'])[:300]}")
    return page.wrong
