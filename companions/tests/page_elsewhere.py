"""What `companions/try-browser` does with the page in Firefox and WebKit: texts solved whole, by parts and with tries, whose
reports are the program's; a long search stopped."""

import json
from pathlib import Path

from tests import support
from tests.browser_pipe import BrowserError
from tests.other_browsers import KINDS, OtherBrowser

EXAMPLES = support.REPOSITORY / "examples"
TRIES = support.REPOSITORY / "tests" / "tries"
# Texts with their reports, and whether tries are shown: solved whole, by parts, with tries.
SOLVED = (
    (EXAMPLES / "morphy_1856.pop", EXAMPLES / "morphy_1856.report", False),
    (EXAMPLES / "help_mate_in_three.pop", EXAMPLES / "help_mate_in_three.report", False),
    (TRIES / "morphy_1856.pop", TRIES / "morphy_1856.tries", True),
)
# It would take years.
LONG = "BeginProblem\nPieces White Kd1 Ra1 Bc1 Pa2 Black Ke8 Qb8 Pa7\nStipulation h#8\nEndProblem\n"


def _element(identity: str) -> str:
    return f"document.getElementById('{identity}')"


READY = f"{_element('solve')} && !{_element('solve')}.disabled"


def _begin(browser: OtherBrowser, text: str, with_tries: bool) -> None:
    """Writes a text on the page, and begins to solve it."""
    browser.run(
        f"const text = {_element('text')}, tries = {_element('tries')};"
        f" text.value = {json.dumps(text)}; text.dispatchEvent(new Event('input'));"
        f" if (tries.checked !== {json.dumps(with_tries)}) tries.click();"
        f" {_element('solve')}.click();"
    )


def _wrong(browser: OtherBrowser, address: str) -> list[str]:
    wrong: list[str] = []
    browser.open(address)
    browser.wait(READY)
    for text, report, with_tries in SOLVED:
        _begin(browser, text.read_text("utf-8"), with_tries)
        browser.wait(f"{READY} && {_element('report')}.textContent")
        said = browser.run(f"return {_element('report')}.textContent")
        if said != report.read_text("utf-8"):
            wrong.append(f"{text.name}: another report: {said[:200]!r}")
    _begin(browser, LONG, with_tries=False)
    browser.wait(f"/: [1-9][0-9]* s/.test({_element('state')}.textContent)")
    browser.run(f"{_element('stop')}.click()")
    state = browser.run(f"return {_element('state')}.textContent")
    if "stopped after" not in state:
        wrong.append(f"it doesn't stop: {state}")
    return wrong


def look(page: Path) -> dict[str, list[str]]:
    """Uses the page in each browser that is installed. Returns what is wrong, by browser."""
    found: dict[str, list[str]] = {}
    for name, kind, program, package in KINDS:
        if program is None:
            print(f"the page not tried in {name}, which isn't installed ({package})")
            continue
        try:
            browser = kind(program)
            try:
                found[name] = _wrong(browser, page.resolve().as_uri())
                print(f"{name}: the page was given {len(SOLVED)} texts and a long search", flush=True)
            finally:
                browser.close()
        except (BrowserError, OSError) as fault:
            found[name] = [str(fault)]
    return found
