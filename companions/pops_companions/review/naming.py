"""How problems are named in what is written of them."""

from typing import Optional

from pops_companions.input.given import GivenProblem
from pops_companions.report.items import AnyItem, SoundItem
from pops_companions.show import titles
from pops_companions.show.titles import printable


def shown(text: Optional[bytes], encoding: str) -> str:
    """Returns a title or an author, where there is one, without what no text may hold."""
    return printable(titles.shown(text or b"", encoding))


def described(item: Optional[AnyItem], encoding: str, given: Optional[GivenProblem] = None) -> str:
    """Returns stipulation, title and author, as `joined_name` does; empty where none are known.

    `given` has them for a problem whose report lacks them.
    """
    if isinstance(item, SoundItem):
        return joined_name(item.asked, shown(item.title, encoding), shown(item.author, encoding))
    if given is None:
        return ""
    asked = "" if given.stipulation is None else given.stipulation.text
    return joined_name(asked, shown(given.title, encoding), shown(given.author, encoding))


def joined_name(asked: str, title: str, author: str) -> str:
    """Returns a problem's name: `#5, Excelsior (Sam Loyd)`, without a title `#5 (Sam Loyd)`."""
    name = f"{asked}, {title}" if asked and title else asked or title
    if not author:
        return name
    return f"{name} ({author})" if name else f"({author})"


def counted(number: int, word: str) -> str:
    """Returns a number with its word: `1 key`, `2 keys`."""
    return f"{number} {word}" if number == 1 else f"{number} {word}s"
