"""Titles and authors: a report repeats their bytes as a problem gave them, in any encoding."""

import re

# Control characters but tab and line end, and characters that stand for none.
_NO_CHARACTER = re.compile("[\x00-\x08\x0b-\x1f\x7f-\x9f\ud800-\udfff\ufdd0-\ufdef\ufffe\uffff]")


def shown(text: bytes, encoding: str) -> str:
    """Returns a title or an author as text; one that isn't in the encoding is read as Latin-1."""
    try:
        return text.decode(encoding)
    except UnicodeError:
        return text.decode("latin-1")


def is_text(text: bytes, encoding: str) -> bool:
    """Returns whether all bytes of a title or an author are text in the encoding."""
    try:
        text.decode(encoding)
    except UnicodeError:
        return False
    return True


def text_of(data: bytes, encoding: str) -> str:
    """Returns a file as text; its lines that aren't in the encoding are read as Latin-1."""
    if is_text(data, encoding):
        return data.decode(encoding)
    return "".join(shown(line, encoding) for line in data.splitlines(keepends=True))


def other_lines(name: str, data: bytes, encoding: str) -> str:
    """Says which lines of a file aren't in the encoding; an empty text if all are."""
    lines = enumerate([] if is_text(data, encoding) else data.splitlines(), 1)
    other = [number for number, line in lines if not is_text(line, encoding)]
    if not other:
        return ""
    more = f" and {len(other) - 1} more" if len(other) > 1 else ""
    how = f"not in {encoding}, read as latin-1; --encoding names another"
    return f"{name}, line {other[0]}{more}: {how}"


def printable(text: str) -> str:
    """Returns a text with U+FFFD for each character that pages and drawings may not hold."""
    # (quicker than to look for each)
    return text if text.isprintable() else _NO_CHARACTER.sub("\ufffd", text)
