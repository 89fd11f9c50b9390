"""What explanations say, and the words and characters that they know: `explanations.json`.

The page reads the same file: a sentence changed there changes in both.
"""

from typing import Any

from pops_companions.stored import stored

DATA: dict[str, Any] = stored("explain/explanations.json")
_SENTENCES: dict[str, str] = DATA["sentences"]


def sentence(which: str, /, **values: object) -> str:
    """Returns a sentence, with these values in its places."""
    return _SENTENCES[which].format(**values)
