"""The shapes of the men, from men.svg."""

import re
from functools import lru_cache
from pathlib import Path


@lru_cache(maxsize=None)
def men_shapes() -> dict[str, str]:
    """Returns the shapes of the men by the names of their kinds."""
    text = Path(__file__).with_name("men.svg").read_text("utf-8")
    return {shape[1]: shape[0] for shape in re.finditer(r'<g id="(\w+)">.*?</g>\n', text, re.S)}
