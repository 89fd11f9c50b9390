"""Tables and style sheets, in files of the package; web/from_python.py puts them into the page."""

import json
import os
from typing import Any


def stored(path: str) -> Any:
    """Returns the table of a JSON file, by its path in the package."""
    return json.loads(stored_text(path))


def stored_text(path: str) -> str:
    """Returns a file of text, by its path in the package."""
    # (without pathlib, which takes longer to load than a small run)
    with open(os.path.join(os.path.dirname(__file__), path), encoding="utf-8") as file:
        return file.read()
