"""Runs companions within one process, for tests in other programs.

Standard input has a list of runs in JSON, each a list of a companion's name and its words. Standard
output gets the list of what they wrote.
"""

import json
import sys

from tests import run_here


def main() -> None:
    runs: list[list[str]] = json.load(sys.stdin)
    written = [run_here.companion(*words).output.decode("utf-8") for words in runs]
    json.dump(written, sys.stdout)


if __name__ == "__main__":
    main()
