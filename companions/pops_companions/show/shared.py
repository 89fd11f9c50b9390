"""Writes what the page that solves takes from the companions beside their code: `python3 -m pops_companions.show.shared`.

An object of JSON: `shapes`, the men and the empty board as SVG, and `letters`, the letters of LaTeX.
"""

import json

from pops_companions.sheet.latex_commands import letters_of_page
from pops_companions.show import diagram

if __name__ == "__main__":
    print(json.dumps({"shapes": diagram.shapes(), "letters": letters_of_page()}))
