"""A room with a problem in many parts, and programs in the place of pops and pops-part."""

import re
from pathlib import Path

from pops_companions.many.machines import PROBE
from tests import parts_told, run_here, support
from tests.shown_limit import limit_when_shown, shown
from tests.six_problems import SixProblems
from tests.stand_ins import stand_in

# A helpmate of seven first moves, three of which have most solutions; its set play has nineteen.
PROBLEM = b"""BeginProblem
Pieces White Kg6 Ra1 Black Kh8 Pa7b7c7
Stipulation h#2
Option SetPlay%s
EndProblem
"""

# In the place of pops: on the whole problem it is slow, and writes two solutions and no end. Nothing
# of it writes on when it is ended.
_POPS = """case "$*" in *--check*) exec {pops} "$@" ;; esac
text=$(cat)
case $text in *Pa7*) printf %s '{beginning}'; {shown}; exec sleep 6000 ;; esac
{before}
exec {pops} "$@" <<END
$text
END
"""
_LINES_OF_THE_BEGINNING = 34
# In the place of pops-part: it notes each part that it is asked for, and on some does otherwise.
_POPS_PART = """case $(cat) in *Pa7*) of=problem ;; *) of=probe ;; esac
if [ "$1" = --list ]; then echo $of >> "{room}/lists"; exec cat "{room}/told/$of/list-$3"; fi
[ $of = probe ] || echo "$4-$6" >> "{room}/runs_on_parts"
number=${{6%%.*}}
while [ $number -le ${{6##*.}} ]; do
  part=$4-$number
  [ $of = probe ] || echo "$part" >> "{room}/parts"
  case $of-$part in {pattern}) {then} ;; esac
  cat "{room}/told/$of/$part-$8"
  number=$((number + 1))
done
"""


def without_progress(outcome: support.Outcome) -> support.Outcome:
    """What a run left, without how far it was: that is said where it takes long, as on a busy machine."""
    far = r"(?m)^pops-many: problem .*: (?:about )?\d+ of \d+ first moves.*\n"
    return outcome._replace(error=re.sub(far, "", outcome.error))


class SplitRoom(SixProblems):
    """A room with an input of one problem in many parts."""

    def setUp(self) -> None:
        super().setUp()
        self.rest = Path(f"{self.report}.unfinished")
        self.pose(b"")

    def pose(self, options: bytes) -> None:
        """Poses the problem with more options."""
        text = PROBLEM % options
        self.input.write_bytes(text)
        self.wanted = support.run([support.pops(), str(self.input)]).output
        self.stand_in_for_pops()
        for name, of in (("problem", text.replace(b"EndProblem\n", b"End")), ("probe", PROBE)):
            self.tell(name, of)

    def stand_in_for_pops(self, before: str = ":") -> None:
        """Writes a program in the place of pops that does this before it solves another problem."""
        lines = self.wanted.decode("ascii").splitlines(keepends=True)
        beginning = "".join(lines[:_LINES_OF_THE_BEGINNING])
        words = {"pops": support.pops(), "beginning": beginning, "before": before}
        stand_in(self.room / "stand_in", _POPS.format(**words, shown=shown(self.room)))

    def tell(self, name: str, text: bytes) -> None:
        """Writes files of what pops-part writes for a problem."""
        folder = self.room / "told" / name
        folder.mkdir(parents=True, exist_ok=True)
        for depth in (1, 2):
            told = parts_told.told(text, depth)
            (folder / f"list-{depth}").write_bytes(told.listed)
            for phase, reports in told.parts.items():
                for number, report in enumerate(reports, start=1):
                    (folder / f"{phase}-{number}-{depth}").write_bytes(report)

    def pops_part(self, pattern: str = "none", then: str = ":") -> str:
        """A program of parts that does so on these parts, as `problem-play-2`."""
        does = _POPS_PART.format(room=self.room, pattern=pattern, then=then)
        return stand_in(self.room / "pops_part", does)

    def words_of_split(self, pops_part: str, *more: str) -> list[str]:
        words = ["--split", "--split-after", "1", "--split-depth", "1"]
        words += ["--pops-part", pops_part]
        words += ["--pops", str(self.room / "stand_in"), "-o", str(self.report), str(self.input)]
        return words + list(more)

    def split(self, pops_part: str, *more: str) -> support.Outcome:
        return without_progress(support.companion("pops-many", *self.words_of_split(pops_part, *more)))

    def split_when_shown(self, pops_part: str, *more: str) -> support.Outcome:
        """Runs it in this process; the whole problem is cut once its first lines are written."""
        with limit_when_shown(self.room):
            return without_progress(run_here.companion("pops-many", *self.words_of_split(pops_part, *more)))

    def parts(self) -> list[str]:
        """The parts that were asked for, in that order."""
        path = self.room / "parts"
        return path.read_text().splitlines() if path.exists() else []

    def runs_on_parts(self) -> list[str]:
        """The parts that each run was asked for, as `play-2..4`."""
        return (self.room / "runs_on_parts").read_text().splitlines()

    def lists(self) -> list[str]:
        """The problems of which a list was asked for."""
        return (self.room / "lists").read_text().splitlines()

    def forget(self) -> None:
        """Takes away what a run left."""
        own = [self.room / "parts", self.room / "runs_on_parts"]
        for path in (*own, self.report, self.journal, self.rest):
            if path.exists():
                path.unlink()

    def files(self) -> list[str]:
        own = {"parts", "runs_on_parts", "lists", "pops_part", "pops_part.sh", "told", "failed", "ssh"}
        names = [name for name in super().files() if not name.startswith("shown-")]
        return [name for name in names if name not in own]
