"""Solves chess problems by the proved program pops: the public module of Python.

    import pops

    problem = pops.Problem.from_fen("6k1/8/6K1/8/8/8/8/R7 w - - 0 1", "#1")
    for event in pops.Engine().solve(problem):
        print(event)

docs/API.md shows its use. What `__all__` names stays as it is within a major version.
"""

from pops.asynchronous import AsyncRun
from pops.diagnostics import explain
from pops.engine import Engine
from pops.run import Ending, Limits, Result, Run
from pops_companions import places
from pops_companions.chess.fen import FenError
from pops_companions.chess.men import Colour, Kind, Man, Square
from pops_companions.chess.stipulation import Condition, Goal, Play, Stipulation
from pops_companions.explain.diagnostics import Diagnostic, Fix, Range
from pops_companions.input.writing import Problem
from pops_companions.many.program import MissingError, RunError
from pops_companions.report.events import (
    CheckedEvent,
    EndEvent,
    Event,
    FaultEvent,
    FirstMoveEvent,
    FirstMoveKind,
    HeadEvent,
    LineEvent,
    Menace,
    MenaceEvent,
    NodeEvent,
    NotPossibleEvent,
    NoTriesEvent,
    PhaseEvent,
    Place,
    ProblemEvent,
    RefutationEvent,
    StalemateEvent,
    TotalEvent,
    TriesEvent,
    TriesTotalEvent,
)
from pops_companions.report.items import (
    Board,
    Fault,
    FaultyItem,
    HeadlessItem,
    HelpLine,
    Node,
    Phase,
    PhaseKind,
    SoundItem,
    Total,
)
from pops_companions.report.moves import Castling, Mark, PlayedMove, Rebirth
from pops_companions.report.reader import (
    Allowed,
    ReportReader,
    ReportError,
    read_report,
    read_unfinished_report,
)
from pops_companions.report.tries import (
    FirstMove,
    TriesItem,
    TriesReader,
    read_tries,
    read_unfinished_tries,
)

__version__ = places.number()

__all__ = [
    "Allowed",
    "AsyncRun",
    "Board",
    "Castling",
    "CheckedEvent",
    "Colour",
    "Condition",
    "Diagnostic",
    "EndEvent",
    "Ending",
    "Engine",
    "Event",
    "Fault",
    "FaultEvent",
    "FaultyItem",
    "FenError",
    "FirstMove",
    "FirstMoveEvent",
    "FirstMoveKind",
    "Fix",
    "Goal",
    "HeadEvent",
    "HeadlessItem",
    "HelpLine",
    "Kind",
    "Limits",
    "LineEvent",
    "Man",
    "Mark",
    "Menace",
    "MenaceEvent",
    "MissingError",
    "NoTriesEvent",
    "Node",
    "NodeEvent",
    "NotPossibleEvent",
    "Phase",
    "PhaseEvent",
    "PhaseKind",
    "ReportReader",
    "Place",
    "Play",
    "PlayedMove",
    "Problem",
    "ProblemEvent",
    "Range",
    "Rebirth",
    "RefutationEvent",
    "ReportError",
    "Result",
    "Run",
    "RunError",
    "SoundItem",
    "Square",
    "StalemateEvent",
    "Stipulation",
    "Total",
    "TotalEvent",
    "TriesEvent",
    "TriesItem",
    "TriesReader",
    "TriesTotalEvent",
    "explain",
    "read_report",
    "read_tries",
    "read_unfinished_report",
    "read_unfinished_tries",
]
