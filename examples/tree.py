"""Solves FILE and shows its solutions as they come; the return key stops it."""

import sys
import threading

import pops


def stop_at_return(run: pops.Run) -> None:
    if sys.stdin.readline():
        run.cancel()


with open(sys.argv[1], "rb") as file, pops.Engine().solve(file.read()) as run:
    threading.Thread(target=stop_at_return, args=(run,), daemon=True).start()
    for event in run:
        if isinstance(event, pops.HeadEvent):
            print(f"problem {event.problem}: {event.stipulation.text}")
        elif isinstance(event, pops.NodeEvent):
            print("  " * event.level + event.text)
        elif isinstance(event, pops.LineEvent):
            print(event.line.text)
        elif isinstance(event, pops.FaultEvent):
            print(f"problem {event.problem}: line {event.fault.line}: {event.fault.text}")
        elif isinstance(event, pops.TotalEvent):
            print(f"{event.phase.value}: {event.total.count} solutions")
        elif isinstance(event, pops.EndEvent) and event.unfinished:
            print(f"unfinished: {event.unfinished}")
