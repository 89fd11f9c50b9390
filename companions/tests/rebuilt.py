"""Writes a report out of the JSON of pops2json: what is lost on the way there shows here."""

from typing import Any


def report(objects: list[dict[str, Any]]) -> str:
    return "".join(_item(one) for one in objects)


def _item(one: dict[str, Any]) -> str:
    lines = [f"problem {one['number']}"]
    if not one["sound"]:
        fault = one["fault"]
        lines.append(f"line {fault['line']}: fault {fault['number']}: {fault['text']}")
    else:
        lines.extend(_sound(one))
    return "\n".join(lines) + "\n\n"


def _sound(one: dict[str, Any]) -> list[str]:
    lines = [f"{name}: {one[name]}" for name in ("title", "author") if one[name] is not None]
    if one["board"] is not None:
        lines.extend(f"{8 - place} {rank}" for place, rank in enumerate(one["board"]["ranks"]))
        lines.append("  abcdefgh")
    condition = "" if one["condition"] is None else " " + one["condition"]
    lines.append(one["stipulation"]["text"] + condition)
    if one["phases"] is None:
        return lines + ["sound"]
    for phase in one["phases"]:
        lines.append(phase["phase"])
        if not phase["possible"]:
            lines.append("not possible")
            continue
        for solution in phase["solutions"]:
            lines.extend(_help(solution) if "moves" in solution else _battle(solution, 0))
        lines.append(f"solutions: {phase['count']}" + (", stopped" if phase["stopped"] else ""))
    return lines


def _help(line: dict[str, Any]) -> list[str]:
    words = []
    for place, move in enumerate(line["moves"]):
        number = _number(move["half"]) if place == 0 or move["half"] % 2 == 1 else ""
        words.append(number + _move(move))
    return [" ".join(words)]


def _battle(node: dict[str, Any], depth: int) -> list[str]:
    lines = ["  " * depth + _number(node["move"]["half"]) + _move(node["move"])]
    for below in node["below"]:
        lines.extend(_battle(below, depth + 1))
    return lines


def _number(half: int) -> str:
    return f"{(half + 1) // 2}." if half % 2 == 1 else f"{half // 2}..."


def _letter(kind: str) -> str:
    return "S" if kind == "knight" else kind[0].upper()


def _move(move: dict[str, Any]) -> str:
    mark = {None: "", "check": "+", "mate": "#", "stalemate": "="}[move["mark"]]
    if move["castling"] is not None:
        return f"{move['castling']}{mark}"
    text: str = "" if move["man"] == "pawn" else _letter(move["man"])
    text += move["from"] + ("*" if move["capture"] else "-") + move["to"]
    text += " ep." if move["en_passant"] else ""
    text += "=" + _letter(move["promotion"]) if move["promotion"] else ""
    reborn = move["rebirth"]
    if reborn is not None:
        text += f"[+{reborn['colour'][0]}{_letter(reborn['man'])}{reborn['square']}]"
    return text + mark
