"""Compares the boards that two programs leave: usage: states.py WINDTRACE REFERENCE FOLDER

Each folder below FOLDER is a session: `console.txt`, `ticks.txt`, modules, and, if it isn't played with the defaults, `words`
with further words, one in a line. WINDTRACE tells the board by `--as state`. REFERENCE is another player of the same sessions:
`REFERENCE --dump FILE WORDS..` writes the board that it leaves to FILE. What both tell has to agree. It is no part of the gate.
"""

import concurrent.futures
import json
import pathlib
import subprocess
import sys
import tempfile

NUMBERS = (
    "id", "pri", "normal", "wake", "suspended", "errno", "stack", "stack_size", "entry", "locks", "safe", "int_locked",
)
REGISTERS = ("gpr", "pc", "lr", "ctr", "cr", "xer")


def shown(text):
    """A text of the reference, a character for each byte, as the trace shows it."""
    plain = (c if " " <= c <= "~" and c != "\\" else f"\\x{ord(c):02x}" for c in text)
    return "".join(plain)


def task(record):
    """What both tell of a task."""
    told = {key: record[key] for key in NUMBERS}
    return told | {key: record["regs"][key] for key in REGISTERS}


def traced(state):
    """What a trace tells of the board."""
    return {
        "time": state["time"],
        "steps": state["steps"],
        "ticks": state["tick"],
        "last": state["last"],
        "left": state["console"]["left"],
        "phase": state["shell"]["phase"],
        "level": (state["level"]["pc"], state["level"]["errno"]),
        "tasks": [task(it) | {"name": it["name"]} for it in state["tasks"]],
        "waits": [it["wait"] is not None for it in state["tasks"]],
        "semaphores": {it["id"]: it["count"] for it in state["semaphores"]},
        "mutexes": {it["id"]: (it["owner"], it["depth"]) for it in state["mutexes"]},
        "queues": {it["id"]: it["held"] for it in state["queues"]},
        "watchdogs": {it["id"]: it["due"] for it in state["watchdogs"]},
        "blocks": [[it["address"], it["size"]] for it in state["blocks"]],
        "symbols": [(it["name"], it["value"], it["global"]) for it in state["symbols"]],
        "modules": [it["id"] for it in state["modules"]],
        "slots": {it["slot"]: it["pending"] for it in state["slots"]},
    }


def referred(dump):
    """What the reference tells of it."""
    by_id = lambda key: {int(number): record for number, record in dump[key].items()}
    counters, interrupt = dump["counters"], dump["interrupt"]
    tasks = sorted(dump["tasks"], key=lambda it: it["id"])
    regs = interrupt["regs"]
    return {
        "time": dump["now"],
        "steps": dump["steps"],
        "ticks": dump["ticks"],
        "last": counters["last_ran"] or None,
        "left": dump["console"]["left"],
        "phase": dump["shell"]["phase"].lower(),
        "level": (regs["pc"] if regs else None, interrupt["errno"]),
        "tasks": [task(it) | {"name": shown(it["name"])} for it in tasks],
        "waits": [it["wait"] is not None for it in tasks],
        "semaphores": {number: it["count"] for number, it in by_id("semaphores").items()},
        "mutexes": {number: (it["owner"], it["depth"]) for number, it in by_id("mutexes").items()},
        "queues": {number: len(it["msgs"]) for number, it in by_id("queues").items()},
        "watchdogs": {number: it["due"] for number, it in by_id("watchdogs").items()},
        "blocks": sorted([block[0], block[1]] for block in dump["blocks"]),
        "symbols": [(shown(it["name"]), it["value"], it["global"]) for it in dump["symbols"]],
        "modules": sorted(by_id("modules")),
        "slots": {at: dump["irq"][at]["pending"] for at, slot in enumerate(dump["slots"]) if slot},
    }


def differences(programs, session):
    """What the two programs tell differently of a session's board."""
    windtrace, reference = programs
    file = session / "words"
    words = file.read_bytes().split() if file.exists() else []
    with tempfile.NamedTemporaryFile() as dump:
        quiet = {"cwd": session, "stdout": subprocess.DEVNULL, "stderr": subprocess.DEVNULL, "check": False}
        subprocess.run([reference, "--dump", dump.name, *words], **quiet)
        wanted = dump.read()
    told = subprocess.run([windtrace, "--as", "state", *words], cwd=session, capture_output=True, check=False)
    if not wanted or not told.stdout:
        return None if not wanted and not told.stdout else ["one of the two tells no board"]
    left, right = traced(json.loads(told.stdout)), referred(json.loads(wanted))
    return [f"{key}: {left[key]!r} and {right[key]!r}" for key in left if left[key] != right[key]]


def main():
    *programs, folder = (pathlib.Path(it).resolve() for it in sys.argv[1:])
    sessions = sorted(it.parent for it in folder.glob("*/console.txt"))
    played = differ = 0
    with concurrent.futures.ThreadPoolExecutor(2) as pool:
        for session, found in zip(sessions, pool.map(lambda it: differences(programs, it), sessions)):
            played += found is not None
            differ += bool(found)
            for fault in found or []:
                print(f"{session.name}: {fault[:400]}")
    print(f"{len(sessions)} sessions, {played} with a board, {differ} differ")
    return 1 if differ or not played else 0


if __name__ == "__main__":
    sys.exit(main())
