#!/usr/bin/env python3
"""Shows how the cost of a call grows with what it doesn't touch.

Each row gives host instructions (callgrind, a difference of two sessions, so they are exact) at
doubled sizes, beside the bound for that size. The last line counts the values above their bounds;
the status is 1 if there are any. It proves nothing, and is no part of the gate.

usage: bench/growth.py PROGRAM [GROUP..]     groups: ticks calls blocks symbols modules tasks
                                                     messages lines start mutexes
"""

import hashlib
import re
import shutil
import subprocess
import sys
import tempfile
from pathlib import Path

IDLE = "every 100 4294967295\n"
GREATEST = "100000000"


class Failed(Exception):
    """A session didn't end as it should."""


def played(program, folder, console, ticks="", words=(), files=(), status=0):
    """Plays a session under callgrind. Returns the host instructions of it."""
    (folder / "console.txt").write_text(console)
    (folder / "ticks.txt").write_text(ticks)
    for name, source in files:
        shutil.copy(source, folder / name)
    run = subprocess.run(
        ["valgrind", "--tool=callgrind", "--callgrind-out-file=/dev/null", program, *words],
        cwd=folder, stdin=subprocess.DEVNULL, capture_output=True, check=False)
    collected = re.search(rb"Collected : (\d+)", run.stderr)
    if run.returncode != status or not collected:
        raise Failed(f"status {run.returncode}: {(run.stdout + run.stderr)[-200:]!r}")
    return int(collected[1])


def lines(statements, width=20):
    """Console lines of `width` statements each."""
    rows = (statements[i:i + width] for i in range(0, len(statements), width))
    return "".join("; ".join(row) + "\n" for row in rows)


class Bench:
    """Measures by one program, in one folder."""

    def __init__(self, program, folder):
        self.program = program
        self.folder = folder
        self.above = 0

    def step(self, console, ticks, first, last, words=()):
        """Host instructions of a step, between two limits."""
        costs = [played(self.program, self.folder, console, ticks, ("--limit", str(limit), *words),
                        status=3) for limit in (first, last)]
        return (costs[1] - costs[0]) / (last - first)

    def more(self, console, added, count, ticks="", words=("--limit", GREATEST), files=()):
        """Host instructions of one of `count` things, which further lines do."""
        costs = [played(self.program, self.folder, text, ticks, words, files)
                 for text in (console, console + added)]
        return (costs[1] - costs[0]) / count

    def row(self, name, sizes, bound, measure):
        """Prints a row: the value at each size, and the bound for it."""
        cells = []
        for n in sizes:
            try:
                value = measure(n)
            except Failed as failure:
                cells.append(f"{n}: {failure}")
                self.above += 1
                continue
            most = bound(n) if callable(bound) else bound
            if value > most:
                self.above += 1
            mark = " ABOVE" if value > most else ""
            cells.append(f"{n:,}: {value:,.0f} (at most {most:,.0f}){mark}")
        print(f"{name}\n    " + "\n    ".join(cells), flush=True)


TASKS = (31, 62, 125, 250)


def sleepers(n):
    return lines(["sp taskDelay, 0x7fffffff"] * n, 1)


def ticks(bench):
    def idle(console, words=(), last=40000):
        return bench.step(console, IDLE, 20000, last, words)

    watchdogs = (32, 64, 128, 250)
    bench.row("idle step, watchdogs made", watchdogs, 230,
              lambda n: idle(lines(["wdCreate"] * n)))
    start = "wdStart(wdCreate(), 0x7fffffff, 0x1000, 0)"
    bench.row("idle step, watchdogs that run", TASKS, 230,
              lambda n: idle(lines([start] * n, 5)))
    bench.row("idle step, tasks that sleep", TASKS, 230, lambda n: idle(sleepers(n)))
    bench.row("the same, profile 2", TASKS, 260,
              lambda n: idle(sleepers(n), ("--profile", "2"), 22000))
    # li r4, -1; the gate of semTake
    held = ("*0x1000 = 0x3880ffff; *0x1004 = 0x49000173\n"
            "m = semMCreate(13); semTake(m, -1); b = semBCreate(0, 0)\nsp 0x1000, b\n")
    bench.row("the same, a mutex is owned and a task waits for something else", TASKS, 260,
              lambda n: idle(held + sleepers(n), ("--profile", "2"), 22000))
    bench.row("idle step, lines `every` of the tick file", (100, 200, 400, 800), 400,
              lambda n: bench.step("", "".join(f"every {100 * n + i} 4294967295\n"
                                               for i in range(n)), 20000, 40000))
    # li r3, 1; the gate of taskDelay; a branch back
    loop = "*0x1000 = 0x38600001; *0x1004 = 0x490000a3; *0x1008 = 0x4bfffff8\n"
    for words, bound in ((), 600), (("--profile", "2"), 720):
        name = "a step, all tasks in a loop of taskDelay(1)"
        rounds = 4 if words else 20
        bench.row(name + (", profile 2" if words else ""), TASKS, bound,
                  lambda n: bench.step(loop + lines(["sp 0x1000"] * n, 1),
                                       "every 100000 4294967295\n", 60000,
                                       60000 + rounds * n * 3, words))


def calls(bench):
    # the gate of tickGet; a branch back
    loop = "*0x1000 = 0x49000133; *0x1004 = 0x4bfffffc\n"
    for words, bound, last in ((), 340, 40000), (("--profile", "2"), 440, 22000):
        bench.row("a task's kernel call, tasks that sleep" + (", profile 2" if words else ""),
                  TASKS, bound,
                  lambda n: bench.step(loop + sleepers(n) + "sp 0x1000\n", "", 20000, last, words))


def blocks(bench):
    sizes = (1000, 2000, 4000, 8000)

    def address(i):
        return f"free {0x15e20 + 16 * i:#x}"

    def made(n):
        return lines(["malloc 1"] * n)

    def holed(n):
        return made(n) + lines([address(i) for i in range(0, n, 2)])

    bench.row("malloc of 1 byte, no holes", sizes, 9900, lambda n: bench.more(made(n), made(n), n))
    bench.row("free, from the first block up", sizes, 9900,
              lambda n: bench.more(made(n), lines([address(i) for i in range(n)]), n))
    bench.row("free, from the last block down", sizes, 9900,
              lambda n: bench.more(made(n), lines([address(i) for i in reversed(range(n))]), n))
    # a sixth of the blocks are moved, five host instructions each
    bench.row("free of every second block", sizes, lambda n: 9500 + 1.3 * n,
              lambda n: bench.more(made(n), holed(n)[len(made(n)):], n // 2))
    # first fit passes every hole, as a half of the blocks
    bench.row("malloc past a hole for every second block", sizes, lambda n: 10400 + 8.2 * n,
              lambda n: bench.more(holed(n), lines(["malloc 32"] * 200), 200))


def assembled(folder, name, text):
    """Assembles an object file of a module."""
    path = folder / name
    subprocess.run(["powerpc-linux-gnu-as", "-o", path, "-"], input=text.encode(), check=True)
    return path


def symbols(bench):
    sizes = (8000, 16000, 32000, 60000)
    with tempfile.TemporaryDirectory() as kept:
        folder = Path(kept)
        one = assembled(folder, "one.o", ".globl one\n.text\none: blr\n")
        tables = {n: assembled(folder, f"t{n}.o", "".join(
            f".globl t{i}\n.set t{i}, {i}\n" for i in range(n))) for n in sizes}

        # the second load makes the chains as many as the symbols of the rows below want
        def beside(n, added, count, before="ld < t.o\nld < one.o\n"):
            files = (("t.o", tables[n]), ("one.o", one))
            return bench.more(before, added, count, files=files)

        bench.row("load, a symbol of it", sizes, 1600,
                  lambda n: beside(n, "ld < t.o\n", n, before=""))
        bench.row("ld of a module of one symbol, symbols", sizes, 32000,
                  lambda n: beside(n, "ld < one.o\n" * 20, 20))
        bench.row("ld and unld of it, symbols", sizes, 72000,
                  lambda n: beside(n, "id = ld < one.o\nunld id\n" * 20, 20))
        bench.row("a new variable, symbols", sizes, 8500,
                  lambda n: beside(n, lines([f"v{i} = {i}" for i in range(200)]), 200))


def modules(bench):
    sizes = (30, 60, 120, 240)
    with tempfile.TemporaryDirectory() as kept:
        one = assembled(Path(kept), "one.o", ".globl one\n.text\none: blr\n")

        def beside(n, added):
            return bench.more("ld < one.o\n" * n, added, 8, files=(("one.o", one),))

        bench.row("ld of a module of one symbol, modules", sizes, 34000,
                  lambda n: beside(n, "ld < one.o\n" * 8))
        bench.row("unld by id, modules", sizes, 40000,
                  lambda n: beside(n, "".join(f"unld {2 + i}\n" for i in range(8))))
        bench.row("unld by name, modules", sizes, 40000,
                  lambda n: beside(n, 'unld "one.o"\n' * 8))


def tasks(bench):
    bench.row("a task's start and end, tasks that sleep", (31, 62, 124, 248), 40000,
              lambda n: bench.more(sleepers(n), lines(["sp tickGet", "taskDelay 1"], 1) * 20, 20,
                                   ticks="every 1000 1000\n"))


def messages(bench):
    sizes = (500, 1000, 2000, 4000)

    def filled(n):
        sent = lines(["msgQSend q, 0x1000, 4, 0, 0"] * (n - 100))
        return f"q = msgQCreate({n}, 4, 0)\n" + sent

    pair = lines(["msgQSend q, 0x1000, 4, 0, 0", "msgQReceive q, 0x2000, 4, 0"], 2)
    bench.row("a message sent and one received, messages", sizes, 48000,
              lambda n: bench.more(filled(n), pair * 100, 100))
    bench.row("msgQCreate, a message of it", sizes, 450,
              lambda n: bench.more("", f"q = msgQCreate({n}, 4, 0)\n", n))


def console(bench):
    bench.row("a line, lines before it", (500, 1000, 2000, 4000), 9000,
              lambda n: bench.more("1+2\n" * n, "1+2\n" * n, n))
    bench.row("an operator of a line, operators", (10, 20, 40, 80), 3000,
              lambda n: bench.more("", ("1" + "+1" * n + "\n") * 100, 100 * n))
    bench.row("a line with a string, lines before it", (500, 1000, 2000, 4000), 9000,
              lambda n: bench.more('"abc"\n' * n, '"abc"\n' * n, n))


def start(bench):
    def whole(text, events=""):
        return played(bench.program, bench.folder, text, events, ("--limit", "1"), status=3)

    def one(text="", events=""):
        return whole("1\n" * 2 + text, "tick 1\n" + events)

    bench.row("start, a line of the tick file", (1000, 2000, 4000, 8000), 620,
              lambda n: (one(events="".join(f"tick {1000 + i}\n" for i in range(n))) - one()) / n)
    bench.row("start, a byte of the console", (1000, 4000, 16000, 64000), 2,
              lambda n: (one("1+2\n" * (n // 4)) - one()) / n)


def mutexes(bench):
    take = ("*0x1000 = 0x7c9f2378; *0x1004 = 0x3880ffff; *0x1008 = 0x49000173; "
            "*0x100c = 0x7fe3fb78; *0x1010 = 0x3880ffff; *0x1014 = 0x49000173\nsemBCreate 0, 0\n")

    def chain(n):
        return take + "".join(
            f"semMCreate 13; sp 0x1000, {2 * i + 3}, {2 * i + 1 if i else 2}; taskDelay 1\n"
            for i in range(n))

    def raised(n, profile):
        added = "".join(f"taskPrioritySet 0, {100 - i}; semTake {2 * n + 1}, 1\n"
                        for i in range(1, 11))
        return bench.more(chain(n), added, 10, ticks="every 100 100000\n",
                          words=("--profile", profile, "--limit", GREATEST))

    bench.row("a chain of owners raised, owners", TASKS, lambda n: 60000 + 5500 * n,
              lambda n: raised(n, "1"))
    bench.row("the same, profile 2", (31, 62, 125), lambda n: 60000 + 3000 * n * n,
              lambda n: raised(n, "2"))


GROUPS = {"ticks": ticks, "calls": calls, "blocks": blocks, "symbols": symbols,
          "modules": modules, "tasks": tasks, "messages": messages, "lines": console,
          "start": start, "mutexes": mutexes}


def main(words):
    chosen = words[1:] or list(GROUPS)
    if not words or not set(chosen) <= set(GROUPS):
        print(__doc__.split("\n\n")[-1], file=sys.stderr)
        return 2
    if not shutil.which("valgrind"):
        print("growth (valgrind)                    not installed")
        return 0
    program = str(Path(words[0]).resolve())
    digest = hashlib.sha256(Path(program).read_bytes()).hexdigest()
    print(f"{program}, SHA-256 {digest}")
    with tempfile.TemporaryDirectory() as folder:
        bench = Bench(program, Path(folder))
        for group in chosen:
            if group in ("symbols", "modules") and not shutil.which("powerpc-linux-gnu-as"):
                print(f"{group} (powerpc-linux-gnu-as)     not installed")
                continue
            GROUPS[group](bench)
    print(f"above their bounds: {bench.above}")
    return 1 if bench.above else 0


if __name__ == "__main__":
    sys.exit(main(sys.argv[1:]))
