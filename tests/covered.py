"""Coverage of random sessions, against a model of each call: usage: covered.py WINDTRACE [COUNT [SEED]]

A random session loads modules of short functions, unloads and reloads them, and runs the functions as calls of the shell, as tasks
and as interrupt routines of a watchdog. A function branches by its argument, counts down in loops, and may end in an exception. A
model plays each run of a function alone, since the functions share nothing, and notes the words that it executes. A task that first
runs after its module was unloaded covers nothing. WINDTRACE has to write the same coverage. It prints a line for each session that
differs and one that counts them, and ends with 1 if one differs or no word was covered.
"""

import argparse
import concurrent.futures
import pathlib
import random
import re
import struct
import subprocess
import sys
import tempfile

# How many instructions a run of a function may take.
MOST = 120
ARGUMENTS = range(8)
BLR, TRAP, SYSTEM_CALL, ILLEGAL = 0x4E80_0020, 0x7FE0_0008, 0x4400_0002, 0
# `lis r6, 0x2000` and `lwz r5, 0(r6)`: a load where nothing lies
FAULT = [0x3CC0_2000, 0x80A6_0000]
ENDS = [[BLR]] * 6 + [[TRAP], [SYSTEM_CALL], [ILLEGAL], FAULT]
# The branches if a bit of CR0 is set or clear: less, greater, equal.
BRANCHES = [0x4000_0000 | option << 21 | bit << 16 for option in (12, 4) for bit in range(3)]
LINE = re.compile(rb'module (\d+) "([^"]*)" text 0x([0-9a-f]+): .*')
# Tasks have ended after so many ticks.
DELAY = "taskDelay 40"


def low_half(word):
    """The signed immediate of a word."""
    return ((word & 0xFFFF) ^ 0x8000) - 0x8000


def run(code, place, argument):
    """The places of the words that a function executes; None if it takes too long."""
    three, four, order, executed = argument, 0, 0, set()
    for _ in range(MOST):
        word = code[place]
        if word == ILLEGAL:
            return executed
        executed.add(place)
        place += 1
        opcode = word >> 26
        if word in (BLR, TRAP, SYSTEM_CALL, FAULT[1]):
            return executed
        if word >> 16 == 0x3880:
            four = low_half(word)
        elif word >> 16 == 0x3863:
            three += low_half(word)
        elif word >> 16 == 0x3884:
            four += low_half(word)
        elif opcode == 11:
            value = three if word >> 16 & 31 == 3 else four
            order = 0 if value < low_half(word) else 1 if value > low_half(word) else 2
        elif opcode == 16:
            if (order == word >> 16 & 3) == (word >> 21 & 31 == 12):
                place += low_half(word & ~3) // 4 - 1
        elif opcode == 18:
            place += (((word & 0x03FF_FFFC) ^ 0x0200_0000) - 0x0200_0000) // 4 - 1
    return None


def body(dice):
    """The words of a function: a compare, straight ones, branches forwards, and at times a loop that counts r4 down."""
    count = dice.randrange(3, 14)
    words = [0x2C03_0000 | dice.randrange(8)]
    for place in range(1, count):
        kind = dice.random()
        ahead = 4 * dice.randrange(1, count - place + 1)
        if kind < 0.3:
            words.append(0x38A0_0000 | dice.randrange(100))
        elif kind < 0.5:
            words.append(0x3863_0000 | dice.randrange(-2, 3) & 0xFFFF)
        elif kind < 0.75:
            words.append(0x2C03_0000 | dice.randrange(8))
        elif kind < 0.95:
            words.append(dice.choice(BRANCHES) | ahead)
        else:
            words.append(0x4800_0000 | ahead)
    if dice.random() < 0.4:
        back = -4 * (dice.randrange(count) + 2) & 0xFFFC
        words = [0x3880_0000 | dice.randrange(1, 5), *words, 0x3884_FFFF, 0x2C04_0000, 0x4082_0000 | back]
    return [*words, *dice.choice(ENDS)]


def function(dice):
    """The words of a function whose runs all end."""
    while True:
        words = body(dice)
        if all(run(words, 0, argument) is not None for argument in ARGUMENTS):
            return words


def section(name, kind, flags, offset, size, link=0, info=0, align=4, entry=0):
    return struct.pack(">10I", name, kind, flags, 0, offset, size, link, info, align, entry)


def object_file(code, symbols):
    """A relocatable module for PowerPC: one section of code, and the places of its global symbols."""
    text = struct.pack(f">{len(code)}I", *code)
    strings, table = b"\0", bytes(16)
    for name, place in symbols.items():
        table += struct.pack(">IIIBBH", len(strings), 4 * place, 0, 0x12, 0, 1)
        strings += name.encode() + b"\0"
    names = b"\0.text\0.symtab\0.strtab\0.shstrtab\0"
    at = [52]
    for part in (text, table, strings, names):
        at.append(at[-1] + len(part))
    headers = section(0, 0, 0, 0, 0, align=0) + section(1, 1, 6, at[0], len(text))
    headers += section(7, 2, 0, at[1], len(table), link=3, info=1, entry=16)
    headers += section(15, 3, 0, at[2], len(strings), align=1) + section(23, 3, 0, at[3], len(names), align=1)
    file = b"\x7fELF\x01\x02\x01" + bytes(9)
    file += struct.pack(">HHIIIIIHHHHHH", 1, 20, 1, 0, 0, at[4], 0, 52, 0, 0, 40, 5, 4)
    return file + text + table + strings + names + headers


class Source:
    """A module of some functions."""

    def __init__(self, dice, number):
        self.name = f"m{number}.o"
        self.code, self.symbols = [], {}
        for at in range(dice.randrange(1, 4)):
            self.symbols[f"f{number}_{at}"] = len(self.code)
            self.code += function(dice)


class Loaded:
    """A module that was loaded, and the places of its words that were executed."""

    def __init__(self, source):
        self.source = source
        self.executed = set()

    def text(self, identity, start):
        """Its lines in the coverage, with this id and address."""
        size = len(self.source.code)
        yield f'module {identity} "{self.source.name}" text {start:#x}: {len(self.executed)} of {size} words'
        begun = None
        for place in range(size + 1):
            if place in self.executed and begun is None:
                begun = place
            if place not in self.executed and begun is not None:
                yield f"  {start + 4 * begun:#x}..{start + 4 * place:#x}"
                begun = None


class Session:
    """A console, a tick file and modules at random, and what they cover."""

    def __init__(self, seed):
        self.dice = random.Random(seed)
        self.sources = [Source(self.dice, number) for number in range(self.dice.randrange(1, 4))]
        self.live, self.gone = [], []
        self.lines = ["w = wdCreate()"]
        for _ in range(self.dice.randrange(5, 16)):
            self.lines += self.some_lines()
        self.console = "\n".join([*self.lines, DELAY, ""])
        self.ticks = f"every {self.dice.choice((20, 33, 50, 97, 150))} 2000\n"

    def some_lines(self):
        """The next lines of the console. Before a module goes, the tasks of earlier lines end."""
        kind = self.dice.random()
        if not self.live or kind < 0.2:
            return self.load(self.dice.choice(self.sources))
        module = self.dice.choice(self.live)
        # a name denotes its newest symbol, and a file name the newest module
        module = next(it for it in reversed(self.live) if it.source is module.source)
        if kind < 0.32:
            return [DELAY, self.unload(module)]
        symbol, argument = self.dice.choice([*module.source.symbols]), self.dice.choice(ARGUMENTS)
        if kind < 0.4:
            # the task first runs when the shell waits
            return [DELAY, f"sp {symbol}, {argument}; {self.unload(module)}", DELAY]
        module.executed |= run(module.source.code, module.source.symbols[symbol], argument)
        if kind < 0.65:
            return [f"{symbol} {argument}"]
        if kind < 0.85:
            return [f"sp {symbol}, {argument}"]
        return [f"wdStart w, 1, {symbol}, {argument}", "taskDelay 3"]

    def load(self, source):
        self.live.append(Loaded(source))
        return [f"ld < {source.name}"]

    def unload(self, module):
        self.live.remove(module)
        self.gone.append(module)
        return f'unld "{module.source.name}"'


def differs(windtrace, seed):
    """Whether a session's coverage differs, and how many words it covers."""
    session = Session(seed)
    with tempfile.TemporaryDirectory() as name:
        folder = pathlib.Path(name)
        (folder / "console.txt").write_text(session.console)
        (folder / "ticks.txt").write_text(session.ticks)
        for source in session.sources:
            (folder / source.name).write_bytes(object_file(source.code, source.symbols))
        done = subprocess.run([windtrace, "--as", "coverage"], cwd=folder, capture_output=True, check=False)
    heads = [LINE.fullmatch(line) for line in done.stdout.splitlines() if line.startswith(b"module")]
    modules = [*session.gone, *session.live]
    wanted = [line for head, module in zip(heads, modules) if head for line in module.text(int(head[1]), int(head[3], 16))]
    same = len(heads) == len(modules) and done.stdout.decode() == "".join(f"{line}\n" for line in wanted)
    return not same, sum(len(module.executed) for module in modules)


def main():
    parser = argparse.ArgumentParser()
    parser.add_argument("windtrace", type=pathlib.Path)
    parser.add_argument("count", type=int, nargs="?", default=100)
    parser.add_argument("seed", type=int, nargs="?", default=1)
    words = parser.parse_args()
    windtrace = str(words.windtrace.resolve())
    seeds = range(words.seed, words.seed + words.count)
    with concurrent.futures.ThreadPoolExecutor(2) as pool:
        found = list(pool.map(lambda seed: differs(windtrace, seed), seeds))
    for seed, (is_other, _) in zip(seeds, found):
        if is_other:
            print(f"session {seed}: the coverage is another one")
    differ, covered = sum(is_other for is_other, _ in found), sum(count for _, count in found)
    print(f"{len(found)} sessions, {covered} words covered, {differ} differ")
    return 1 if differ or not covered else 0


if __name__ == "__main__":
    sys.exit(main())
