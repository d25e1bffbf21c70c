"""Random programs that store into their own code, against a model of one step: usage: own_code.py WINDTRACE [COUNT [SEED]]

A session of WINDTRACE plays a program of 192 words that crosses the edge of a page. `Model` here plays the same words one
by one, by the Power ISA, and stops before a word that isn't in its table. The board that WINDTRACE leaves after as many
instructions has to have the same registers and the same bytes below 0x10000, in one burst and in bursts of at most 1 and
of at most 2 to 97 instructions: interrupts of an empty slot cut them, and drop reservations. It prints a line for each
program that differs and one that counts them, and ends with 1 if one differs.
"""

import argparse
import concurrent.futures
import hashlib
import json
import pathlib
import random
import re
import subprocess
import sys
import tempfile

CODE = 0x3000 - 4 * 128
WORDS = 192
MOST = 1000
EVENTS = 3_000
LOW, HIGH = 0x1000, 0x10000
MASK = 0xFFFF_FFFF
CTR = 9 << 16
BO = (4, 12, 16, 18, 20)
# Each round begins with `bl` to the next word, `lmw r28, 64(r9)` and `addi r10, r9, 32`.
FIRST = [0x4800_0005, 0xBB89_0040, 0x3949_0020]
# `lwarx r3, 0, r9` and `stwcx. r6, 0, r9`
RESERVED_STORE = [0x7C60_4828, 0x7CC0_492D]
REGISTERS = ("gpr", "pc", "lr", "ctr", "cr", "xer")
FIRST_STEP = re.compile(rb"^ *(\d+) +(\d+)  2 .*runs", re.M)


class Stop(Exception):
    """The next instruction is none that the model plays."""


def fields(word):
    """The register fields of a word."""
    return word >> 21 & 31, word >> 16 & 31, word >> 11 & 31


def signed(value, bits):
    return value - (1 << bits) if value >> (bits - 1) else value


class Model:
    """A processor that plays one instruction at a time, with the bytes below 0x10000."""

    def __init__(self, registers, memory, time, cuts):
        self.gpr = list(registers["gpr"])
        self.pc, self.lr, self.ctr = registers["pc"], registers["lr"], registers["ctr"]
        self.cr, self.xer = registers["cr"], registers["xer"]
        self.memory = bytearray(memory)
        self.reserved = None
        self.time = time
        self.cuts = cuts

    def read(self, at, size):
        if not LOW <= at <= HIGH - size:
            raise Stop
        return int.from_bytes(self.memory[at : at + size], "big")

    def write(self, at, size, value):
        if not LOW <= at <= HIGH - size:
            raise Stop
        self.memory[at : at + size] = (value & (1 << 8 * size) - 1).to_bytes(size, "big")

    def set_cr(self, field, left, right):
        """A field of CR after a comparison, with SO."""
        value = (8 if left < right else 4 if left > right else 2) | self.xer >> 31
        shift = 28 - 4 * field
        self.cr = self.cr & ~(15 << shift) | value << shift

    def put(self, register, value, record=False):
        self.gpr[register] = value & MASK
        if record:
            self.set_cr(0, signed(value & MASK, 32), 0)

    def taken(self, bo, bi):
        """Whether a conditional branch is taken. It counts CTR down, unless BO says not to."""
        if bo not in BO:
            raise Stop
        if not bo & 4:
            self.ctr = self.ctr - 1 & MASK
        counted = bo & 4 or (self.ctr != 0) != bool(bo & 2)
        return counted and (bo & 16 or (self.cr >> (31 - bi) & 1) == (bo >> 3 & 1))

    def step(self):
        """Plays the next instruction, or raises Stop and changes nothing that counts."""
        if self.cuts and self.time % self.cuts == 0:
            self.reserved = None
        if self.pc % 4:
            raise Stop
        word = self.read(self.pc, 4)
        kind = PLAYS.get(word >> 26)
        if kind is None:
            raise Stop
        following = kind(self, word)
        self.pc = self.pc + 4 & MASK if following is None else following
        self.time += 1


def compares_immediate(is_signed):
    def play(m, word):
        t, a, _ = fields(word)
        if t & 3:
            raise Stop
        if is_signed:
            m.set_cr(t >> 2, signed(m.gpr[a], 32), signed(word & 0xFFFF, 16))
        else:
            m.set_cr(t >> 2, m.gpr[a], word & 0xFFFF)

    return play


def adds(m, word):
    t, a, _ = fields(word)
    m.put(t, (m.gpr[a] if a else 0) + signed(word & 0xFFFF, 16))


def adds_carrying(m, word):
    t, a, _ = fields(word)
    total = m.gpr[a] + (signed(word & 0xFFFF, 16) & MASK)
    m.xer = m.xer & ~(1 << 29) | (total >> 32) << 29
    m.put(t, total, record=True)


def ors(m, word):
    s, a, _ = fields(word)
    m.put(a, m.gpr[s] | word & 0xFFFF)


def ands(m, word):
    s, a, _ = fields(word)
    m.put(a, m.gpr[s] & word & 0xFFFF, record=True)


def rotates(m, word):
    s, a, shift = fields(word)
    first, last = word >> 6 & 31, word >> 1 & 31
    turned = (m.gpr[s] << shift | m.gpr[s] >> (32 - shift)) & MASK
    from_first, to_last = MASK >> first, MASK << (31 - last) & MASK
    mask = from_first & to_last if first <= last else from_first | to_last
    m.put(a, turned & mask, record=word & 1)


def address(m, word, updates):
    t, a, _ = fields(word)
    if updates and a == 0:
        raise Stop
    return t, a, (m.gpr[a] if a else 0) + signed(word & 0xFFFF, 16) & MASK


def loads(size, updates=False):
    def play(m, word):
        t, a, at = address(m, word, updates)
        if updates and a == t:
            raise Stop
        m.gpr[t] = m.read(at, size)
        if updates:
            m.gpr[a] = at

    return play


def stores(size, updates=False):
    def play(m, word):
        s, a, at = address(m, word, updates)
        m.write(at, size, m.gpr[s])
        if updates:
            m.gpr[a] = at

    return play


def stores_many(m, word):
    s, _, at = address(m, word, False)
    if at % 4 or not LOW <= at <= HIGH - 4 * (32 - s):
        raise Stop
    for k in range(s, 32):
        m.write(at + 4 * (k - s), 4, m.gpr[k])


def loads_many(m, word):
    t, a, at = address(m, word, False)
    if at % 4 or a >= t or not LOW <= at <= HIGH - 4 * (32 - t):
        raise Stop
    for k in range(t, 32):
        m.gpr[k] = m.read(at + 4 * (k - t), 4)


def branches(m, word):
    if word & 2:
        raise Stop
    here = m.pc
    if word & 1:
        m.lr = here + 4 & MASK
    return here + signed(word & 0x03FF_FFFC, 26) & MASK


def branches_if(m, word):
    bo, bi, _ = fields(word)
    if word & 2:
        raise Stop
    here = m.pc
    goes = m.taken(bo, bi)
    if word & 1:
        m.lr = here + 4 & MASK
    return here + signed(word & 0xFFFC, 16) & MASK if goes else None


def branches_to_link(m, word):
    bo, bi, hint = fields(word)
    if hint or word >> 1 & 0x3FF != 16 or word & 1:
        raise Stop
    link = m.lr
    return link & ~3 if m.taken(bo, bi) else None


def plays_extended(m, word):
    t, a, b = fields(word)
    code, record = word >> 1 & 0x3FF, word & 1
    if code == 266:
        m.put(t, m.gpr[a] + m.gpr[b], record)
    elif code == 40:
        m.put(t, m.gpr[b] - m.gpr[a], record)
    elif code == 235:
        m.put(t, m.gpr[a] * m.gpr[b], record)
    elif code == 0 and not record and not t & 3:
        m.set_cr(t >> 2, signed(m.gpr[a], 32), signed(m.gpr[b], 32))
    elif code == 467 and not record and word & 0x1F_F800 == CTR:
        m.ctr = m.gpr[t]
    elif code == 151 and not record:
        m.write((m.gpr[a] if a else 0) + m.gpr[b] & MASK, 4, m.gpr[t])
    elif code in (20, 150):
        reserves(m, word, code)
    else:
        raise Stop


def reserves(m, word, code):
    """lwarx and stwcx.: the reservation is of one address."""
    t, a, b = fields(word)
    at = (m.gpr[a] if a else 0) + m.gpr[b] & MASK
    if at % 4 or (word & 1) != (code == 150):
        raise Stop
    if code == 20:
        m.gpr[t] = m.read(at, 4)
        m.reserved = at
        return
    m.read(at, 4)
    stored = m.reserved == at
    if stored:
        m.write(at, 4, m.gpr[t])
    m.reserved = None
    m.cr = m.cr & 0x0FFF_FFFF | ((2 if stored else 0) | m.xer >> 31) << 28


PLAYS = {
    10: compares_immediate(False),
    11: compares_immediate(True),
    13: adds_carrying,
    14: adds,
    16: branches_if,
    18: branches,
    19: branches_to_link,
    21: rotates,
    24: ors,
    28: ands,
    31: plays_extended,
    32: loads(4),
    33: loads(4, updates=True),
    34: loads(1),
    36: stores(4),
    37: stores(4, updates=True),
    38: stores(1),
    40: loads(2),
    44: stores(2),
    46: loads_many,
    47: stores_many,
}


def by_opcode(opcode, first, second, rest):
    return opcode << 26 | first << 21 | second << 16 | rest & 0xFFFF


def extended(first, second, third, code, record=0):
    return by_opcode(31, first, second, third << 11 | code << 1 | record)


def with_immediate(rng):
    """A random word whose low half may be any small number: it stores into the code, or works on numbers.

    r3 to r5 hold such words, r6 to r8 words of any kind, r9 and r10 addresses in the code, r11 to r16 numbers.
    """
    word, number, left = rng.randrange(3, 6), rng.randrange(11, 17), rng.randrange(3, 17)
    base = rng.choice((9, 10))
    place = 4 * rng.randrange(WORDS - 16)
    even = place & ~7
    return rng.choice((
        lambda: by_opcode(14, number, left, place),
        lambda: by_opcode(rng.choice((24, 28)), left, number, place),
        lambda: by_opcode(13, number, left, place),
        lambda: by_opcode(rng.choice((10, 11)), rng.randrange(8) << 2, left, place),
        lambda: by_opcode(32, word, base, even),
        lambda: by_opcode(rng.choice((34, 40)), number, base, place + rng.randrange(4)),
        lambda: by_opcode(36, word, base, place),
        lambda: by_opcode(36, word, base, place),
        lambda: by_opcode(38, word, base, even + 3),
        lambda: by_opcode(44, word, base, even + 2),
    ))()


def of_any_kind(rng):
    """A random word of any kind: most of them store into the code or branch."""
    word, number, left, right = rng.randrange(6, 9), *(rng.randrange(11, 17) for _ in range(3))
    base = rng.choice((9, 10))
    place = 4 * rng.randrange(WORDS - 16)
    off = place | 4
    away = 4 * rng.choice((2, 2, 2, 3, 3, 5, 8))
    return rng.choice((
        lambda: by_opcode(21, left, number, rng.randrange(1 << 16)),
        lambda: extended(number, left, right, rng.choice((266, 40, 235)), rng.randrange(2)),
        lambda: extended(rng.randrange(8) << 2, left, right, 0),
        lambda: extended(left, 0, 0, 467) | CTR,
        lambda: by_opcode(16, rng.choice(BO), rng.randrange(32), away),
        lambda: 18 << 26 | away | (rng.randrange(4) == 0),
        lambda: by_opcode(19, 12, rng.randrange(32), 16 << 1),
        lambda: by_opcode(32, word, base, off),
        lambda: by_opcode(33, word, 10, 8),
        lambda: by_opcode(36, word, base, off),
        lambda: by_opcode(36, word, base, off - rng.choice((0, 0, 0, 0, 0, 2))),
        lambda: by_opcode(37, word, 10, 8),
        lambda: by_opcode(46, 28, base, place),
        lambda: by_opcode(47, rng.randrange(28, 32), base, place),
        lambda: extended(word, 0, 10, 151),
        lambda: extended(word, 0, base, 20),
        lambda: extended(word, 0, base, 150, 1),
    ))()


def instruction(rng, place):
    return with_immediate(rng) if place % 2 == 0 else of_any_kind(rng)


def console(rng):
    """The lines that write a program and start a task with its first word."""
    words = [instruction(rng, k) for k in range(WORDS)]
    at = rng.randrange(3, WORDS - 16)
    words[at : at + 2] = RESERVED_STORE
    words[: len(FIRST)] = FIRST
    for k in range(WORDS - 9, WORDS):
        words[k] = 18 << 26 | -4 * k & 0x03FF_FFFC
    stored = [f"*0x{CODE + 4 * k:x} = 0x{word:x}" for k, word in enumerate(words)]
    lines = ["; ".join(stored[k : k + 8]) for k in range(0, WORDS, 8)]
    values = [*(instruction(rng, k // 3) for k in range(6)), CODE, CODE]
    return "\n".join([*lines, f"sp 0x{CODE:x}, " + ", ".join(f"0x{value:x}" for value in values), ""])


def board(windtrace, folder, cuts, limit):
    """The board that is left after so many steps, where interrupts of an empty slot cut them."""
    return json.loads(play(windtrace, folder, cuts, "--as", "state", "--limit", str(limit)))


def play(windtrace, folder, cuts, *words):
    ticks = folder / f"ticks-{cuts}.txt"
    ticks.write_text(f"irqs {cuts} {EVENTS} 15\n" if cuts else "")
    words = [windtrace, "--console", "console.txt", "--ticks", ticks.name, *words]
    return subprocess.run(words, cwd=folder, stdout=subprocess.PIPE, stderr=subprocess.DEVNULL, check=False).stdout


def digests(memory):
    """What a board tells of the bytes below 0x10000."""
    ranges = []
    for unit in (at for at in range(0, HIGH, 256) if any(memory[at : at + 256])):
        if ranges and ranges[-1][1] == unit:
            ranges[-1][1] += 256
        else:
            ranges.append([unit, unit + 256])
    return [(start, end - start, hashlib.sha256(memory[start:end]).hexdigest()) for start, end in ranges]


def written(lines):
    """The bytes below 0x10000 that the lines of a console write."""
    memory = bytearray(HIGH)
    for at, word in re.findall(r"\*0x(\w+) = 0x(\w+)", lines):
        memory[int(at, 16) : int(at, 16) + 4] = int(word, 16).to_bytes(4, "big")
    return memory


def model_after(model):
    """Plays at most MOST instructions. Returns how many."""
    for made in range(MOST):
        try:
            model.step()
        except Stop:
            return made
    return MOST


def registers_of_task(state):
    return next(task["regs"] for task in state["tasks"] if task["id"] == 2)


def differences(state, model):
    """The parts of a board that aren't the model's."""
    told = {key: registers_of_task(state)[key] for key in REGISTERS} | {"time": state["time"]}
    wanted = {key: getattr(model, key) for key in told}
    told["memory"] = [
        (item["address"], item["size"], item["sha256"]) for item in state["ram"] if item["address"] < HIGH
    ]
    wanted["memory"] = digests(model.memory)
    return [key for key, value in wanted.items() if told[key] != value]


def compare(windtrace, seed):
    """A line for each way in which a program differs, and how many instructions were compared."""
    rng = random.Random(seed)
    lines = console(rng)
    with tempfile.TemporaryDirectory() as name:
        folder = pathlib.Path(name)
        (folder / "console.txt").write_text(lines)
        found = FIRST_STEP.search(play(windtrace, folder, 0, "--limit", str(MOST)))
        time, steps = int(found[1]), int(found[2]) - 1
        registers = registers_of_task(board(windtrace, folder, 0, steps))
        wrong, count = [], 0
        for cuts in (0, 1, 2, rng.randrange(3, 98)):
            model = Model(registers, written(lines), time, cuts)
            made = model_after(model)
            events = (model.time - 1) // cuts if cuts else 0
            names = differences(board(windtrace, folder, cuts, steps + made + events), model)
            count += made
            if names:
                wrong.append(f"program {seed}, an interrupt every {cuts} steps: other {', '.join(names)}")
        return wrong, count


def main():
    parser = argparse.ArgumentParser()
    parser.add_argument("windtrace", type=pathlib.Path)
    parser.add_argument("count", type=int, nargs="?", default=100)
    parser.add_argument("seed", type=int, nargs="?", default=1)
    words = parser.parse_args()
    windtrace = str(words.windtrace.resolve())
    with concurrent.futures.ThreadPoolExecutor() as pool:
        outcomes = list(pool.map(lambda seed: compare(windtrace, seed), range(words.seed, words.seed + words.count)))
    wrong = [line for lines, _ in outcomes for line in lines]
    for line in wrong:
        print(line)
    made = sum(count for _, count in outcomes)
    print(f"own code: {words.count} programs, {made} instructions, {len(wrong)} differences")
    sys.exit(1 if wrong else 0)


if __name__ == "__main__":
    main()
