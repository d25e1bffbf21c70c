"""Assembles texts with PPCASM, as it was built, and compares its modules and messages: usage: asm.py PPCASM

The expected words and relocations are worked out by hand from the Power ISA and the PowerPC ABI supplement. In
`assembler/words.txt` stands each mnemonic at both ends of the ranges of its operands, and its endings, after the word that
the GNU assembler makes of it (those with BO 31 and `bcctr 4, 0`, which it refuses, by the fields of the Power ISA). In
`assembler/beyond.txt` stands each mnemonic with each of its operands one beyond each end of its range. The columns and
reasons of refused lines are worked out by hand. It prints a line for each case that differs and one that counts them, and
ends with 1 if one differs.
"""

import concurrent.futures
import pathlib
import re
import struct
import subprocess
import sys
import tempfile

LISTS = pathlib.Path(__file__).parent / "assembler"
MEBIBYTE = 1 << 20
NOT_UNDERSTOOD = "not understood"
NOT_HERE = "an instruction can't stand here"
NO_SUCH = "no such instruction"
TWICE = "the label is defined twice"
TOO_LARGE = "too large"

# The operands of `beyond.txt` that are in their ranges.
ORDINARY = {"r1", "r3", "4", "8"}

NAMES_NONE = "is no instruction of the processor with these operands"
NOT_IN_TEXT = "isn't in .text at a multiple of 4"
EARLIER = "is the label of an earlier line too"
PAST_LIMIT = "passes a limit: 1 MiB a section, 65535 names, labels or relocations"

# Texts that are refused: the line, the cause, the column and the reason.
REFUSED = [
    ("lwzu r3, 0(r0)", 1, NO_SUCH, 1, f"'lwzu' {NAMES_NONE}"),
    ("nop\n li r3, 32768\n lwzu r3, 0(r0)", 2, NOT_UNDERSTOOD, 9, "32768 is above 32767"),
    (".data\nlwzu r3, 0(r0)", 2, NOT_HERE, 1, f"'lwzu' {NOT_IN_TEXT}"),
    (".space 2\nnop", 2, NOT_HERE, 1, f"'nop' {NOT_IN_TEXT}"),
    (".data\nli r3, 32768", 2, NOT_UNDERSTOOD, 8, "32768 is above 32767"),
    ("f:\n.data\nf: nop", 3, NOT_HERE, 4, f"'nop' {NOT_IN_TEXT}"),
    ("f:\nf: lwzu r3, 0(r0)", 2, NO_SUCH, 4, f"'lwzu' {NAMES_NONE}"),
    ("f:\n\nf:", 3, TWICE, 1, f"'f' {EARLIER}"),
    ("f:\n" + ".space 65536\n" * 16 + "f: .space 1", 18, TWICE, 1, f"'f' {EARLIER}"),
    ("f:\n" + ".space 65536\n" * 16 + "g: .space 1", 18, TOO_LARGE, 4, f"'.space' {PAST_LIMIT}"),
]

# Lines that aren't understood: the column and the reason.
UNCLEAR = [
    ("ori r3, r4, 70000", 13, "70000 is above 65535"),
    ("  li r3, -40000 # a comment", 10, "-40000 is below -32768"),
    ("li r3, - 40000", 8, "- 40000 is below -32768"),
    ("add r3, r32, r4", 9, "'r32' is no register"),
    ("add r3, abcdefghijklmnopqrstuvwxyz, r4", 9, "'abcdefghijklmnopqrstuvwx..' is no register"),
    ("add r3, \u00e9, r4", 9, "'?' is no register"),
    ("add r3, r4", 11, "the line ends too early"),
    ("add r3, r4,  # a comment", 12, "the line ends too early"),
    ("lwz r3, 4(r1", 13, "')' is expected"),
    ("lwz r3, 4 r1)", 11, "'(' is expected"),
    ("f: li r3 4", 10, "',' is expected"),
    ("li r3, four", 12, "@l, @h or @ha is expected"),
    ("li r3, r4", 8, "'r4' is no number"),
    ("li r3, 4294967296", 8, "'4294967296' is no number of 32 bits"),
    ("b 6", 3, "6 is no multiple of 4"),
    ("b f+g", 5, "'g' is no number"),
    ("nop 4", 5, "'4' stands after the last operand"),
    ("foo r3, r4", 1, "'foo' is no instruction"),
    ("f: g: nop", 4, "'g' is no instruction"),
    (".word 4", 1, "'.word' is no directive"),
    (".globl 4", 8, "'4' is no name"),
    (".long 1, r(", 11, "',' is expected"),
    (".long 1, (", 10, "'(' is no number or name"),
    (".ascii 4", 8, "'4' is no string"),
    ('.ascii "\\q"', 9, "'\\q' is no escape"),
    ('.ascii "4', 8, "the string has no closing quote"),
    (".space 65537", 8, "65537 is above 65536"),
    (".align 3", 8, "'3' is no alignment: 1, 2, 4, 8 or 16"),
]


def beyond_reason(operand):
    """Why an operand that is one beyond an end of its range is refused."""
    if operand == "r32":
        return "'r32' is no register"
    number = int(operand)
    if number == 2:
        return "2 is no multiple of 4"
    if number > 0:
        return f"{number} is above {number - 1}"
    step = 1 if number % 4 else 4
    return f"{number} is below {number + step}"


def beyond_refusal(line):
    """The case of a line of `beyond.txt`: one of its operands is out of its range."""
    operands = list(re.finditer(r"(?<=[ (])-?\w+", line))
    strange = [it for it in operands if it[0] not in ORDINARY] or [it for it in operands if it[0] == "8"]
    return (line, 1, NOT_UNDERSTOOD, strange[0].start() + 1, beyond_reason(strange[0][0]))


class Module:
    """What a relocatable ELF file for the PowerPC has."""

    def __init__(self, file):
        self.file = file
        start, size, number = struct.unpack_from(">I10xHH", file, 32)
        self.headers = [struct.unpack_from(">10I", file, start + size * i) for i in range(number)]

    def contents(self, kind):
        """The bytes of each section of a kind."""
        return [self.file[h[4] : h[4] + h[5]] for h in self.headers if h[1] == kind]

    def text(self):
        """The first section with bytes."""
        return (self.contents(1) + [b""])[0]

    def relocations(self):
        """Offset, type and symbol of each."""
        found = [it for table in self.contents(4) for it in struct.iter_unpack(">IIi", table)]
        return [(offset, info & 0xFF, info >> 8) for offset, info, _ in found]

    def symbols(self):
        """Name, binding, type, value and section of each but the null symbol."""
        found = []
        for table in (h for h in self.headers if h[1] == 2):
            names = self.headers[table[6]]
            for at in range(table[4] + 16, table[4] + table[5], 16):
                name, value, _, info, _, section = struct.unpack_from(">IIIBBH", self.file, at)
                start = names[4] + name
                end = self.file.index(0, start)
                found.append((self.file[start:end].decode(), info >> 4, info & 15, value, section))
        return found


class Cases:
    """Calls of the assembler, and how many of them differ."""

    def __init__(self, program):
        self.program = program
        self.made = 0
        self.differ = 0

    def call(self, words, files, out=subprocess.PIPE):
        """Status, output and messages of a call in a folder with these files."""
        with tempfile.TemporaryDirectory() as room:
            for name, content in files.items():
                pathlib.Path(room, name).write_bytes(content)
            ran = subprocess.run([self.program, *words], cwd=room, stdout=out, stderr=subprocess.PIPE, check=False)
        return ran.returncode, ran.stdout, ran.stderr.decode()

    def assemble(self, text):
        """Status, output and messages for a text."""
        return self.call(["a.s"], {"a.s": text.encode()})

    def same(self, what, seen, wanted):
        """Counts a case."""
        self.made += 1
        if seen != wanted:
            self.differ += 1
            print(f"{what}: {seen!r}, expected {wanted!r}")


def modules(cases):
    """What is made of some texts."""
    made = Module(cases.assemble(".globl f\nf: li r3, 7\n blr\n")[1])
    cases.same("a function", made.text().hex(), "386000074e800020")
    cases.same("its symbol", made.symbols(), [("f", 1, 2, 0, 1)])
    made = Module(cases.assemble("bl printf\nlis r4, s@ha")[1])
    cases.same("a call and a half", made.text().hex(), "480000013c800000")
    cases.same("their relocations", made.relocations(), [(0, 10, 1), (6, 6, 2)])
    lines = [line.split(" ", 1) for line in (LISTS / "words.txt").read_text().splitlines()]
    for word, line in lines:
        cases.same(line, Module(cases.assemble(line)[1]).text().hex(), word)
    whole = Module(cases.assemble("f:\n" + ".space 65536\n" * 16)[1])
    cases.same("a section of 1 MiB", len(whole.text()), MEBIBYTE)


def refusals(cases):
    """Texts that are refused, each at its first bad line."""
    unclear = [(line, 1, NOT_UNDERSTOOD, column, reason) for line, column, reason in UNCLEAR]
    beyond = [beyond_refusal(line) for line in (LISTS / "beyond.txt").read_text().splitlines()]
    refused = REFUSED + unclear + beyond
    with concurrent.futures.ThreadPoolExecutor() as pool:
        ends = pool.map(lambda it: cases.assemble(it[0]), refused)
        for (text, line, cause, column, reason), end in zip(refused, ends):
            message = f"ppcasm: a.s: line {line}: {cause}, column {column}: {reason}\n"
            cases.same(text[-40:], end, (7, b"", message))


def ends_of_calls(cases):
    """How calls end that assemble nothing."""
    usage = "usage: ppcasm FILE\n       ppcasm --list FILE\n"
    files = {"bad.s": b"nop\nf:\nlwzu r3, 0(r0)\n", "f.s": b"nop\n"}
    for words in ([], ["--list"], ["f.s", "--list"]):
        cases.same(f"words {words}", cases.call(words, files), (1, b"", usage))
    cases.same("no file", cases.call(["none.s"], files), (2, b"", "ppcasm: none.s: not found\n"))
    short = cases.call(["--list", "bad.s"], files)
    cases.same("no module", short, (10, b"", "ppcasm: bad.s: short file at 22\n"))
    with open("/dev/full", "wb") as full:
        lost = cases.call(["f.s"], files, full)
    cases.same("a full device", lost, (5, None, "ppcasm: writing failed\n"))
    lines = {"long.s": b"\n" * (MEBIBYTE + 1)}
    cases.same("a long file", cases.call(["long.s"], lines), (8, b"", "ppcasm: long.s: too long\n"))
    lines = {"long.s": b"\n" * MEBIBYTE}
    status, out, said = cases.call(["long.s"], lines)
    cases.same("a file of 1 MiB", (status, out[:4], said), (0, b"\x7fELF", ""))


def main():
    cases = Cases(str(pathlib.Path(sys.argv[1]).resolve()))
    modules(cases)
    refusals(cases)
    ends_of_calls(cases)
    print(f"{cases.made} cases of the assembler, {cases.differ} differ")
    return 1 if cases.differ else 0


if __name__ == "__main__":
    sys.exit(main())
