"""Assembles random instructions with PPCASM and with GNU's assembler, and compares the words: usage: gnu_as.py PPCASM COUNT SEED

It needs GNU binutils for PowerPC. The forms are those of `assembler/words.txt`, which has each mnemonic at both ends of the ranges of
its operands; a random line has operands within them. Forms that the Power ISA calls invalid are left out, and so are lines that GNU's
assembler refuses. It prints a line for each word that differs and one that counts them, and ends with 1 if one differs.
"""

import pathlib
import random
import re
import subprocess
import sys
import tempfile

LISTS = pathlib.Path(__file__).parent / "assembler"
NUMBER = re.compile(r"(?<![\w])(r?)(-?\d+)")
BRANCHES = {"b", "bc"}
# A text has at most 1 MiB.
LINES_A_FILE = 20_000
# Their registers of special purpose have no range.
AS_THEY_STAND = {"mtspr", "mfspr"}


def base(mnemonic):
    """A mnemonic without its endings."""
    plain = mnemonic.rstrip(".")
    if re.fullmatch(r"b(c|clr|cctr)?(l|a|la)?", plain):
        return re.sub(r"(?<=b|c|r)(la|l|a)$", "", plain)
    return plain


def forms():
    """The lines by mnemonic, and the range of each operand of a mnemonic without its endings."""
    lines, ranges = {}, {}
    for row in (LISTS / "words.txt").read_text(encoding="utf-8").splitlines():
        mnemonic, _, operands = row.split(" ", 1)[1].partition(" ")
        lines[mnemonic] = operands
        found = ranges.setdefault(base(mnemonic), [])
        for place, (_, number) in enumerate(NUMBER.findall(operands)):
            if place == len(found):
                found.append([int(number), int(number)])
            found[place] = [min(found[place][0], int(number)), max(found[place][1], int(number))]
    return lines, ranges


def is_valid(mnemonic, operands):
    """Whether the Power ISA allows the registers of an update form or of lmw."""
    registers = [int(number) for register, number in NUMBER.findall(operands) if register]
    if re.fullmatch(r"(l|st)\w*ux?", mnemonic):
        return registers[1] != 0 and (mnemonic.startswith("st") or registers[1] != registers[0])
    return mnemonic != "lmw" or registers[1] < registers[0]


def drawn(draw, mnemonic, operands, ranges):
    """A line of this form with random operands."""
    places = iter(ranges[base(mnemonic)])

    def number(match):
        low, high = next(places)
        if match[1]:
            low, high = 0, 31
        step = 4 if base(mnemonic) in BRANCHES and high > 31 else 1
        return f"{match[1]}{low + step * draw.randint(0, (high - low) // step)}"

    return f"{mnemonic} {NUMBER.sub(number, operands)}".strip()


def by_gnu(folder, lines):
    """The words of the lines that GNU's assembler takes, with these lines."""
    while True:
        (folder / "f.s").write_text("".join(f" {line}\n" for line in lines), encoding="utf-8")
        ran = subprocess.run(["powerpc-linux-gnu-as", "-mregnames", "-m604", "f.s", "-o", "f.elf"], cwd=folder, capture_output=True, text=True, check=False)
        refused = {int(it) - 1 for it in re.findall(r"^f\.s:(\d+): Error", ran.stderr, re.MULTILINE)}
        if not refused:
            break
        lines = [line for place, line in enumerate(lines) if place not in refused]
    subprocess.run(["powerpc-linux-gnu-objcopy", "-O", "binary", "-j", ".text", "f.elf", "words"], cwd=folder, check=True)
    return lines, (folder / "words").read_bytes()


def by_ppcasm(program, folder, lines):
    """The words of the lines, or the message of a refusal."""
    (folder / "f.s").write_text("".join(f" {line}\n" for line in lines), encoding="utf-8")
    ran = subprocess.run([program, "f.s"], cwd=folder, capture_output=True, check=False)
    if ran.returncode:
        return ran.stderr
    (folder / "f.o").write_bytes(ran.stdout)
    subprocess.run(["powerpc-linux-gnu-objcopy", "-O", "binary", "-j", ".text", "f.o", "ours"], cwd=folder, check=True)
    return (folder / "ours").read_bytes()


def compared(program, asked):
    """How many words were compared, and the lines that differ."""
    with tempfile.TemporaryDirectory() as name:
        taken, wanted = by_gnu(pathlib.Path(name), asked)
        seen = by_ppcasm(program, pathlib.Path(name), taken)
    if len(seen) != len(wanted):
        return len(taken), [seen[:200].decode(errors="replace")]
    return len(taken), [line for place, line in enumerate(taken) if seen[4 * place : 4 * place + 4] != wanted[4 * place : 4 * place + 4]]


def main():
    if len(sys.argv) != 4:
        print(__doc__.split("usage: ")[1].split("\n")[0], file=sys.stderr)
        return 2
    program, count, draw = str(pathlib.Path(sys.argv[1]).resolve()), int(sys.argv[2]), random.Random(sys.argv[3])
    lines, ranges = forms()
    asked = []
    while len(asked) < count:
        mnemonic, operands = draw.choice(sorted(lines.items()))
        line = f"{mnemonic} {operands}" if mnemonic in AS_THEY_STAND else drawn(draw, mnemonic, operands, ranges)
        if is_valid(mnemonic, line.partition(" ")[2]):
            asked.append(line)
    parts = [compared(program, asked[at : at + LINES_A_FILE]) for at in range(0, count, LINES_A_FILE)]
    words, differ = sum(part[0] for part in parts), [line for part in parts for line in part[1]]
    print("\n".join([*differ[:20], f"{words} words, {len(differ)} differ"]))
    return 1 if differ or not words else 0


sys.exit(main())
