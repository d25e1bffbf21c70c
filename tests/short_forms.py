"""Rewrites GNU's short forms by tools/short-forms, and assembles them with PPCASM: usage: short_forms.py PPCASM

In `assembler/short-forms.txt` stands each form after the word that the GNU assembler makes of it with -mregnames, without the
displacement of a branch to the label f, whose field ppcasm leaves to a relocation. It prints a line for each form that
differs and one that counts them, and ends with 1 if one differs.
"""

import pathlib
import subprocess
import sys
import tempfile

TESTS = pathlib.Path(__file__).resolve().parent
TOOL = TESTS.parent / "tools" / "short-forms"

# Directives, comments and several statements on a line.
LINES = [
    (".balign 8", ".align 8"), (".align 2", ".align 4"), (".p2align 3", ".align 8"), (".global f", ".globl f"), (".skip 4", ".space 4"),
    (".int 1, 2", ".long 1, 2"), ('.asciz "a;b#c"', '.ascii "a;b#c\\0"'), ("li r3, 1; beqlr # done; yes", "li r3, 1\n bclr 12, 2 # done; yes"),
    ("f: g: blr", "f: g: blr"), ("subi %r3, %r4, -8", "addi r3, r4, 8"), ("lwz r3, 4(sp)", "lwz r3, 4(r1)"), ("", ""), ("  # only", "# only"),
    ("bogus r3", "bogus r3"), ("bne+ cr1, f", "bc 4, 6, f"),
]


def rewritten(text):
    """What the tool makes of a text."""
    return subprocess.run([TOOL], input=text, capture_output=True, text=True, check=True).stdout


def words_of(ppcasm, text):
    """The instruction words of a text, in hexadecimal."""
    with tempfile.TemporaryDirectory() as folder:
        pathlib.Path(folder, "f.s").write_text(text, encoding="utf-8")
        module = subprocess.run([ppcasm, "f.s"], cwd=folder, capture_output=True, check=False)
        if module.returncode:
            return [module.stderr.decode().strip()]
        pathlib.Path(folder, "f.o").write_bytes(module.stdout)
        listing = subprocess.run([ppcasm, "--list", "f.o"], cwd=folder, capture_output=True, text=True, check=True).stdout
    return [line.split()[1] for line in listing.splitlines()]


def main():
    if len(sys.argv) != 2:
        print(__doc__.split("usage: ")[1].split("\n")[0], file=sys.stderr)
        return 2
    ppcasm = str(pathlib.Path(sys.argv[1]).resolve())
    rows = [line.split(" ", 1) for line in (TESTS / "assembler" / "short-forms.txt").read_text(encoding="utf-8").splitlines()]
    text = rewritten("f: nop\n" + "".join(f"{form}\n" for _, form in rows))
    words = words_of(ppcasm, text)[1:]
    found = [f"{form}: {word}, expected {wanted}" for (wanted, form), word in zip(rows, words) if word != wanted]
    if len(words) != len(rows):
        found.append(f"{len(words)} words of {len(rows)} forms: {words_of(ppcasm, text)[:1]}")
    found += [f"{line}: {seen!r}, expected {wanted!r}" for line, wanted in LINES if (seen := rewritten(line + "\n").rstrip("\n")) != wanted]
    print("\n".join([*found, f"{len(rows) + len(LINES)} short forms, {len(found)} differ"]))
    return 1 if found else 0


sys.exit(main())
