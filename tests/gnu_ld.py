"""Links random C modules with WINDLINK and with GNU's linker at the same addresses, and compares the images: usage: gnu_ld.py WINDLINK COUNT SEED

It needs powerpc-linux-gnu-gcc and GNU binutils for PowerPC. Each case has one to five modules of C, which refer to earlier ones, to
their own data and to calls of the kernel. It prints a line for each case that differs and one that counts them, and ends with 1 if one
differs.
"""

import pathlib
import random
import re
import subprocess
import sys
import tempfile

TOP = pathlib.Path(__file__).resolve().parent.parent
FLAGS = ["-ffreestanding", "-fno-pic", "-fno-pie", "-msoft-float", "-mno-sdata", "-G", "0", "-fno-stack-protector", "-fno-common",
         "-fno-asynchronous-unwind-tables", "-fno-builtin"]
POOL = 0x15E20
GATES_START = 0x1000000
GATE_BYTES = 16
ROW = re.compile(r"^\| (\d+) \| `(\w+)\(", re.MULTILINE)
SWITCH = "switch(r&7){case 0:r+=3;break;case 1:r^=5;break;case 2:r*=7;break;case 3:r-=9;break;case 4:r=~r;break;default:r<<=1;}"


def tool(name, *words):
    """Runs a tool of the cross compiler, and returns its output."""
    return subprocess.run([f"powerpc-linux-gnu-{name}", *words], capture_output=True, text=True, check=True).stdout


def gates():
    """The address of each kernel call by its name, by the table of docs/calls.md."""
    rows = ROW.findall((TOP / "docs" / "calls.md").read_text(encoding="utf-8"))
    return {name: GATES_START + GATE_BYTES * int(number) for number, name in rows}


def source(draw, number, functions, words):
    """A module's C text, with the functions and the words that it defines."""
    lines = [f"extern int {f}(int);" for f in functions] + [f"extern int {w};" for w in words]
    lines.append("extern int printf(const char*,...); extern int taskDelay(int); extern int semTake(int,int);")
    lines.append(f"static int s{number}[{draw.randint(1, 9)}]={{{draw.randint(1, 99)}}}; int u{number}[{draw.randint(1, 2000)}];")
    lines.append(f'const char*t{number}="text {number}";')
    own = []
    for place in range(draw.randint(1, 4)):
        callees = [f"r+={f}(r);" for f in functions + own] + [f"r^={w};" for w in words]
        forms = ['printf("%d\\n",r);', SWITCH, f"r+=u{number}[r&0];semTake(r,taskDelay(1));", f"s{number}[0]=r;", *callees]
        body = "".join(draw.choice(forms) for _ in range(draw.randint(0, 5)))
        own.append(f"f{number}_{place}")
        lines.append(f"int {own[-1]}(int x){{int r=x+s{number}[0];{body}return r;}}")
    word = f"v{number}"
    lines.append(f"int {word}={draw.randint(1, 10**6)}; int (*p{number})(int)={draw.choice(own)};")
    return "\n".join(lines) + "\n", own, [word]


def sections(module):
    """The loaded sections of a module by segment: name, size, alignment."""
    segments = {"text": [], "data": [], "bss": []}
    for line in tool("readelf", "-S", "-W", module).splitlines():
        words = line.partition("]")[2].split()
        if len(words) < 9 or "A" not in words[6]:
            continue
        segment = "bss" if words[1] == "NOBITS" else "data" if "W" in words[6] else "text"
        segments[segment].append((words[0], int(words[4], 16), int(words[-1])))
    return segments


def placed(draw, module, number, at):
    """The addresses of a module's segments from an address on, their lines of the linker's script, and the end."""
    addresses, script = [], []
    for segment, found in sections(module).items():
        size = 0
        for _, length, align in found:
            size = -(-size // align) * align + length
        if not size:
            addresses.append(0)
            continue
        align = max(16, *(align for _, _, align in found))
        at = -(-at // align) * align
        addresses.append(at)
        names = " ".join(f"{module}({name})" for name, _, _ in found)
        script.append(f" .{segment}{number} 0x{at:x} : {{ {names} }}")
        at += -(-size // 16) * 16 + 16 * draw.randint(0, 3)
    return addresses, script, at


def wanted(folder, count, script, symbols):
    """The image of GNU's linker."""
    text = "SECTIONS {\n" + "\n".join(script) + "\n /DISCARD/ : { *(.comment) *(.gnu.attributes) *(.note*) }\n}\n"
    (folder / "script").write_text(text, encoding="utf-8")
    modules = [f"m{number}.o" for number in range(count)]
    defined = [f"--defsym={name}={address}" for name, address in symbols.items()]
    subprocess.run(["powerpc-linux-gnu-ld", "-T", "script", "-e", "0", *defined, *modules, "-o", "out"], cwd=folder, check=True,
                   capture_output=True)
    filled = [word for number in range(count) for word in ("--set-section-flags", f".bss{number}=alloc,load,contents")]
    subprocess.run(["powerpc-linux-gnu-objcopy", "-O", "binary", "--gap-fill", "0", *filled, "out", "image"], cwd=folder, check=True)
    return (folder / "image").read_bytes()


def same(windlink, draw, symbols):
    """Whether both link the same image of a random list."""
    with tempfile.TemporaryDirectory() as name:
        folder = pathlib.Path(name)
        at, rows, script, functions, words = POOL + 16 * draw.randint(0, 5000), [], [], [], []
        count = draw.randint(1, 5)
        for number in range(count):
            text, own, defined = source(draw, number, functions, words)
            (folder / f"m{number}.c").write_text(text, encoding="utf-8")
            subprocess.run(["powerpc-linux-gnu-gcc", f"-O{draw.randint(0, 3)}", *FLAGS, "-c", f"m{number}.c", "-o", f"m{number}.o"], cwd=folder,
                           check=True, capture_output=True)
            addresses, lines, at = placed(draw, str(folder / f"m{number}.o"), number, at)
            rows.append(f"m{number}.o 0 " + " ".join(f"{address:08x}" for address in addresses))
            script += [line.replace(f"{folder}/", "") for line in lines]
            functions, words = functions + own, words + defined
        (folder / "list").write_text("\n".join(rows) + "\n", encoding="utf-8")
        linked = subprocess.run([windlink, "list", "."], cwd=folder, capture_output=True, check=False)
        return linked.returncode == 0 and linked.stdout == wanted(folder, count, script, symbols)


def main():
    if len(sys.argv) != 4:
        print(__doc__.split("usage: ")[1].split("\n")[0], file=sys.stderr)
        return 2
    windlink, count, seed = str(pathlib.Path(sys.argv[1]).resolve()), int(sys.argv[2]), int(sys.argv[3])
    symbols = gates()
    differ = 0
    for number in range(count):
        if not same(windlink, random.Random(f"{seed} {number}"), symbols):
            print(f"case {number} of seed {seed} differs")
            differ += 1
    print(f"{count} lists, {differ} differ")
    return 1 if differ or not symbols else 0


sys.exit(main())
