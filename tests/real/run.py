#!/usr/bin/env python3
"""Builds well-known C libraries as modules, plays them on the board, and compares every value with the same C under qemu-ppc.

A driver of tests/real/drivers names its library's package of Debian, its sources and its flags in the comment at its top, and shows
values. Each is built at -O1, -O2 and -Os, with and without -g, by the flags of docs/modules.md, and linked with its library by
`ld -r`. The session loads softfp.o and clib.o of examples/clib before it. The reference is built by the stock compiler at -O1, with
glibc and hardware doubles. It prints a row of a table for each library, and lines for what differs. It ends with 1 if a value
differs or a build fails, with 2 if a tool is missing. A library that can't be fetched is skipped, and counted.

usage: tests/real/run.py PROGRAM [--archives DIR] [--jobs N] [LIBRARY..]
"""
import argparse
import concurrent.futures
import pathlib
import re
import shutil
import subprocess
import sys
import tempfile

HERE = pathlib.Path(__file__).resolve().parent
TOP = HERE.parent.parent
CLIB = TOP / "examples" / "clib"
GCC = "powerpc-linux-gnu-gcc"
FLAGS = ("-fno-pic -ffreestanding -msoft-float -mno-sdata -G 0 -fno-stack-protector -fno-asynchronous-unwind-tables "
         "-mlong-double-64").split()
SETTINGS = [["-O1"], ["-O2"], ["-Os"], ["-O1", "-g"], ["-O2", "-g"], ["-Os", "-g"]]
STEPS = "20000000000"


class Failed(Exception):
    """A library can't be built or played."""


def run(words, **options):
    """The standard output of a command that has to succeed."""
    done = subprocess.run([str(w) for w in words], capture_output=True, text=True, errors="replace", check=False, **options)
    if done.returncode != 0:
        raise Failed(f"{' '.join(str(w) for w in words)[:200]}: status {done.returncode}\n{done.stderr[-1000:]}")
    return done.stdout


class Library:
    """A library with its driver, and what the driver says of it."""

    def __init__(self, driver):
        self.driver, self.name = driver, driver.stem
        said = dict(re.findall(r"^ \* (\w+): (.*)$", driver.read_text(), flags=re.M))
        self.package, self.sources = said["package"], said.get("sources", "").split()
        self.without, self.flags = said.get("without", "").split(), said.get("flags", "").split()
        self.joined = said.get("joined") == "yes"

    def unpack(self, archives, work):
        """Unpacks the library's source, fetched by apt-get if there is no archive of it; whether it could be had."""
        def found():
            return sorted(p for p in archives.glob(f"{self.package}_*.orig.tar.*") if p.suffix != ".asc")
        if not found():
            subprocess.run(["apt-get", "source", "-q", "--download-only", "--tar-only", self.package], cwd=archives,
                           capture_output=True, check=False)
        if not found():
            return False
        self.version = found()[0].name.split("_", 1)[1].split(".orig")[0]
        self.root = work / self.name
        self.root.mkdir()
        run(["tar", "-xf", found()[0], "-C", self.root, "--strip-components=1"])
        return True

    def files(self):
        """The library's sources, joined in one if the driver says so, and the driver."""
        without = {p for pattern in self.without for p in self.root.glob(pattern)}
        files = [p for pattern in self.sources for p in sorted(self.root.glob(pattern)) if p not in without]
        if self.sources and not files:
            raise Failed(f"no source matches {self.sources}")
        if self.joined:
            (self.root / "joined.c").write_text("".join(f'#include "{file}"\n' for file in files))
            files = [self.root / "joined.c"]
        return [*files, self.driver]

    def options(self):
        """The compiler's options of the library."""
        return [flag.replace("ROOT", str(self.root)).replace("HERE", str(HERE)) for flag in self.flags]

    def objects(self, compiler, folder):
        """The objects of the library and its driver."""
        folder.mkdir(parents=True)
        made = []
        for number, file in enumerate(self.files()):
            made.append(folder / f"{number}.o")
            run([*compiler, "-w", *self.options(), "-I", HERE, "-c", file, "-o", made[-1]])
        return made

    def reference(self, work):
        """The values under qemu-ppc."""
        made = self.objects([GCC, "-O1"], work / "reference" / self.name)
        program = work / "reference" / f"{self.name}.elf"
        run([GCC, "-static", *made, HERE / "main.c", "-I", HERE, "-lm", "-o", program])
        return values_of(run(["qemu-ppc", program]))

    def module(self, setting, folder, name):
        """Builds the library and its driver as a module."""
        board = ["-DWINDPLAY", "-I", CLIB / "include", "-I", TOP / "include"]
        made = self.objects([GCC, *setting, *FLAGS, *board], folder / "objects")
        run(["powerpc-linux-gnu-ld", "-r", *made, "-o", folder / name])
        shutil.rmtree(folder / "objects")

    def played(self, program, work):
        """The values on the board, for each setting. One session loads a module for each; its task is more urgent than the shell's."""
        folder = work / f"{self.name}-session"
        lines = ["ld < softfp.o", "ld < clib.o"]
        for number, setting in enumerate(SETTINGS):
            self.module(setting, folder, f"m{number}.o")
            lines += [f"ld < m{number}.o", 'taskSpawn "real", 0, 0, 400000, drive']
        for name in ("softfp.o", "clib.o"):
            (folder / name).symlink_to(CLIB / name)
        (folder / "console.txt").write_text("\n".join([*lines, ""]))
        (folder / "ticks.txt").write_text("")
        text = run([program, "--limit", STEPS], cwd=folder)
        if "exception" in text or "ld: " in text:
            raise Failed(text[-3000:])
        return [values_of(part) for part in re.split(r"^-> ld < m\d\.o$", text, flags=re.M)[1:]]


def values_of(text):
    """The values that a driver shows, in order."""
    return re.findall(r"^real (\S+) ([0-9a-f]{8})$", text, flags=re.M)


def tell(library, program, archives, work):
    """Builds and plays a library at each setting: its rows, how many values differ, and how many there are. None: it can't be had."""
    try:
        if not library.unpack(archives, work):
            return None
        wanted = library.reference(work)
        if not wanted:
            raise Failed("the reference shows no value")
        played = library.played(program, work)
    except Failed as fault:
        return [f"{library.name}: {fault}"], 0, 0
    differing, rows = 0, []
    for setting, values in zip(SETTINGS, played):
        if values != wanted:
            differing += max(1, sum(a != b for a, b in zip(values, wanted)) + abs(len(values) - len(wanted)))
            rows.append(f"{library.name} at {' '.join(setting)}: {values} instead of {wanted}")
    count = len(SETTINGS) * len(wanted)
    return [*rows, f"| {library.name} | {library.version} | {len(wanted)} | {count - differing} of {count} |"], differing, count


def read_words():
    """The words of the command."""
    parser = argparse.ArgumentParser(description="plays well-known C libraries on the board")
    parser.add_argument("program", type=pathlib.Path)
    parser.add_argument("--archives", type=pathlib.Path)
    parser.add_argument("--jobs", type=int, default=4)
    parser.add_argument("libraries", nargs="*")
    return parser.parse_intermixed_args()


def main():
    words = read_words()
    missing = [tool for tool in (GCC, "qemu-ppc", "apt-get", str(words.program)) if not shutil.which(tool)]
    if missing:
        print(f"real: not installed: {', '.join(missing)}", file=sys.stderr)
        return 2
    drivers = sorted((HERE / "drivers").glob("*.c"))
    chosen = [Library(d) for d in drivers if not words.libraries or d.stem in words.libraries]
    skipped, failed, differing, count = [], [], 0, 0
    with tempfile.TemporaryDirectory() as folder, concurrent.futures.ThreadPoolExecutor(words.jobs) as pool:
        work = pathlib.Path(folder)
        archives = (words.archives or work).resolve()
        if not (CLIB / "clib.o").is_file():
            run(["sh", CLIB / "build.sh", archives])
        print("| Library | Version | Values | Equal, over the settings |\n|---|---|---|---|")
        found = pool.map(lambda library: tell(library, words.program.resolve(), archives, work), chosen)
        for library, outcome in zip(chosen, found):
            if outcome is None:
                skipped.append(library.name)
                continue
            print("\n".join(outcome[0]), flush=True)
            differing, count = differing + outcome[1], count + outcome[2]
            if not outcome[2]:
                failed.append(library.name)
    print(f"{len(chosen) - len(skipped) - len(failed)} libraries, {count} values, {differing} of them differ; "
          f"{len(failed)} failed: {' '.join(failed) or 'none'}; {len(skipped)} skipped: {' '.join(skipped) or 'none'}")
    return 1 if differing or failed or not count else 0


sys.exit(main())
