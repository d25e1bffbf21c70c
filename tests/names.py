#!/usr/bin/env python3
"""Checks that what README.md, the other pages beside it and those of docs, examples and tests name exists.

It reads the links of each page and the words in backticks outside blocks of code:

- a link leads to a file of the repository, and to a heading of it if it has a `#`;
- `crate::module::item` is declared in crates/CRATE/src/MODULE.rt, with the type between if there is one;
- `ensures NAME` is a clause of the function that was named last before it;
- a path that begins with a folder of the repository or a crate is a file or folder (`out/`, which builds make, aside), and
  a name such as `order.rt` is one;
- any other name, as `KeepsIds`, `run_board` or `semTake`, is a word of the sources, comments aside, or of an example or a C header.

README.md and docs/crates.md name each crate of crates.txt. README.md links to each page of docs, and examples/README.md to each
example. It prints what is missing, and a line that counts. It ends with 1 if something is missing, and with 2 if it finds no page.

usage: tests/names.py
"""
import pathlib
import re
import sys

TOP = pathlib.Path(__file__).resolve().parent.parent
ITEM = r"\b(fn|struct|enum|trait|type|const|static|mod)\s+"
NAME = re.compile(r"[A-Za-z][A-Za-z0-9]*(_[A-Za-z0-9]+)+|[a-z]+[A-Z]\w*|[A-Z][a-z0-9]+([A-Z]\w*)+")
PATH = re.compile(r"[\w.*-]+(/[\w.*-]*)+")


def read(path):
    return path.read_text(encoding="utf-8", errors="replace")


def code_of(path):
    """The text of a source without its comments."""
    mark = "//" if path.suffix == ".rt" else "--"
    return re.sub(rf"(^|\s){mark}.*", "", read(path), flags=re.M)


CRATES = re.findall(r"^(\w+)[^:#\n]*:", read(TOP / "crates.txt"), flags=re.M)
SOURCES = {p: code_of(p) for c in CRATES for p in (TOP / "crates" / c).rglob("*") if p.suffix in (".rt", ".antt") and "out" not in p.parts}
EXAMPLES = [read(p) for folder in ("examples", "include") for p in (TOP / folder).rglob("*") if p.suffix in (".c", ".h", ".txt", ".sh", ".s")]
WORDS = {w for text in [*SOURCES.values(), *EXAMPLES] for w in re.findall(r"\w+", text)}
FOLDERS = {p.name for p in TOP.iterdir() if p.is_dir()}


def is_declared(path, name):
    """Whether a source declares an item of a name, or implements a type of it."""
    word = re.escape(name) + r"\b"
    return path in SOURCES and re.search(rf"{ITEM}{word}|\bimpl\b[^{{;]*\b{word}", SOURCES[path])


def item_missing(parts):
    """Why `crate::module::item` or `Type::item` is not there, or None."""
    if parts[0] in CRATES:
        path = TOP / "crates" / parts[0] / "src" / f"{parts[1]}.rt"
        return next((f"{part} isn't in {path.relative_to(TOP)}" for part in parts[2:] if not is_declared(path, part)),
                    None if path in SOURCES else f"no {path.relative_to(TOP)}")
    texts = [text for path, text in SOURCES.items() if path.suffix == ".rt"]
    found = any(all(re.search(rf"\b{re.escape(p)}\b", text) for p in parts) for text in texts)
    return None if found else "no such item"


def path_missing(word):
    """Why a path is not there, or None."""
    first = word.split("/")[0]
    if first not in FOLDERS and first not in CRATES or "/out/" in word:
        return None
    base = TOP / "crates" if first in CRATES else TOP
    found = any(any(base.glob(pattern)) for pattern in (word.rstrip("/"), word + ".antt"))
    return None if found else "no such file"


def clause_missing(function, name):
    """Why a function has no clause of a name, or None."""
    parts = function.split("::")
    text = SOURCES.get(TOP / "crates" / parts[0] / "src" / f"{parts[1]}.rt", "") if len(parts) > 2 else ""
    signature = re.search(rf"\bfn {parts[-1]}\b(.*?)\n\s*\{{\}}?\s*\n", text, flags=re.S)
    return None if signature and f"ensures {name} {{" in signature.group(1) else f"{function} has no such clause"


def missing(word, function):
    """Why a word in backticks is not there, or None, after this function was named."""
    if word.startswith("ensures "):
        return clause_missing(function, word.split()[1])
    if re.fullmatch(r"\w+(::\w+)+", word):
        return item_missing(word.split("::"))
    if PATH.fullmatch(word):
        return path_missing(word)
    if re.fullmatch(r"\w+\.(rt|antt|sh|py)", word):
        return None if any(TOP.rglob(word)) else "no such file"
    if NAME.fullmatch(word) and word not in CRATES and word not in WORDS:
        return "no such name in the sources"
    return None


def is_name(word):
    """Whether a word in backticks names something that is looked for."""
    return bool(word.startswith("ensures ") or "::" in word or PATH.fullmatch(word) or NAME.fullmatch(word) or word in CRATES)


def anchors(path):
    """The anchors of a page's headings."""
    titles = re.findall(r"^#+ (.*)$", read(path), flags=re.M)
    return {re.sub(r"[^\w\- ]", "", t.lower()).replace(" ", "-") for t in titles}


def link_missing(page, target):
    """Why a link leads nowhere, or None."""
    place, _, anchor = target.partition("#")
    path = (page.parent / place).resolve() if place else page
    if not path.exists():
        return "no such file"
    return f"no heading #{anchor}" if anchor and anchor not in anchors(path) else None


def check_page(page):
    """The names that a page has, and those that are missing, each with its line and the reason."""
    count, found, in_block, function = 0, [], False, "nothing"
    for number, line in enumerate(read(page).split("\n"), 1):
        if line.lstrip().startswith("```"):
            in_block = not in_block
        if in_block:
            continue
        reasons = []
        for _, word in re.findall(r"(`+)(.+?)\1", line):
            reasons.append((word, missing(word, function)))
            count += is_name(word)
            function = word if word.count("::") > 1 else function
        links = [m[1] for m in re.finditer(r"\]\(([^)\s]+)\)", line) if "://" not in m[1]]
        reasons += [(link, link_missing(page, link)) for link in links]
        count += len(links)
        found += [f"{page.relative_to(TOP)}:{number}: {word}: {why}" for word, why in reasons if why]
    return count, found


def check_lists():
    """What README.md and docs/crates.md have to name, and don't."""
    readme, crates = read(TOP / "README.md"), read(TOP / "docs" / "crates.md")
    found = [f"{page}: crate {c} isn't named" for page, text in (("README.md", readme), ("docs/crates.md", crates))
             for c in CRATES if not re.search(rf"\b{c}\b", text)]
    examples = read(TOP / "examples" / "README.md")
    found += [f"README.md: no link to docs/{p.name}" for p in sorted(TOP.glob("docs/*.md")) if f"(docs/{p.name})" not in readme]
    found += [f"examples/README.md: no link to {p.parent.name}" for p in sorted(TOP.glob("examples/*/README.md"))
              if f"({p.parent.name})" not in examples]
    return found


def main():
    pages = [*sorted(TOP.glob("*.md")), *sorted(TOP.glob("docs/*.md")), *sorted(TOP.glob("examples/**/*.md")), *sorted(TOP.glob("tests/*.md"))]
    if len(pages) < 2 or not CRATES:
        print("names: no pages", file=sys.stderr)
        return 2
    results = [check_page(page) for page in pages]
    found = [line for _, lines in results for line in lines] + check_lists()
    print("\n".join([*found, f"{sum(count for count, _ in results)} names, {len(found)} of them missing"]))
    return 1 if found else 0


sys.exit(main())
