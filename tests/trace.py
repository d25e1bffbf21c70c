"""What tests/trace.sh compares: FOLDER has the sessions, WINDTRACE and WINDPLAY are the programs."""

import json
import pathlib
import re
import subprocess
import sys
import tempfile
import xml.dom.minidom

import chrome
import objects

# Lines of a console and of a tick file, and a line that their trace has to have: a call with its reply, by the table in
# docs/calls.md, an abort at the prompt, `taskDelay(0)`, or the end of a time slice.
LINES = [
    (b"ld < none.o\n", b"", rb"ld\(0, 0, 0x[0-9a-f]+\) = 0 LOAD_FAILED"),
    (b"ld 0, 0, 0xfffffff0\n", b"", rb"ld\(0, 0, 0xfffffff0\) = -1 BAD_ADDRESS"),
    (b"errnoSet 0xffffffff\nerrnoGet\n", b"", rb"errnoGet\(\) = 0xffffffff"),
    (b"abc\x03\n", b"", rb"aborts its line"),
    (b"taskDelay 0\n", b"", rb"goes after the others of its priority"),
    (b"*0x1000 = 0x48000000\nkernelTimeSlice 1\nsp 0x1000\ntaskDelay 3\ntaskDelete 2\n", b"every 100 6\n",
     rb"goes after the others of its priority"),
    # lwz r3, -4(r3); lwzx r3, r3, r4; lwarx r3, 0, r3; a word of zeros; trap; sc
    (b"*0x1000 = 0x8063fffc\nsp 0x1000, 0x20000004\n", b"", rb"exception at 0x1000: access to 0x20000000"),
    (b"*0x1000 = 0x7c63202e\nsp 0x1000, 0x20000000, 8\n", b"", rb"exception at 0x1000: access to 0x20000008"),
    (b"*0x1000 = 0x7c601828\nsp 0x1000, 0x2001\n", b"", rb"exception at 0x1000: alignment of 0x2001"),
    (b"sp 0x1000\n", b"", rb"exception at 0x1000: illegal word 0x0"),
    (b"*0x1000 = 0x7fe00008\nsp 0x1000\n", b"", rb"exception at 0x1000: trap"),
    (b"*0x1000 = 0x44000002\nsp 0x1000\n", b"", rb"exception at 0x1000: system call"),
    (b"sp 0x20000000\n", b"", rb"exception at 0x20000000: access to 0x20000000"),
]
# Options that choose events of a session, and the lines of its whole trace that they leave: by step, WHO and text.
CHOICES = [
    (("--from", "10"), lambda step, who, what: step >= 10),
    (("--to", "10"), lambda step, who, what: step <= 10),
    (("--from", "5", "--to", "40"), lambda step, who, what: 5 <= step <= 40),
    (("--tasks", "1,3"), lambda step, who, what: re.match(rb"[13] ", who)),
    (("--kinds", "output"), lambda step, who, what: what.startswith(b"writes ")),
    (("--kinds", "owners,tasks"), lambda step, who, what: re.match(
        rb"(no longer )?owns |is (spawned|deleted|suspended|resumed)", what)),
    (("--from", "20", "--tasks", "1", "--kinds", "output"),
     lambda step, who, what: step >= 20 and who.startswith(b"1 ") and what.startswith(b"writes ")),
]
# Options that are refused.
REFUSED = [("--from", "0"), ("--to", "x"), ("--tasks", ""), ("--tasks", "1,,2"), ("--kinds", "none"),
           ("--as", "state", "--from", "2"), ("--as", "coverage", "--tasks", "1"),
           ("--as", "summary", "--from", "2"), ("--as", "summary-json", "--tasks", "1"), ("--as", "none")]
# Kinds of a timeline, and the classes of its rectangles.
SHOWN = {
    "runs": {b"running", b"ready"}, "waits": {b"waiting", b"sleeping"}, "tasks": {b"suspended"},
    "priorities": {b"inherits"}, "waits,owners": {b"waiting", b"sleeping", b"owned"}, "calls": set(),
}
RECTANGLE = re.compile(rb'<rect class="(\w+)"[^>]*><title>([^<]*), (\d+) to (\d+)</title>')
LINE = re.compile(rb"^ *\d+ +(\d+)  (.{16})  (.*)$")
# The figures of a session, worked out by hand: of the run, and of each task by its id.
FIGURES = {
    "inheritance": (
        {"time": 54, "steps": 64, "ticks": 0, "calls": 8, "idle": 0},
        {1: ("tShell", 7, 109, 3, 7, 0, 0), 3: ("t1", 1, 15, 2, 1, 0, 0)},
    ),
    "server": (
        {"time": 2000, "steps": 199, "ticks": 4, "calls": 23, "idle": 1825},
        {1: ("tShell", 15, 75, 5, 15, 0, 0), 4: ("server", 59, 296, 5, 7, 0, 0), 5: ("client", 1, 5, 2, 1, 0, 0)},
    ),
    "inversion": (
        {"time": 49, "steps": 56, "ticks": 0, "calls": 10, "idle": 0},
        {1: ("tShell", 7, 125, 5, 7, 0, 0), 3: ("t1", 1, 17, 2, 1, 0, 0), 4: ("t2", 1, 17, 1, 1, 0, 0),
         5: ("t3", 1, 17, 1, 1, 0, 0)},
    ),
}
# A priority inversion: t1, of priority 100, waits for a mutex without inheritance. Its owner has priority 200, and t2 and t3,
# of priority 150, run before it.
CONSOLES = {
    "inversion": b"m = semMCreate(1)\ntaskPrioritySet 0, 200\nsemTake m, -1\nsp semTake, m, -1\n"
                 b"taskSpawn 0, 150, 0, 4096, taskDelay, 0\ntaskSpawn 0, 150, 0, 4096, printf, \"medium\"\nsemGive m\n",
}
# Its longest times, worked out by hand: the wait and what for, ready, the response, with an inherited priority.
TIMES = {
    "inheritance": {
        1: (None, None, {"from": 25, "time": 1}, 0, {"from": 26, "time": 15}),
        3: ({"from": 26, "time": 15}, {"for": "mutex", "id": 2}, None, 0, None),
    },
    "server": {
        1: ({"from": 1022, "time": 978}, {"for": "console", "id": None}, None, 0, None),
        4: ({"from": 152, "time": 867}, {"for": "message", "id": 2}, {"from": 78, "time": 20}, 0, None),
        5: (None, None, {"from": 85, "time": 42}, 0, None),
    },
    "inversion": {
        1: (None, None, {"from": 29, "time": 2}, 0, None),
        3: ({"from": 23, "time": 22}, {"for": "mutex", "id": 2}, None, 0, None),
        4: (None, None, None, 0, None),
        5: (None, None, None, 0, None),
    },
}
# How its objects were used, worked out by hand: what came, what left, the most at one time, the longest hold and by which task.
USES = {
    "inheritance": [("mutex", 2, 2, 1, 1, {"from": 18, "time": 22}, 1)],
    "server": [("queue", 2, 2, 2, 1, None, None)],
    "inversion": [("mutex", 2, 2, 1, 1, {"from": 15, "time": 29}, 1)],
}
TIMES_OF_TASK = ("longest_wait", "waited_for", "longest_ready", "longest_response", "longest_inherited")
# The kinds of lines that are counted, and how a line reads.
COUNTED = {
    "ticks": re.compile(rb"tick \d+$"),
    "switches": re.compile(rb"runs( in place of \d+)?$"),
    "calls": re.compile(rb"\w+\(.*\) (= .*|waits|ends its caller)$"),
    "refusals": re.compile(rb"\w+\(.*\) = \S+ [A-Z_]+$"),
    "exceptions": re.compile(rb"exception at "),
    "instructions": re.compile(rb"(\d+) instructions?$"),
    "idle": re.compile(rb"nobody is ready until (\d+)$"),
}
# What comes to an object and what leaves it, and how a line reads.
MOVES = (
    ("mutex", 0, re.compile(rb"owns mutex (\d+)$")), ("mutex", 1, re.compile(rb"no longer owns mutex (\d+)$")),
    ("queue", 0, re.compile(rb"adds a message to queue (\d+)$")),
    ("queue", 1, re.compile(rb"takes a message from queue (\d+)$")),
    ("slot", 0, re.compile(rb"interrupt of slot (\d+)$")),
    ("slot", 1, re.compile(rb"delivery of an interrupt of slot (\d+)$")),
)
FIGURES_OF_TASK = ("steps", "share", "switches", "calls", "refusals", "exceptions")
LINE_START = re.compile(rb"^ *(\d+) +(\d+)  ")
WRITES = re.compile(rb'^ *\d+ +\d+  .{16}  writes "(.*)"$')
ESCAPED = re.compile(rb"\\x([0-9a-f]{2})")


def written(events):
    """The bytes that the lines of a trace say were written."""
    found = (WRITES.match(line) for line in events.split(b"\n"))
    texts = (match[1] for match in found if match)
    return b"".join(ESCAPED.sub(lambda it: bytes([int(it[1], 16)]), text) for text in texts)


def run(program, session, *words):
    """The status and the standard output of a program in the folder of a session."""
    file = session / "words"
    words = [*words, *(file.read_bytes().split() if file.exists() else ())]
    done = subprocess.run([program, *words], cwd=session, stdout=subprocess.PIPE, check=False)
    return done.returncode, done.stdout


def is_refused(session, windtrace, words):
    """The program refuses these options, with the status of invalid arguments."""
    done = subprocess.run([windtrace, *words], cwd=session, capture_output=True, check=False)
    return done.returncode == 1 and not done.stdout


def faults(session, windtrace, windplay):
    """What is wrong with the traces of a session."""
    status, console = run(windplay, session)
    traced, events = run(windtrace, session)
    if traced != status:
        yield f"status {traced}, and {status} of windplay"
    if not (session / "words").exists() and written(events) != console:
        yield "the texts of the events are not the console's"
    wanted = session / "events"
    if wanted.exists() and wanted.read_bytes() != events:
        yield "the events are not those of the file"
    yield from other_objects(session, windtrace)
    wanted = session / "coverage"
    if wanted.exists() and wanted.read_bytes() != run(windtrace, session, "--as", "coverage")[1]:
        yield "the coverage is not that of the file"
    yield from (f"as objects of the trace-event format: {fault}" for fault in chrome.faults(windtrace, session))
    try:
        json.loads(run(windtrace, session, "--as", "state")[1])
    except ValueError as error:
        yield f"the state is no JSON: {error}"
    try:
        xml.dom.minidom.parseString(run(windtrace, session, "--as", "timeline")[1])
    except xml.parsers.expat.ExpatError as error:
        yield f"the timeline is no XML: {error}"


def other_objects(session, windtrace, *words):
    """The first object of a session that isn't the one of its line, if there is one."""
    lines = run(windtrace, session, *words)[1].splitlines()
    told = run(windtrace, session, "--as", "json-lines", *words)[1].splitlines()
    if len(lines) != len(told):
        yield f"{len(lines)} lines have {len(told)} objects"
    for line, text in zip(lines, told):
        try:
            of_object = objects.without_hex(objects.line_of(json.loads(text)))
        except (KeyError, ValueError) as error:
            yield f"{text}: {error}"
            return
        if of_object != objects.normal(line):
            yield f"{line} has the object {text}"
            return


def without_instructions(lines):
    """The lines that tell of no instructions; those of instructions are joined after the choice."""
    return [line for line in lines if not re.search(rb"  \d+ instructions?$", line)]


def choices(session, windtrace):
    """The choices of a session's events that are wrong."""
    lines = run(windtrace, session)[1].split(b"\n")[:-1]
    for words, has in CHOICES:
        _, events = run(windtrace, session, *words)
        parts = [(line, LINE.match(line)) for line in lines[:-1]]
        wanted = [line for line, it in parts if it and has(int(it[1]), it[2], it[3])] + lines[-1:]
        if without_instructions(events.split(b"\n")[:-1]) != without_instructions(wanted):
            yield f"the events of {' '.join(words)} are others"
        yield from other_objects(session, windtrace, *words)


def rectangles(session, windtrace, *words):
    """The rectangles of a session's timeline: class, title, and from when to when. Those of the interrupt level are left out."""
    svg = run(windtrace, session, "--as", "timeline", *words)[1]
    return [it for it in RECTANGLE.findall(svg) if it[1] != b"interrupt routine"]


def pictures(session, windtrace):
    """The choices of a session's timeline that are wrong."""
    whole = rectangles(session, windtrace)
    for kinds, classes in SHOWN.items():
        found = {it[0] for it in rectangles(session, windtrace, "--kinds", kinds)}
        if found != {it[0] for it in whole} & classes:
            yield f"the timeline of --kinds {kinds} has others"
    if any(not it[1].startswith(b"1 ") for it in rectangles(session, windtrace, "--tasks", "1", "--kinds", "runs,waits")):
        yield "the timeline of --tasks 1 has another task"
    if rectangles(session, windtrace, "--from", "1", "--to", "1000000000000") != whole:
        yield "the timeline of all steps is another one"
    if b"no step of the run is chosen" not in run(windtrace, session, "--as", "timeline", "--from", "1000000000000")[1]:
        yield "the timeline of no step doesn't say so"
    lines = [it for it in map(LINE_START.match, run(windtrace, session)[1].split(b"\n")) if it]
    begin = max((int(it[1]) for it in lines if int(it[2]) <= 5), default=0)
    end = min((int(it[1]) for it in lines if int(it[2]) > 40), default=1 << 64)
    for _, _, since, until in rectangles(session, windtrace, "--from", "5", "--to", "40"):
        if int(since) < begin or int(until) > end:
            yield f"the timeline of steps 5 to 40 has {int(since)} to {int(until)}"


def counted(lines, kind):
    """How many of some lines are of a kind; of those that have a number, the sum."""
    found = [COUNTED[kind].match(what) for _, what in lines]
    return sum(int(it[1]) if kind in ("instructions", "idle") else 1 for it in found if it)


def uses(lines, end):
    """How objects were used in a run that ends at a time, by some lines."""
    rows = {}
    for time, _, what in lines:
        for kind, side, form in MOVES:
            it = form.match(what)
            if it:
                row = rows.setdefault((kind, int(it[1])), [0, 0, 0])
                row[side] += 1
                row[2] = max(row[2], row[0] - row[1])
    held = holds(lines, end)
    return [{"object": kind, "id": id_, "in": come, "out": gone, "most": most, **(held[id_] if kind == "mutex" else {})}
            for (kind, id_), (come, gone, most) in rows.items()]


def holds(lines, end):
    """The longest hold of each mutex in a run that ends at a time, by some lines."""
    done, going = {}, {}
    for time, who, what in lines:
        it = re.match(rb"(no longer )?owns mutex (\d+)$", what)
        if it and it[1]:
            done.setdefault(int(it[2]), []).append((*going.pop(int(it[2])), time))
        elif it:
            going[int(it[2])] = (int(who.split()[0]), time)
            done.setdefault(int(it[2]), [])
    for mutex, hold in going.items():
        done[mutex].append((*hold, end))
    best = {mutex: max(found, key=lambda it: it[2] - it[1]) for mutex, found in done.items()}
    return {mutex: {"longest_hold": {"from": since, "time": until - since}, "held_by": owner}
            for mutex, (owner, since, until) in best.items()}


def figures(session, windtrace, summary):
    """The figures of a session that aren't those of its events."""
    lines = [(LINE_START.match(line), line) for line in run(windtrace, session)[1].split(b"\n")[:-1]]
    lines = [(int(it[1]), line[it.end():][:16], line[it.end() + 18:]) for it, line in lines if it]
    ids = {int(it[0]) for it in (re.match(rb"\d+", who) for _, who, _ in lines) if it}
    lines = [(time, who, what) for time, who, what in lines if not what.startswith(b"writes ")]
    texts = [(who, what) for _, who, what in lines]
    idle = counted(texts, "idle") - sum(time for time, _, what in lines if COUNTED["idle"].match(what))
    run_figures = {"ticks": counted(texts, "ticks"), "calls": counted(texts, "calls"), "idle": idle}
    for name, number in run_figures.items():
        if summary[name] != number:
            yield f"{name} is {summary[name]}, and {number} by the events"
    if summary["objects"] != uses(lines, summary["time"]):
        yield "objects were used in another way by the events"
    if {task["id"] for task in summary["tasks"]} != ids:
        yield "the summary has other tasks than the events"
    for task in summary["tasks"]:
        mine = [it for it in texts if re.match(rb"%d " % task["id"], it[0])]
        numbers = {name: counted(mine, name) for name in ("switches", "calls", "refusals", "exceptions")}
        numbers["steps"] = counted(mine, "instructions") + numbers["calls"] + numbers["exceptions"]
        numbers["share"] = numbers["steps"] * 1000 // summary["steps"]
        for name, number in numbers.items():
            if task[name] != number:
                yield f"{name} of {task['name']} is {task[name]}, and {number} by the events"


def longest(spans):
    """The longest of some spans of a task, if there is one; those that follow one another without a gap are one."""
    joined = []
    for since, until in sorted(spans):
        if joined and joined[-1][1] == since:
            joined[-1][1] = until
        else:
            joined.append([since, until])
    best = max(joined, key=lambda it: it[1] - it[0], default=None)
    return best and {"from": best[0], "time": best[1] - best[0]}


def longest_times(session, windtrace, summary):
    """The longest times of a session's tasks that aren't those of its timeline. A timeline that shows an interrupt routine may
    show another time ready, and areas with shares of several looks don't tell any."""
    svg = run(windtrace, session, "--as", "timeline")[1]
    found = [(it[0], it[1], int(it[2]), int(it[3])) for it in RECTANGLE.findall(svg)]
    kinds = {b"waiting": "longest_wait", b"inherits": "longest_inherited"}
    if not any(title == b"interrupt routine" for _, title, _, _ in found):
        kinds[b"ready"] = "longest_ready"
    for task in summary["tasks"]:
        mine = [it for it in found if it[1].startswith(b"%d " % task["id"])]
        if any(title.endswith(b" %") for _, title, _, _ in mine):
            continue
        for kind, name in kinds.items():
            best = longest(it[2:] for it in mine if it[0] == kind)
            if task[name] != best:
                yield f"{name} of {task['name']} is {task[name]}, and {best} by the timeline"


def summaries(session, windtrace):
    """What is wrong with the summaries of a session."""
    summary = json.loads(run(windtrace, session, "--as", "summary-json")[1])
    yield from figures(session, windtrace, summary)
    yield from longest_times(session, windtrace, summary)
    if session.name in TIMES:
        times = {task["id"]: tuple(task[name] for name in TIMES_OF_TASK) for task in summary["tasks"]}
        if times != TIMES[session.name]:
            yield "the longest times are others than by hand"
    if session.name in USES:
        found = [(*(it[name] for name in ("object", "id", "in", "out", "most")), it.get("longest_hold"), it.get("held_by"))
                 for it in summary["objects"]]
        if found != USES[session.name]:
            yield "objects were used in another way than by hand"
    if session.name in FIGURES:
        of_run, of_tasks = FIGURES[session.name]
        tasks = {task["id"]: (task["name"], *(task[name] for name in FIGURES_OF_TASK)) for task in summary["tasks"]}
        if any(summary[name] != number for name, number in of_run.items()) or tasks != of_tasks:
            yield "the summary is another one than by hand"
    table = run(windtrace, session, "--as", "summary")[1].split(b"\n")
    rows = [row.split(None, len(FIGURES_OF_TASK)) for row in table[2:2 + len(summary["tasks"])]]
    wanted = [[*((f"{task[name] // 10}.{task[name] % 10}%" if name == "share" else str(task[name])).encode()
                 for name in FIGURES_OF_TASK), f"{task['id']} {task['name']}".encode()] for task in summary["tasks"]]
    if rows != wanted:
        yield "the table has other rows than the summary"
    rows = [row.split(None, 4)[:4] for row in table[3 + len(summary["tasks"]):3 + 2 * len(summary["tasks"])]]
    wanted = [[str(task[name]["time"] if task[name] else 0).encode() for name in ("longest_wait", "longest_ready")]
              + [str(task["longest_response"]).encode()]
              + [str(task["longest_inherited"]["time"] if task["longest_inherited"] else 0).encode()]
              for task in summary["tasks"]]
    if rows != wanted:
        yield "the table has other times than the summary"
    rows = [row.split() for row in table[4 + 2 * len(summary["tasks"]):-1]]
    wanted = [" ".join([*(str(it[name]) for name in ("in", "out", "most")), str((it.get("longest_hold") or {"time": 0})["time"]),
                        f"{it['object']} {it['id']}" + (f", held by {it['held_by']}" if it.get("held_by") else "")])
              for it in summary["objects"]]
    if rows != [row.encode().split() for row in wanted]:
        yield "the table has other objects than the summary"
    head = ", ".join(f"{name} {summary[name]}" for name in ("time", "steps", "ticks", "calls", "idle"))
    if table[0] != head.encode():
        yield f"the table begins with {table[0]}"


def by_hand(windtrace):
    """What is wrong with the summaries of the consoles that were worked out by hand."""
    for name, console in CONSOLES.items():
        with tempfile.TemporaryDirectory() as folder:
            session = pathlib.Path(folder) / name
            session.mkdir()
            (session / "console.txt").write_bytes(console)
            (session / "ticks.txt").write_bytes(b"")
            yield from ((name, fault) for fault in summaries(session, windtrace))


def missing(windtrace):
    """The consoles whose trace doesn't have its line."""
    for console, ticks, wanted in LINES:
        with tempfile.TemporaryDirectory() as folder:
            session = pathlib.Path(folder)
            (session / "console.txt").write_bytes(console)
            (session / "ticks.txt").write_bytes(ticks)
            _, events = run(windtrace, session)
        if not re.search(rb"  " + wanted + rb"\n", events):
            yield console


def main():
    folder, windtrace, windplay = (pathlib.Path(it).resolve() for it in sys.argv[1:])
    sessions = sorted(it.parent for it in folder.glob("*/stdout"))
    wrong = 0
    for session in sessions:
        found = [*faults(session, windtrace, windplay), *choices(session, windtrace), *pictures(session, windtrace),
                 *summaries(session, windtrace)]
        wrong += bool(found)
        for fault in found:
            print(f"{session.name}: {fault}")
    taken = [words for words in REFUSED if sessions and not is_refused(sessions[0], windtrace, words)]
    for words in taken:
        print(f"{' '.join(words)} is not refused")
    others = list(by_hand(windtrace))
    for name, fault in others:
        print(f"{name}: {fault}")
    without = list(missing(windtrace))
    for console in without:
        print(f"{console}: its line is missing")
    print(f"{len(sessions)} sessions, {wrong} differ; {len(LINES)} lines, {len(without)} missing")
    return 1 if wrong or taken or others or without or not sessions else 0


if __name__ == "__main__":
    sys.exit(main())
