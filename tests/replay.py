"""Replays the lines of a trace on its states: usage: replay.py WINDTRACE [COUNT [SEED]]

Each random session has semaphores, mutexes, queues and a watchdog, tasks that make calls in a loop, and a shell that
spawns, delays, suspends, deletes and takes among them. WINDTRACE writes its lines by `--as events` once, and its board
by `--as state` at 20 limits. From the tasks and the owners of mutexes of one board, the lines up to the next limit give
those of the next board. A line also has to fit: a wait ends only if it began, and only its owner gives a mutex.

It prints a line for each difference, how many lines of each kind it replayed, and a line that counts all. It ends with
1 if there is a difference, or if 300 sessions or more lack a kind of line. Session K of SEED is session 0 of SEED + K.
"""

import argparse
import collections
import concurrent.futures
import json
import pathlib
import random
import re
import subprocess
import sys
import tempfile

LIMIT = 3_000
STATES = 20
PROGRAMS = (0x1000, 0x1100, 0x1200)
BUFFER = 0x7000
# No instruction has this word.
ILLEGAL = 0
# The gate at which a task ends.
END = 0x0100_0000
NAMES = ('"worker"', r'"a \"name\" \\ \n"', '"a name that is longer than its column"', "0")
# Each call with its gate, and how often it is made.
CALLS = {
    "taskSpawn": (3, 1), "taskDelete": (5, 2), "taskSuspend": (6, 4), "taskResume": (7, 10), "taskPrioritySet": (8, 10),
    "taskDelay": (10, 6), "taskLock": (11, 1), "taskUnlock": (12, 1), "taskSafe": (13, 2), "taskUnsafe": (14, 2),
    "kernelTimeSlice": (18, 1), "semTake": (23, 10), "semGive": (24, 8), "semFlush": (25, 1), "semDelete": (26, 1),
    "msgQSend": (28, 4), "msgQReceive": (29, 4), "msgQDelete": (30, 1), "wdStart": (33, 2), "wdCancel": (34, 1),
    "intLock": (36, 1), "intUnlock": (37, 2), "errnoSet": (45, 1),
}  # fmt: skip
LINE = re.compile(r" *(\d+) +(\d+)  (.{16})  (.*)")


def gate(name):
    """The address of a call."""
    return END + 16 * CALLS[name][0]


def line_of(name, words):
    """A line of the shell that makes a call."""
    return " ".join((name, ", ".join(map(str, words))))


class Session:
    """A console and a tick file at random; both are a function of the seed."""

    def __init__(self, seed):
        self.dice = random.Random(seed)
        self.profile = self.dice.choice((1, 2))
        kinds = ("semBCreate", "semCCreate", "semMCreate", "semMCreate", "msgQCreate")
        self.made = ["semMCreate", *self.dice.choices(kinds, k=self.dice.randrange(2, 7)), "wdCreate"]
        self.first_task = 2 + len(self.made)
        self.tasks = self.dice.randrange(2, 8)
        lines = [*map(self.creation, self.made), *self.programs(), *(self.spawn() for _ in range(self.tasks))]
        lines += [self.shell_line() for _ in range(self.dice.randrange(20, 80))]
        self.console = "\n".join([*lines, ""])
        self.ticks = self.events()

    def creation(self, kind):
        """The line that makes an object. The first gets the id 2, the others follow."""
        one = self.dice.randrange(2)
        words = {
            "semBCreate": (one, self.dice.randrange(2)),
            "semCCreate": (one, self.dice.randrange(3)),
            "semMCreate": (self.dice.choice((0, 1, 4, 5, 9, 13, 13, 13)),),
            "msgQCreate": (self.dice.randrange(1, 3), 8, one),
            "wdCreate": (),
        }[kind]
        return line_of(kind, words)

    def id_of(self, *kinds):
        """The id of an object of one of these kinds, and at times another id."""
        fitting = [2 + at for at, kind in enumerate(self.made) if kind in kinds]
        return self.dice.choice(fitting) if fitting and self.dice.random() < 0.95 else self.dice.randrange(12)

    def semaphore(self):
        return self.id_of("semBCreate", "semCCreate", "semMCreate")

    def task(self):
        """The id of a task that may live; seldom 0, which is the caller, or the shell's."""
        if self.dice.random() < 0.05:
            return self.dice.randrange(2)
        return self.dice.randrange(self.tasks + 2) + self.first_task

    def priority(self):
        return self.dice.choice((1, 50, 100, 100, 150, 200))

    def call(self, timeouts):
        """A call with its words."""
        name = self.dice.choices([*CALLS], [often for _, often in CALLS.values()])[0]
        timeout = self.dice.choice(timeouts)
        small = self.dice.randrange(4)
        words = {
            "taskSpawn": lambda: (0, self.priority(), 0, 512, self.dice.choice(PROGRAMS)),
            "taskPrioritySet": lambda: (self.task(), self.priority()),
            "semTake": lambda: (self.semaphore(), timeout),
            "msgQSend": lambda: (self.id_of("msgQCreate"), BUFFER, small, timeout, self.dice.randrange(2)),
            "msgQReceive": lambda: (self.id_of("msgQCreate"), BUFFER, small, timeout),
            "msgQDelete": lambda: (self.id_of("msgQCreate"),),
            "wdStart": lambda: (self.id_of("wdCreate"), small, *self.routine()),
            "wdCancel": lambda: (self.id_of("wdCreate"),),
        }
        words |= dict.fromkeys(("semGive", "semFlush", "semDelete"), lambda: (self.semaphore(),))
        words |= dict.fromkeys(("taskDelete", "taskSuspend", "taskResume"), lambda: (self.task(),))
        return name, words.get(name, lambda: (small,))()

    def routine(self):
        """An interrupt routine, by the address of its gate, and its parameter."""
        name = self.dice.choice(("semGive", "semFlush", "taskSuspend", "taskResume", "taskResume"))
        word = self.id_of("semBCreate", "semCCreate") if name.startswith("sem") else self.task()
        return gate(name), word

    def piece(self):
        """Some calls of a program: any calls, or between them the take and the give of a mutex, or a safe section."""
        calls = [self.call((-1, -1, -1, 0, 1, 5)) for _ in range(self.dice.randrange(1, 4))]
        kind = self.dice.random()
        if kind < 0.5:
            mutex = self.id_of("semMCreate")
            return [("semTake", (mutex, -1)), *calls, ("semGive", (mutex,))]
        return [("taskSafe", ()), *calls, ("taskUnsafe", ())] if kind < 0.6 else calls

    def program(self):
        """The words of a program: a few calls, and then the end of its task or the first call again."""
        code = []
        for name, values in [*self.piece(), *self.piece(), ("taskDelay", (self.dice.randrange(1, 4),))]:
            code += [0x3800_0000 | 3 + at << 21 | value & 0xFFFF for at, value in enumerate(values)]
            code.append(0x4800_0003 | gate(name))
        if self.dice.random() < 0.05:
            code.append(ILLEGAL)
        ends = self.dice.random() < 0.2
        return [*code, 0x4800_0002 | END if ends else 0x4800_0000 | -4 * len(code) & 0x03FF_FFFC]

    def programs(self):
        """The lines that write the programs."""
        for start in PROGRAMS:
            stored = [f"*0x{start + 4 * at:x} = 0x{word:x}" for at, word in enumerate(self.program())]
            yield from ("; ".join(stored[at : at + 8]) for at in range(0, len(stored), 8))

    def spawn(self):
        """A line that spawns a task: of a program, or of one call."""
        if self.dice.random() < 0.3:
            name, words = self.call((-1, -1, 0, 3))
            return ", ".join((f"sp {name}", *map(str, words)))
        name = self.dice.choice(NAMES)
        return f"taskSpawn {name}, {self.priority()}, 0, 512, 0x{self.dice.choice(PROGRAMS):x}"

    def shell_line(self):
        """A line of the shell: an abort, an exception, a delay, a spawn, or a call, mostly with a timeout."""
        kind = self.dice.random()
        if kind < 0.04:
            return self.dice.choice(("abc\x03", "\x03", f"(0x{BUFFER:x})()"))
        if kind < 0.3:
            return line_of("taskDelay", (self.dice.randrange(1, 5),))
        if kind < 0.35:
            return self.spawn()
        return line_of(*self.call((0, *[1, 2, 3] * 10, -1)))

    def events(self):
        """The lines of a tick file: ticks, and at times bytes that arrive while the shell is busy."""
        lines = [f"every {self.dice.randrange(30, 100)} {self.dice.randrange(30, 120)}"]
        if self.dice.random() < 0.2:
            lines += [f"rx {at} {self.dice.randrange(100, 300)}" for at in range(0, 2000, 50)]
        return "\n".join([*lines, ""])


class Misfit(Exception):
    """A line doesn't fit what its task or its mutex was before."""


def fits(holds, why):
    if not holds:
        raise Misfit(why)


def awaited(text):
    """What a line says that a task waits for, as the state says it."""
    patterns = {
        "semaphore": r"semaphore (\d+)",
        "mutex": r"mutex (\d+)",
        "message": r"a message of queue (\d+)",
        "room": r"room in queue (\d+)",
        "deletion": r"the deletion of task (\d+)",
        "console": r"the console",
    }
    for kind, pattern in patterns.items():
        found = re.fullmatch(pattern, text)
        if found:
            return kind, int(found[1]) if found.groups() else None
    raise Misfit("nothing that a task can wait for")


def lives(state):
    """The life of each task of a board."""
    keys = ("wake", "suspended", "pri", "normal")
    wait = lambda it: it["wait"] and (it["wait"]["for"], it["wait"]["id"])
    return {it["id"]: {key: it[key] for key in keys} | {"wait": wait(it)} for it in state["tasks"]}


def owners(state):
    """The owner of each mutex that has one."""
    return {it["id"]: it["owner"] for it in state["mutexes"] if it["owner"] is not None}


class Replay:
    """The lives of tasks and the owners of mutexes, and what the lines make of them."""

    def __init__(self, state):
        self.lives = lives(state)
        self.owners = owners(state)

    def life(self, who):
        fits(who in self.lives, "no task of this id lives")
        return self.lives[who]

    def spawned(self, who, pri):
        fits(who not in self.lives, "the task lives")
        self.lives[who] = {"wake": None, "suspended": False, "pri": int(pri), "normal": int(pri), "wait": None}

    def deleted(self, who):
        self.life(who)
        del self.lives[who]

    def waits(self, who, text, tick):
        life = self.life(who)
        fits(life["wait"] is None, "it waits")
        life |= {"wait": awaited(text), "wake": tick and int(tick)}

    def wait_ends(self, who, text, _):
        life = self.life(who)
        fits(life["wait"] == awaited(text), "it doesn't wait for that")
        life |= {"wait": None, "wake": None}

    def sleeps(self, who, tick):
        life = self.life(who)
        fits(life["wait"] is None, "it waits")
        life["wake"] = int(tick)

    def wakes(self, who):
        life = self.life(who)
        fits(life["wait"] is None and life["wake"] is not None, "it doesn't sleep")
        life["wake"] = None

    def suspended(self, who):
        fits(not self.life(who)["suspended"], "it is suspended")
        self.life(who)["suspended"] = True

    def resumed(self, who):
        fits(self.life(who)["suspended"], "it isn't suspended")
        self.life(who)["suspended"] = False

    def priority(self, who, old, new):
        fits(self.life(who)["pri"] == int(old), "it has another priority")
        self.life(who).update(pri=int(new), normal=int(new))

    def inherited(self, who, old, new):
        fits(self.life(who)["pri"] == int(old), "it has another priority")
        self.life(who)["pri"] = int(new)

    def normal(self, who, new):
        fits(self.life(who)["normal"] != int(new), "it has this normal priority")
        self.life(who)["normal"] = int(new)

    def owned(self, who, mutex):
        fits(int(mutex) not in self.owners, "the mutex has an owner")
        self.owners[int(mutex)] = who

    def freed(self, who, mutex):
        fits(self.owners.get(int(mutex)) == who, "the task doesn't own it")
        del self.owners[int(mutex)]


# Each kind of line that changes a task or the owner of a mutex.
KINDS = [
    (re.compile(pattern), change)
    for pattern, change in (
        (r"is spawned with priority (\d+)", Replay.spawned),
        (r"is deleted", Replay.deleted),
        (r"waits for (.*?)(?: until tick (\d+))?", Replay.waits),
        (r"ends its wait for (.*?)(: -?\d+.*)?", Replay.wait_ends),
        (r"sleeps until tick (\d+)", Replay.sleeps),
        (r"wakes", Replay.wakes),
        (r"is suspended", Replay.suspended),
        (r"is resumed", Replay.resumed),
        (r"priority (\d+) -> (\d+)", Replay.priority),
        (r"priority (\d+) -> (\d+) by inheritance", Replay.inherited),
        (r"normal priority (\d+)", Replay.normal),
        (r"owns mutex (\d+)", Replay.owned),
        (r"no longer owns mutex (\d+)", Replay.freed),
    )
]


def change_of(what):
    """What a line does to a replay, with the words of the line, if it is one of these kinds."""
    for pattern, change in KINDS:
        found = pattern.fullmatch(what)
        if found:
            return change, found.groups()
    return None


def changes_in(lines):
    """The lines that are one of the kinds: the step, the task, the text, and the change with its words."""
    for line in lines:
        _, step, who, what = LINE.fullmatch(line).groups()
        change = change_of(what)
        if change:
            yield int(step), int(who.split()[0]), what, change


def play(windtrace, folder, profile, *words):
    words = [windtrace, "--profile", str(profile), *words]
    return subprocess.run(words, cwd=folder, capture_output=True, check=False).stdout.decode("ascii")


def limits(dice, steps, changing):
    """Limits of a run of so many steps, rising: some before and after steps with changes, some after any step."""
    near = dice.sample(changing, min(len(changing), STATES // 4))
    chosen = {limit for step in near for limit in (step - 1, step)}
    others = sorted(set(range(steps + 1)) - chosen)
    return sorted(chosen | set(dice.sample(others, min(len(others), STATES - len(chosen)))))


def compared(kind, before, after):
    """A text for each item of two dictionaries that isn't the same."""
    for key in sorted({*before, *after}):
        if before.get(key) != after.get(key):
            yield f"{kind} {key} is {after.get(key)}, and {before.get(key)} by the lines"


def between(first, changes, last):
    """What the changes between two boards tell wrongly."""
    replay = Replay(first)
    for step, who, what, (change, words) in changes:
        try:
            change(replay, who, *words)
        except Misfit as why:
            yield f"step {step}: task {who} {what}, but {why}"
    yield from compared("task", replay.lives, lives(last))
    yield from compared("the owner of mutex", replay.owners, owners(last))


def traced(windtrace, session):
    """The changes of a session by its lines, the limits, and the board at each."""
    with tempfile.TemporaryDirectory() as name:
        folder = pathlib.Path(name)
        (folder / "console.txt").write_text(session.console)
        (folder / "ticks.txt").write_text(session.ticks)
        lines = play(windtrace, folder, session.profile, "--limit", str(LIMIT)).splitlines()
        changes = list(changes_in(lines))
        steps = int(LINE.fullmatch(lines[-1])[2])
        at = limits(session.dice, steps, sorted({step for step, *_ in changes}))
        boards = [play(windtrace, folder, session.profile, "--as", "state", "--limit", str(limit)) for limit in at]
        return changes, at, [json.loads(board) for board in boards]


def differences(windtrace, seed):
    """The differences of a session, how often it has each kind of line, and how many boards it compares."""
    changes, at, boards = traced(windtrace, Session(seed))
    steps = [board["steps"] for board in boards]
    found = [] if steps == at else [f"the boards at the limits {at} are after the steps {steps}"]
    for first, last in zip(boards, boards[1:]):
        some = [it for it in changes if first["steps"] < it[0] <= last["steps"]]
        found += [f"steps {first['steps']} to {last['steps']}: {text}" for text in between(first, some, last)]
    return found, collections.Counter(change.__name__ for *_, (change, _) in changes), len(boards)


def main():
    parser = argparse.ArgumentParser()
    parser.add_argument("windtrace", type=pathlib.Path)
    parser.add_argument("count", nargs="?", type=int, default=300)
    parser.add_argument("seed", nargs="?", type=int, default=1)
    given = parser.parse_args()
    windtrace = given.windtrace.resolve()
    kinds = collections.Counter({change.__name__: 0 for _, change in KINDS})
    boards = differ = 0
    with concurrent.futures.ThreadPoolExecutor(2) as pool:
        found = pool.map(lambda it: differences(windtrace, given.seed + it), range(given.count))
        for session, (texts, seen, compared_boards) in enumerate(found):
            boards += compared_boards
            differ += bool(texts)
            kinds.update(seen)
            for text in texts:
                print(f"session {session}: {text}")
    print(", ".join(f"{kind}: {count}" for kind, count in kinds.items()))
    print(f"{given.count} sessions, {boards} boards, {sum(kinds.values())} lines, {differ} sessions differ")
    lacking = given.count >= 300 and 0 in kinds.values()
    return 1 if differ or lacking or not boards else 0


if __name__ == "__main__":
    sys.exit(main())
