"""The line that `--as events` has for an object of `--as json-lines`; numbers are decimal, and columns have one blank."""

import re

AWAITED = {
    "semaphore": "semaphore {}", "mutex": "mutex {}", "message": "a message of queue {}", "room": "room in queue {}",
    "deletion": "the deletion of task {}", "console": "the console",
}
PLAIN = {
    "deleted": "is deleted", "wakes": "wakes", "suspended": "is suspended", "resumed": "is resumed",
    "yields": "goes after the others of its priority", "routine_ends": "routine ends", "aborts_line": "aborts its line",
}
WITH_KEYS = {
    "tick": "tick {tick}", "bytes_arrive": "bytes arrive: {count}", "interrupt": "interrupt of slot {slot}",
    "delivery": "delivery of an interrupt of slot {slot}", "nobody_is_ready": "nobody is ready until {until}",
    "asks_for_file": 'asks for the file "{file}"', "writes": 'writes "{bytes}"', "owns": "owns mutex {mutex}",
    "no_longer_owns": "no longer owns mutex {mutex}", "adds_message": "adds a message to queue {queue}",
    "hands_message": "hands a message of queue {queue} to task {receiver}",
    "takes_message": "takes a message from queue {queue}", "routine_begins": "routine {entry} begins with {parameter}",
    "spawned": "is spawned with priority {priority}", "sleeps": "sleeps until tick {until}",
    "normal_priority": "normal priority {to}", "watchdog_started": "watchdog {watchdog} is started, due at tick {due}",
    "watchdog_fires": "watchdog {watchdog} fires", "watchdog_cancelled": "watchdog {watchdog} is cancelled",
    "module_loaded": "module {module} is loaded", "module_unloaded": "module {module} is unloaded",
}
CAUSES = {
    "access": "access to {target}", "alignment": "alignment of {target}", "illegal": "illegal word {word}",
    "trap": "trap", "system_call": "system call",
}
COMMON = {"time", "step", "event", "who", "task", "name"}
HEX = re.compile(rb"0x([0-9a-f]+)")


def awaited(wait):
    return AWAITED[wait["for"]].format(wait["id"])


def until(tick):
    return "" if tick is None else f" until tick {tick}"


def called(it):
    words = ", ".join("?" if word is None else str(word) for word in it["words"])
    replies = {
        "answer": " = {result}", "refusal": " = {result} {error}", "waits": " waits", "ends its caller": " ends its caller",
    }
    return f"{it['call']}({words}){replies[it['reply']].format(**it)}"


def standing(task):
    text = f"; {task['task']} {task['name']}"
    if task["wait"]:
        text += f" waits for {awaited(task['wait'])}{until(task['until'])}"
    elif task["until"] is not None:
        text += f" sleeps{until(task['until'])}"
    elif not task["suspended"]:
        text += " is ready"
    return text + (" is suspended" if task["suspended"] else "")


def happened(it):
    """What an object says that happened."""
    event = it["event"]
    if event in PLAIN:
        return PLAIN[event]
    if event in WITH_KEYS:
        return WITH_KEYS[event].format(**it)
    if event == "runs":
        return "runs" if it["in_place_of"] is None else f"runs in place of {it['in_place_of']}"
    if event == "call":
        return called(it)
    if event == "exception":
        return f"exception at {it['at']}: {CAUSES[it['cause']].format(**it)}"
    if event == "waits":
        return f"waits for {awaited(it['wait'])}{until(it['until'])}"
    if event == "served":
        return f"ends its wait for {awaited(it['wait'])}: {it['result']}"
    if event == "failed":
        return f"ends its wait for {awaited(it['wait'])}: -1 {it['errno'] if it['error'] is None else it['error']}"
    if event == "goes_on":
        return f"ends its wait for {awaited(it['wait'])}"
    if event == "priority":
        return f"priority {it['from']} -> {it['to']}{' by inheritance' if it['inherited'] else ''}"
    if event == "instructions":
        return f"{it['count']} instruction{'' if it['count'] == 1 else 's'}"
    if event == "end":
        tasks = "".join(map(standing, it["tasks"]))
        return f"the run ends: {it['how']}{tasks}; bytes of the console left: {it['left']}"
    raise ValueError(f"unknown event {event}")


def subject(it):
    """Who an object tells of, cut as its column is."""
    if it["event"] == "end":
        return "board"
    return f"{it['task']} {it['name']}"[:16] if it["who"] == "task" else it["who"]


def line_of(it):
    """The line of an object."""
    return f"{it['time']} {it['step']} {subject(it).strip()} {happened(it)}"


def normal(line):
    """A line of `--as events`, with numbers in decimal and one blank between its columns."""
    time, step, rest = line.split(maxsplit=2)
    who, what = (rest[:16].strip(), rest[18:]) if len(rest) > 16 else (rest, b"")
    return HEX.sub(lambda it: str(int(it[1], 16)).encode(), b" ".join((time, step, who, what))).decode()


def without_hex(text):
    """A line of an object whose texts have addresses, with these in decimal."""
    return HEX.sub(lambda it: str(int(it[1], 16)).encode(), text.encode()).decode()
