"""Checks `windtrace --as chrome`: usage: chrome.py WINDTRACE [COUNT [SEED]], or chrome.faults(WINDTRACE, FOLDER).

COUNT random sessions of replay.py are played, each whole and in parts. The text has to be JSON, also if it is cut after
a line and closed. Its objects have to follow the rules of the trace-event format. Its spans have to be those of the
timeline, its instants the objects of `--as json-lines` without those of instructions, its flows the waits that end in a
step with a call, its counters of messages the sums over the lines, and its last number of ready tasks at each time the
spans of ready and running tasks there.
"""

import argparse
import bisect
import collections
import concurrent.futures
import json
import pathlib
import re
import subprocess
import sys
import tempfile

import replay

RECTANGLE = re.compile(rb'<rect class="(\w+)"[^>]*><title>(\d+) ([^<]*), (\d+) to (\d+)</title>')
ROUTINE = re.compile(rb"<title>interrupt routine, (\d+) to (\d+)</title>")
STANDINGS = {"running", "ready", "waiting", "sleeping", "suspended"}
# Keys of `--as json-lines` that an instant has elsewhere, or that its thread tells.
PLACED = ("time", "event", "who", "task", "name")
CHOICES = [(), ("--from", "40", "--to", "400"), ("--tasks", "1,3"), ("--kinds", "runs,messages"), ("--to", "1")]


def run(windtrace, folder, form, words):
    file = folder / "words"
    words = [*words, *(file.read_bytes().split() if file.exists() else ())]
    return subprocess.run([windtrace, "--as", form, *words], cwd=folder, stdout=subprocess.PIPE, check=False).stdout


def is_count(value):
    return isinstance(value, int) and not isinstance(value, bool) and value >= 0


def broken_rules(events):
    """The rules of the format that objects break: which keys each phase has, with their types."""
    for it in events:
        phase = it.get("ph")
        if phase not in ("M", "X", "i", "s", "f", "C"):
            yield f"{it}: its phase"
        if not isinstance(it.get("name"), str) or not is_count(it.get("pid")) or not is_count(it.get("tid")):
            yield f"{it}: its name, process or thread"
        if phase != "M" and not is_count(it.get("ts")):
            yield f"{it}: its time"
        if phase == "X" and not (is_count(it.get("dur")) and it["dur"] > 0):
            yield f"{it}: its duration"
        if phase == "i" and it.get("s") not in ("t", "p", "g"):
            yield f"{it}: its scope"
        if phase in ("s", "f") and not (is_count(it.get("id")) and isinstance(it.get("cat"), str)):
            yield f"{it}: its flow"
        if phase == "f" and it.get("bp") != "e":
            yield f"{it}: where it ends"
        if phase == "C" and not (len(it["args"]) == 1 and all(is_count(number) for number in it["args"].values())):
            yield f"{it}: its number"
        if phase == "M" and not (it["name"] == "thread_name" and isinstance(it["args"]["name"], str)):
            yield f"{it}: the name that it gives"


def unnamed(events):
    """The threads of spans and instants that have no name before the first of them."""
    named = set()
    for it in events:
        if it["ph"] == "M":
            named.add(it["tid"])
        elif it["tid"] not in named:
            yield f"{it}: its thread has no name"


def broken_flows(events):
    """The flows whose ends are not beside each other, or whose numbers do not count up."""
    ends = [it for it in events if it["ph"] in ("s", "f")]
    for number, (start, finish) in enumerate(zip(ends[::2], ends[1::2]), 1):
        if (start["ph"], finish["ph"], start["id"], finish["id"]) != ("s", "f", number, number):
            yield f"{start}, {finish}: a flow"
    if len(ends) % 2:
        yield f"{ends[-1]}: a flow without its end"


def flows_of_objects(events):
    """Who ends a wait, whose, and when."""
    ends = [it for it in events if it["ph"] in ("s", "f")]
    return [(start["tid"], finish["tid"], start["ts"]) for start, finish in zip(ends[::2], ends[1::2])]


def flows_of_lines(text, told):
    """The flows that lines of JSON give: to each task whose wait ends in a step in which a task or a routine calls."""
    callers = {}
    for line in map(json.loads, text.splitlines()):
        if line["event"] in ("call", "exception"):
            callers[line["step"]] = line.get("task", 0)
    for line in map(json.loads, told.splitlines()):
        if line["event"] in ("served", "failed", "goes_on") and line["step"] in callers:
            yield callers[line["step"]], line["task"], line["time"]


def messages_of_objects(events):
    """The queues and their numbers of messages, in order."""
    return [(int(it["name"].split()[1]), it["args"]["messages"]) for it in events
            if it["ph"] == "C" and it["name"].startswith("queue ")]


def queues_by_step(text):
    """After each step with a line, how many messages each queue has; and the number of the last step."""
    queues = {}
    for line in map(json.loads, text.splitlines()):
        if line["event"] == "adds_message":
            queues[line["queue"]] += 1
        elif line["event"] == "takes_message":
            queues[line["queue"]] -= 1
        elif line["event"] == "call" and line["reply"] == "answer" and line["call"] == "msgQCreate":
            queues[line["result"]] = 0
        elif line["event"] == "call" and line["reply"] == "answer" and line["call"] == "msgQDelete":
            queues.pop(line["words"][0], None)
        yield line["step"], dict(queues)


def messages_of_lines(text, first, last):
    """The numbers of messages that lines of JSON give: all of them before the first chosen step, and then each change."""
    after = dict(queues_by_step(text))
    end = max(after)
    before = next((after[step] for step in sorted(after, reverse=True) if step < first), {})
    if end + 1 >= first:
        yield from sorted(before.items())
    for step in sorted(after):
        if first <= step <= last:
            now = after[step]
            yield from ((queue, now[queue]) for queue in sorted(now) if before.get(queue) != now[queue])
            yield from ((queue, 0) for queue in sorted(before) if queue not in now and before[queue])
            before = now


def broken_ready(events, end):
    """The times before the end at which the last number of ready tasks isn't the number of their spans."""
    changes = collections.Counter()
    for it in events:
        if it["ph"] == "X" and it["name"] in ("running", "ready"):
            changes[it["ts"]] += 1
            changes[it["ts"] + it["dur"]] -= 1
    told = {it["ts"]: it["args"]["tasks"] for it in events if it["ph"] == "C" and it["name"] == "ready"}
    there = told_now = 0
    for time in sorted({*changes, *told}):
        there += changes[time]
        told_now = told.get(time, told_now)
        if time < end and there != told_now:
            yield f"{time}: {told_now} ready tasks in place of {there}"


def counter_faults(events, words, whole):
    """What is wrong with the counters; the lines of the whole run say how many messages there are."""
    tracks = [it for it in events if it["ph"] == "C"]
    if "--tasks" in words:
        return ["counters are told"] if tracks else []
    chosen = dict(zip(words[::2], words[1::2]))
    kinds = chosen.get("--kinds", "runs,messages").split(",")
    first, last = int(chosen.get("--from", 1)), int(chosen.get("--to", 2**64))
    expected = list(messages_of_lines(whole, first, last)) if "messages" in kinds else []
    found = [] if messages_of_objects(events) == expected else ["its counters of messages are not the sums of lines"]
    if "runs" in kinds:
        closing = max((it["ts"] + it["dur"] for it in events if it["ph"] == "X"), default=0)
        found += broken_ready(events, closing)
    return found


def spans_of_objects(events):
    return sorted((it["name"].split()[0], it["tid"], it["ts"], it["ts"] + it["dur"])
                  for it in events if it["ph"] == "X" and it["name"].split()[0] in STANDINGS)


def routines_of_objects(events):
    return sorted((it["ts"], it["ts"] + it["dur"]) for it in events if it["ph"] == "X" and it["name"] == "routine")


def bars_of_timeline(svg):
    """The bars of one span, and the times of each task in which short spans share a bar."""
    alone, shared = [], collections.defaultdict(set)
    for kind, task, what, since, until in RECTANGLE.findall(svg):
        if kind.decode() not in STANDINGS:
            continue
        if what.endswith(b" %"):
            shared[int(task)].add((int(since), int(until)))
        else:
            alone.append((kind.decode(), int(task), int(since), int(until)))
    return sorted(alone), {task: sorted(times) for task, times in shared.items()}


def are_those_of_timeline(spans, svg):
    """The spans are those of the timeline; in the time of a shared bar, they are as long as the bar."""
    alone, shared = bars_of_timeline(svg)
    rest, lengths = [], collections.Counter()
    for span in spans:
        name, task, since, until = span
        times = shared.get(task, [])
        place = bisect.bisect_right(times, (since, float("inf"))) - 1
        if place >= 0 and until <= times[place][1]:
            lengths[task, times[place]] += until - since
        else:
            rest.append(span)
    bars = {(task, time): time[1] - time[0] for task, times in shared.items() for time in times}
    return rest == alone and dict(lengths) == bars


def instants_of_objects(events):
    return [(it["tid"], it["name"], it["ts"], it["args"]) for it in events if it["ph"] == "i"]


def instants_of_lines(text):
    """The instants that lines of JSON give: all but instructions, and the end without its tasks."""
    for line in map(json.loads, text.splitlines()):
        rest = {key: value for key, value in line.items() if key not in PLACED}
        if line["event"] == "end":
            rest = {"step": line["step"], "how": line["how"]}
        if line["event"] != "instructions":
            yield line.get("task", 0), line["event"], line["time"], rest


def faults(windtrace, folder, words=(), whole=()):
    """What is wrong with the objects of a session, of which `words` choose a part and `whole` choose none."""
    text = run(windtrace, folder, "chrome", words)
    try:
        events = json.loads(text)
    except ValueError as error:
        return [f"it is no JSON: {error}"]
    found = [*broken_rules(events), *unnamed(events), *broken_flows(events)]
    svg = run(windtrace, folder, "timeline", words)
    if not are_those_of_timeline(spans_of_objects(events), svg):
        found.append("its spans are not those of the timeline")
    if routines_of_objects(events) != sorted((int(since), int(until)) for since, until in ROUTINE.findall(svg)):
        found.append("its routines are not those of the timeline")
    told = run(windtrace, folder, "json-lines", words)
    if instants_of_objects(events) != list(instants_of_lines(told)):
        found.append("its instants are not the objects of the lines")
    all_told = run(windtrace, folder, "json-lines", whole)
    if flows_of_objects(events) != list(flows_of_lines(all_told, told)):
        found.append("its flows are not the waits that calls end")
    found += counter_faults(events, words, all_told)
    lines = text.splitlines()
    for cut in (2, len(lines) // 2):
        try:
            json.loads(b"\n".join(lines[:cut]).rstrip(b",") + b"]")
        except ValueError as error:
            found.append(f"after {cut} lines it is no JSON: {error}")
    return found


def random_faults(windtrace, seed):
    session = replay.Session(seed)
    words = ("--profile", str(session.profile), "--limit", str(replay.LIMIT))
    with tempfile.TemporaryDirectory() as name:
        folder = pathlib.Path(name)
        (folder / "console.txt").write_text(session.console)
        (folder / "ticks.txt").write_text(session.ticks)
        return [f"{' '.join(some)}: {fault}" for some in CHOICES for fault in faults(windtrace, folder, (*words, *some), words)]


def main():
    parser = argparse.ArgumentParser()
    parser.add_argument("windtrace", type=pathlib.Path)
    parser.add_argument("count", nargs="?", type=int, default=200)
    parser.add_argument("seed", nargs="?", type=int, default=1)
    given = parser.parse_args()
    windtrace = given.windtrace.resolve()
    wrong = 0
    with concurrent.futures.ThreadPoolExecutor(2) as pool:
        found = pool.map(lambda it: random_faults(windtrace, given.seed + it), range(given.count))
        for session, texts in enumerate(found):
            wrong += bool(texts)
            for text in texts[:5]:
                print(f"session {session}: {text}")
    print(f"{given.count} sessions, {wrong} are wrong")
    return 1 if wrong or not given.count else 0


if __name__ == "__main__":
    sys.exit(main())
