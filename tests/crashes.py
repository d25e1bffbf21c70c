#!/usr/bin/env python3
"""Kills live sessions between any two of their system calls, and replays what each leaves.

What a session had shown has to be a prefix of what the replay of its record writes, and of what a session shows that
goes on from it; this one's record has to replay what it showed. A session that sets an older
record aside has to leave each of its files under its name or with `.old`. A session is stopped at each of its system
calls by ptrace, and killed there. Linux on x86-64 and AArch64 only. It prints a line for each session that differs,
and one that counts them. It ends with 1 if one differs.

usage: tests/crashes.py LIVE PLAY
"""
import ctypes
import os
import signal
import subprocess
import sys
import tempfile

TYPED = b'1+2\n.ticks 2\ns = semBCreate(0, 0)\nsemTake s, 2\n.ticks 3\n.irqs 2 every 9 0\n.ticks 2 every 30\nprintf("%d\\n", tickGet())\n'
# What is typed after a crash.
MORE = b'7+8\n.ticks 9\n'
# The files of an older record.
OLDER = {'console.txt': b'an older console', 'ticks.txt': b'an older tick file', 'command.txt': b'older words'}
# Requests of ptrace, and an option of it: a child doesn't outlive its tracer.
TRACE_ME, NEXT_CALL, SET_OPTIONS = 0, 24, 0x4200
EXIT_KILL = 0x100000

libc = ctypes.CDLL(None, use_errno=True)
libc.ptrace.argtypes = [ctypes.c_long, ctypes.c_long, ctypes.c_void_p, ctypes.c_void_p]


def start(program, folder, shown, *words):
    """A traced session, stopped before its first instruction."""
    child = os.fork()
    if child:
        os.waitpid(child, 0)
        libc.ptrace(SET_OPTIONS, child, None, EXIT_KILL)
        return child
    os.chdir(folder)
    os.dup2(os.open('typed', os.O_RDONLY), 0)
    os.dup2(shown, 1)
    os.dup2(os.open('/dev/null', os.O_WRONLY), 2)
    libc.ptrace(TRACE_ME, 0, None, None)
    os.execv(program, [program, '--record=r', '--quiet-after=500', *words])
    return None


def killed_after(program, folder, count, typed, *words):
    """What a session showed that was killed at its stop with this number, and whether it came so far."""
    with open(os.path.join(folder, 'typed'), 'wb') as file:
        file.write(typed)
    path = os.path.join(folder, 'shown')
    shown = os.open(path, os.O_WRONLY | os.O_CREAT, 0o600)
    child = start(program, folder, shown, *words)
    os.close(shown)
    came = True
    for _ in range(count):
        libc.ptrace(NEXT_CALL, child, None, None)
        _, status = os.waitpid(child, 0)
        if not os.WIFSTOPPED(status):
            came = False
            break
    if came:
        os.kill(child, signal.SIGKILL)
        os.waitpid(child, 0)
    with open(path, 'rb') as file:
        return file.read(), came


def replayed(program, folder):
    """What the replay of the record wrote; nothing if there is no record yet."""
    try:
        with open(os.path.join(folder, 'r', 'command.txt'), encoding='utf-8') as file:
            words = file.read().split('\n')[:-1]
    except FileNotFoundError:
        return b''
    done = subprocess.run([program, *words], cwd=os.path.join(folder, 'r'), capture_output=True, timeout=100)
    return done.stdout


def goes_on(live, play, folder, shown):
    """Whether a session goes on from the record that a killed one left."""
    begun = os.path.exists(os.path.join(folder, 'r', 'command.txt'))
    words = [live, '--continue=r', '--quiet-after=500']
    done = subprocess.run(words, cwd=folder, input=MORE, capture_output=True, timeout=100, check=False)
    if not begun:
        return done.returncode == 9 and done.stdout == b''
    with open(os.path.join(folder, 'r', 'console.txt'), 'rb') as file:
        console = file.read()
    return (done.returncode == 0 and done.stdout.startswith(shown) and console.endswith(MORE[:4])
            and replayed(play, folder) == done.stdout)


def in_all(live, play):
    """How many sessions were killed at their stops, and how many of them differ."""
    count = differing = 0
    came = True
    while came:
        with tempfile.TemporaryDirectory() as folder:
            count += 1
            shown, came = killed_after(live, folder, count, TYPED)
            again = replayed(play, folder)
            if not again.startswith(shown) or (not came and again != shown):
                differing += 1
                print(f'killed at stop {count}: differs')
            elif not goes_on(live, play, folder, shown):
                differing += 1
                print(f'going on after stop {count}: differs')
    return count, differing


def is_held(folder, name, text):
    """Whether a file of a record has these bytes, under its name or with `.old`."""
    for path in (name, name + '.old'):
        try:
            with open(os.path.join(folder, 'r', path), 'rb') as file:
                if file.read() == text:
                    return True
        except FileNotFoundError:
            pass
    return False


def in_all_with_older(live):
    """The same of sessions that set an older record aside."""
    count = differing = 0
    came = True
    while came:
        with tempfile.TemporaryDirectory() as folder:
            count += 1
            os.mkdir(os.path.join(folder, 'r'))
            for name, text in OLDER.items():
                with open(os.path.join(folder, 'r', name), 'wb') as file:
                    file.write(text)
            _, came = killed_after(live, folder, count, b'1\n', '--force')
            if not all(is_held(folder, name, text) for name, text in OLDER.items()):
                differing += 1
                print(f'killed at stop {count} with an older record: differs')
    return count, differing


def main():
    """Kills a session at each of its stops."""
    if len(sys.argv) != 3:
        print(__doc__.strip().split('\n')[-1], file=sys.stderr)
        return 2
    live, play = (os.path.abspath(path) for path in sys.argv[1:])
    sessions = [in_all(live, play), in_all_with_older(live)]
    count, differing = (sum(numbers) for numbers in zip(*sessions))
    print(f'killed sessions: {count}, differing: {differing}')
    return 1 if differing else 0


if __name__ == '__main__':
    sys.exit(main())
