#!/usr/bin/env python3
"""Types sessions at a terminal with LIVE, which tools/terminal.sh starts, and replays each with PLAY.

The terminal is one of tmux, on a server of its own; without tmux nothing is typed, and a line says so. It prints a line
for each case that differs, and one that counts them. It ends with 1 if one differs.

usage: tests/terminal.py LIVE PLAY
"""
import os
import shlex
import shutil
import subprocess
import sys
import tempfile
import time

TOP = os.path.dirname(os.path.dirname(os.path.abspath(__file__)))


class Terminal:
    """A terminal in which a shell runs, in a folder of its own."""

    def __init__(self, live, folder):
        self.socket = f'windlive-{os.getpid()}'
        self.folder = folder
        start = f'. {shlex.quote(os.path.join(TOP, "tools", "terminal.sh"))}; typed {shlex.quote(live)} "$@"'
        starter = os.path.join(folder, 'start')
        with open(starter, 'w', encoding='utf-8') as file:
            file.write(f'#!/bin/sh\nset -eu\n{start}\n')
        os.chmod(starter, 0o755)
        shell = ['env', 'PS1=$ ', 'sh']
        self.tmux('new-session', '-d', '-s', 's', '-x', '100', '-y', '50', '-c', folder, shlex.join(shell))

    def tmux(self, *words):
        return subprocess.run(['tmux', '-L', self.socket, '-f', '/dev/null', *words], capture_output=True, text=True, check=False).stdout

    def type(self, text):
        self.tmux('send-keys', '-t', 's', '-l', text)

    def press(self, *keys):
        self.tmux('send-keys', '-t', 's', *keys)

    def line(self, text):
        self.type(text)
        self.press('Enter')

    def paste(self, text):
        path = os.path.join(self.folder, 'pasted')
        with open(path, 'w', encoding='utf-8') as file:
            file.write(text)
        self.tmux('load-buffer', path)
        self.tmux('paste-buffer', '-t', 's')

    def lines(self):
        """The lines of the screen, without the empty ones at its end."""
        return self.tmux('capture-pane', '-p', '-t', 's', '-S', '-').rstrip('\n').split('\n')

    def shows(self, *lines, seconds=60):
        """Waits until these are the last lines of the screen."""
        end = time.time() + seconds
        while time.time() < end:
            if self.lines()[-len(lines):] == list(lines):
                return True
            time.sleep(0.05)
        return False

    def close(self):
        self.tmux('kill-server')


class Cases:
    """Counts the cases, and tells of those that differ."""

    def __init__(self, live, play):
        self.live = live
        self.play = play
        self.count = 0
        self.differing = 0

    def check(self, name, holds, terminal):
        self.count += 1
        if not holds:
            self.differing += 1
            print(f'{name}: differs; the screen:')
            print('\n'.join(terminal.lines()[-12:]))

    def case(self, name, types, console=None):
        """A session with a record: what is typed, and what its console file has at the end."""
        with tempfile.TemporaryDirectory() as folder:
            os.mkdir(os.path.join(folder, 'r'))
            terminal = Terminal(self.live, folder)
            try:
                terminal.line('clear; ./start --record r --quiet-after 2000; echo status $?')
                holds = terminal.shows('->') and types(terminal)
                self.check(name, holds, terminal)
                if console is not None:
                    with open(os.path.join(folder, 'r', 'console.txt'), 'rb') as file:
                        self.check(f'{name}: the console file', file.read() == console, terminal)
                    self.check(f'{name}: the replay', self.replays(folder), terminal)
            finally:
                terminal.close()

    def replays(self, folder):
        """Whether windplay takes the words of the record."""
        record = os.path.join(folder, 'r')
        with open(os.path.join(record, 'command.txt'), encoding='utf-8') as file:
            words = file.read().split('\n')[:-1]
        done = subprocess.run([self.play, *words], cwd=record, capture_output=True, timeout=100, check=False)
        return done.returncode in (0, 3)


def typing(terminal):
    """Each key shows at once, and backspace erases."""
    terminal.type('1+9')
    if not terminal.shows('-> 1+9'):
        return False
    terminal.press('BSpace')
    terminal.type('2')
    if not terminal.shows('-> 1+2'):
        return False
    terminal.press('Enter')
    return terminal.shows('value = 3 = 0x3', '->') and ended(terminal, '.quit')


def dot_line(terminal):
    """A line for the program shows too, and backspace erases in it; an erased `.` leaves the line to the board."""
    terminal.type('.statx')
    terminal.press('BSpace')
    terminal.type('e')
    if not terminal.shows('-> .state'):
        return False
    terminal.press('Enter')
    if not terminal.shows('tShell              1   1 PEND     00000000        0          0'):
        return False
    terminal.type('.')
    terminal.press('BSpace')
    terminal.line('5')
    return terminal.shows('value = 5 = 0x5', '->') and ended(terminal, '.quit')


def interrupt(terminal):
    """^C ends a call that never returns, and the next line may be for the program."""
    terminal.line('*0x1000 = 0x48000000')
    terminal.line('(0x1000)()')
    if not terminal.shows("windlive: still running: tShell; .break aborts the shell's call"):
        return False
    terminal.press('C-c')
    if not terminal.shows('->'):
        return False
    terminal.line('7')
    return terminal.shows('value = 7 = 0x7', '->') and ended(terminal, '.quit')


def held_interrupt(terminal):
    """^C drops a line for the program."""
    terminal.type('.qui')
    terminal.press('C-c')
    if not terminal.shows('->'):
        return False
    terminal.line('7')
    return terminal.shows('value = 7 = 0x7', '->') and ended(terminal, '.quit')


def end_key(terminal):
    """^D ends the session, and the terminal edits lines again."""
    terminal.line('1')
    terminal.press('C-d')
    if not terminal.shows('status 0', '$'):
        return False
    terminal.line('stty -a | tr "; " "\\n\\n" | grep -F -x -e icanon -e echo -e ^C')
    return terminal.shows('^C', 'icanon', 'echo', '$')


def pasted(terminal):
    """A paste of 10,000 lines arrives whole."""
    terminal.paste(''.join(f'{k}\n' for k in range(10000)))
    return terminal.shows('value = 9999 = 0x270f', '->', seconds=300) and ended(terminal, '.quit')


def ended(terminal, line):
    """The session ends by this line."""
    terminal.line(line)
    return terminal.shows('status 0', '$')


def closed_window(cases):
    """A closed window ends the program."""
    with tempfile.TemporaryDirectory() as folder:
        terminal = Terminal(cases.live, folder)
        terminal.line('clear; ./start --quiet-after 2000 & echo $! >pid; fg')
        terminal.shows('->')
        terminal.close()
        with open(os.path.join(folder, 'pid'), encoding='utf-8') as file:
            pid = int(file.read())
        end = time.time() + 20
        while time.time() < end and os.path.exists(f'/proc/{pid}'):
            time.sleep(0.05)
        cases.check('a closed window', not os.path.exists(f'/proc/{pid}'), terminal)


def main():
    """Types all cases."""
    if len(sys.argv) != 3:
        print(__doc__.strip().split('\n')[-1], file=sys.stderr)
        return 2
    if shutil.which('tmux') is None:
        print('sessions at a terminal: left out, tmux is not installed')
        return 0
    cases = Cases(os.path.abspath(sys.argv[1]), os.path.abspath(sys.argv[2]))
    cases.case('typing', typing, b'1+9\x7f2\n')
    cases.case('a line for the program', dot_line, b'5\n')
    cases.case('an interrupt', interrupt, b'*0x1000 = 0x48000000\n(0x1000)()\n\x037\n')
    cases.case('an interrupt in a line for the program', held_interrupt, b'\x037\n')
    cases.case('the key of the end', end_key, b'1\n')
    cases.case('a paste', pasted, b''.join(b'%d\n' % k for k in range(10000)))
    closed_window(cases)
    print(f'sessions at a terminal: {cases.count}, differing: {cases.differing}')
    return 1 if cases.differing else 0


if __name__ == '__main__':
    sys.exit(main())
