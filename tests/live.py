#!/usr/bin/env python3
"""Plays live sessions with LIVE, and replays each by the words of its record with PLAY.

A replay has to write the same bytes, and to end as the session did: with status 0 if nothing was left to do, else
with status 3 at its limit. A few sessions are typed by hand, and 300 at random; in these, modules are replaced between
loads, and the script `play` replays each. It prints a line for each session that differs, and one that counts them. It
ends with 1 if one differs.

usage: tests/live.py LIVE PLAY
"""
import os
import random
import resource
import shutil
import subprocess
import sys
import tempfile

TOP = os.path.dirname(os.path.dirname(os.path.abspath(__file__)))

LINES = [
    b'1+2', b's = semBCreate(0, 0)', b'semGive s', b'semTake s, 3', b'm = semMCreate(13)', b'semTake m, -1', b'semGive m',
    b'taskDelay 2', b'sp taskDelay, 3', b'sp semTake, m, -1', b'i', b'tickGet', b'printf("%d\\n", tickGet())', b'w = wdCreate()',
    b'wdStart w, 2, semGive, s', b'*0x1000 = 0x48000000', b'1 +', b'', b'a' * 300, b'\xff\xfe\x00', b'x = 5; y = x * 2; y',
]
LOADS = [b'ld < f.o', b'ld < f.o', b'ld < g.o', b'ld < ../f.o', b'ld < no.o', b'unld "f.o"', b'&worker', b'sum 4', b'sp worker, s, s', b'worker']
DOTS = [
    b'.ticks 1', b'.ticks 3', b'.ticks 4 every 7', b'.ticks 2 every 300', b'.irq 0', b'.irq 9', b'.irqs 3 every 20 2', b'.irqs 2 every 1 1', b'.run 5',
    b'.run 100', b'.break', b'.state', b'.save', b'.help',
]

# Modules that define different symbols, or the same ones differently.
MODULES = ['function/function.o', 'deadlock/deadlock.o', 'device_interrupt/worker.o', 'turns/turns.o']

# The files of a record.
RECORD = ('console.txt', 'ticks.txt', 'command.txt')

# A line that shows that the lines before it have been read.
MARK = b'.nothing\n'

# A task that never waits.
BUSY = b'*0x1000 = 0x48000000\nsp 0x1000\n'


def live(program, folder, typed, *words, **more):
    """A session in a folder with a record: its status, what it showed, and what it said."""
    done = subprocess.run([program, '--record=r', *words], cwd=folder, input=typed, capture_output=True, timeout=100, **more)
    return done.returncode, done.stdout, done.stderr


def place(module, folder, name):
    """Makes a file of the folder of modules a copy of an example's module."""
    shutil.copyfile(os.path.join(TOP, 'examples', module), os.path.join(folder, 'm', name))


def read_to_mark(stream):
    """Reads messages up to the one for the mark, or to the end."""
    for line in stream:
        if line.startswith(b'windlive: unknown'):
            return


def live_in_pieces(program, folder, pieces, *words):
    """A session in a folder with a record, whose module f.o is replaced before each piece: its status and what it showed."""
    with open(os.path.join(folder, 'shown'), 'w+b') as shown:
        play = subprocess.Popen([program, '--record=r', '--modules=m', *words], cwd=folder, stdin=subprocess.PIPE, stdout=shown, stderr=subprocess.PIPE)
        for module, typed in pieces:
            place(module, folder, 'f.o')
            play.stdin.write(typed + MARK)
            play.stdin.flush()
            read_to_mark(play.stderr)
        play.communicate(b'1+', timeout=100)
        shown.seek(0)
        return play.returncode, shown.read()


def replay_by_script(folder):
    """The status of the replay of a record by the script `play`, and what it wrote."""
    done = subprocess.run([os.path.join(TOP, 'play'), 'r'], cwd=folder, capture_output=True, timeout=100)
    return done.returncode, done.stdout


def replay(program, folder):
    """The status of the replay of a record, from its own folder, and what it wrote."""
    record = os.path.join(folder, 'r')
    with open(os.path.join(record, 'command.txt'), encoding='utf-8') as file:
        words = file.read().split('\n')[:-1]
    done = subprocess.run([program, *words], cwd=record, capture_output=True, timeout=100)
    return done.returncode, done.stdout


def held(folder, name):
    """The bytes of a file of a record."""
    with open(os.path.join(folder, 'r', name), 'rb') as file:
        return file.read()


class Cases:
    """Counts the cases, and tells of those that differ."""

    def __init__(self, live_program, play_program):
        self.live = live_program
        self.play = play_program
        self.count = 0
        self.differing = 0

    def check(self, name, holds):
        self.count += 1
        if not holds:
            self.differing += 1
            print(f'{name}: differs')

    def session(self, name, typed, *words, status=0, replayed=(0, 3), console=None, ticks=None, shown=None, said=None, before=None):
        """A session, its record and its replay."""
        with tempfile.TemporaryDirectory() as folder:
            os.mkdir(os.path.join(folder, 'r'))
            if before:
                before(folder)
            ended, out, err = live(self.live, folder, typed, *words)
            again, bytes_again = replay(self.play, folder)
            self.check(name, ended == status and again in replayed and bytes_again == out
                       and (console is None or held(folder, 'console.txt') == console)
                       and (ticks is None or held(folder, 'ticks.txt') == ticks)
                       and (shown is None or shown in out) and (said is None or said in err))


def random_line(dice):
    """A line for the board, or one for the program."""
    return dice.choice(dice.choice([LINES, LINES, LOADS, DOTS]))


def random_session(dice):
    """The pieces of a session, with the module that each finds as f.o."""
    pieces = []
    for _ in range(dice.randrange(1, 5)):
        typed = b''.join(random_line(dice) + b'\n' for _ in range(dice.randrange(1, 6)))
        pieces.append((dice.choice(MODULES), typed))
    return pieces


def at_random(cases, seed):
    """A session of this seed, its record and its replay."""
    with tempfile.TemporaryDirectory() as folder:
        for name in ('m', 'r'):
            os.mkdir(os.path.join(folder, name))
        place('modules/talk.o', folder, 'g.o')
        status, shown = live_in_pieces(cases.live, folder, random_session(random.Random(seed)), '--quiet-after=2000')
        again, shown_again = replay_by_script(folder)
        cases.check(f'random session {seed}', status == 0 and again in (0, 3) and shown_again == shown)


def by_hand(cases):
    """The cases that a session at random may miss."""
    cases.session('a sum', b'1+2\n', console=b'1+2\n', shown=b'value = 3 = 0x3\n', replayed=(0,))
    cases.session('nothing typed', b'', console=b'', replayed=(0,))
    cases.session('the input ends in a line', b'1+2', console=b'1+2')
    cases.session('a line of 300 bytes', b'a' * 300 + b'\n', console=b'a' * 300 + b'\n')
    cases.session('a line of 5000 bytes', b'b' * 5000 + b'\n', console=b'b' * 5000 + b'\n')
    cases.session('bytes that are no text', b'\xff\xfe\x80\n1\n', console=b'\xff\xfe\x80\n1\n')
    cases.session('ticks', b'taskDelay 3; tickGet\n.ticks 5\n', shown=b'value = 3 = 0x3', said=b'windlive: events sent: 5\n', replayed=(0,))
    cases.session('no ticks over a busy task', BUSY + b'.ticks 3\n', '--quiet-after', '1000', said=b'windlive: events sent: 0\n')
    cases.session('ticks over a busy task', BUSY + b'.ticks 3 every 100\ntickGet\n', '--quiet-after', '1000', shown=b'value = 3 = 0x3',
                  said=b'windlive: events sent: 3\n')
    cases.session('the times of ticks', b'.ticks 3 every 100\n', said=b'windlive: events sent: 3\n', ticks=b'tick 101\ntick 201\ntick 301\n',
                  replayed=(0,))
    cases.session('an interrupt', b'.irq 2\n', said=b'windlive: events sent: 1\n', ticks=b'irq 2 2\n', replayed=(0,))
    cases.session('interrupts', b'.irqs 2 every 10 0\n', said=b'windlive: events sent: 2\n', ticks=b'irq 11 0\nirq 21 0\n', replayed=(0,))
    cases.session('an interrupt of an empty slot', b'.irq 3\n', said=b'windlive: not sent: slot 3 has no device\n', ticks=b'', replayed=(0,))
    cases.session('too many ticks', b'.ticks 100000 every 1\n', said=b'events sent: 9', replayed=(0, 3))
    for line in (b'.ticks 1 every 0', b'.ticks 1 every 1000001', b'.ticks 1 every', b'.ticks 1 every 2 3', b'.irq 16', b'.irq', b'.irqs 1 every 2',
                 b'.irqs 1 every 2 16', b'.ticks  1 every 2'):
        cases.session(f'no line for the program: {line}', line + b'\n', said=b'unknown', ticks=b'', replayed=(0,))
    cases.session('a long line for the program', b'.' + b'c' * 5000 + b'\n1\n', console=b'1\n', said=b'unknown')
    cases.session('a busy loop and a break', b'*0x1000 = 0x48000000\n(0x1000)()\n.run 10\n.break\n7\n', '--quiet-after', '1000',
                  said=b'still running', shown=b'value = 7 = 0x7')
    cases.session('the other rules', b'm = semMCreate(13)\n', '--profile=2', '--board=2', replayed=(0,))
    cases.session('a task that sleeps', b'sp taskDelay, 1\n.ticks 1\n', replayed=(0,))
    full = (b'd' * 4095 + b'\n') * 256
    cases.session('a console file of 1 MiB', full + b'1+2\n.ticks 1\n', console=full, said=b'not sent: console.txt would be longer than 1 MiB')


def modules(cases):
    """A record has the modules that its session loaded, as they were when they were first loaded."""
    with tempfile.TemporaryDirectory() as folder:
        os.mkdir(os.path.join(folder, 'm'))
        place('function/function.o', folder, 'f.o')
        words = [cases.live, '--record=r', '--modules=m']
        play = subprocess.Popen(words, cwd=folder, stdin=subprocess.PIPE, stdout=subprocess.PIPE, stderr=subprocess.PIPE)
        play.stdin.write(b'ld < f.o\n')
        play.stdin.flush()
        shown = until(play.stdout, b'\n-> ')
        place('deadlock/deadlock.o', folder, 'f.o')
        out, err = play.communicate(b'ld < f.o\nld < ../f.o\nld < no.o\n.quit\n', timeout=100)
        cases.check('a module that has changed', b'f.o has changed; this record keeps the first: load it under another name\n' in err)
        cases.check('a name that is a path', b'../f.o isn\'t in the record, since its name is a path\n' in err)
        with open(os.path.join(TOP, 'examples', 'function', 'function.o'), 'rb') as kept:
            cases.check('the copy of a module', kept.read() == held(folder, os.path.join('modules', 'f.o')))
        cases.check('no other file', sorted(os.listdir(folder)) == ['m', 'r'] and os.listdir(os.path.join(folder, 'r', 'modules')) == ['f.o'])
        shutil.rmtree(os.path.join(folder, 'm'))
        os.mkdir(os.path.join(folder, 'elsewhere'))
        os.rename(os.path.join(folder, 'r'), os.path.join(folder, 'elsewhere', 'r'))
        _, again = replay(cases.play, os.path.join(folder, 'elsewhere'))
        cases.check('the replay of a record elsewhere', again == shown + out)


def module_outside(cases):
    """A module whose name leads out of the record's folder of modules isn't copied."""
    with tempfile.TemporaryDirectory() as folder:
        os.mkdir(os.path.join(folder, 'm'))
        place('function/function.o', folder, '../console.txt')
        typed = b'ld < ../console.txt\n'
        _, out, err = live(cases.live, folder, typed, '--modules=m')
        cases.check('a module outside its folder', b'value = ' in out and b'../console.txt isn\'t in the record, since its name is a path\n' in err)
        cases.check('the files of that record', held(folder, 'console.txt') == typed
                    and sorted(os.listdir(os.path.join(folder, 'r'))) == ['command.txt', 'console.txt', 'ticks.txt'])


def until(stream, end):
    """The bytes of a stream up to an end."""
    shown = b''
    while not shown.endswith(end):
        byte = stream.read(1)
        if not byte:
            break
        shown += byte
    return shown


def set_aside(cases):
    """Records that `--force` sets aside."""
    with tempfile.TemporaryDirectory() as folder:
        os.mkdir(os.path.join(folder, 'm'))
        place('function/function.o', folder, 'f.o')
        _, shown, _ = live(cases.live, folder, b'ld < f.o\n', '--modules=m')
        module = held(folder, os.path.join('modules', 'f.o'))
        for count in range(2):
            older = {name: held(folder, name) for name in RECORD}
            place('deadlock/deadlock.o', folder, 'f.o')
            typed = b'%d\nld < f.o\n' % count if count == 0 else b'7\n'
            status, out, _ = live(cases.live, folder, typed, '--modules=m', '--force')
            cases.check(f'--force {count + 1}', status == 0 and held(folder, 'console.txt') == typed
                        and replay(cases.play, folder)[1] == out)
            cases.check(f'the files that --force {count + 1} sets aside', all(held(folder, name + '.old') == older[name] for name in RECORD))
            if count == 0:
                cases.check('the modules that --force sets aside', held(folder, os.path.join('modules.old', 'f.o')) == module
                            and held(folder, os.path.join('modules', 'f.o')) != module)
                os.mkdir(os.path.join(folder, 'older'))
                for name in (*RECORD, 'modules'):
                    path = os.path.join(folder, 'r', name + '.old')
                    copy = shutil.copytree if name == 'modules' else shutil.copyfile
                    copy(path, os.path.join(folder, 'older', name))
                os.rename(os.path.join(folder, 'r'), os.path.join(folder, 'newer'))
                os.rename(os.path.join(folder, 'older'), os.path.join(folder, 'r'))
                cases.check('the replay of a record set aside', replay(cases.play, folder)[1] == shown)
                os.rename(os.path.join(folder, 'r'), os.path.join(folder, 'older'))
                os.rename(os.path.join(folder, 'newer'), os.path.join(folder, 'r'))
    with tempfile.TemporaryDirectory() as folder:
        status, _, _ = live(cases.live, folder, b'1\n', '--force')
        cases.check('--force without a record', status == 0 and sorted(os.listdir(os.path.join(folder, 'r'))) == sorted(RECORD))
    with tempfile.TemporaryDirectory() as folder:
        live(cases.live, folder, b'1\n')
        os.makedirs(os.path.join(folder, 'r', 'ticks.txt.old', 'a folder'))
        older = {name: held(folder, name) for name in RECORD}
        status, out, err = live(cases.live, folder, b'2\n', '--force')
        cases.check('a file that can\'t be set aside', status == 9 and out == b'' and b'can\'t be renamed' in err
                    and held(folder, 'command.txt.old') == older['command.txt'] and held(folder, 'ticks.txt') == older['ticks.txt']
                    and held(folder, 'console.txt') == older['console.txt'])


def put(folder, name, text):
    """Makes these the bytes of a file of a record."""
    with open(os.path.join(folder, 'r', name), 'wb') as file:
        file.write(text)


def go_on(program, folder, *words):
    """A session that goes on from a record: its status, what it showed, and what it said."""
    done = subprocess.run([program, '--continue=r', *words], cwd=folder, input=b'7+8\n', capture_output=True, timeout=100)
    return done.returncode, done.stdout, done.stderr


def going_on(cases):
    """Sessions that go on from a record, whole or torn."""
    typed = b'1+2\n.ticks 2\nprintf("%d\\n", tickGet())\n.irqs 2 every 5 0\n5\n'
    with tempfile.TemporaryDirectory() as folder:
        live(cases.live, folder, typed)
        whole = {name: held(folder, name) for name in RECORD}

        def torn(name, count, status):
            for file in RECORD:
                put(folder, file, whole[file][:count] if file == name else whole[file])
            ended, out, _ = go_on(cases.live, folder)
            if status == 9:
                same = all(held(folder, file) == (whole[file][:count] if file == name else whole[file]) for file in RECORD)
                return ended == 9 and out == b'' and same
            return ended == 0 and out.endswith(b'value = 15 = 0xf\n-> ') and replay(cases.play, folder)[1] == out

        for count in range(len(whole['ticks.txt']) + 1):
            cases.check(f'a tick file cut at {count}', torn('ticks.txt', count, 0))
        last = len(whole['console.txt']) - 2
        for count in range(len(whole['console.txt']) + 1):
            cases.check(f'a console file cut at {count}', torn('console.txt', count, 0 if count >= last else 9))
        for count in range(len(whole['command.txt'])):
            cases.check(f'words cut at {count}', torn('command.txt', count, 9))
        for name, text in (('ticks.txt', b'every 5 10\n'), ('ticks.txt', b'tick  5\n'), ('ticks.txt', b'tick 0\n'), ('ticks.txt', b'# tick 5\n'),
                           ('command.txt', whole['command.txt'].replace(b'--board=1', b'--board=2'))):
            for file in RECORD:
                put(folder, file, text if file == name else whole[file])
            ended, out, err = go_on(cases.live, folder)
            cases.check(f'no record: {text}', ended == 9 and out == b'' and name.encode() in err and held(folder, name) == text)
        for words in (['--record=q'], ['--force']):
            cases.check(f'--continue and {words}', go_on(cases.live, folder, *words)[0] == 1)
        os.remove(os.path.join(folder, 'r', 'console.txt'))
        cases.check('a record without its console file', go_on(cases.live, folder)[0] == 9)
    with tempfile.TemporaryDirectory() as folder:
        os.mkdir(os.path.join(folder, 'm'))
        place('function/function.o', folder, 'f.o')
        _, shown, _ = live(cases.live, folder, b'ld < f.o\nld < no.o\n', '--modules=m')
        place('deadlock/deadlock.o', folder, 'f.o')
        place('deadlock/deadlock.o', folder, 'no.o')
        ended, out, err = go_on(cases.live, folder, '--modules=m')
        cases.check('a record with modules', ended == 0 and out.startswith(shown) and replay(cases.play, folder)[1] == out)


def refusals(cases):
    """Records that stay, or are not written."""
    with tempfile.TemporaryDirectory() as folder:
        os.mkdir(os.path.join(folder, 'r'))
        live(cases.live, folder, b'1\n')
        before = held(folder, 'console.txt')
        status, _, err = live(cases.live, folder, b'2\n')
        cases.check('a record that is there stays', status == 9 and held(folder, 'console.txt') == before and b'--force' in err)
    with tempfile.TemporaryDirectory() as folder:
        status, out, _ = live(cases.live, folder, b'1\n.save\n2\n')
        cases.check('a new folder for the record', status == 0 and b'value = 2' in out and held(folder, 'console.txt') == b'1\n2\n')
    with tempfile.TemporaryDirectory() as folder:
        with open(os.path.join(folder, 'r'), 'wb') as file:
            file.write(b'a file')
        status, out, err = live(cases.live, folder, b'1\n')
        cases.check('a file where the folder would be', status == 9 and out == b'' and b'r: the record was not written' in err)
    with tempfile.TemporaryDirectory() as folder:
        os.mkdir(os.path.join(folder, 'r'))
        with open(os.path.join(folder, 'r', 'command.txt.new'), 'wb') as file:
            file.write(b'somebody else')
        status, out, err = live(cases.live, folder, b'1\n')
        cases.check('a file beside its place', status == 9 and out == b'' and held(folder, 'command.txt.new') == b'somebody else')
    with tempfile.TemporaryDirectory() as folder:
        os.mkdir(os.path.join(folder, 'r'))
        small = lambda: resource.setrlimit(resource.RLIMIT_FSIZE, (0, 0))
        status, out, err = live(cases.live, folder, b'1\n.save\n2\n', preexec_fn=small, restore_signals=False)
        cases.check('a full disk', status == 9 and out == b'' and err.count(b'r: the record was not written') == 1)
    with tempfile.TemporaryDirectory() as folder:
        os.mkdir(os.path.join(folder, 'r'))
        reader, writer = os.pipe()
        os.close(reader)
        done = subprocess.run([cases.live, '--record=r'], cwd=folder, input=b'1\n', stdout=writer, stderr=subprocess.PIPE, timeout=100)
        os.close(writer)
        cases.check('a closed output', done.returncode == 5 and b'writing failed' in done.stderr)
    done = subprocess.run([cases.live], input=b'.save\n1\n', capture_output=True, timeout=100)
    cases.check('no record is asked for', done.returncode == 0 and b'nothing is saved' in done.stderr and b'value = 1' in done.stdout)
    for name in ('--modules=a\nb', '--record=a\nb'):
        done = subprocess.run([cases.live, name], input=b'1\n', capture_output=True, timeout=100)
        cases.check('a name with a line end', done.returncode == 1 and done.stdout == b'' and b'line end' in done.stderr)
    done = subprocess.run([cases.live, '--limit=3'], input=b'', capture_output=True, timeout=100)
    cases.check('words of another program', done.returncode == 1 and done.stdout == b'')


def filling(cases):
    """A disk that fills at each byte: no file may be longer than a limit."""
    typed = b''.join(b'%d+%d\n' % (n, n) for n in range(40)) + b'.ticks 3\n.irqs 3 every 5 0\n'
    for limit in range(500):
        with tempfile.TemporaryDirectory() as folder:
            small = lambda: resource.setrlimit(resource.RLIMIT_FSIZE, (limit, limit))
            status, out, err = live(cases.live, folder, typed, preexec_fn=small, restore_signals=False)
            written = os.path.exists(os.path.join(folder, 'r', 'command.txt'))
            again = replay(cases.play, folder)[1] if written else b''
            told = b'r: the record was not written' in err
            cases.check(f'files of at most {limit} bytes', again == out and told == (status == 9) and status in (0, 9))


def main():
    """Plays all cases."""
    if len(sys.argv) != 3:
        print(__doc__.strip().split('\n')[-1], file=sys.stderr)
        return 2
    cases = Cases(os.path.abspath(sys.argv[1]), os.path.abspath(sys.argv[2]))
    by_hand(cases)
    modules(cases)
    module_outside(cases)
    set_aside(cases)
    going_on(cases)
    refusals(cases)
    filling(cases)
    for seed in range(300):
        at_random(cases, seed)
    print(f'live sessions: {cases.count}, differing: {cases.differing}')
    return 1 if cases.differing else 0


if __name__ == '__main__':
    sys.exit(main())
