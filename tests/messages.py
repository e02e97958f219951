#!/usr/bin/env python3
"""What the line program tells on standard error, as built, and the script `lines`.

Standard error is compared byte for byte, and so is standard output beside it: for each fault of a line, for the first `?` of a run and no
later one, for a line past many reads of the input, for a last line without a line feed, and where reading or writing fails.
"""
import os
import subprocess
import sys
import tempfile
from pathlib import Path

ROOT = Path(__file__).resolve().parent.parent
PROGRAM = ROOT / 'target/bin/windowlines'
SCRIPT = ROOT / 'lines'
CRATE = ROOT / 'crates/windowlines'
FAULTS = ROOT / 'crates/line_faults/src/lib.rt'
LONG = ': longer than any call'
CARRIAGE_RETURN = ': a carriage return in it, lines end in a line feed alone'
SPACE = ': a space in it, fields are parted by one tab'
LETTER = ': its first part is no letter of a call'
FIELD_COUNT = ': another number of fields than its letter takes'
FIELD = ': a field is no decimal number up to 4294967295 without leading zeros'
WINDOW_SIZE = ': a window_size above 4096'
NO_WINDOW = ' yet: an n must be taken first'
# a line that is no call, with a window and without, and what is told of it
LINES = [
    (b'i\t' + b'5' * 63, LONG),
    (b'x' * 64 + b' \r', LONG),
    (b'x' * 70000, LONG),
    (b'c\r', CARRIAGE_RETURN),
    (b'g\t5\r', CARRIAGE_RETURN),
    (b'g 5\r', CARRIAGE_RETURN),
    (b'x\t\r', CARRIAGE_RETURN),
    (b'g 5', SPACE),
    (b'g\t5 ', SPACE),
    (b'x 5', SPACE),
    (b'n 64\t2\t1', SPACE),
    (b'', LETTER),
    (b'x', LETTER),
    (b'x\t1', LETTER),
    (b'G\t5', LETTER),
    (b'\tg\t5', LETTER),
    (b'ii\t5\t6', LETTER),
    (b'gg', LETTER),
    (b'\xff\x00', LETTER),
    (b'5', LETTER),
    (b'x' * 64, LETTER),
    (b'g', FIELD_COUNT),
    (b'g\t5\t6', FIELD_COUNT),
    (b'i\t5', FIELD_COUNT),
    (b'l\t1', FIELD_COUNT),
    (b'c\t', FIELD_COUNT),
    (b'n\t64\t2', FIELD_COUNT),
    (b'n\t64\t2\t1\t', FIELD_COUNT),
    (b'g\t', FIELD),
    (b'g\t05', FIELD),
    (b'g\t+5', FIELD),
    (b'g\t-1', FIELD),
    (b'g\t4294967296', FIELD),
    (b'g\t' + b'9' * 60, FIELD),
    (b'i\t5\t5x', FIELD),
    (b'n\t04096\t2\t1', FIELD),
    (b'n\t4097\t2\t1', WINDOW_SIZE),
    (b'n\t4294967295\t64\t99', WINDOW_SIZE),
]
# calls, where there is no window
CALLS = [b'i\t5\t6', b'g\t5', b'r\t5', b's\t5', b'f\t5', b'e\t5\t6', b'd\t5\t6', b'q\t5\t6', b'b\t5', b'v\t5', b'c', b'l']
NEW, MADE = b'n\t64\t2\t1\n', b'n\t.\t0\t0\t0\t0\n'
WRITE_FAILED = b'windowlines: standard output could not be written, answers are lost\n'
READ_FAILED = b'windowlines: standard input could not be read, calls are lost\n'
count = 0


def told(number, what):
    return f'windowlines: line {number} is no call{what}\n'.encode()


def same(name, got, wanted):
    global count
    count += 1
    for what, a, b in zip(('status', 'standard output', 'standard error'), got, wanted):
        if a != b:
            raise SystemExit(f'{name}: {what} is {a!r:.400}, wanted is {b!r:.400}')


def program(name, data, output, error):
    done = subprocess.run([PROGRAM], input=data, capture_output=True, timeout=60)
    same(name, (done.returncode, done.stdout, done.stderr), (0, output, error))


def faults():
    for line, what in LINES:
        program(f'{line[:40]!r}', NEW + line + b'\n', MADE + b'?\n', told(2, what))
        if line:
            program(f'{line[:40]!r} without a line feed', NEW + line, MADE + b'?\n', told(2, what))
        program(f'{line[:40]!r} before n', line + b'\n', b'?\n', told(1, what))
    for line in CALLS:
        program(f'{line!r} before n', line + b'\n', b'?\n', told(1, NO_WINDOW))
        program(f'{line!r} after a refused n', b'n\t0\t2\t1\n' + line + b'\n', b'n\t!1\t0\t0\t0\t0\n?\n', told(2, NO_WINDOW))
    tried = {what for _, what in LINES} | {NO_WINDOW}
    known = FAULTS.read_text().partition('pub enum Fault {')[2].partition('\n}')[0]
    named = [line for line in known.splitlines() if line.strip() and not line.strip().startswith('//')]
    if len(tried) != len(named):
        raise SystemExit(f'{len(tried)} kinds of faults are tried, and Fault has {len(named)}')


def runs():
    program('nothing', b'', b'', b'')
    program('calls alone', NEW + b'l\n' * 3, MADE + b'l\t0\t0\t0\t0\t0\n' * 3, b'')
    program('a refusal', NEW + b'v\t257\n', MADE + b'v\t!8\t0\t0\t0\t0\n', b'')
    program('the first of three', NEW + b'c\nx\ng 5\n\n', MADE + b'c\t.\t0\t0\t0\t0\n' + b'?\n' * 3, told(3, LETTER))
    # over several reads: 65,536 bytes each
    many = 300000
    program('a late line', NEW + b'c\n' * many + b'g 5\nx\n', MADE + b'c\t.\t0\t0\t0\t0\n' * many + b'?\n?\n', told(many + 2, SPACE))
    program('many faults', b'x\n' * many, b'?\n' * many, told(1, LETTER))
    answers = (CRATE / 'stdout').read_bytes()
    program("the crate's own input", (CRATE / 'stdin').read_bytes(), answers, told(1, NO_WINDOW))
    for path in sorted((ROOT / 'examples/lines').glob('*.in')):
        program(path.name, path.read_bytes(), path.with_suffix('.out').read_bytes(), b'')


def failures():
    data = NEW + b'c\n'
    with open('/dev/full', 'wb') as full:
        done = subprocess.run([PROGRAM], input=data, stdout=full, stderr=subprocess.PIPE, timeout=60)
        same('a full device', (done.returncode, b'', done.stderr), (0, b'', WRITE_FAILED))
    done = subprocess.run(['sh', '-c', 'exec "$0" >&-', PROGRAM], input=data, capture_output=True, timeout=60)
    same('a closed output', (done.returncode, done.stdout, done.stderr), (0, b'', WRITE_FAILED))
    folder = os.open(ROOT, os.O_RDONLY)
    done = subprocess.run([PROGRAM], stdin=folder, capture_output=True, timeout=60)
    os.close(folder)
    same('a folder for input', (done.returncode, done.stdout, done.stderr), (0, b'', READ_FAILED))
    done = subprocess.run(['sh', '-c', 'exec "$0" 2>&-', PROGRAM], input=b'x\n' + data, capture_output=True, timeout=60)
    same('a closed standard error', (done.returncode, done.stdout), (0, b'?\n' + MADE + b'c\t.\t0\t0\t0\t0\n'))


def script(name, words, wanted, data=b'', cwd=ROOT):
    done = subprocess.run([SCRIPT, *words], input=data, capture_output=True, timeout=60, cwd=cwd)
    same(f'lines, {name}', (done.returncode, done.stdout, done.stderr), wanted)


def scripts():
    with tempfile.TemporaryDirectory() as name:
        folder = Path(name)
        for file, text in {'new.in': NEW, 'one.in': b'i\t5\t50', 'two.in': b'g\t5\n', 'bad file.in': b'c\ng 5\n', '-o': NEW, 'empty.in': b''}.items():
            (folder / file).write_bytes(text)
        inserted, found, cleared = b'i\t+\t1\t0\t0\t0\n', b'g\t50\t1\t0\t0\t0\n', b'c\t.\t0\t0\t0\t0\t50\n'
        script('one file', ['new.in'], (0, MADE, b''), cwd=folder)
        script('standard input', [], (0, MADE, b''), NEW)
        script('a fault on standard input', [], (1, b'?\n', told(1, LETTER)), b'x\n')
        script('files as one input', ['new.in', 'one.in', 'empty.in', 'two.in'], (0, MADE + inserted + found, b''), cwd=folder)
        script('a fault in the last', ['new.in', 'one.in', 'bad file.in'], (1, MADE + inserted + cleared + b'?\n', told(4, SPACE)), cwd=folder)
        script('a file named as an option', ['--', '-o'], (0, MADE, b''), cwd=folder)
        for words in (['-o', 'out', 'new.in', 'one.in'], ['new.in', '-o', 'out', 'one.in'], ['new.in', 'one.in', '-o', 'out']):
            (folder / 'out').write_bytes(b'old')
            script('an output', words, (0, b'', b''), cwd=folder)
            same('lines, what is put out', (0, (folder / 'out').read_bytes()), (0, MADE + inserted))
        script('a missing file', ['new.in', 'three.in'], (1, b'', b'lines: no such file: three.in\n'), cwd=folder)
        script('a folder', [name], (1, b'', f'lines: a folder, not a file: {name}\n'.encode()))
        script('the input as output', ['-o', 'new.in', 'new.in'], (1, b'', b'lines: the output would overwrite the input: new.in\n'), cwd=folder)
        same('lines, the input', (0, (folder / 'new.in').read_bytes()), (0, NEW))
        script('an output that cannot be', ['-o', 'no/out', 'new.in'], (1, b'', b'lines: cannot be written: no/out\n'), cwd=folder)
        script('a full output', ['-o', '/dev/full', 'new.in'], (1, b'', WRITE_FAILED), cwd=folder)
        script('-o alone', ['-o'], (2, b'', b'lines: after -o comes the name of a file; see ./lines --help\n'))
        script('another option', ['-x'], (2, b'', b'lines: no such option: -x; see ./lines --help\n'))
    done = subprocess.run([SCRIPT, '--help'], capture_output=True, text=True, timeout=60)
    if done.returncode != 0 or not done.stdout.startswith('usage: ./lines ') or 'this script is not' not in done.stdout:
        raise SystemExit(f'lines --help: {done.stdout}{done.stderr}')


def main():
    if not PROGRAM.exists():
        raise SystemExit(f'{PROGRAM} is not built: ./program')
    faults()
    runs()
    failures()
    scripts()
    print(f'{count} runs, each with the messages wanted')
    return 0


if __name__ == '__main__':
    sys.exit(main())
