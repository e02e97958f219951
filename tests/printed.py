#!/usr/bin/env python3
"""Files of calls as theorems: the prover runs the line program's definition, `windowlines` (crates/line_program/specs/Program.antt).

    tests/printed.py                the recorded files by hand and those of examples/lines
    tests/printed.py CALLS.in ..    these files; the answers are in CALLS.out
    tests/printed.py --selftest     one thing falsified at a time: each must be refused

The theorem of a file says that `windowlines` of the bytes of its calls is the bytes of its answers, up to line LINES. The proof is
`refl`: the prover computes. tests/runs.py asks more of the calls; here it is how lines are parted and read, what is kept between
them, and what is printed, byte for byte.
"""
import re
import sys
import time
from pathlib import Path

import runs

ROOT = runs.ROOT
EXAMPLES = ROOT / 'examples/lines'
# those whose definitions are run
CRATES = [*runs.CRATES, 'line_text', 'line_output', 'line_calls', 'line_program']
LINES = 100  # of a file; on large windows a search is costly, and longer lists meet the kit's limit of steps for a theorem

HEAD = '''-- Files of calls and what is printed for them, by computation. Written by tests/printed.py. Assumes nothing.
use mathlib.Core.Path.{◌≡◌, refl}
use mathlib.Core.List.{List, [], ◌∷◌}
use Prim.Native.Nat.{ℕ}
@USES@

-- names every definition that computes
unfoldable everything : ℕ
unfolding @UNFOLDING@
everything = 0
'''


def listed(data):
    return '(' + ' ∷ '.join([*map(str, data), '[]']) + ')'


class Module:
    """The text of a module, and what each of its theorems is about."""

    def __init__(self, name):
        found = list(runs.unfoldable(CRATES))
        uses = '\n'.join('use %s.{%s}' % (module, ', '.join(names)) for module, names in found)
        names = ' '.join(name for _, names in found for name in names)
        self.name, self.lines, self.theorems = name, [HEAD.replace('@USES@', uses).replace('@UNFOLDING@', names)], {}

    def prove(self, about, calls, answers):
        name = 'file-%d' % (len(self.theorems) + 1)
        self.lines += ['%s : windowlines %s ≡ %s' % (name, listed(calls), listed(answers)), 'unfolding everything', '%s = refl' % name, '']
        self.theorems[name] = about


def prove(module):
    return runs.prove({'printed': [module]}, CRATES, {})


def beginning(data):
    """Up to line LINES; its line feed may be missing at the end of the file."""
    return b''.join(re.findall(rb'[^\n]*\n|[^\n]+', data)[:LINES])


def by_hand():
    files = [path for path in runs.RECORDED.glob('*.in') if not path.name.startswith('generate') and not path.name.endswith('.large.in')]
    return sorted(files) + sorted(EXAMPLES.glob('*.in'))


def check(paths):
    began, module, lines = time.time(), Module('Files'), 0
    for path in paths:
        calls, answers = beginning(path.read_bytes()), beginning(path.with_suffix('.out').read_bytes())
        lines += answers.count(b'\n')
        module.prove(path.name, calls, answers)
    proved, errors = prove(module)
    for _, theorem, message in errors[:10]:
        found = runs.difference(message)
        print('%s: %s' % (module.theorems.get(theorem, theorem), 'recorded is %s, the definition gives %s' % found if found else message[:1000]))
    if not proved:
        return 1
    print('%d lines of %d files by the definition of the line program, in %d s' % (lines, len(module.theorems), time.time() - began))
    return 0


# ---- the test can fail

TRUE_CALLS = b'l\nn\t64\t2\t1\ni\t5\t50\ni\t9\t90\n\nn\t64\t2\t3\nl\nc'
TRUE_ANSWERS = b'?\nn\t.\t0\t0\t0\t0\ni\t+\t1\t0\t0\t0\ni\t+\t2\t0\t0\t0\n?\nn\t!3\t2\t0\t0\t0\nl\t2\t2\t0\t0\t0\t5:50\t9:90\nc\t.\t0\t0\t0\t0\t50\t90\n'
# what is falsified, the text of the answers before and after
FALSE = [
    ('an answer', b'i\t+\t2', b'i\t-\t2'),
    ('a count', b'i\t+\t2', b'i\t+\t3'),
    ('a refusal', b'!3', b'!2'),
    ('the counts at a refused n', b'!3\t2', b'!3\t0'),
    ('a pair listed', b'9:90', b'9:91'),
    ('the order of pairs', b'5:50\t9:90', b'9:90\t5:50'),
    ('a value dropped', b'\t50\t90\n', b'\t50\n'),
    ('what is printed for an empty line', b'0\n?\nn', b'0\nn'),
    ('a tab', b'l\t2\t2', b'l 2\t2'),
    ('the last line feed', b'\t50\t90\n', b'\t50\t90'),
]


def selftest():
    module = Module('Files')
    module.prove('as it is', TRUE_CALLS, TRUE_ANSWERS)
    for about, before, after in FALSE:
        if TRUE_ANSWERS.count(before) != 1:
            raise SystemExit('%r is not once in the answers' % before)
        module.prove(about, TRUE_CALLS, TRUE_ANSWERS.replace(before, after))
    _, errors = prove(module)
    # text that does not parse is no refusal
    refused = {module.theorems.get(theorem, theorem) for _, theorem, message in errors if 'computed as far as they go, the two types' in message}
    wrong = ['not refused: ' + about for about, _, _ in FALSE if about not in refused]
    wrong += ['refused: ' + about for about in sorted(refused - {about for about, _, _ in FALSE})]
    wrong += ['%s: %s' % (theorem, message[:300]) for _, theorem, message in errors if theorem not in module.theorems]
    for line in wrong:
        print(line)
    if not wrong:
        print('%d falsified, each refused: %s' % (len(FALSE), ', '.join(about for about, _, _ in FALSE)))
    return 1 if wrong else 0


if __name__ == '__main__':
    if sys.argv[1:] == ['--selftest']:
        sys.exit(selftest())
    sys.exit(check([Path(argument) for argument in sys.argv[1:]] or by_hand()))
