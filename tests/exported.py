#!/usr/bin/env python3
"""Every exported function has the contract of its own call, and the axioms are those that README names.

Exported are the calls of document 01 by value, their host forms, the functions in C's calling convention, and the line parser, what
makes a line's call, what tells a line's fault, the printer, and the line program on slices. Of each this is asked: no `requires`, and
as `ensures` nothing but the contract record of its kind, at the call of its own name with its own parameters in their order (`new`,
which is no call, and the loss reports, which write lists of their own, have records of their own, and the version a number). The line program asks for what it keeps between lines: its
`requires` and `ensures` stand here word for word. The records themselves are asked to be the contract of every call at the whole step
and the whole soundness. Every call of `Call` and `Query` is exported, and every exported function is of a call there, so that demand 3
speaks of it. The order of refusals is computed for every call.

    tests/exported.py               the test; the logs of ./library and ./program are read, which are run first
    tests/exported.py --selftest    wrong contracts, each of which must be noticed
"""
import re
import subprocess
import sys
from pathlib import Path

ROOT = Path(__file__).resolve().parent.parent
HEAD = re.compile(r'^(?P<indent>[^\S\n]*)(?P<head>(?:pub )?(?:extern "C" )?fn (?P<name>\w+)\((?P<parameters>[^)]*)\).*?)\n(?P=indent)\{', re.DOTALL | re.MULTILINE)
LISTS = ['sequences', 'values', 'pages', 'blocks']
# the crates of each kind of exported function: what stands before the call's name, the two records, and where they are defined
BY_VALUE = ('', 'MeetsBy', 'MeetsInto', 'call_base', 'Answers')
KINDS = {
    'call_read': BY_VALUE,
    'call_point': BY_VALUE,
    'call_retire': BY_VALUE,
    'call_check': BY_VALUE,
    'call_host': ('', 'HostMeetsBy', 'HostMeetsInto', 'call_host', 'Lent'),
    'c_calls': ('packet_window_', 'NumbersMeetBy', 'NumbersMeetInto', 'c_calls', 'Numbers'),
    'c_calls_c': ('packet_window_', 'NumbersMeetBy', 'NumbersMeetInto', 'c_calls', 'Numbers'),
    'c_audit': ('packet_window_', 'NumbersMeetBy', 'NumbersMeetInto', 'c_calls', 'Numbers'),
    'c_host': ('packet_window_host_', 'OutcomeMeetsBy', 'OutcomeMeetsInto', 'c_host', 'Outcomes'),
}
# what is no call: crate, function, its whole contract
OTHERS = {('c_calls', 'packet_window_version'): 'result ≡ version', ('c_calls_c', 'packet_window_version'): 'result ≡ version_of'}
# the loss reports, which have lists of their own: of each function the record, its file in the crate's specs/, the lists after the four
REPORTS = {
    ('call_losses', 'write_losses'): ('WritesLossesBy', 'Reports', ['words']),
    ('call_losses', 'read_losses'): ('ReadsLossesBy', 'Reports', ['words', 'lost']),
    ('c_losses', 'packet_window_write_losses'): ('NumbersWriteLossesBy', 'Promises', ['words']),
    ('c_losses', 'packet_window_read_losses'): ('NumbersReadLossesBy', 'Promises', ['words', 'lost']),
}
# new: crate, function, record, where it is defined
NEW = [('window', 'new', 'NewBy', 'window', 'New'), ('c_calls', 'packet_window_new', 'CreatesBy', 'c_calls', 'Numbers'),
       ('c_calls_c', 'packet_window_new', 'CreatesBy', 'c_calls', 'Numbers')]
TEXT = {'line_text': ['parse'], 'line_calls': ['call', 'live_pairs'], 'line_faults': ['fault_of'], 'line_output': ['put_line', 'put_list', 'put_unknown'],
        'line_program': ['answer_line', 'take_lines', 'take_last', 'note']}
# the functions there that ask for what the line program keeps between lines: every `requires` and `ensures`, word for word
KEPT = 'KeptIn {} sequences.old values.old pages.old blocks.old'
LENT = ' '.join(f'(lent_mut {name})' for name in LISTS)
KEEPS = {
    ('line_program', 'answer_line'): (
        [KEPT.format('w'), 'at ≤ 65536'],
        [f'AnswersBy (λ k. said_line k (gathered line.now length)) w {LENT} (lent_mut out) at result']),
    ('line_program', 'take_lines'): (
        [KEPT.format('p.window'), 'p.from ≤ length part.now'],
        [f'TakesBy p part.now (lent_mut line) {LENT} (lent_mut out) result', 'Stops p (length part.now) result',
         f'Kept (state_of result.window (left_in {LENT}))']),
    ('line_program', 'take_last'): (
        [KEPT.format('p.window'), 'p.at ≤ 65536'],
        [f'EndsBy p (lent line) {LENT} (lent_mut out) result']),
}
# where the order of refusals is computed, at `order`
EXAMPLES = 'crates/model/proofs/Examples.antt'
# what the records say: each line stands in its file, word for word
DEFINED = {
    'crates/model/specs/Contract.antt': ['Does = DoesAs window_step SoundWithPoint', 'Meets = MeetsAs window_step SoundWithPoint'],
    'crates/model/specs/Heads.antt': ['  pub meets : Meets e.call u list left'],
    'crates/window/specs/Lent.antt': [
        'lent x = record { entry = x.entry.now; exit = x.exit.now }',
        'lent_mut x = record { entry = x.entry.now; exit = x.exit.now }'],
    'crates/call_base/specs/Answers.antt': [
        'MeetsBy c w ss vs pages blocks r = Meets c (state_of w (found_in ss vs pages blocks)) [] (left_of r (left_in ss vs pages blocks) [])',
        '    Meets (c (nat_le 384 (length l.entry))) (state_of w (found_in ss vs pages blocks)) l.entry (left_of r (left_in ss vs pages blocks) l.exit)'],
    'crates/line_program/specs/Promises.antt': [
        'KeptIn w s v p b = Kept (state_of w (memory s v p b))',
        '    × Answers (p (kept_of (state_of w (found_in ss vs pages blocks)))) (state_of r.window (left_in ss vs pages blocks)) at out.entry r.at out.exit',
        "  pub answers : Answers (lines_do (kept_of u) (ended (parts 10 (b ++ taken)))) u' at out r.at out'",
        "  pub waits : Holds line' r.length (waiting (parts 10 (b ++ taken)))",
        '  pub notes : r.notes ≡ noted_lines (kept_of u) n (ended (parts 10 (b ++ taken)))'],
    'crates/call_host/specs/Lent.antt': [
        'HostMeetsBy c w ss vs pages blocks r = Meets c (state_of w.entry.now (found_in ss vs pages blocks)) [] (left_at w.exit.now r (left_in ss vs pages blocks) [])',
        '    Meets (c (leb 384 (length l.entry))) (state_of w.entry.now (found_in ss vs pages blocks)) l.entry'],
    'crates/c_calls/specs/Numbers.antt': [
        '  pub numbers : r.answer ≡ numbers_of answer',
        "  pub meets : Meets c u l (record { answer = answer; count = r.count; state = state_of r.window m; list = l' })"],
    'crates/model/specs/Reports.antt': [
        '  pub meets : Meets (ask (write_losses first last (length l))) u [] r',
        '  pub meets : Meets (ask (read_losses first last words (length l))) u [] r',
        "  pub losses : (n : ℕ) → r.answer ≡ found n → SoundWithPoint (window_of u) → take n l' ≡ report_of u first last"],
    'crates/call_losses/specs/Reports.antt': [
        '    WritesLosses first last (state_of w (found_in ss vs pages blocks)) words.entry (left_of r (left_in ss vs pages blocks) []) words.exit',
        '    ReadsLosses first last words.entry (state_of w (found_in ss vs pages blocks)) lost.entry (left_of r (left_in ss vs pages blocks) []) lost.exit'],
    'crates/c_losses/specs/Promises.antt': [
        '  pub numbers : r.answer ≡ numbers_of answer',
        '  pub left : Asked (record { answer = answer; count = r.count; state = state_of r.window m; list = [] })',
        '    InNumbers (λ (left : Left). WritesLosses first last (state_of w (found_in ss vs pages blocks)) words.entry left words.exit) r (left_in ss vs pages blocks)',
        '    InNumbers (λ (left : Left). ReadsLosses first last words.entry (state_of w (found_in ss vs pages blocks)) lost.entry left lost.exit) r (left_in ss vs pages blocks)'],
    'crates/c_host/specs/Outcomes.antt': [
        '  pub numbers : r.answer ≡ numbers_of answer',
        "  pub meets : Meets c u l (record { answer = answer; count = r.count; state = state_of w m; list = l' })"],
}
# of what is compiled, each with what it uses; rt names for these alone what they assume
COMPILED = ['c_calls_c', 'c_audit', 'c_host', 'c_losses', 'windowlines']
AXIOMS = {'windowlines': 'libc::read, libc::write, os::c::rattle_errno'}


class Function:
    def __init__(self, crate, path, found):
        self.crate, self.path, self.name, self.head = crate, path, found['name'], found['head']
        self.kinds = dict(re.findall(r'(\w+):\s*([^,]+)', found['parameters']))
        self.parameters = list(self.kinds)
        self.contracts, self.asks = self.clauses('ensures'), self.clauses('requires')

    def clauses(self, kind):
        """The texts of the clauses of a kind, whatever their names."""
        return [' '.join(text.split()) for text in re.findall(rf'^ +{kind}\*?(?: \w+)? \{{ (.*?) \}}$', self.head, re.DOTALL | re.MULTILINE)]

    def lent(self, names):
        """The lists of these names as a contract has them, by how they are lent."""
        return ' '.join(f"({'lent_mut' if self.kinds[name].startswith('&mut') else 'lent'} {name})" for name in names)

    def wrong(self, text):
        return f'{self.crate}::{self.name}: {text}'


def functions(texts, crate):
    for path, text in texts.items():
        if path.startswith(f'crates/{crate}/src/'):
            for found in HEAD.finditer(text):
                yield Function(crate, path, found)


def imports(text, module):
    """The names that a file takes from a module of specs, by the name it uses: {used: original}."""
    names = {}
    for line in re.findall(rf'^ghost use Rattle\.{module}\.\{{(.*)\}};$', text, re.MULTILINE):
        for name in line.split(', '):
            names[name.split()[-1]] = name.split()[0]
    return names


def specs(crate, module):
    return rf'{crate}\.specs\.{module}'


def constructors(texts):
    """The calls of the model: {name: whether it is a query}."""
    text = texts['crates/model/specs/Calls.antt']
    found = {}
    for kind, query in (('Query', True), ('Call', False)):
        block = re.search(rf'^pub data {kind} : Type 0 where\n((?:  .*\n)+)', text, re.MULTILINE)[1]
        for name in re.findall(r'^  (\w+) :', block, re.MULTILINE):
            if name != 'ask':
                found[name] = query
    return found


def contract(function, call, query, kind, text):
    """What the `ensures` of an exported function of this call must be."""
    prefix, by, into, crate, module = kind
    listed = 'returned' in function.parameters
    lists = LISTS + ['returned'] if listed else LISTS
    record = into if listed else by
    arguments = [p for p in function.parameters if p not in ['w'] + lists]
    calls = [used for used, name in imports(text, r'model\.specs\.Calls').items() if name == call]
    records = imports(text, specs(crate, module))
    if records.get(record) != record:
        return f'{record} does not come from crates/{crate}/specs/{module}.antt'
    wanted = []
    for used in calls:
        made = f"({' '.join([used] + arguments)})" if arguments else used
        made = f'(ask {made})' if query else made
        wanted.append(f'{record} {made} w {function.lent(lists)} result')
    if function.contracts not in [[text] for text in wanted]:
        return f'its contract is {function.contracts}, not {wanted}'
    return None


def problems(texts):
    """What is wrong with the contracts in these files, and the exported functions."""
    wrong, calls, seen = [], constructors(texts), {}
    for crate, kind in KINDS.items():
        for function in functions(texts, crate):
            name = function.name.removeprefix(kind[0])
            exported = 'extern "C"' in function.head if kind[0] else 'pub fn' in function.head and (crate == 'call_host' or name in calls)
            if not exported or (crate, function.name) in [new[:2] for new in NEW]:
                continue
            if (crate, function.name) in OTHERS:
                seen[crate, function.name] = function
                if function.contracts != [OTHERS[crate, function.name]]:
                    wrong.append(function.wrong(f'its contract is {function.contracts}'))
                continue
            seen[crate, function.name] = function
            if name not in calls:
                wrong.append(function.wrong('no call of Call or Query has this name'))
                continue
            said = contract(function, name, calls[name], kind, texts[function.path])
            wrong += [function.wrong(said)] if said else []
    for (crate, name), (record, module, lists) in REPORTS.items():
        for function in functions(texts, crate):
            if function.name == name and 'pub' in function.head:
                seen[crate, name] = function
                taken = LISTS + lists
                wanted = f'{record} first last w {function.lent(taken)} result'
                if function.parameters != ['w', *taken, 'first', 'last'] or function.contracts != [wanted] \
                        or imports(texts[function.path], specs(crate, module)).get(record) != record:
                    wrong.append(function.wrong(f'its contract is {function.contracts}, not {wanted!r}'))
    for crate, name, record, home, module in NEW:
        for function in functions(texts, crate):
            if function.name == name and 'pub' in function.head:
                seen[crate, name] = function
                numbers = [p for p in function.parameters if p not in LISTS]
                wanted = f"{record} {' '.join(numbers)} {function.lent(LISTS)} result"
                if function.contracts != [wanted] or imports(texts[function.path], specs(home, module)).get(record) != record:
                    wrong.append(function.wrong(f'its contract is {function.contracts}, not {wanted!r}'))
    for crate, names in TEXT.items():
        for function in functions(texts, crate):
            if function.name in names and 'pub' in function.head:
                seen[crate, function.name] = function
                if (crate, function.name) in KEEPS:
                    if (function.asks, function.contracts) != KEEPS[crate, function.name]:
                        wrong.append(function.wrong(f'it asks {function.asks} and its contract is {function.contracts}'))
                elif len(function.contracts) != 1:
                    wrong.append(function.wrong('it has no ensures'))
    wrong += [function.wrong('it has a requires') for place, function in seen.items() if 'requires' in function.head and place not in KEEPS]
    names = {name for crate, name in seen}
    wrong += [f'{name} is not exported by value' for name in calls if name not in {n for c, n in seen if KINDS.get(c) == BY_VALUE or c == 'call_losses'}]
    wrong += [f'packet_window_{name} was not found' for name in [*calls, 'new'] if f'packet_window_{name}' not in names]
    wrong += [f'{name} was not found' for names_ in TEXT.values() for name in names_ if name not in names]
    for path, lines in DEFINED.items():
        wrong += [f'{path} does not say: {line.strip()}' for line in lines if line not in texts[path].splitlines()]
    return wrong, list(seen.values())


def found(texts):
    return problems(texts)[1]


def read():
    paths = [*ROOT.glob('crates/*/src/**/*.rt'), *ROOT.glob('crates/*/specs/*.antt')]
    return {str(path.relative_to(ROOT)): path.read_text() for path in paths}


def axioms(crate):
    log = (ROOT / 'target' / f'{crate}.said').read_text()
    return ', '.join(re.findall(r'^axioms \w+: (.*?) \(', log, re.MULTILINE))


# each wrong contract: file, old text, new text
WRONG = [
    # a reflexivity for a contract
    ('crates/c_audit/src/lib.rt', 'NumbersMeetBy (ask (stranger_of first last)) w (lent sequences) (lent values) (lent pages) (lent blocks) result', 'result ≡ result'),
    # the contract of another call
    ('crates/c_audit/src/lib.rt', 'NumbersMeetBy (ask (stranger_of first last))', 'NumbersMeetBy (ask check_of)'),
    ('crates/call_point/src/remove.rt', 'remove as remove_of', 'exchange as remove_of'),
    # another argument
    ('crates/call_read/src/stranger.rt', 'MeetsBy (ask (stranger_of first last))', 'MeetsBy (ask (stranger_of first first))'),
    # the contract of an inner function: what the call does, without its refusals
    ('crates/call_read/src/lib.rt', 'MeetsBy (ask (get_of sequence)) w (lent sequences)', 'AdmittedBy (ask (get_of sequence)) w (lent sequences)'),
    # a record of the same name from elsewhere
    ('crates/call_read/src/lib.rt', 'Rattle.call_base.specs.Answers.{MeetsBy}', 'Rattle.call_read.specs.Promises.{MeetsBy}'),
    # the contract of every call at what the call does, not at the whole step; with a soundness that leaves base and point out; on no window
    ('crates/model/specs/Contract.antt', 'Meets = MeetsAs window_step SoundWithPoint', 'Meets = MeetsAs window_does SoundWithPoint'),
    ('crates/model/specs/Contract.antt', 'Meets = MeetsAs window_step SoundWithPoint', 'Meets = MeetsAs window_step Sound'),
    ('crates/model/specs/Contract.antt', 'Meets = MeetsAs window_step SoundWithPoint', 'Meets = MeetsAs window_step (λ w. ⊥)'),
    # the loss reports: another range, the other call, a list that is written where it should be read
    ('crates/call_losses/src/lib.rt', 'WritesLossesBy first last w', 'WritesLossesBy first first w'),
    ('crates/c_losses/src/lib.rt', 'NumbersReadLossesBy first last w (lent sequences) (lent values) (lent pages) (lent blocks) (lent words) (lent_mut lost) result', 'NumbersWriteLossesBy first last w (lent sequences) (lent values) (lent pages) (lent blocks) (lent words) result'),
    ('crates/model/specs/Reports.antt', 'Meets (ask (read_losses first last words (length l))) u [] r', 'Meets (ask (read_losses first last words 0)) u [] r'),
    # what can be asked of no caller
    ('crates/call_read/src/lib.rt', 'ensures { MeetsBy (ask (get_of sequence))', 'requires { ListsFit w sequences.now values.now pages.now blocks.now }\n    ensures { MeetsBy (ask (get_of sequence))'),
    # an exported call that is no call of the model, and a call that is not exported
    ('crates/model/specs/Calls.antt', '  stranger : (first last : ℕ) → Query\n', ''),
    ('crates/c_audit/src/lib.rt', 'fn packet_window_check(', 'fn packet_window_checked('),
    # the version
    ('crates/c_calls/src/version.rt', 'result ≡ version', 'result ≡ result'),
    # what the exports of c_calls repeat
    ('crates/c_calls_c/src/lib.rt', 'NumbersMeetInto (insert_of sequence value)', 'NumbersMeetInto (insert_of value sequence)'),
    ('crates/c_calls_c/src/lib.rt', 'result ≡ version_of', 'result ≡ result'),
    # new
    ('crates/c_calls/src/lib.rt', 'CreatesBy window_size n demote_at', 'CreatesBy window_size n n'),
    ('crates/call_host/src/lib.rt', 'HostMeetsBy (remove_of sequence) w', 'HostMeetsBy (remove_of 0) w'),
    ('crates/c_host/src/lib.rt', 'OutcomeMeetsInto (release_retired budget)', 'OutcomeMeetsInto (release_retired 256)'),
    # the line program: of no bytes of the line; where it stops is not said; a part that has been taken is not allowed for
    ('crates/line_program/src/answer.rt', 'said_line k (gathered line.now length)', 'said_line k (gathered line.now 0)'),
    ('crates/line_program/src/lib.rt', 'Stops p (length part.now) result', 'result ≡ result'),
    ('crates/line_program/src/lib.rt', '    requires from_in_bounds { p.from ≤ length part.now }', '    requires from_in_bounds { p.from < length part.now }'),
]


def selftest():
    texts = read()
    missed = problems(texts)[0]
    for path, old, new in WRONG:
        if texts[path].count(old) != 1:
            missed.append(f'{path}: the old text stands {texts[path].count(old)} times: {old!r}')
        elif not problems({**texts, path: texts[path].replace(old, new)})[0]:
            missed.append(f'{path}: not noticed: {new!r}')
    for line in missed:
        print(line)
    print(f'{len(WRONG)} wrong contracts, each noticed')
    return 1 if missed else 0


def main():
    if sys.argv[1:] == ['--selftest']:
        return selftest()
    texts = read()
    wrong, seen = problems(texts)
    computed = re.findall(r'\w+', (ROOT / EXAMPLES).read_text().partition('\norder :')[2])
    wrong += [f'{EXAMPLES}: order has no {name}' for name in constructors(texts) if name not in computed]
    for script in ('library', 'program'):
        subprocess.run([ROOT / script], check=True, stdout=subprocess.DEVNULL)
    for crate in COMPILED:
        if axioms(crate) != AXIOMS.get(crate, ''):
            wrong.append(f'{crate} reports the axioms {axioms(crate)!r}')
    readme, named = (ROOT / 'README.md').read_text(), ', '.join(AXIOMS.values()).split(', ')
    wrong += [f'README does not name {name}' for name in named if name not in readme]
    for line in wrong:
        print(line)
    print(f'{len(seen)} exported functions, each with the contract of its own call, {len(named)} axioms in {len(COMPILED)} crates and those that they use')
    return 1 if wrong else 0


if __name__ == '__main__':
    sys.exit(main())
