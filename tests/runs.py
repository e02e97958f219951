#!/usr/bin/env python3
"""Runs of the line program as theorems: the definitions in crates/*/specs are run themselves, by the prover.

    tests/runs.py                 the recorded runs
    tests/runs.py CALLS.in ..     those of these files; the answers are in CALLS.out, or the oracle gives them
    tests/runs.py --selftest      one thing falsified at a time: each must be refused, at its own theorem

Each line of calls and its line of answers becomes an entry of a list, and the theorem says that the definitions, run from
the window that `new` leaves, give that list again (`replay`): answers, len, retired_held, promotions, demotions, values
returned in order, and for l the pairs of `live_pairs_of` in order. The proof is `refl`: the prover computes. So it does for the
plain table (`table_tells`: what Roles.antt says that the table tells of an answer) and for positions (`placed`).

With the oracle at hand a run is cut into short pieces. A piece ends with the source's own words, which the definitions must
give too (`stands`: header, block words, page words, cells in use), and the next piece begins with the window that has those
words. So no theorem is long, and any call of any run can be asked, on any window, up to the kit's limit of steps for a
theorem. Without the oracle only the first calls of each run are asked.

What is asked is bounded by what it costs (COST). Runs on windows up to SMALL are asked whole, of others some pieces (choose).

To add
- a letter: a row of LETTERS (and of NUMBERS, if it prints a number that is not `found`), and of COST if it searches. A new
  answer: `answer_text`, and `printed` in REPLAY.
- a field of the header: its name in HEADER, at its place in the oracle's line of words. A word of a block: BLOCK. A word of a
  page: `page_text`, and PageWords, page_words_of and page_of in REPLAY.
- an argument of new: `asked` and its clauses in REPLAY. A refusal or another definition: nothing.
"""
import os
import re
import shutil
import subprocess
import sys
import tempfile
import time
from collections import namedtuple
from concurrent.futures import ThreadPoolExecutor
from pathlib import Path

ROOT = Path(__file__).resolve().parent.parent
RECORDED = ROOT / 'tests/recorded'
ORACLE = ROOT / 'oracle/target/oracle'
CRATES = ['words', 'window', 'model']  # those whose definitions are run

# The letters of the line program, each with its call (crates/model/specs/Calls.antt). A return list has 384 places.
LETTERS = {
    'i': 'insert {} {} true', 'g': 'ask (get {})', 'r': 'remove {}', 's': 'ask (successor_after {})', 'f': 'ask (first_from {})',
    'e': 'exchange {} {}', 'd': 'remove_range {} {} true', 'q': 'ask (stranger {} {})', 'b': 'clear_bounded {} true',
    'v': 'release_retired {} true', 'c': 'clear true', 'a': 'set_base {}', 't': 'take_front',
}
NUMBERS = {'q': 'pair {} 0 0 0'}  # what a number says that a letter prints; `found` for the others
# The header's fields in the order in which `oracle --words` prints them (oracle/src/state.rs).
HEADER = ('window_size n demote_at len retired_held release_cursor base point nonempty_summary retired_blocks '
          'single_demotions range_demotions promotions').split()
BLOCK = 3  # words of a block

# What the prover needs for a call, roughly, in thousandths of a second (cost_of): so much, and for a letter that searches so
# much for each position of the window.
CALL = 5
COST = {'s': 0.35, 'f': 0.35, 'q': 0.35, 'd': 0.1, 'l': 0.02}
PIECE = 80      # of a piece. Each change makes a window longer to read, so short pieces are cheaper by the call
FIRST = 250     # of the one piece of a run, where no words are known
SMALL = 256     # windows whose runs are asked whole, and of the table too
SHORT = 100     # entries of such a run that is asked of positions too
RUN = 120       # of a run on a larger window, costly calls apart
LARGEST = 5000  # of a call there; a costlier one is left out, since it may meet the kit's limit of steps

REPLAY = '''-- A run of the line program as a list of entries, and what the definitions make of it. Definitions only. Assumes nothing.
use Rattle.std.specs.Prelude.{Bool, true, false, ◌&&◌, List, [], ◌∷◌, ℕ, zero, suc, eqb}
use Rattle.std.proofs.Math.Option.{Option, none, some}
use Rattle.words.specs.Word.{is_set}
use Rattle.window.specs.declared.AdaptiveReceiverPacketWindow.{AdaptiveReceiverPacketWindow}
use Rattle.model.specs.Calls.{@CALLS@}
use Rattle.model.specs.Roles.{role_of, told_of}
use Rattle.model.specs.Table.{Pair, TableState, table_step}
use Rattle.model.specs.Positions.{Positions, step}
use Rattle.model.specs.Window.{Page, Block, Window, window, no_block, pages_of, blocks_of, live_pairs_of}
use Rattle.model.specs.Steps.{window_step, demotions_of}
@USES@

-- names every definition that computes
unfoldable pub everything : ℕ
unfolding @UNFOLDING@
everything = 0

-- ---- the words of a window, as the source has them: the pages that hold a value, with their cells in use

pub data Cell : Type 0 where
  cell : (number sequence value : ℕ) → Cell

pub data PageWords : Type 0 where
  page : (number kind occupied filled : ℕ) → List Cell → PageWords

pub record Words : Type 0 where
  pub header : AdaptiveReceiverPacketWindow
  pub blocks : List Block
  pub pages : List PageWords

abbrev pub words : AdaptiveReceiverPacketWindow → List Block → List PageWords → Words
words h blocks pages = record { header = h; blocks = blocks; pages = pages }

-- of the n cells from c upwards
abbrev pub cells_from : ℕ → ℕ → Page → List Cell
cells_from zero c p = []
cells_from (suc n) c p = elim (is_set p.filled c) [
  | true ↦ cell c (p.sequences c) (p.values c) ∷ cells_from n (suc c) p
  | false ↦ cells_from n (suc c) p
]

abbrev pub is_empty : Page → Bool
is_empty p = eqb p.kind 0 && (eqb p.occupied 0 && eqb p.filled 0)

abbrev pub page_words_of : ℕ → Page → PageWords
page_words_of g p = page g p.kind p.occupied p.filled (cells_from 64 0 p)

-- of the n pages from g upwards
abbrev pub pages_from : ℕ → ℕ → Window → List PageWords
pages_from zero g w = []
pages_from (suc n) g w = elim (is_empty (w.pages g)) [
  | true ↦ pages_from n (suc g) w
  | false ↦ page_words_of g (w.pages g) ∷ pages_from n (suc g) w
]

abbrev pub blocks_from : ℕ → ℕ → Window → List Block
blocks_from zero b w = []
blocks_from (suc n) b w = w.blocks b ∷ blocks_from n (suc b) w

abbrev pub words_of : Window → Words
words_of w = words w.header (blocks_from (blocks_of w) 0 w) (pages_from (pages_of w) 0 w)

-- ---- a window that has these words; a cell not in use holds its own number, as a sequence that would stand there

abbrev pub sequence_at : List Cell → ℕ → ℕ
sequence_at [] c = c
sequence_at (cell k s v ∷ l) c = elim (eqb c k) [ true ↦ s | false ↦ sequence_at l c ]

abbrev pub value_at : List Cell → ℕ → ℕ
value_at [] c = c
value_at (cell k s v ∷ l) c = elim (eqb c k) [ true ↦ v | false ↦ value_at l c ]

abbrev pub page_of : ℕ → ℕ → ℕ → List Cell → Page
page_of kind occupied filled cells = record {
  kind = kind;
  occupied = occupied;
  filled = filled;
  sequences = sequence_at cells;
  values = value_at cells;
}

abbrev pub page_in : List PageWords → ℕ → Page
page_in [] g = page_of 0 0 0 []
page_in (page k kind occupied filled cells ∷ l) g =
    elim (eqb g k) [ true ↦ page_of kind occupied filled cells | false ↦ page_in l g ]

abbrev pub block_in : List Block → ℕ → Block
block_in [] b = no_block
block_in (x ∷ l) zero = x
block_in (x ∷ l) (suc b) = block_in l b

abbrev pub window_with : Words → Window
window_with u = window u.header (page_in u.pages) (block_in u.blocks)

-- ---- a run: what was asked, and what was said

pub data Entry : Type 0 where
  -- a call, its answer, len, retired_held, promotions, demotions, the values returned
  did : Call → Answer → (len held promotions demotions : ℕ) → List ℕ → Entry
  -- new of window_size, N and demote_at
  asked : (size n demote_at : ℕ) → Answer → (len held promotions demotions : ℕ) → Entry
  -- the pairs that iter gives from 0 until done
  listed : List Pair → (len held promotions demotions : ℕ) → Entry
  -- the words at this place
  stands : Words → Entry

-- the program prints the sequence of a pair alone
abbrev pub printed : Answer → Answer
printed done = done
printed new = new
printed (replaced v) = replaced v
printed absent = absent
printed (found n) = found n
printed (pair s v next reads) = pair s 0 0 0
printed (ended reads) = ended reads
printed (released values units) = released values units
printed (refused k) = refused k

abbrev pub new_answer : ℕ → Answer
new_answer zero = done
new_answer (suc k) = refused (suc k)

-- with the counts of a window, as they are printed: the demotions of both causes are one count
abbrev pub counted : Window → ((len held promotions demotions : ℕ) → Entry) → Entry
counted w f = f w.header.len w.header.retired_held w.header.promotions (demotions_of w.header)

abbrev pub did_on : Window → Call → Answer → List ℕ → Entry
did_on w c a l = did c (printed a) w.header.len w.header.retired_held w.header.promotions (demotions_of w.header) l

-- the run once more, with what the window's definitions say
abbrev pub replay : Window → List Entry → List Entry
replay w [] = []
replay w (did c a n h p d l ∷ es) = let e = window_step w c in did_on e.after c e.answer e.returned ∷ replay e.after es
replay w (asked size n demote_at a m h p d ∷ es) = counted w (asked size n demote_at (new_answer (limits size n demote_at))) ∷ replay w es
replay w (listed ps n h p d ∷ es) = counted w (listed (live_pairs_of w)) ∷ replay w es
replay w (stands u ∷ es) = stands (words_of w) ∷ replay w es

-- what the plain table tells of the answers, by its own steps and of those recorded
abbrev pub table_tells : ℕ → TableState → List Entry → List (Option Answer)
table_tells size t [] = []
table_tells size t (did c a n h p d l ∷ es) =
    let o = table_step size t c in told_of (role_of c) o.answer ∷ table_tells size o.after es
table_tells size t (asked size' n demote_at a m h p d ∷ es) = table_tells size t es
table_tells size t (listed ps n h p d ∷ es) = table_tells size t es
table_tells size t (stands u ∷ es) = table_tells size t es

abbrev pub told : List Entry → List (Option Answer)
told [] = []
told (did c a n h p d l ∷ es) = (role_of c).told a ∷ told es
told (asked size n demote_at a m h p d ∷ es) = told es
told (listed ps n h p d ∷ es) = told es
told (stands u ∷ es) = told es

-- the run once more, with the answers and the values returned that positions say
abbrev pub known : Answer → Option Answer → Answer
known a none = a
known a (some b) = printed b

abbrev pub placed : ℕ → Positions → List Entry → List Entry
placed size w [] = []
placed size w (did c a n h p d l ∷ es) =
    let r = step size w c in did c (known a r.answer) n h p d r.returned ∷ placed size r.after es
placed size w (asked size' n demote_at a m h p d ∷ es) = asked size' n demote_at a m h p d ∷ placed size w es
placed size w (listed ps n h p d ∷ es) = listed ps n h p d ∷ placed size w es
placed size w (stands u ∷ es) = stands u ∷ placed size w es
'''

RUNS = '''-- Runs of the line program, by computation on the definitions. Written by tests/runs.py. Assumes nothing.
use mathlib.Core.Path.{◌≡◌, refl}
use mathlib.Core.Bool.{true}
use mathlib.Core.List.{[], ◌∷◌, ◌++◌, List}
use Prim.Native.Nat.{ℕ}
use Rattle.window.specs.declared.AdaptiveReceiverPacketWindow.{AdaptiveReceiverPacketWindow}
use Rattle.window.specs.Memory.{Memory}
use Rattle.model.specs.Calls.{@CALLS@}
use Rattle.model.specs.Table.{pair_of, fresh_table}
use Rattle.model.specs.Positions.{fresh_positions}
use Rattle.model.specs.Window.{fresh_window}
use Rattle.model.specs.Steps.{block}
use Rattle.@CRATE@.specs.Replay.{everything, Entry, did, asked, listed, stands, Words, words, page, cell, window_with, replay, table_tells, told, placed}
'''


# ---- texts of the definitions' language

def listed(texts):
    return '(' + ' ∷ '.join([*texts, '[]']) + ')'


def answer_text(letter, said):
    """What a printed answer is among the definitions' answers."""
    plain = {'.': 'done', '+': 'new', '-': 'absent'}
    if said in plain:
        return plain[said]
    if said[0] in '=!':
        return '(%s %s)' % ({'=': 'replaced', '!': 'refused'}[said[0]], said[1:])
    if ':' in said:
        return '(released %s %s)' % tuple(said.split(':'))
    return '(%s)' % NUMBERS.get(letter, 'found {}').format(said)


def entry_text(asked, said):
    """A line of calls and its line of answers, both in fields."""
    letter, counts, more = said[0], ' '.join(said[2:6]), said[6:]
    if letter == 'n':
        return 'asked %s %s %s' % (' '.join(asked[1:]), answer_text(letter, said[1]), counts)
    if letter == 'l':
        if int(said[1]) != len(more):
            raise SystemExit('a listing with another count of pairs: %s' % said)
        return 'listed %s %s' % (listed('pair_of %s %s' % tuple(pair.split(':')) for pair in more), counts)
    call = LETTERS[letter].format(*asked[1:])
    return 'did (%s) %s %s %s' % (call, answer_text(letter, said[1]), counts, listed(more))


def words_text(state):
    """A line of `oracle --words`."""
    header, blocks, pages = state.split('|')
    numbers, words = header.split(), blocks.split()
    if len(numbers) != len(HEADER):
        raise SystemExit('the oracle prints %d numbers of the header, HEADER has %d' % (len(numbers), len(HEADER)))
    fields = '; '.join('%s = %s' % row for row in zip(HEADER, numbers))
    rows = ['block ' + ' '.join(words[at:at + BLOCK]) for at in range(0, len(words), BLOCK)]
    return 'words (record { %s }) %s %s' % (fields, listed(rows), listed(map(page_text, filter(None, pages.split(';')))))


def page_text(page):
    number, kind, occupied, filled, *cells = page.split()
    return 'page %s %s %s %s %s' % (number, kind, occupied, filled, listed('cell ' + cell.replace('.', ' ') for cell in cells))


# ---- runs, cut into pieces

Entry = namedtuple('Entry', 'line letter text cost')


class Run:
    """What follows an accepted n, with its three numbers, up to the next; states are those of the whole file's lines."""

    def __init__(self, file, numbers, states):
        self.file, self.numbers, self.states = file, numbers, states
        self.capacity = max(64, 1 << (int(numbers[0]) - 1).bit_length())
        self.entries, self.pieces = [], []

    def add(self, line, asked, said):
        self.entries.append(Entry(line, said[0], entry_text(asked, said), cost_of(said[0], self.capacity)))

    def state(self, line):
        """The words after a line. A line that is no call leaves them."""
        return self.states[line - 1]

    def small(self):
        return self.capacity <= SMALL

    def cost(self):
        return sum(entry.cost for piece in self.pieces for entry in piece)


def cost_of(letter, capacity):
    """Each position is looked up in its page, and that in the list of pages, which is longer in a larger window."""
    return CALL + COST.get(letter, 0) * capacity * (1 + capacity / 8192)


def cut(entries, most):
    """Entries in pieces; None stands for one that is left out."""
    piece, cost = [], 0
    for entry in entries:
        if piece and (entry is None or cost + entry.cost > most):
            yield piece
            piece, cost = [], 0
        if entry:
            piece.append(entry)
            cost += entry.cost
    if piece:
        yield piece


def choose(runs):
    """Gives each run the pieces that are asked of it. On a larger window a call that fills a piece by itself is asked once for
    its letter and size of window; of the other pieces every so many, counted from the end, where files by hand have their point."""
    seen = set()
    for run in runs:
        if run.states is None:
            run.pieces = [next(cut(run.entries, FIRST))]
        elif run.small():
            run.pieces = list(cut(run.entries, PIECE))
        else:
            pieces = list(cut([few(entry, run, seen) for entry in run.entries], PIECE))
            cheap = [piece for piece in pieces if piece[0].cost <= PIECE]
            every = int(sum(entry.cost for piece in cheap for entry in piece) // RUN) + 1
            kept = cheap[::-every]
            run.pieces = [piece for piece in pieces if piece[0].cost > PIECE or piece in kept]


def few(entry, run, seen):
    """The entry, or None for a costly one of which enough was seen."""
    kind = (entry.letter, run.capacity)
    if entry.cost > LARGEST or (entry.cost > PIECE and kind in seen):
        return None
    if entry.cost > PIECE:
        seen.add(kind)
    return entry


def runs_of(file, calls, answers, states):
    """The runs of a file, of its lines of calls, of answers and, if the oracle is at hand, of words."""
    run = Run(file, ['64', '1', '0'], None)  # before an accepted n the counts are 0, as those of a fresh window
    runs = [run]
    for line, (call, answer) in enumerate(zip(calls, answers), 1):
        if answer == '?':
            continue
        asked, said = call.decode().split('\t'), answer.split('\t')
        if said[:2] == ['n', '.']:
            run = Run(file, asked[1:], states)
            runs.append(run)
        run.add(line, asked, said)
    return [run for run in runs if run.entries]


def oracle(path, *options):
    """The lines that the oracle writes for a file of calls."""
    large = ['--large'] if path.name.endswith('.large.in') else []
    return subprocess.run([ORACLE, *large, *options], input=path.read_bytes(), capture_output=True, check=True).stdout.decode().splitlines()


def read(path):
    out = path.with_suffix('.out')
    answers = out.read_text().splitlines() if out.exists() else oracle(path)
    calls = path.read_bytes().removesuffix(b'\n').split(b'\n') if answers else []
    if len(calls) != len(answers):
        raise SystemExit('%s: %d lines of calls, %d of answers' % (path.name, len(calls), len(answers)))
    return runs_of(path.name, calls, answers, oracle(path, '--words') if ORACLE.exists() else None)


# ---- theorems

class Module:
    """The text of a module, and what each of its theorems is about."""

    def __init__(self, name):
        self.name, self.lines, self.theorems = name, RUNS.replace('@CALLS@', calls_named()).splitlines(), {}

    def define(self, name, kind, text):
        self.lines += ['', 'abbrev %s : %s' % (name, kind), '%s = %s' % (name, text)]

    def prove(self, name, about, statement, variable=''):
        self.lines += ['', '%s : %s' % (name, statement), 'unfolding everything', '%s%s = refl' % (name, variable)]
        self.theorems[name] = about


def module_of(name, run):
    """The theorems of a run: of each piece by the window, of the whole by the table and by positions."""
    module, named = Module(name), {}
    for number, piece in enumerate(run.pieces, 1):
        put_piece(module, 'piece-%d' % number, run, piece, named)
    if run.small():
        put_whole(module, run, ' ++ '.join('piece-%d' % number for number in range(1, len(run.pieces) + 1)))
    return module


def put_piece(module, name, run, piece, named):
    first, last = piece[0].line, piece[-1].line
    texts = [entry.text for entry in piece]
    if run.states:
        texts.append('stands ' + words_named(module, run, last, named))
    if piece[0] is run.entries[0]:
        before, window, variable = '(m : Memory) → ', 'fresh_window %s m' % ' '.join(run.numbers), ' m'
    else:
        before, window, variable = '', 'window_with ' + words_named(module, run, first - 1, named), ''
    module.define(name, 'List Entry', listed(texts))
    module.prove(name + '-by-window', '%s, lines %d to %d' % (run.file, first, last), '%sreplay (%s) %s ≡ %s' % (before, window, name, name), variable)


def words_named(module, run, line, named):
    """The name of the words after a line, which are defined once."""
    if line not in named:
        named[line] = 'words-%d' % line
        module.define(named[line], 'Words', words_text(run.state(line)))
    return named[line]


def put_whole(module, run, whole):
    size = run.numbers[0]
    module.define('whole', 'List Entry', whole)
    module.prove('whole-by-table', '%s, by the plain table' % run.file, 'table_tells %s fresh_table whole ≡ told whole' % size)
    if len(run.entries) <= SHORT:
        module.prove('whole-by-positions', '%s, by positions' % run.file, 'placed %s fresh_positions whole ≡ whole' % size)


# ---- a small repository with these theorems, and the prover's word on it

def unfoldable(crates):
    """The modules of crates, each with the definitions that a proof must name to compute with them."""
    for crate in crates:
        for path in sorted((ROOT / 'crates' / crate / 'specs').glob('*.antt')):
            names = re.findall(r'^ *unfoldable (?:abbrev )?pub (?!use )(\S+)', path.read_text(), re.M)
            if names:
                yield 'Rattle.%s.specs.%s' % (crate, path.stem), names


def calls_named():
    """The types and constructors of Calls.antt."""
    text = (ROOT / 'crates/model/specs/Calls.antt').read_text()
    return ', '.join(re.findall(r'^(?:pub data| ) (\w+) : ', text, re.M))


def replay_text():
    found = list(unfoldable(CRATES))
    uses = '\n'.join('use %s.{%s}' % (module, ', '.join(names)) for module, names in found)
    names = ' '.join(name for _, names in found for name in names)
    return REPLAY.replace('@CALLS@', calls_named()).replace('@USES@', uses).replace('@UNFOLDING@', names)


def needed(crate):
    """A crate and all that it rests on, in the order of crates.txt: the name of each and its row."""
    rows = [row for row in (ROOT / 'crates.txt').read_text().splitlines() if re.match(r'\w+( staticlib)?:', row)]
    wanted = {crate}
    for row in reversed(rows):
        name, rest = row.split(':', 1)
        if name in wanted:
            wanted |= set(rest.split('#')[0].split())
    return [(row.split(':')[0], row) for row in rows if row.split(':')[0] in wanted]


def lay_out(folder, crate, modules, below, specs):
    """The crates `below` as they were proved, and over them a crate of theorems: its modules, and its files of definitions."""
    rows = [row for _, row in needed(below[-1])]
    for name, _ in needed(below[-1]):
        for part in ('src', 'specs', 'proofs', 'out/rlib'):
            if (ROOT / 'crates' / name / part).is_dir():
                shutil.copytree(ROOT / 'crates' / name / part, folder / 'crates' / name / part)
    texts = {'src/lib.rt': '// Theorems only. See proofs/.\n#![tactic(auto)]', 'specs/Lib.antt': '\n'.join('pub mod ' + name for name in specs) or '-- None.'}
    texts['proofs/Lib.antt'] = '\n'.join('pub mod ' + module.name for module in modules)
    texts |= {'specs/%s.antt' % name: text for name, text in specs.items()}
    texts |= {'proofs/%s.antt' % module.name: '\n'.join(module.lines).replace('@CRATE@', crate) for module in modules}
    for name, text in texts.items():
        path = folder / 'crates' / crate / name
        path.parent.mkdir(parents=True, exist_ok=True)
        path.write_text(text + '\n')
    (folder / 'crates.txt').write_text('\n'.join([*rows, '%s: %s' % (crate, ' '.join(reversed(below)))]) + '\n')


def checked(crate, modules, below, specs):
    """What `rt check` of a crate of theorems says. Each has a folder of its own, since a check keeps others out of the crates below."""
    with tempfile.TemporaryDirectory() as folder:
        lay_out(Path(folder), crate, modules, below, specs)
        return subprocess.run(['rt', 'check'], cwd=Path(folder) / 'crates' / crate, capture_output=True, text=True)


def prove(crates, below=CRATES, specs=None):
    """Whether all is proved, and what the prover says against it: module, theorem, message. The crates of theorems have the modules that
    `crates` names for each, over the crates `below`."""
    if subprocess.run(['rt', 'lib'], cwd=ROOT / 'crates' / below[-1], stdout=subprocess.DEVNULL).returncode:
        raise SystemExit('the crates of the definitions are not proved: rt lib in crates/%s' % below[-1])
    specs = {'Replay': replay_text()} if specs is None else specs
    errors, well = [], True
    with ThreadPoolExecutor(len(crates)) as pool:
        for done in pool.map(lambda row: checked(*row, below, specs), crates.items()):
            found = re.findall(r'^(?:/?\S+/)?(\w+)\.antt:\d+:\d+: error: (?:`([^`]+)`: )?(.*(?:\n  .*)*)', done.stdout, re.M)
            if done.returncode and not found:
                raise SystemExit(done.stdout[-3000:] + done.stderr)
            well, errors = well and done.returncode == 0, errors + found
    return well, errors


def difference(message):
    """Of a refused `refl` what the statement says and what the definitions compute, where they first differ."""
    found = re.search(r'computed as far as they go, the two types (?:differ only|first differ) where one has `(.*?)` \(expected\).*? the other has `(.*?)` \(found\)', message)
    return found and found.groups()


def shared_out(runs):
    """The runs in as many crates as the prover works on at a time, each about as costly."""
    crates = {'runs_%d' % number: [] for number in range(1, min(os.cpu_count() or 1, 4) + 1)}
    costs = dict.fromkeys(crates, 0)
    for number, run in enumerate(sorted(runs, key=Run.cost, reverse=True), 1):
        crate = min(costs, key=costs.get)
        costs[crate] += run.cost()
        crates[crate].append(module_of('Run%d' % number, run))
    return {crate: modules for crate, modules in crates.items() if modules}


def check(paths):
    began = time.time()
    runs = [run for path in sorted(paths, key=generated) for run in read(path)]
    choose(runs)
    crates = shared_out(runs)
    proved, errors = prove(crates)
    about = {(module.name, name): what for modules in crates.values() for module in modules for name, what in module.theorems.items()}
    for module, theorem, message in errors[:10]:
        said = 'recorded is %s, the definitions give %s' % difference(message) if difference(message) else message[:1000]
        print('%s: %s' % (about.get((module, theorem), module + ' ' + theorem), said))
    if not proved:
        return 1
    print(summary(runs, len(paths), len(about), time.time() - began))
    return 0


def generated(path):
    """Files by hand come first, so that their costly calls are the ones that are asked."""
    return path.name.startswith('generate'), path.name


def summary(runs, files, theorems, seconds):
    def count(runs):
        return sum(len(piece) for run in runs for piece in run.pieces)
    small = [run for run in runs if run.small()]
    short = [run for run in small if len(run.entries) <= SHORT]
    words = sum(len(run.pieces) for run in runs if run.states)
    return '%d lines of %d files by the window, on sizes up to %d, with the words at %d places; %d of them by the table, %d by positions: %d theorems in %d s' % (
        count(runs), files, max(run.capacity for run in runs), words, count(small), count(short), theorems, seconds)


# ---- the test can fail

# Calls, answers, and the source's words after the last of them.
TRUE_CALLS = 'n 64 2 1;i 5 50;i 69 51;i 6 60;i 7 70;l;d 6 7;q 69 69;a 5;g 5'
TRUE_ANSWERS = 'n . 0 0 0 0;i + 1 0 0 0;i !4 1 0 0 0;i + 2 0 0 0;i + 3 0 1 0;l 3 3 0 1 0 5:50 6:60 7:70;d 2 1 0 1 1 60 70;q 5 1 0 1 1;a . 1 0 1 1;g 50 1 0 1 1'
TRUE_WORDS = '64 2 1 1 0 0 5 6 1 0 0 1 1|1 0 1|0 1 32 1 0.5.50'
# What is falsified, the text before and after, what of it the prover shows, and which theorems say it.
FALSE = [
    ('an answer', '(ask (get 5)) (found 50)', '(ask (get 5)) (found 51)', '51', 'window table positions'),
    ('a refusal', '(refused 4)', '(refused 5)', '5', 'window table positions'),
    ('whether there is a stranger', '(pair 5 0 0 0)', 'absent', 'absent', 'window table positions'),
    ("new's answer", 'asked 64 2 1 done', 'asked 64 2 1 (refused 3)', '(refused 3)', 'window'),
    ('a count', 'new 3 0 1 0', 'new 4 0 1 0', '4', 'window'),
    ('a value returned', '(60 ∷ 70 ∷ [])', '(60 ∷ 71 ∷ [])', '71', 'window positions'),
    ('the order of values returned', '(60 ∷ 70 ∷ [])', '(70 ∷ 60 ∷ [])', '70 ∷ 60 ∷ []', 'window positions'),
    ('a pair listed', 'pair_of 6 60', 'pair_of 6 61', '61', 'window'),
    ('a word of the header', 'release_cursor = 0', 'release_cursor = 1', '1', 'window'),
    ('the base', ' base = 5', ' base = 4', '4', 'window'),
    ('the point', 'point = 6', 'point = 5', '5', 'window'),
    ('the demotions by single removals', 'single_demotions = 0', 'single_demotions = 1', '1', 'window'),
    ('the demotions by ranges', 'range_demotions = 1', 'range_demotions = 0', '0', 'window'),
    ('a word of a block', 'block 1 0 1', 'block 1 0 2', '2', 'window'),
    ('a word of a page', 'page 0 1 32 1', 'page 0 2 32 1', '2', 'window'),
    ('a cell in use', 'cell 0 5 50', 'cell 0 5 51', '51', 'window'),
]


def true_run():
    calls, answers = ([line.replace(' ', '\t') for line in text.split(';')] for text in (TRUE_CALLS, TRUE_ANSWERS))
    states = [None] * (len(answers) - 1) + [TRUE_WORDS]
    run = runs_of('selftest', [call.encode() for call in calls], answers, states)[0]
    run.pieces = [run.entries]
    return run


def falsified(name, before, after):
    module = module_of(name, true_run())
    text = '\n'.join(module.lines)
    if text.count(before) != 1:
        raise SystemExit('%s is not once in the text' % before)
    module.lines = text.replace(before, after).split('\n')
    return module


def selftest():
    """Each falsified thing is refused by the theorems that say it, for just this difference; and nothing else is refused."""
    modules, wanted = [module_of('True', true_run())], set()
    for number, (_, before, after, shown, by) in enumerate(FALSE, 1):
        modules.append(falsified('False%d' % number, before, after))
        wanted |= {('False%d' % number, name, shown) for name in modules[-1].theorems if name.split('-by-')[1] in by.split()}
    _, errors = prove({'runs': modules})
    got = {(module, theorem, (difference(message) or [message])[0]) for module, theorem, message in errors}
    for row in sorted(wanted - got):
        print('not refused: %s, %s, for %s' % row)
    for row in sorted(got - wanted):
        print('refused otherwise: %s, %s, for %s' % row)
    if got != wanted:
        return 1
    print('%d falsified, %d theorems refused, each for just that: %s' % (len(FALSE), len(got), ', '.join(row[0] for row in FALSE)))
    return 0


if __name__ == '__main__':
    if sys.argv[1:] == ['--selftest']:
        sys.exit(selftest())
    sys.exit(check([Path(argument) for argument in sys.argv[1:]] or sorted(RECORDED.glob('*.in'))))
