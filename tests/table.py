#!/usr/bin/env python3
"""Document 01's plain table with document 02's base, and its comparison with a line program's output.

For whoever runs a line program, be it the oracle over the source or
windowlines:

    tests/table.py [--large] CALLS ANSWERS [CALLS ANSWERS ...]

CALLS holds call lines, ANSWERS the lines that a program gave for them. The
table is worked out from the call lines alone and held against every answer.
Prints 'N calls agree' and exits 0, or the first differences and exits 1.
With --large a window_size up to 65536 is taken, and one above is refused 1;
without it one above 4096 is no call ('?').

    tests/table.py --losses REPORTS ...

REPORTS holds call lines and loss reports with their answers
(tests/recorded/README.md, 'Loss reports'), which are held against the table.

`Table` follows the section 'The plain table', one method for each call, whose
docstring is the paper's sentence. `Comparison` holds what it says about the
rest of an output line: counts, return lists, units. Both are written from the
paper's words, with no look at the source, so that an agreement means something.

Refusals 6 and 7 and `check` do not occur: a line program lends enough memory,
starts from new, and has no letter for check.
"""

import sys
from collections import Counter
from functools import lru_cache
from itertools import groupby, zip_longest

MAX_NUMBER = 4294967295
LINE_WINDOW = 4096          # the largest window_size of the line program
RETURN_PLACES = 384         # the length that is named for a return list
PAGE_SLOTS = 64
SHOWN = 5                   # differences printed for one pair of files

ABSENT, NOTHING, NEW = '-', '.', '+'


def refuse(k):
    return '!%d' % k


def refusal_of_new(window_size, n, demote_at):
    """new: 1 for window_size outside 1..65536, 2 for N outside 1..63, 3 for
    demote_at above N, 6 for short memory, in this order."""
    if not 1 <= window_size <= 65536:
        return refuse(1)
    if not 1 <= n <= 63:
        return refuse(2)
    if demote_at > n:
        return refuse(3)
    return None


def count_of(first, last):
    """count = ((last − first) modulo 2^32, lowest 31 bits) + 1."""
    return ((last - first) % 2 ** 32) % 2 ** 31 + 1


TOP_BIT = 2 ** 31


def row_of(first, last):
    """The sequences from first to last. Order is circular from first."""
    return [(first + step) % TOP_BIT for step in range(count_of(first, last))]


def loss_list(row, lost):
    """A run of three or more is two words, the first with its top bit set; a
    shorter run is single words."""
    words = []
    for is_lost, run in groupby(row, lambda sequence: sequence in lost):
        run = list(run) if is_lost else []
        words += run if len(run) < 3 else [TOP_BIT + run[0], run[-1]]
    return words


def named(row, words):
    """The sequences of the row that a list names; None if it names none there
    at a word."""
    place = {sequence: at for at, sequence in enumerate(row)}
    found, begun = set(), None
    for word in words:
        at = place.get(word % TOP_BIT)
        if at is None:
            return None
        if begun is None and word >= TOP_BIT:
            begun = at
        else:
            found.update(row[at if begun is None else begun:at + 1])
            begun = None
    return found


class Table:
    """State: at each position nothing (as when fresh) or one (sequence, value),
    and the base.

    A method makes the call's step and gives its answer as the line program
    writes it; None where the table does not know the answer.
    """

    def __init__(self, window_size):
        """capacity = window_size, at least 64, raised to a power of two."""
        self.window_size = window_size
        self.capacity = 64
        while self.capacity < window_size:
            self.capacity *= 2
        self.base = 0
        self.pairs = {}      # position -> (sequence, value)
        self.listed = set()  # the same pairs as 'sequence:value', kept in step,
        #                      so that a listing is compared without a rebuild
        self.emptied = []    # values that remove_range, clear and clear_bounded
        #                      emptied; whoever keeps the account empties it

    # The calls, in the paper's order.

    def insert(self, sequence, value):
        """insert: nothing there, put; same sequence, put and give the old
        value; else refuse 4."""
        there = self.pairs.get(self.position(sequence))
        if there is None:
            self.put(sequence, value)
            return NEW
        if there[0] == sequence:
            self.put(sequence, value)
            return '=%d' % there[1]
        return refuse(4)

    def get(self, sequence):
        """get: the value if the sequence matches."""
        there = self.pairs.get(self.position(sequence))
        if there is not None and there[0] == sequence:
            return '%d' % there[1]
        return ABSENT

    def exchange(self, sequence, value):
        """exchange (`get_mut` and a write): as get; if it matches, the new
        value is put."""
        answer = self.get(sequence)
        if answer != ABSENT:
            self.put(sequence, value)
        return answer

    def remove(self, sequence):
        """remove: as get; if it matches, nothing is there after."""
        answer = self.get(sequence)
        if answer != ABSENT:
            self.take(self.position(sequence))
        return answer

    def remove_range(self, first, last):
        """remove_range: empty its positions, give how many held a pair.
        remove_range, stranger: then 5 for a count above window_size."""
        if count_of(first, last) > self.window_size:
            return refuse(5)
        return '%d' % self.empty(self.held_in(first, last))

    def clear(self):
        """clear, clear_bounded: empty all."""
        self.empty(list(self.pairs))
        return NOTHING

    def clear_bounded(self, number):
        """clear, clear_bounded: empty all. release_retired, clear_bounded: then
        8 for a number above 256. Not in the table: the number clear_bounded
        released."""
        if number > 256:
            return refuse(8)
        self.empty(list(self.pairs))
        return None

    def release_retired(self, number):
        """release_retired, iter, stranger, check: no step. release_retired,
        clear_bounded: then 8 for a number above 256. Not in the table: what
        release_retired answers."""
        return refuse(8) if number > 256 else None

    def iter(self):
        """Live pairs are those iter gives from 0 until done, each once; len is
        their number."""
        return '%d' % len(self.pairs)

    def stranger(self, first, last):
        """`stranger`: some live pair at a position of first..last whose
        sequence's distance from first (as in count, less 1) is count or more;
        none exactly if there is none.

        Not in the table: which pair stranger gives. So this gives the set of
        all right answers."""
        count = count_of(first, last)
        if count > self.window_size:
            return {refuse(5)}
        found = set()
        for position in self.held_in(first, last):
            sequence = self.pairs[position][0]
            if count_of(first, sequence) - 1 >= count:
                found.add('%d' % sequence)
        return found or {ABSENT}

    def successor_after(self, sequence):
        """successor_after looks from the next position round to its own, last
        of all."""
        return self.search(self.position(sequence + 1))

    def first_from(self, sequence):
        """first_from begins at the sequence's own position."""
        return self.search(self.position(sequence))

    def set_base(self, base):
        """a (sequence), which sets the base and answers `.`. 9, a base of
        2147483648 or more."""
        if base >= 2 ** 31:
            return refuse(9)
        self.base = base
        return NOTHING

    def take_front(self):
        """Taking the front value removes the base's value and moves the base by
        one; if it is absent, nothing moves. Sums with the base are modulo 2^31."""
        answer = self.remove(self.base)
        if answer != ABSENT:
            self.base = (self.base + 1) % 2 ** 31
        return answer

    def write_losses(self, first, last):
        """Given first and last, write the draft's loss list of all sequences
        there that are not live. Both refuse 5 as remove_range does."""
        refusal = self.refusal_of_report(first, last)
        if refusal:
            return refusal
        row = row_of(first, last)
        lost = {sequence for sequence in row if self.get(sequence) == ABSENT}
        return ' '.join(map(str, loss_list(row, lost))) or ABSENT

    def read_losses(self, first, last, words):
        """One byte for each sequence from first to last, 1 if lost and 0 if
        not. 12, a list that the writer could write for no set of losses."""
        refusal = self.refusal_of_report(first, last)
        if refusal:
            return refusal
        row = row_of(first, last)
        lost = named(row, words)
        if lost is None or loss_list(row, lost) != words:
            return refuse(12)
        return ''.join('1' if sequence in lost else '0' for sequence in row)

    def refusal_of_report(self, first, last):
        """In the order 10, 5."""
        if first >= TOP_BIT or last >= TOP_BIT:
            return refuse(10)
        return refuse(5) if count_of(first, last) > self.window_size else None

    # What the calls share.

    def position(self, sequence):
        """A sequence's position is its remainder by capacity."""
        return sequence % self.capacity

    def held_in(self, first, last):
        """The positions that hold a pair, of those that are count in a row from
        first's, wrapping at capacity."""
        start, count, capacity = self.position(first), count_of(first, last), self.capacity
        if count > len(self.pairs):  # go through the fewer of the two
            return [p for p in self.pairs if (p - start) % capacity < count]
        row = ((start + step) % capacity for step in range(count))
        return [p for p in row if p in self.pairs]

    def search(self, start):
        """The walk over pages yields the first live sequence, or none. Both go
        by position and may return a sequence that aliases."""
        pairs, capacity = self.pairs, self.capacity
        if not pairs:
            return ABSENT
        for step in range(len(pairs)):  # a full table has its answer near
            near = pairs.get((start + step) % capacity)
            if near is not None:
                return '%d' % near[0]
        return '%d' % pairs[min(pairs, key=lambda p: (p - start) % capacity)][0]

    def put(self, sequence, value):
        position = self.position(sequence)
        if position in self.pairs:
            self.take(position)
        self.pairs[position] = (sequence, value)
        self.listed.add('%d:%d' % (sequence, value))

    def take(self, position):
        pair = self.pairs.pop(position)
        self.listed.remove('%d:%d' % pair)
        return pair[1]

    def empty(self, positions):
        for position in positions:
            self.emptied.append(self.take(position))
        return len(positions)


# Reading a call line.

FIELDS = {'n': 3, 'i': 2, 'g': 1, 'r': 1, 's': 1, 'f': 1, 'e': 2,
          'd': 2, 'q': 2, 'b': 1, 'v': 1, 'c': 0, 'l': 0, 'a': 1, 't': 0}

CALLS = {'i': Table.insert, 'g': Table.get, 'r': Table.remove,
         's': Table.successor_after, 'f': Table.first_from, 'e': Table.exchange,
         'd': Table.remove_range, 'q': Table.stranger, 'b': Table.clear_bounded,
         'v': Table.release_retired, 'c': Table.clear, 'l': Table.iter,
         'a': Table.set_base, 't': Table.take_front}


# The fields of a letter that are a sequence, first or last, from the first on.
SEQUENCES = {'i': 1, 'g': 1, 'r': 1, 's': 1, 'f': 1, 'e': 1, 'd': 2, 'q': 2}


def number(field, limit=MAX_NUMBER):
    """The number a field holds, decimal and with no leading zeros; None if it
    is not so written or above the limit."""
    if not (field.isascii() and field.isdecimal()) or len(field) > 20:
        return None
    if field[0] == '0' and len(field) > 1:
        return None
    found = int(field)
    return found if found <= limit else None


@lru_cache(maxsize=65536)  # call lists repeat themselves; l is every second line
def parse(line, largest_window):
    """The letter and the numbers of a call line, or None for a line that
    answers '?': another letter, a wrong count of fields, a field not so
    written or above 4294967295, a larger window_size."""
    fields = line.split('\t')
    letter = fields[0]
    if FIELDS.get(letter) != len(fields) - 1:
        return None
    numbers = tuple(number(field) for field in fields[1:])
    if None in numbers:
        return None
    if letter == 'n' and numbers[0] > largest_window:
        return None
    return letter, numbers


# Holding an output line against the table.

class Differs(Exception):
    """An output line is not what the paper says."""

    def __init__(self, expected, got):
        super().__init__(expected, got)
        self.expected, self.got = expected, got


class Comparison:
    """One run of a line program: the table of its window, and the account of
    the values that are emptied and not yet handed back."""

    def __init__(self, large=False):
        self.largest_window = MAX_NUMBER if large else LINE_WINDOW
        self.begun = False       # whether an n was accepted
        self.start(Table(0))     # whose counts are 0, as a refused n then prints

    def start(self, table):
        """An accepted new: everything else in the header is 0."""
        self.table = table
        self.retired = Counter()           # how often each value, as text, is retired
        self.held = 0                      # how many that are
        self.promotions = self.demotions = '0'  # as last printed

    def line(self, call, got):
        """Make the call's step, and raise Differs if the output line is wrong.
        The step comes first, so that a wrong line leaves the table right."""
        parsed = parse(call, self.largest_window)
        if parsed is None or not (self.begun or parsed[0] == 'n'):
            if got != '?':
                raise Differs('? alone', got)
            return
        letter, numbers = parsed
        expected = self.step(letter, numbers)
        fields = got.split('\t')
        if fields[0] != letter or len(fields) < 6:
            raise Differs('letter %s and five fields or more' % letter, got)
        answer, rest = fields[1], fields[6:]
        if answer != expected:  # a right answer of q, v or b may be another
            self.open_answer(letter, expected, answer)
        if letter == 'l':
            self.listing(rest)
        elif rest:
            self.return_list(letter, answer, rest)
        if expected is None:
            self.released(letter, numbers[0], answer, len(rest))
        if fields[2] != str(len(self.table.pairs)):
            raise Differs('len %d' % len(self.table.pairs), fields[2])
        if fields[3] != str(self.held):
            raise Differs('retired_held %d' % self.held, fields[3])
        if fields[4] != self.promotions or fields[5] != self.demotions:
            self.rise(letter, answer, fields[4], fields[5])

    def step(self, letter, numbers):
        """The call's step in the table, and its answer there. A refused n
        leaves the window."""
        if letter == 'n':
            refusal = refusal_of_new(*numbers)
            if refusal is None:
                self.begun = True
                self.start(Table(numbers[0]))
            return refusal or NOTHING
        if any(number >= 2 ** 31 for number in numbers[:SEQUENCES.get(letter, 0)]):
            # 10, a sequence, first or last of 2147483648 or more, after 6 and
            # before 4, 5 and 8.
            return {refuse(10)} if letter == 'q' else refuse(10)
        expected = CALLS[letter](self.table, *numbers)
        if self.table.emptied:
            self.retired.update(map(str, self.table.emptied))
            self.held += len(self.table.emptied)
            self.table.emptied.clear()
        return expected

    @staticmethod
    def open_answer(letter, expected, answer):
        """Answers are the table's, save for which pair stranger gives and what
        the table does not know."""
        if letter == 'q' and answer in expected:
            return
        if expected is not None:
            raise Differs('answer ' + (some_of(expected) if letter == 'q' else expected), answer)

    def listing(self, pairs):
        """l: exactly the live pairs, each once."""
        listed = self.table.listed
        if len(pairs) == len(listed) and listed == set(pairs):
            return
        given = Counter(pairs)
        missing = [pair for pair in listed if pair not in given]
        excess = [pair for pair, times in given.items() if times > 1 or pair not in listed]
        raise Differs('the %d live pairs, each once' % len(listed),
                      'missing: %s, in excess: %s' % (some_of(missing), some_of(excess)))

    def return_list(self, letter, answer, dropped):
        """Retired, with those in all return lists, are exactly the values that
        remove_range, clear and clear_bounded emptied, counted with repeats."""
        most = self.most_dropped(letter, answer)
        if len(dropped) > most:
            raise Differs('at most %d dropped values' % most, '%d' % len(dropped))
        for value in dropped:
            if self.retired[value] == 0:
                raise Differs('a dropped value that is retired', value)
            self.retired[value] -= 1
        self.held -= len(dropped)

    @staticmethod
    def most_dropped(letter, answer):
        """Return lists belong to insert, remove_range, release_retired, clear
        and clear_bounded; a refusal leaves all lists as they came; insert drops
        only where it releases a retired page, in which nothing is live."""
        if letter == 'i' and answer == NEW:
            return PAGE_SLOTS
        return RETURN_PLACES if letter in 'dvcb' and answer[:1] != '!' else 0

    def released(self, letter, most, answer, dropped):
        """The answers that the table does not know, from the section 'Release'."""
        if letter == 'v':
            self.released_and_units(most, answer, dropped)
        elif answer != str(dropped) or dropped > most:
            raise Differs('answer %d, of at most %d' % (dropped, most), answer)

    def released_and_units(self, most, answer, dropped):
        """release_retired: at most its budget of units, of which each page
        inspected and each value released costs one; it stops short only when
        none is held."""
        parts = [number(part) for part in answer.split(':')]
        if len(parts) != 2 or None in parts:
            raise Differs('released:units', answer)
        released, units = parts
        held_before = self.held + dropped
        least = min(held_before, most // 2)
        if released != dropped:
            raise Differs('%d released, as on the line' % dropped, answer)
        if released < least:
            raise Differs('at least %d released' % least, answer)
        if units > most or (self.held > 0 and units < most):
            raise Differs('%d units%s' % (most, '' if self.held else ' at most'), answer)
        # A page inspected holds 1 to 64 values, and all but the last are emptied.
        fewest, largest = -(-released // PAGE_SLOTS), min(released + 1, held_before)
        if not fewest <= units - released <= largest:
            raise Differs('units for %d to %d pages inspected' % (fewest, largest), answer)

    def rise(self, letter, answer, promotions, demotions):
        """Promotions and demotions are not in the table. They never fall, are 0
        after an accepted n, and stay as they were with a refusal."""
        kept = letter == 'n' or answer[:1] == '!'
        for what, old, new in (('promotions', self.promotions, promotions),
                               ('demotions', self.demotions, demotions)):
            found = number(new, 2 ** 64 - 1)
            if found is None or found < int(old) or (kept and new != old):
                raise Differs('%s %s%s' % (what, old, '' if kept else ' or more'), new)
        self.promotions, self.demotions = promotions, demotions


def some_of(items):
    """A few of them, for a message."""
    items = sorted(items)
    return ' or '.join(items[:4]) + (' ..' if len(items) > 4 else '') if items else 'none'


# Files.

def read_lines(path):
    """The lines of a file, each with its line feed. Only a line feed ends a
    line, and a byte that is no ASCII stays a character that is no digit."""
    return open(path, encoding='ascii', errors='surrogateescape', newline='\n')


def compare_line(comparison, call, got):
    """One call line and its output line, None where a file has no more."""
    if call is None:
        raise Differs('no line, for there is no call', got)
    if got is None:
        raise Differs('a line', 'none')
    comparison.line(call.rstrip('\n'), got.rstrip('\n'))
    if got[-1] != '\n':
        raise Differs('a line feed at the end', got)


def compare_files(calls_path, answers_path, large):
    """The number of calls, and the first differences as text."""
    comparison, differences, calls = Comparison(large), [], 0
    with read_lines(calls_path) as call_lines, read_lines(answers_path) as answer_lines:
        for at, (call, got) in enumerate(zip_longest(call_lines, answer_lines), 1):
            calls += call is not None
            try:
                compare_line(comparison, call, got)
            except Differs as differs:
                differences.append('%s:%d: call %s: expected %s, got %s' % (
                    answers_path, at, shown(call), differs.expected, shown(differs.got)))
                if call is None or got is None or len(differences) == SHOWN:
                    break
    return calls, differences


def report(table, fields):
    """The table's answer to a loss report: its name, first, last, of `read` the
    list."""
    first, last = map(int, fields[1:3])
    if fields[0] == 'write':
        return table.write_losses(first, last)
    return table.read_losses(first, last, [] if fields[3] == '-' else list(map(int, fields[3].split(' '))))


def compare_reports(path):
    """The number of loss reports of a file, and the first differences as text."""
    comparison, differences, reports = Comparison(), [], 0
    with read_lines(path) as lines:
        for at, line in enumerate(lines, 1):
            *fields, answer = line.rstrip('\n').split('\t')
            if fields and fields[0] in ('write', 'read'):
                reports += 1
                expected = report(comparison.table, fields)
                if answer != expected:
                    differences.append('%s:%d: %s: expected %s, got %s' % (path, at, shown('\t'.join(fields)), expected, shown(answer)))
            elif not line.startswith('#'):
                comparison.step(*parse(line.rstrip('\n'), LINE_WINDOW))
    return reports, differences[:SHOWN]


def shown(thing):
    """A text for a message: no raw tabs, not too long."""
    if thing is None:
        return 'none'
    text = ascii(str(thing).rstrip('\n'))
    return text if len(text) <= 200 else text[:200] + ' ..'


def main(arguments):
    large, losses = '--large' in arguments, '--losses' in arguments
    paths = [argument for argument in arguments if argument not in ('--large', '--losses')]
    if not paths or (len(paths) % 2 and not losses):
        print('usage: table.py [--large] CALLS ANSWERS [CALLS ANSWERS ...] | --losses REPORTS ...', file=sys.stderr)
        return 2
    if losses:
        compared = [compare_reports(path) for path in paths]
    else:
        compared = [compare_files(calls, answers, large) for calls, answers in zip(paths[::2], paths[1::2])]
    differences = [difference for _, found in compared for difference in found]
    for difference in differences:
        print(difference)
    if not differences:
        print('%d %s agree' % (sum(number for number, _ in compared), 'loss reports' if losses else 'calls'))
    return 1 if differences else 0


if __name__ == '__main__':
    sys.exit(main(sys.argv[1:]))
