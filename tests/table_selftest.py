#!/usr/bin/env python3
"""Shows that tests/table.py can fail, for whoever relies on its 'agree'.

Takes right files, first of all document 01's own listing, and checks that they
agree; then alters one token at a time and checks that each wrong file is
refused. Needs no line program: all answers here are worked out by hand from
documents 01 and 02. Prints one closing line; exits 1 when a right file is refused or a
wrong one passes.
"""

import contextlib
import io
import os
import sys
import tempfile

sys.dont_write_bytecode = True  # leave nothing beside the tests
import table


def tabbed(text):
    """Lines as the paper shows them, with a tab for each space."""
    return [line.replace(' ', '\t') for line in text.strip('\n').split('\n')]


# Document 01, section 'The line program': the listing.
LISTING = (tabbed('''
n 64 2 1
i 5 50
i 69 51
i 6 60
i 7 70
d 6 7
c
s 5
'''), tabbed('''
n . 0 0 0 0
i + 1 0 0 0
i !4 1 0 0 0
i + 2 0 0 0
i + 3 0 1 0
d 2 1 0 1 1 60 70
c . 0 0 1 1 50
s - 0 0 1 1
'''))

# Every answer of the point calls, stranger, both searches, and refusals. Window
# 65 has 128 positions: 70 and 198 share position 70, 5 and 133 position 5.
POINTS = (tabbed('''
n 0 64 65
n 65 4 0
n 65 64 65
n 65 63 64
i 5 50
i 70 51
i 5 52
i 133 53
g 5
g 133
e 5 54
e 133 55
q 5 5
q 133 133
q 0 65
s 5
s 70
f 71
f 5
l
r 70
r 70
s 5
l
v 257
b 257
v 0
d 2147483653 5
d 5 5
c
'''), tabbed('''
n !1 0 0 0 0
n . 0 0 0 0
n !2 0 0 0 0
n !3 0 0 0 0
i + 1 0 0 0
i + 2 0 0 0
i =50 2 0 0 0
i !4 2 0 0 0
g 52 2 0 0 0
g - 2 0 0 0
e 52 2 0 0 0
e - 2 0 0 0
q - 2 0 0 0
q 5 2 0 0 0
q !5 2 0 0 0
s 70 2 0 0 0
s 5 2 0 0 0
f 5 2 0 0 0
f 5 2 0 0 0
l 2 2 0 0 0 5:54 70:51
r 51 1 0 0 0
r - 1 0 0 0
s 5 1 0 0 0
l 1 1 0 0 0 5:54
v !8 1 0 0 0
b !8 1 0 0 0
v 0:0 1 0 0 0
d !10 1 0 0 0
d 1 0 0 0 0 54
c . 0 0 0 0
'''))

# Retiring and releasing: three values on two pages, two of them equal.
RELEASE = (tabbed('''
n 128 2 0
i 1 7
i 2 7
i 64 8
b 0
l
v 1
v 3
v 4
i 3 9
b 256
i 3 9
b 0
i 4 10
l
'''), tabbed('''
n . 0 0 0 0
i + 1 0 0 0
i + 2 0 0 0
i + 3 0 0 0
b 0 0 3 0 0
l 0 0 3 0 0
v 0:1 0 3 0 0
v 2:3 0 1 0 0 7 7
v 1:2 0 0 0 0 8
i + 1 0 0 0
b 1 0 0 0 0 9
i + 1 0 0 0
b 0 0 1 0 0
i + 1 0 0 0 9
l 1 1 0 0 0 4:10
'''))

# Document 02, S-1: the base, its wrap, and what is no value of the base: an alias, a retired value.
FRONT = (tabbed('''
n 64 1 0
t
i 64 7
t
r 64
i 2147483647 1
i 0 2
a 2147483648
a 2147483647
t
t
t
i 1 3
b 0
t
i 1 4
t
a 1
t
'''), tabbed('''
n . 0 0 0 0
t - 0 0 0 0
i + 1 0 0 0
t - 1 0 0 0
r 7 0 0 0 0
i + 1 0 0 0
i + 2 0 1 0
a !9 2 0 1 0
a . 2 0 1 0
t 1 1 0 1 0
t 2 0 0 1 0
t - 0 0 1 0
i + 1 0 1 0
b 0 0 1 1 0
t - 0 1 1 0
i + 1 0 1 0 3
t 4 0 0 1 0
a . 0 0 1 0
t - 0 0 1 0
'''))

# Document 02, S-3: a number with its top bit set, in every call that takes a sequence.
WIRE = (tabbed('''
n 64 1 0
i 5 50
i 2147483653 51
g 2147483653
e 2147483653 51
r 2147483653
s 2147483653
f 2147483653
d 5 2147483653
q 5 2147483653
d 2147483648 2147483647
i 2147483647 52
r 2147483647
'''), tabbed('''
n . 0 0 0 0
i + 1 0 0 0
i !10 1 0 0 0
g !10 1 0 0 0
e !10 1 0 0 0
r !10 1 0 0 0
s !10 1 0 0 0
f !10 1 0 0 0
d !10 1 0 0 0
q !10 1 0 0 0
d !10 1 0 0 0
i + 2 0 1 0
r 52 1 0 1 0
'''))

# Document 01, section 'Edge cases': the starred cases of ranges and searches.
RANGES = (tabbed('''
n 64 1 0
i 5 1
i 69 2
d 0 64
d 5 4
d 0 63
i 63 3
i 0 4
i 9 5
d 2147483647 0
s 9
f 10
'''), tabbed('''
n . 0 0 0 0
i + 1 0 0 0
i !4 1 0 0 0
d !5 1 0 0 0
d !5 1 0 0 0
d 1 0 0 0 0 1
i + 1 0 0 0
i + 2 0 1 0
i + 3 0 1 0
d 2 1 0 1 0 3 4
s 9 1 0 1 0
f 9 1 0 1 0
'''))


def after_clear(calls, answers):
    """Window 512, N 8, sequences 0..511 in, clear, then these. Each of the eight
    pages becomes dense at its ninth value."""
    return (['n\t512\t8\t0'] + ['i\t%d\t%d' % (s, s + 1000) for s in range(512)] + ['c'] + tabbed(calls),
            ['n\t.\t0\t0\t0\t0']
            + ['i\t+\t%d\t0\t%d\t0' % (s + 1, s // 64 + (s % 64 >= 8)) for s in range(512)]
            + ['\t'.join(['c', '.', '0', '260', '8', '0'] + [str(s + 1000) for s in range(252)])]
            + tabbed(answers))


# Document 01, section 'Edge cases': the last starred case, its two ways on.
EDGE = after_clear('''
v 1
v 2
''', '''
v 0:1 0 260 8 0
v 1:2 0 259 8 0 1252
''')
REVIVED = after_clear('''
i 100 1
i 250 2
''', '''
i + 1 260 8 0
i + 2 256 8 0 1252 1253 1254 1255
''')

# Lines that are no call. A call other than n comes before an accepted n.
PARSE = (['g\t5', 'n\t0\t1\t0', 'l', '', 'n\t64\t1\t0', 'n\t4097\t64\t99', 'x', 'i\t5', 'i\t5\t6\t7',
          'l\t', 'c\r', 'g\t05', 'g\t00', 'g\t', 'g\t4294967296', 'g\t99999999999999999999999', 'g\t+5',
          'g\t-1', 'g\t5 ', ' g\t5', 'G\t5', 'gg\t5', 'g 5', '\tg\t5', 'g\t\u0665', 'g\t4294967295', 'g\t0'],
         ['?', 'n\t!1\t0\t0\t0\t0', '?', '?', 'n\t.\t0\t0\t0\t0'] + ['?'] * 20
         + ['g\t!10\t0\t0\t0\t0', 'g\t-\t0\t0\t0\t0'])

# Document 02, S-4: 5 live, 9 removed by a range; a word of 2147483648 or more is a sequence with its top bit set.
LOSSES = tabbed('''
n 64 2 1
i 5 50
i 9 90
d 9 9
write 3 7 3,4,6,7
write 3 10 3,4,2147483654,10
write 69 69 69
write 2147483647 1 4294967295,1
write 5 5 -
write 0 64 !5
write 2147483648 5 !10
read 3 8 3,2147483653,7 101110
read 3 8 - 000000
read 3 8 3,4,5 !12
read 3 8 2147483651,4 !12
read 3 8 3,2147483652,6 !12
read 3 8 2147483652 !12
read 3 8 9 !12
read 2147483647 1 2147483647,0 110
read 5 4 - !5
''')
LOSSES = [line.replace(',', ' ') for line in LOSSES]

# (what is wrong, the number of the line, the wrong answer)
WRONG_LOSSES = [
    ('a live sequence listed', 5, '2147483651 7'),
    ('a run of two as a range', 5, '2147483651 4 6 7'),
    ('a removed sequence not listed', 6, '3 4 2147483654 8 10'),
    ('a run of three or more as single words', 6, '3 4 6 7 8 9 10'),
    ('a second word with its top bit set', 6, '3 4 2147483654 2147483658'),
    ('a sequence live by its position alone', 7, '-'),
    ('a run cut at the wrap', 8, '2147483647 0 1'),
    ('a word where nothing is lost', 9, '5'),
    ('a range above window_size reported', 10, '2147483648 64'),
    ('5 before 10', 11, '!5'),
    ('a run of three read as its ends', 12, '101010'),
    ('a right list refused', 12, '!12'),
    ('a byte too many', 12, '1011100'),
    ('losses in an empty list', 13, '000001'),
    ('three single words in a row taken', 14, '111000'),
    ('a pair for two sequences taken', 15, '110000'),
    ('runs that touch taken', 16, '111100'),
    ('a first word alone taken', 17, '010000'),
    ('a word past the range passed over', 18, '000000'),
    ('a range that does not wrap read', 19, '!12'),
    ('12 before 5', 20, '!12'),
]

# (what is wrong, the right files, the number of the line, the wrong line or
# None for a line left out)
WRONG = [
    ('a len one too high', LISTING, 2, 'i + 2 0 0 0'),
    ('a len not lowered by remove_range', LISTING, 6, 'd 2 3 0 1 1 60 70'),
    ('an insert accepted that is refused 4', LISTING, 3, 'i + 2 0 0 0'),
    ('an insert refused that is new', LISTING, 2, 'i !4 0 0 0 0'),
    ('a refusal with another number', LISTING, 3, 'i !5 1 0 0 0'),
    ('a refusal that raises promotions', LISTING, 3, 'i !4 1 0 1 0'),
    ('remove_range counts one too few', LISTING, 6, 'd 1 1 0 1 1 60 70'),
    ('a dropped value given twice', LISTING, 6, 'd 2 1 0 1 1 60 60 70'),
    ('one value given for another', LISTING, 6, 'd 2 1 0 1 1 60 60'),
    ('a dropped value left out', LISTING, 6, 'd 2 1 0 1 1 60'),
    ('a value dropped that was never accepted', LISTING, 6, 'd 2 1 0 1 1 60 51'),
    ('a live value dropped', LISTING, 6, 'd 2 1 0 1 1 60 70 50'),
    ('a value dropped again by a later call', LISTING, 7, 'c . 0 0 1 1 50 60'),
    ('retired_held one too high', LISTING, 6, 'd 2 1 1 1 1 60 70'),
    ('a value neither retired nor given', LISTING, 7, 'c . 0 0 1 1'),
    ('clear answers a number', LISTING, 7, 'c 1 0 0 1 1 50'),
    ('a search finds what is cleared', LISTING, 8, 's 5 0 0 1 1'),
    ('a search drops a value', LISTING, 8, 's - 0 0 1 1 50'),
    ('promotions fall', LISTING, 6, 'd 2 1 0 0 1 60 70'),
    ('demotions fall', LISTING, 8, 's - 0 0 1 0'),
    ('promotions not 0 after n', LISTING, 1, 'n . 0 0 1 0'),
    ('? for a call', LISTING, 8, '?'),
    ('a wrong letter', LISTING, 8, 'f - 0 0 1 1'),
    ('a field left out', LISTING, 8, 's - 0 0 1'),
    ('a tab at the end', LISTING, 8, 's - 0 0 1 1 '),
    ('a leading zero', LISTING, 2, 'i + 01 0 0 0'),
    ('a missing line', LISTING, 3, None),
    ('a missing last line', LISTING, 8, None),
    ('refusal 2 before refusal 1', POINTS, 1, 'n !2 0 0 0 0'),
    ('refusal 3 before refusal 2', POINTS, 3, 'n !3 0 0 0 0'),
    ('demote_at above N accepted', POINTS, 4, 'n . 0 0 0 0'),
    ('a replaced value not told', POINTS, 7, 'i + 2 0 0 0'),
    ('a wrong replaced value', POINTS, 7, 'i =51 2 0 0 0'),
    ('a replaced value also dropped', POINTS, 7, 'i =50 2 0 0 0 50'),
    ('get by position alone', POINTS, 10, 'g 52 2 0 0 0'),
    ('get gives the value before the last', POINTS, 9, 'g 50 2 0 0 0'),
    ('exchange gives the new value', POINTS, 11, 'e 54 2 0 0 0'),
    ('exchange prints as insert does', POINTS, 11, 'e =52 2 0 0 0'),
    ('a stranger that is none', POINTS, 13, 'q 5 2 0 0 0'),
    ('none while there is a stranger', POINTS, 14, 'q - 2 0 0 0'),
    ('a stranger outside the range', POINTS, 14, 'q 70 2 0 0 0'),
    ('a range above window_size taken', POINTS, 15, 'q - 2 0 0 0'),
    ('successor_after stays at its own', POINTS, 16, 's 5 2 0 0 0'),
    ('first_from leaves out its own', POINTS, 19, 'f 70 2 0 0 0'),
    ('a live pair missing in l', POINTS, 20, 'l 2 2 0 0 0 5:54'),
    ('a live pair twice in l', POINTS, 20, 'l 2 2 0 0 0 5:54 5:54'),
    ('a live pair and one of them twice in l', POINTS, 20, 'l 2 2 0 0 0 5:54 70:51 70:51'),
    ('an old value in l', POINTS, 20, 'l 2 2 0 0 0 5:52 70:51'),
    ('a wrong number of pairs in l', POINTS, 20, 'l 1 2 0 0 0 5:54 70:51'),
    ('a removed value also dropped', POINTS, 21, 'r 51 1 0 0 0 51'),
    ('a value removed twice', POINTS, 22, 'r 51 1 0 0 0'),
    ('budget 257 taken by release_retired', POINTS, 25, 'v 0:0 1 0 0 0'),
    ('257 taken by clear_bounded', POINTS, 26, 'b 1 0 0 0 0 54'),
    ('units made up with nothing held', POINTS, 27, 'v 0:1 1 0 0 0'),
    ('5 before 10', POINTS, 28, 'd !5 1 0 0 0'),
    ('a first with its top bit set taken', POINTS, 28, 'd 1 0 0 0 0 54'),
    ('a retired pair in l', RELEASE, 6, 'l 1 0 3 0 0 64:8'),
    ('a release that does nothing', RELEASE, 8, 'v 0:3 0 3 0 0'),
    ('too few units while values are held', RELEASE, 8, 'v 2:2 0 1 0 0 7 7'),
    ('more units than the budget', RELEASE, 7, 'v 1:2 0 2 0 0 7'),
    ('no unit for the page inspected', RELEASE, 9, 'v 1:1 0 0 0 0 8'),
    ('units for more pages than hold a value', RELEASE, 9, 'v 1:3 0 0 0 0 8'),
    ('units not told', RELEASE, 9, 'v 1 0 0 0 0 8'),
    ('released one more than given', RELEASE, 9, 'v 2:3 0 0 0 0 8'),
    ('an equal value given a third time', RELEASE, 9, 'v 1:2 0 0 0 0 7'),
    ('none held said while one is', RELEASE, 8, 'v 2:3 0 0 0 0 7 7'),
    ('clear_bounded releases above its number', RELEASE, 5, 'b 1 0 2 0 0 7'),
    ('clear_bounded counts one too many', RELEASE, 11, 'b 2 0 0 0 0 9'),
    ('an insert keeps a store that its count gives', RELEASE, 14, 'i + 1 0 0 0'),
    ('a position told from the whole sequence', RANGES, 3, 'i + 2 0 0 0'),
    ('a range above window_size emptied', RANGES, 4, 'd 1 0 0 0 0 1'),
    ('a range backwards taken', RANGES, 5, 'd 0 1 0 0 0'),
    ('a range of window_size refused', RANGES, 6, 'd !5 1 0 0 0'),
    ('a range that does not wrap', RANGES, 10, 'd 1 2 0 1 0 3'),
    ('successor_after leaves out its own at the end', RANGES, 11, 's - 1 0 1 0'),
    ('first_from does not go round', RANGES, 12, 'f - 1 0 1 0'),
    ('an insert drops a store that stays retired', REVIVED, 516, 'i + 2 260 8 0 1252 1253 1254 1255'),
    ('retired_held one too low', EDGE, 515, 'v 0:1 0 259 8 0'),
    ('release gives a value given before', EDGE, 516, 'v 1:2 0 259 8 0 1251'),
    ('the front taken by position alone', FRONT, 4, 't 7 0 0 0 0'),
    ('a base of 2147483648 taken', FRONT, 8, 'a . 2 0 1 0'),
    ('a base below 2147483648 refused', FRONT, 9, 'a !9 2 0 1 0'),
    ('a base that does not move', FRONT, 11, 't - 1 0 1 0'),
    ('a base that does not wrap', FRONT, 11, 't 7 0 0 1 0'),
    ('a front taken that is left live', FRONT, 10, 't 1 2 0 1 0'),
    ('a front taken and also dropped', FRONT, 10, 't 1 1 0 1 0 1'),
    ('the front found in a retired page', FRONT, 15, 't 3 0 0 1 0'),
    ('a front told as done', FRONT, 17, 't . 0 0 1 0'),
    ('a base that moves without a value', FRONT, 17, 't - 1 0 1 0'),
    ('a front taken twice', FRONT, 19, 't 4 0 0 1 0'),
    ('4 before 10', WIRE, 3, 'i !4 1 0 0 0'),
    ('a top bit that get does not see', WIRE, 4, 'g 50 1 0 0 0'),
    ('a number with its top bit set told as absent by get', WIRE, 4, 'g - 1 0 0 0'),
    ('the same by exchange', WIRE, 5, 'e - 1 0 0 0'),
    ('the same by remove', WIRE, 6, 'r - 1 0 0 0'),
    ('a top bit that remove does not see', WIRE, 6, 'r 50 0 0 0 0'),
    ('the same by successor_after', WIRE, 7, 's 5 1 0 0 0'),
    ('the same by first_from', WIRE, 8, 'f 5 1 0 0 0'),
    ('a last with its top bit set taken by remove_range', WIRE, 9, 'd 1 0 0 0 0 50'),
    ('a last with its top bit set taken by stranger', WIRE, 10, 'q - 1 0 0 0'),
    ('5 before 10 where both hold', WIRE, 11, 'd !5 1 0 0 0'),
    ('2147483647 refused', WIRE, 12, 'i !10 1 0 0 0'),
    ('an answer before an accepted n', PARSE, 1, 'g - 0 0 0 0'),
    ('a refused n taken as a window', PARSE, 3, 'l 0 0 0 0 0'),
    ('an empty line left unanswered', PARSE, 4, None),
    ('4097 refused where it is no call', PARSE, 6, 'n !2 0 0 0 0'),
    ('a tab at the end of a call taken', PARSE, 10, 'l 0 0 0 0 0'),
    ('a carriage return taken', PARSE, 11, 'c . 0 0 0 0'),
    ('a leading zero taken', PARSE, 12, 'g - 0 0 0 0'),
    ('4294967296 taken', PARSE, 15, 'g - 0 0 0 0'),
    ('4294967295 no number', PARSE, 26, '?'),
    ('? with more behind it', PARSE, 7, '? 0 0 0 0'),
    ('? for the largest number', PARSE, 26, '?'),
]

RIGHT = [('the listing', LISTING), ('points', POINTS), ('release', RELEASE), ('front', FRONT), ('ranges', RANGES),
         ('clear and release', EDGE), ('clear and insert', REVIVED), ('no calls', PARSE),
         ('empty input', ([], []))]


def text(lines):
    return ''.join(line + '\n' for line in lines)


def run(folder, calls, answers, *options):
    """Exit code and output of the comparison on these two texts."""
    return run_on(folder, {'calls': calls, 'answers': answers}, *options)


def run_on(folder, files, *options):
    """The same on files of these names and texts."""
    paths = [os.path.join(folder, name) for name in files]
    for path, content in zip(paths, files.values()):
        with open(path, 'w', encoding='utf-8', newline='') as out:
            out.write(content)
    said = io.StringIO()
    with contextlib.redirect_stdout(said):
        code = table.main([*options, *paths])
    return code, said.getvalue()


def altered(answers, at, line):
    """The answers with one line replaced or left out."""
    kept = [] if line is None else [line.replace(' ', '\t')]
    return answers[:at - 1] + kept + answers[at:]


def right_files(folder, fail):
    """What must agree, ways of ending a file included."""
    for name, (calls, answers) in RIGHT:
        code, said = run(folder, text(calls), text(answers))
        if code != 0 or said != '%d calls agree\n' % len(calls):
            fail('%s: refused: %s' % (name, said))
    calls, answers = LISTING
    if run(folder, text(calls)[:-1], text(answers))[0] != 0:
        fail('a last call without its line feed: refused')
    for call, answer in (('n\t65536\t1\t0', 'n\t.\t0\t0\t0\t0'), ('n\t65537\t64\t99', 'n\t!1\t0\t0\t0\t0')):
        if run(folder, call + '\n', answer + '\n', '--large')[0] != 0:
            fail('--large: %s refused' % call)
        if run(folder, call + '\n', '?\n')[0] != 0:
            fail('without --large: ? for %s refused' % call)


def wrong_files(folder, fail):
    """What must be refused, and at the line that is wrong; gives their number."""
    wrong = [(name, text(calls), text(altered(answers, at, line)), at)
             for name, (calls, answers), at, line in WRONG]
    calls, answers = map(text, LISTING)
    wrong += [('a line too many', calls, answers + 's\t-\t0\t0\t1\t1\n', 9),
              ('no line feed at the end', calls, answers[:-1], 8),
              ('no answers at all', calls, '', 1),
              ('an empty line for empty input', '', '\n', 1)]
    for name, calls, answers, at in wrong:
        code, said = run(folder, calls, answers)
        if code != 1:
            fail('%s: passes' % name)
        elif '/answers:%d: call ' % at not in said.split('\n')[0].replace(os.sep, '/'):
            fail('%s: refused elsewhere: %s' % (name, said))
    return len(wrong)


def loss_reports(folder, fail):
    """Reports that must agree, and answers that must be refused at their line;
    gives their number."""
    def said(lines):
        return run_on(folder, {'reports': text(lines)}, '--losses')

    if said(LOSSES) != (0, '16 loss reports agree\n'):
        fail('loss reports: refused: %s' % said(LOSSES)[1])
    for name, at, answer in WRONG_LOSSES:
        line = LOSSES[at - 1].rpartition('\t')[0] + '\t' + answer
        code, found = said(LOSSES[:at - 1] + [line] + LOSSES[at:])
        if code != 1 or '/reports:%d: ' % at not in found.replace(os.sep, '/'):
            fail('%s: passes, or is refused elsewhere: %s' % (name, found))
    return len(WRONG_LOSSES)


def main():
    failures = []
    with tempfile.TemporaryDirectory() as folder:
        right_files(folder, failures.append)
        count = wrong_files(folder, failures.append)
        reports = loss_reports(folder, failures.append)
    for failure in failures:
        print(failure)
    print('%d right files agree, %d wrong files and %d wrong loss reports refused' % (len(RIGHT) + 1, count, reports)
          if not failures else '%d failures' % len(failures))
    return 1 if failures else 0


if __name__ == '__main__':
    sys.exit(main())
