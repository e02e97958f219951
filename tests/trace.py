#!/usr/bin/env python3
"""Checks that docs/TRACE.md has a row for every sentence of documents 00, 01 and 02, and that what it cites is there.

For whoever changes the trace or reads it as complete. The rows must stand under
the paper's headings, verbatim and in the paper's order, with no empty cell and a
known state. The files that docs/ADDING.md names by their whole path must be there
too. Prints 'N sentences traced' and exits 0, or says what is amiss and exits 1.
--selftest breaks rows in memory, each of which must be noticed.

What a row cites:
- A path must be a file or folder of the repository, from its root, from crates/
  or from docs/; a file without a folder ('Table.antt') stands in the folder of
  the file named before it.
- A crate in brackets must be listed in crates.txt.
- A name of code (a word with an underscore, a capital inside, a dot or a hyphen)
  must stand in the files and crates of the brackets that follow it, or, where
  none follow, in some crate, test or interface; an edit and a recorded file are
  named by their file.
- A row that is open cites nothing but its request, which has no note yet in
  docs/requests.

How a paper is split:
- The papers have one paragraph or list item a line; '> ' and '- ' before it are
  taken off, a number before it ('1. ') stays with its first sentence.
- A heading names the group of the rows after it.
- A code block is one row, its lines joined by '<br>'.
- A line that begins with '* ' is a list of starred cases: one row for each.
- A line that begins with 'Traps: ' is a list of traps, parted by '; ': one row
  for each.
- A line of document 02 that begins with a request ('S-1. **Title.** ') has that
  as its heading.
- Any other line is cut after each full stop that a space follows. No sentence
  of the papers ends in another mark, and in them no abbreviation ends so.
Nothing but the space at a cut is lost, so the rows joined are the paper.
"""

import os
import re
import sys

ROOT = os.path.dirname(os.path.dirname(os.path.abspath(__file__)))
PAPERS = [os.path.join(ROOT, '..', 'shared', 'docs', name) for name in ('00-demands.md', '01-scope.md', '02-change-requests.md')]
TRACE = os.path.join(ROOT, 'docs', 'TRACE.md')
STATES = ('open', 'held', 'partly', 'told', 'changed', 'informs')
WALKS = os.path.join(ROOT, 'docs', 'ADDING.md')
# what the walks of docs/ADDING.md add in their example, or leave open
EXAMPLES = ('first_live', 'NAME', 'S-NN')
TITLES = ['sentence', 'carried by', 'state']

REQUEST = re.compile(r'(S-\d+\.) \*\*(.+?)\*\* (.*)')
NUMBERED = re.compile(r'\d+\. ')
FENCE = '```'


def lines_of(path):
    with open(path, encoding='utf-8') as paper:
        return paper.read().split('\n')


def split_line(line):
    """The rows of one line of a paper."""
    if line.startswith('* '):
        return re.split(r' (?=\* )', line)
    if line.startswith('Traps: '):
        return re.split(r'(?<=;) ', line)
    number = NUMBERED.match(line)
    start = number.end() if number else 0
    sentences = re.split(r'(?<=\.) ', line[start:])
    return [line[:start] + sentences[0]] + sentences[1:]


def sentences_of(path):
    """The rows that a paper calls for: (heading, sentence), in order."""
    heading, block = None, None
    for line in lines_of(path):
        if line.startswith(FENCE):
            if block is not None:
                yield heading, '<br>'.join(block)
            block = [] if block is None else None
        elif block is not None:
            block.append(line)
        elif line.startswith('#'):
            heading = line.lstrip('# ')
        else:
            line = re.sub(r'^(> ?|- )', '', line)
            request = REQUEST.fullmatch(line)
            if request:
                heading, line = '%s %s' % request.group(1, 2), request[3]
            if line:
                for sentence in split_line(line):
                    yield heading, sentence


def cells_of(line):
    """The cells of a table row; '\\|' in a cell is a pipe character."""
    cells = re.split(r'(?<!\\)\|', line.strip()[1:-1])
    return [cell.strip().replace('\\|', '|') for cell in cells]


def rows_in(lines):
    """The rows of the trace: (line number, heading, cells), title rows left out."""
    heading = None
    for at, line in enumerate(lines, 1):
        if line.startswith('#'):
            heading = line.lstrip('# ')
        elif line.startswith('|'):
            cells = cells_of(line)
            if cells != TITLES and not all(re.fullmatch(r':?-+:?', cell) for cell in cells):
                yield at, heading, cells


def faults_of_row(at, cells):
    """What is amiss with a row, whatever its sentence."""
    where = 'line %d of the trace: ' % at
    if len(cells) != len(TITLES):
        return [where + '%d cells, not %d' % (len(cells), len(TITLES))]
    faults = [where + 'no ' + title for title, cell in zip(TITLES, cells) if not cell]
    if cells[2] and cells[2] not in STATES:
        faults.append(where + 'state %r is none of %s' % (cells[2], ', '.join(STATES)))
    return faults


def faults_of_order(sentences, rows):
    """The first place where the rows are not the sentences in order."""
    for sentence, row in zip(sentences, rows):
        if sentence != (row[1], row[2][0]):
            return ['line %d of the trace: expected under %r: %s\n  found under %r: %s'
                    % (row[0], *sentence, row[1], row[2][0])]
    if len(sentences) > len(rows):
        return ['missing at the end: under %r: %s' % sentences[len(rows)]]
    if len(rows) > len(sentences):
        return ['line %d of the trace: no sentence of the papers' % rows[len(sentences)][0]]
    return []


class Repository:
    """The files of the repository, and the words that stand in them."""

    def __init__(self, root):
        self.root = root
        self.words = {}
        crates = open(os.path.join(root, 'crates.txt'), encoding='utf-8').read()
        self.crates = set(re.findall(r'^(\w+)(?: staticlib)?:', crates, re.MULTILINE))
        # all but this file, which has wrong names for its own test
        self.everywhere = [path for top in SEARCHED for path in self.files(top) if path != 'tests/trace.py']

    def files(self, path):
        """The files at or below a path."""
        whole = os.path.join(self.root, path)
        if os.path.isfile(whole):
            return [path]
        found = []
        for folder, folders, names in os.walk(whole):
            folders[:] = sorted(f for f in folders if f not in ('target', 'out'))
            found += [os.path.relpath(os.path.join(folder, name), self.root) for name in sorted(names)]
        return found

    def words_of(self, path):
        if path not in self.words:
            recorded = path.startswith('tests/recorded/')  # cited by its name alone
            text = '' if recorded else open(os.path.join(self.root, path), encoding='utf-8').read()
            self.words[path] = set(WORD.findall(text)) | {os.path.basename(path).split('.')[0]}
        return self.words[path]

    def path_of(self, cited, before):
        """The repository's path of a cited one, or None; `before` is the last file cited in the row."""
        for top in ('', 'crates', 'docs', os.path.dirname(before)):
            path = os.path.join(top, cited)
            if os.path.exists(os.path.join(self.root, path)):
                return path
        return None

    def has(self, name, paths):
        """Whether a name, or each part of one with a dot or '::', stands in a file at or below the paths."""
        files = [path for top in paths for path in self.files(top)] if paths else self.everywhere
        return all(any(part in self.words_of(path) for path in files) for part in re.split(r'\.|::', name))


SEARCHED = ('crates', 'tests', 'include', 'bindings', 'oracle', 'examples', 'test', 'library')
WORD = re.compile(r"[^\W\d][\w′-]*")
PATH = re.compile(r'(?<![\w./])(?:\.ci/run|\./\w+|[\w-]+(?:/[\w.-]+)+|\w[\w-]*\.(?:antt|rt|md|py|rs|c|h|svg|txt)|NOTICE|README)(?![\w/])')
CODE = re.compile(r"(?<![\w./'\"-])(?:[A-Za-z]\w*(?:(?:\.|::|-|_)[A-Za-z]\w*)+(?:-\d)?|[a-z]+[A-Z]\w*|[A-Z][a-z]+[A-Z]\w*)(?![\w/-])")


def names_of(text):
    """The names of code in a piece of a cell."""
    text = re.sub(r"'[^']*'(?!\w)", '', text)
    return CODE.findall(PATH.sub(' ', text))


def faults_of_cell(repository, at, cell):
    """What a cell cites that is not there."""
    where, faults, before = 'line %d of the trace: ' % at, [], ''
    for piece in re.split(r';', cell):
        text, paths = '', []
        for part in re.split(r'(\([^()]*\))', piece):
            cited = []
            for found in PATH.findall(part):
                path = repository.path_of(found, before)
                if path is None:
                    faults.append(where + 'no file %s' % found)
                else:
                    cited.append(path)
                    before = path
            if not part.startswith('('):
                text += part
                continue
            inner = part[1:-1]
            if re.fullmatch(r'[a-z_]+(, [a-z_]+)*', inner):
                for crate in inner.split(', '):
                    if crate in repository.crates:
                        cited.append('crates/' + crate)
                    else:
                        faults.append(where + 'no crate %s' % crate)
            for name in names_of(text):
                if not repository.has(name, cited):
                    faults.append(where + '%s is not in %s' % (name, ', '.join(cited) or 'the repository'))
            text = ''
        for name in names_of(text):
            if not repository.has(name, []):
                faults.append(where + '%s is not in the repository' % name)
    return faults


def faults_of_open(repository, at, cell):
    request = re.fullmatch(r'request S-(\d+)', cell)
    if not request:
        return ['line %d of the trace: an open row cites its request alone' % at]
    note = 'docs/requests/S-%02d.md' % int(request[1])
    if repository.path_of(note, ''):
        return ['line %d of the trace: open, and its request has landed (%s)' % (at, note)]
    return []


def faults_of(rows, sentences, repository):
    found = {row[2][0] for row in rows}
    faults = ['missing: under %r: %s' % s for s in sentences if s[1] not in found]
    for at, heading, cells in rows:
        wrong = faults_of_row(at, cells)
        if not wrong and cells[2] == 'open':
            wrong = faults_of_open(repository, at, cells[1])
        if not wrong and cells[2] not in ('open', 'informs'):
            wrong = faults_of_cell(repository, at, cells[1])
        faults += wrong
    return faults + faults_of_order(sentences, rows)


# (what is broken, the text of a row that has it, in its place): each must be noticed
BROKEN = [
    ('a sentence left out', '| They stand above every other paper here;', None),
    ('a sentence altered', '| The work continues. |', '| The work goes on. |'),
    ('a sentence of a request altered', '| Release nothing. |', '| Release something. |'),
    ('a file that is not there', 'model/specs/Heads.antt', 'model/specs/Hands.antt'),
    ('a crate that is not there', '(call_retire)', '(range_calls)'),
    ('a name that is not there', 'After.drained', 'After.emptiedAll'),
    ('a law of another file', 'stranger-tells (model/proofs/StrangerLaws.antt)', 'stranger-tells (model/proofs/UnitLaws.antt)'),
    ('an edit that is not there', 'block_mark_not_tested', 'block_mark_not_looked_at'),
    ('a state that is none', '| told |', '| said |'),
    ('an open row that cites more', '| request S-8 | open |', '| release_step | open |'),
]


def selftest(sentences, repository):
    missed = 0
    text = open(TRACE, encoding='utf-8').read()
    for what, old, new in BROKEN:
        lines = text.split('\n')
        at = next((i for i, line in enumerate(lines) if old in line), None)
        if at is None:
            print('%s: no row has %r' % (what, old))
            missed += 1
            continue
        lines[at:at + 1] = [] if new is None else [lines[at].replace(old, new)]
        if not faults_of(list(rows_in(lines)), sentences, repository):
            print('not noticed: ' + what)
            missed += 1
    print('%d of %d broken traces noticed' % (len(BROKEN) - missed, len(BROKEN)))
    return 1 if missed else 0


def faults_of_walks(text):
    """Files that docs/ADDING.md names and that are not there."""
    named = re.findall(r'\b(?:bindings|crates|docs|examples|include|oracle|tests)/[\w./-]*\w', text)
    return ['docs/ADDING.md names %s, which is not there' % path for path in sorted(set(named))
            if not os.path.exists(os.path.join(ROOT, path)) and not any(example in path for example in EXAMPLES)]


def main():
    sentences = [sentence for paper in PAPERS for sentence in sentences_of(paper)]
    repository = Repository(ROOT)
    if sys.argv[1:] == ['--selftest']:
        return selftest(sentences, repository)
    rows = list(rows_in(lines_of(TRACE)))
    faults = faults_of(rows, sentences, repository) + faults_of_walks('\n'.join(lines_of(WALKS)))
    for fault in faults:
        print(fault)
    if not faults:
        still = sum(row[2][2] == 'open' for row in rows)
        print('%d sentences traced, %d of them open' % (len(sentences), still))
    return 1 if faults else 0


if __name__ == '__main__':
    sys.exit(main())
