#!/usr/bin/env python3
"""Spells the repository's own names of definitions, fields and constructors as today's Rattle does: words in snake case.

    python3 tools/spelling.py          in the repository, once, after port.py

What is renamed, in every .rt and .antt file of crates/:
- a word in camel case (setBit) becomes one in snake case (set_bit). Where code, or another lemma, has that name already, the
  word gets `_of`, as std's guides do for the word beside a function (fn echo, echo_of), or the name that SPECIAL gives it;
- a field or a constructor of specs/ with a dash (range-argument) gets `_` (range_argument);
- specs/Contracts.antt becomes specs/Promises.antt, since Rattle makes a module specs.contracts.
Functions, exported names, strings and the names of lemmas with a dash, which are today's form, stay.
Two names that would fall together end the script before anything is written.
"""
import collections
import pathlib
import re
import sys

WORD = r"[^\W\d][\w']*(?:-[\w'*+]+)*"
# where the rule's own name would be hard to read
SPECIAL = {
    'blockWords': 'words_per_block',
    'pageWords': 'words_per_page',
    'faultOf': 'fault_of_line',
    'faultOfBytes': 'fault_of_text',
    'faultOfCall': 'fault_of_parsed',
    'rowIn': 'RowIn',
    'fieldCount': 'fields_of_letter',
    'dense-words': 'dense_filled',
    'retired-count': 'same_retired_count',
    'retired-values': 'same_retired_values',
    'retiredHeld': 'retired_values_held',
    'Losses-read-and-written': 'LossesReadAndWritten',
    'Same-reports': 'SameReports',
    'Demand-3': 'Demand3',
}
# lemmas whose names words now have
LEMMAS = {
    'call_line': 'call_line_lem', 'new_line': 'new_line_lem', 'limits_of': 'limits_of_lem',
    'live_at': 'live_at_lem', 'live_here': 'live_here_lem', 'is_found': 'is_found_lem',
}
LOCALS = {'callLine', 'newLine', 'limitsOf', 'liveAt', 'liveHere', 'isFound', 'answerAt', 'inBlocks',
          'demoteAt', 'demote-at', 'retiredBlocks', 'listedSequences', 'listedValues'}


def files(root):
    for kind in ('src', 'specs', 'proofs'):
        for path in sorted(root.glob(f'crates/*/{kind}/**/*')):
            if path.suffix in ('.rt', '.antt'):
                yield path


def snake(name):
    return re.sub(r'(?<=[a-z0-9])([A-Z])', lambda m: '_' + m[1].lower(), name)


def main():
    root = pathlib.Path('.')
    text = {path: path.read_text() for path in files(root)}
    where = collections.defaultdict(set)
    dashed = set()
    for path, body in text.items():
        bare = re.sub(r'(--|//).*', '', body)
        for word in re.findall(WORD, bare):
            where[word].add(path)
            if '-' in word and '/specs/' in str(path):
                dashed.add(word)
    camel = {w for w in where if re.search(r'[a-z0-9][A-Z]', w) and w[0].islower() and '-' not in w
             and any(p.suffix == '.antt' for p in where[w])}
    new = {}
    for word in sorted(camel):
        plain = snake(word)
        if word in SPECIAL:
            new[word] = SPECIAL[word]
        elif plain not in where or word in LOCALS:
            new[word] = plain
        else:
            new[word] = plain + '_of'
    for word in sorted(dashed):
        if word in SPECIAL:
            new[word] = SPECIAL[word]
        elif word[0].islower():
            new[word] = word.replace('-', '_')
    lemmas = {w: n for w, n in LEMMAS.items() if w in where}
    taken = collections.Counter(list(new.values()) + list(lemmas.values()))
    bad = [(w, n) for w, n in new.items() if taken[n] > 1 and w not in LOCALS]
    bad += [(w, n) for w, n in {**new, **lemmas}.items()
            if n in where and w not in LOCALS and '-' not in w and n != 'Demand3']
    if bad:
        print('spelling: names that fall together:', bad)
        return 1
    table = {**new, **lemmas}
    for word, name in sorted(table.items()):
        print(f'{word} {name}')
    pattern = re.compile(r"(?<![\w'-])(" + '|'.join(sorted(map(re.escape, table), key=len, reverse=True)) + r")(?![\w'-])")
    # a lemma's new name is for proof files only: in code and in the path of a function's proof the word stays
    for path, body in text.items():
        def put(m):
            word = m[1]
            if word in lemmas and path.suffix == '.rt':
                return word
            return table[word]
        done = pattern.sub(put, body)
        done = re.sub(r'\bspecs\.Contracts\b', 'specs.Promises', done)
        if path.name == 'Lib.antt':
            done = re.sub(r'\bmod Contracts\b', 'mod Promises', done)
        if done != body:
            path.write_text(done)
    for path in sorted(root.glob('crates/*/specs/Contracts.antt')):
        path.rename(path.with_name('Promises.antt'))
    return 0


if __name__ == '__main__':
    sys.exit(main())
