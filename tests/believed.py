#!/usr/bin/env python3
"""README's list of what one has to believe is whole, and no file of a specs/ holds a proof.

One has to believe the files of definitions that the statements of demand 3 and of requests S-4 and S-14, what the line program prints and the
contracts of the exported functions reach by their imports: README names each of them under 'What one has to believe', and no other.
"""
import re
import sys
from pathlib import Path

import exported

ROOT = Path(__file__).resolve().parent.parent
HEADING = '## What one has to believe'
# demand 3; request S-14; what is proved of loss lists; what the line program prints for its input, and the contracts of its functions
STATEMENTS = ['crates/model/specs/Heads.antt', 'crates/laws_visits/specs/TwoVisits.antt', 'crates/model/specs/Reports.antt',
              'crates/laws_demotions/specs/Demotions.antt',
              'crates/line_program/specs/Program.antt', 'crates/line_program/specs/Promises.antt']
USE = re.compile(r'^(?:ghost |pub |unfoldable pub )?use Rattle\.(?P<crate>\w+)\.specs\.(?P<module>[\w.]+)', re.MULTILINE)


def imported(text):
    """The files of definitions that a file's `use` lines name; a type declared in src/ has no such file."""
    for found in USE.finditer(text):
        module = found['module'].rstrip('.')
        if found['crate'] != 'std' and not module.startswith('declared'):
            yield f"crates/{found['crate']}/specs/{module.split('.')[0]}.antt"


def cited(texts):
    """The files whose names the contracts of the exported functions cite."""
    for function in exported.found(texts):
        contract = ' '.join(function.contracts)
        for line in re.findall(r'^ghost use Rattle\..*;$', texts[function.path], re.MULTILINE):
            names = [name.split()[-1] for name in re.search(r'\{(.*)\}', line)[1].split(', ')]
            if any(re.search(rf'(?<![\w-]){re.escape(name)}(?![\w-])', contract) for name in names):
                yield from imported(line)


def reached():
    texts = exported.read()
    todo = [*STATEMENTS, *cited(texts)]
    seen = set()
    while todo:
        path = todo.pop()
        if path not in seen:
            seen.add(path)
            todo += imported(texts[path])
    return seen


def proofs(path):
    """Declarations of a file that are no definitions: neither abbrev nor unfoldable, nor a field or constructor."""
    block = None
    for line in (ROOT / path).read_text().splitlines():
        indent = len(line) - len(line.lstrip())
        if not line.strip() or line.lstrip().startswith('--'):
            continue
        if block is not None and indent > block:
            continue
        block = None
        if re.match(r'\s*(?:pub )?(?:record|data) ', line):
            block = indent
        elif re.match(r'\s*(?:pub )?[\w«»\'-]+ :(?= |$)', line):
            yield line.strip()


def main():
    readme = (ROOT / 'README.md').read_text()
    wrong = []
    if HEADING not in readme:
        wrong.append(f'README has no heading {HEADING!r}')
    listed = set(re.findall(r'crates/\w+/specs/\w+\.antt', readme.partition(HEADING)[2].partition('\n## ')[0]))
    files = reached()
    wrong += [f'README does not name {path}' for path in sorted(files - listed)]
    wrong += [f'README names {path}, which is not reached' for path in sorted(listed - files)]
    definitions = sorted(str(path.relative_to(ROOT)) for path in ROOT.glob('crates/*/specs/*.antt'))
    for path in definitions:
        wrong += [f'{path} holds a proof: {name}' for name in proofs(path)]
    for line in wrong:
        print(line)
    print(f'{len(files)} files to believe, each on the list; no proof in the {len(definitions)} files of specs/')
    return 1 if wrong else 0


if __name__ == '__main__':
    sys.exit(main())
