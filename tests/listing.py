#!/usr/bin/env python3
"""Document 01's listing, taken from the paper itself, is the recorded file `listing`.

The paper shows tabs as spaces, and parts calls from answers by an empty line.
"""

import os
import re
import sys

ROOT = os.path.dirname(os.path.dirname(os.path.abspath(__file__)))


def read(*path):
    with open(os.path.join(ROOT, *path), encoding='ascii' if path[0] == 'tests' else 'utf-8') as file:
        return file.read()


def main():
    block = re.search(r'^```\n(.*?)^```', read('..', 'shared', 'docs', '01-scope.md'), re.M | re.S).group(1)
    parts = block.replace(' ', '\t').split('\n\n')
    calls, answers = parts[0] + '\n', parts[1]
    for kind, expected in (('in', calls), ('out', answers)):
        if read('tests', 'recorded', 'listing.' + kind) != expected:
            print('listing.%s is not what document 01 shows' % kind)
            return 1
    print('%d calls and their answers' % calls.count('\n'))
    return 0


if __name__ == '__main__':
    sys.exit(main())
