#!/usr/bin/env python3
"""The crates as crates.txt has them: README's list of them, and docs/crates.svg, the picture of who uses whom.

    tests/crates.py            whether both are what crates.txt says, and each crate stands after those that it uses
    tests/crates.py --write    makes both from crates.txt

The list stands in README between the lines CRATES and END. In the picture a line goes from a crate to each one that it uses and that no
other of its own reaches.
"""
import re
import sys
from pathlib import Path
from xml.sax.saxutils import escape

ROOT = Path(__file__).resolve().parent.parent
README = ROOT / 'README.md'
PICTURE = ROOT / 'docs/crates.svg'
BEGIN, END = '<!-- crates, from crates.txt: tests/crates.py --write -->\n', '<!-- end of crates -->\n'
# a colour for each prefix; the first that fits
COLOURS = [('page_', '#cfe8d2'), ('block_', '#c9dcf2'), ('range_', '#c9dcf2'), ('release_', '#c9dcf2'), ('call_', '#f3e3c3'), ('c_', '#f2cfc3'),
           ('laws_', '#e8e0f0'), ('model', '#e8e0f0'), ('line_', '#eeeeee'), ('windowlines', '#eeeeee'), ('', '#ffffff')]
WIDTH, HEIGHT, GAP, ROW, EDGE = 118, 34, 16, 84, 24


def listed():
    """{name: (the crates of the repository that it uses, what it holds)}, in the order of the file."""
    crates = {}
    for line in (ROOT / 'crates.txt').read_text().splitlines():
        found = re.fullmatch(r'(\w+)(?: staticlib)?:([^#]*)# (.*)', line)
        if found:
            crates[found[1]] = (found[2].split(), found[3])
        elif not line.startswith('#'):
            raise SystemExit(f'crates.txt: a line that does not say what its crate holds: {line}')
    return {name: ([use for use in uses if use in crates], holds) for name, (uses, holds) in crates.items()}


def list_of(crates):
    width = max(map(len, crates))
    return ''.join(f'    {name.ljust(width)}  {holds}\n' for name, (_, holds) in crates.items())


def reached(crates, name):
    below = set(crates[name][0])
    for use in crates[name][0]:
        below |= reached(crates, use)
    return below


def drawn(crates):
    """{name: those that it uses and that no other of its own reaches}."""
    return {name: [use for use in uses if not any(use in reached(crates, other) for other in uses)] for name, (uses, _) in crates.items()}


def rows_of(uses):
    """The crates in rows from below: each just below the lowest that uses it, each row in an order that keeps lines short."""
    height = {}
    for name in uses:  # each stands after those that it uses
        height[name] = 1 + max((height[use] for use in uses[name]), default=-1)
    for name in reversed(uses):
        height[name] = min((height[user] - 1 for user in uses if name in uses[user]), default=height[name])
    rows = [[name for name in uses if height[name] == h] for h in range(max(height.values()) + 1)]
    place = {}
    for row in rows:
        row.sort(key=lambda name: sum(place[use] for use in uses[name]) / len(uses[name]) if uses[name] else 0)
        place.update({name: (k + 0.5) / len(row) for k, name in enumerate(row)})
    return rows


def picture(crates):
    uses = drawn(crates)
    rows = rows_of(uses)
    wide = max(map(len, rows)) * (WIDTH + GAP) + 2 * EDGE
    high = len(rows) * ROW + 2 * EDGE
    at = {}
    for h, row in enumerate(rows):
        step = (wide - 2 * EDGE) / len(row)
        for k, name in enumerate(row):
            at[name] = (EDGE + step * (k + 0.5), high - EDGE - ROW * h - HEIGHT)
    parts = [f'<svg xmlns="http://www.w3.org/2000/svg" width="{wide}" height="{high}" viewBox="0 0 {wide} {high}" '
             'font-family="DejaVu Sans Mono, Consolas, monospace" font-size="12" fill="#1a1a1a">',
             '<title>Which crate uses which: a line goes down to a crate that is used</title>',
             f'<rect width="{wide}" height="{high}" fill="#ffffff"/>']
    for name, below in uses.items():
        for use in below:
            (x, y), (to_x, to_y) = at[name], at[use]
            from_y, to_y = y + HEIGHT / 2, to_y - HEIGHT / 2
            # a line straight down past other rows goes round the boxes in its way
            aside = WIDTH if to_y - from_y > ROW and abs(x - to_x) < WIDTH / 2 else 0
            bend = (to_y - from_y) / 3 if aside else 30
            parts.append(f'<path d="M{x:.0f} {from_y:.0f} C{x - aside:.0f} {from_y + bend:.0f} {to_x - aside:.0f} {to_y - bend:.0f} {to_x:.0f} {to_y:.0f}" '
                         'fill="none" stroke="#555555" stroke-width="1.2"/>')
    for name, (x, y) in at.items():
        colour = next(colour for prefix, colour in COLOURS if name.startswith(prefix))
        parts.append(f'<rect x="{x - WIDTH / 2:.0f}" y="{y - HEIGHT / 2:.0f}" width="{WIDTH}" height="{HEIGHT}" rx="6" fill="{colour}" stroke="#1a1a1a"/>')
        parts.append(f'<text x="{x:.0f}" y="{y + 4:.0f}" text-anchor="middle">{escape(name)}</text>')
    return '\n'.join(parts + ['</svg>']) + '\n'


def main():
    crates = listed()
    wrong, seen = [], set()
    for name, (uses, _) in crates.items():
        wrong += [f'crates.txt: {name} stands before {use}, which it uses' for use in uses if use not in seen]
        seen.add(name)
    readme = README.read_text()
    head, begin, rest = readme.partition(BEGIN)
    _, end, tail = rest.partition(END)
    if wrong or not end:
        print('\n'.join(wrong or ['README has no place for the crates']))
        return 1
    whole = head + begin + '\n' + list_of(crates) + '\n' + end + tail
    if sys.argv[1:] == ['--write']:
        README.write_text(whole)
        PICTURE.write_text(picture(crates))
    if README.read_text() != whole:
        wrong.append("README's list of the crates is not that of crates.txt")
    if not PICTURE.exists() or PICTURE.read_text() != picture(crates):
        wrong.append('docs/crates.svg is not the picture of crates.txt')
    for line in wrong:
        print(line)
    print(f'{len(crates)} crates in README and docs/crates.svg as crates.txt has them')
    return 1 if wrong else 0


if __name__ == '__main__':
    sys.exit(main())
