#!/usr/bin/env python3
"""The code forms that document 01 names ('Places and their forms') stand where docs/TRACE.md says.

A form is no promise, so no proof asks for it. Each row here is a place of document 01, a file, the function or item that
has the form, and what must stand in its text.
"""
import re
import sys
from pathlib import Path

ROOT = Path(__file__).resolve().parent.parent
FORMS = [
    ('that begins at 64 × page', 'call_point/src/exchange.rt', 'exchange_in_page', [r'let from = PAGE_SLOTS \* page;', r'&mut values\[from\.\.to\]']),
    ('that begins at 64 × page', 'call_point/src/remove.rt', 'remove_in_page', [r'let from = PAGE_SLOTS \* page;', r'&mut sequences\[from\.\.to\]', r'&mut values\[from\.\.to\]']),
    ('that begins at 64 × page', 'call_point/src/insert.rt', 'insert_in_page', [r'let from = PAGE_SLOTS \* page;', r'&mut sequences\[from\.\.to\]', r'&mut values\[from\.\.to\]']),
    ('the walk over pages yields the first live sequence, or none', 'block_search/src/walk.rt', 'find_live', [r'= loop \{', r'break Ok\(Some\(', r'break Ok\(None\);']),
    ('wrapping_sub on sequences stays', 'call_base/src/lib.rt', 'distance', [r'sequence\.wrapping_sub\(base\)']),
    ('wrapping_sub on sequences stays', 'call_base/src/lib.rt', 'range_count', [r'distance\(first, last\) \+ 1']),
    ('wrapping_sub on sequences stays', 'call_read/src/lib.rt', 'first_from', [r'sequence\.wrapping_sub\(1\)']),
    ('Command letters', 'line_text/src/lib.rt', 'field_count', [r"match letter \{", r"b'n' => Some\(3\)", r"b'i' \| b'e' \| b'd' \| b'q' => Some\(2\)"]),
    ('the units used are carried in the answer', 'call_retire/src/release_retired.rt', 'release_retired', [r'Answer::Released\(visited\.count as u32, visited\.units as u32\)']),
    ('belong to the window as its own constants', 'window/src/lib.rt', 'impl AdaptiveReceiverPacketWindow', [
        r'pub const PAGE_SLOTS: usize = 64;', r'pub const MAX_RETIRED_RELEASED_PER_VISIT: usize = 256;', r'pub fn new\(']),
    ("A page's 64 cells are handed out as a part of the lent memory", 'page_base/src/lib.rt', 'page_cells', [r'-> &\[u32\]', r'&cells\[from\.\.to\]']),
    ("host forms update the caller's header directly", 'call_host/src/lib.rt', 'insert', [r'w: &mut AdaptiveReceiverPacketWindow', r'\*w = ']),
    ("host forms update the caller's header directly", 'call_host/src/lib.rt', 'remove', [r'w: &mut AdaptiveReceiverPacketWindow', r'\*w = ']),
    ("host forms update the caller's header directly", 'call_host/src/lib.rt', 'release_retired', [r'w: &mut AdaptiveReceiverPacketWindow', r'\*w = ']),
]


def text_of(path, item):
    """The text of a function, or of the item that a line begins with, up to the line that ends it."""
    text = (ROOT / 'crates' / path).read_text()
    begin = item if ' ' in item else rf'(?:pub )?(?:extern "C" )?fn {item}\('
    found = re.search(rf'^{begin}.*?^\}}', text, re.DOTALL | re.MULTILINE)
    return found[0] if found else ''


def main():
    wrong = []
    for place, path, item, needs in FORMS:
        text = text_of(path, item)
        wrong += [f"'{place}': {item} ({path}) has no {need}" for need in needs if not re.search(need, text)]
    for line in wrong:
        print(line)
    print(f'{len(FORMS)} places have the forms that document 01 names')
    return 1 if wrong else 0


if __name__ == '__main__':
    sys.exit(main())
