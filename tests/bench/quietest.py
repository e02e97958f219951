#!/usr/bin/env python3
"""Several outputs of tests/bench/run, or of tests/bench/growth, made one: `quietest.py FILE ..`.

Of each row the line is kept in which library and source together took the least time, so that a row counts which other work
on the machine disturbed in some of the runs only.
"""

import sys


def parts(line):
    """The key of a line and its time; none for a heading."""
    if line.startswith("|"):
        cells = [cell.strip() for cell in line.strip("|").split("|")]
        key, times = cells[:2], cells[2:4]
    else:
        cells = line.split("\t")
        key, times = cells[:4], cells[4:6]
    try:
        return tuple(key), sum(float(time) for time in times)
    except ValueError:
        return None


def main():
    heading, best = [], {}
    for number, path in enumerate(sys.argv[1:]):
        for line in open(path).read().splitlines():
            found = parts(line)
            if found is None:
                heading += [line] if number == 0 else []
            elif found[0] not in best or found[1] < best[found[0]][0]:
                best[found[0]] = (found[1], line)
    print("\n".join(heading + [line for _, line in best.values()]))


main()
