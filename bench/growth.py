#!/usr/bin/env python3
"""Shows that the time of deep inputs grows with their length: growth.py.

It needs the program testbench as the gate builds it. A key limit of 65,536 bytes is the largest: so many bytes may be read
before it is known whether a key stands there.
"""

import sys

from common import Table, answer_help, measure_ours, milliseconds, print_table, ratio
from texts import TIMES, keys_of_keys, nested_keys

MAPPINGS = "mappings, each the key of the one around it"
COLUMNS = ["Text", "Key limit", "Parts", "Time, ms", "Of twice the parts, ms", "Times as long"]
NOTE = """Only ours, best of nine. The text is scanned with so many of its parts and with twice as many. At most about 13,000 of
these mappings can be keys in a limit of 65,536 bytes, and 200 in the usual one."""


def inputs():
    """The name of a text, the text of a count, the count, and the key limit, or None for the usual one."""
    yield "`[`", lambda count: "[" * count, TIMES, None
    yield "`{a: `", lambda count: "{a: " * count, TIMES, None
    yield MAPPINGS, keys_of_keys, TIMES, None
    yield f"entries of 12,500 {MAPPINGS}", nested_keys, TIMES, None
    yield "`[`", lambda count: "[" * count, TIMES, 65_536
    yield "`{a: `", lambda count: "{a: " * count, TIMES, 65_536
    yield MAPPINGS, keys_of_keys, 6_500, 65_536
    yield f"entries of 12,500 {MAPPINGS}", nested_keys, TIMES, 65_536


def measure(text, limit):
    return measure_ours(text.encode(), "scan", *([str(limit)] if limit else []))


def takes_limits():
    """Whether a larger limit makes tokens for keys that the usual one does not find."""
    text = nested_keys(12_500)
    return measure(text, 65_536).count > measure(text, None).count


def rows(_):
    limits = takes_limits()
    if not limits:
        print("testbench takes no key limit for measure scan: those rows are left out", file=sys.stderr)
    for name, text_of, count, limit in inputs():
        if limit is None or limits:
            once, twice = (measure(text_of(n), limit).best for n in (count, 2 * count))
            yield [name, str(limit or 1024), str(count), milliseconds(once), milliseconds(twice), ratio(twice / once)]


GROWTH = Table("Growth", NOTE, COLUMNS, 3, rows)

if __name__ == "__main__":
    answer_help()
    print_table(GROWTH)
