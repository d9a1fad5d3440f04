#!/usr/bin/env python3
"""Writes tests/batches.txt.gz: by_hand/batches.py TESTBENCH, with the testbench of the commit that is to be compared with.

The file must not be made with the program that it tests: tests/README.md says how the other one is built. A row is written
for each input and each room below.
"""

import gzip
import os
import sys
from concurrent.futures import ThreadPoolExecutor

TESTS = os.path.dirname(os.path.dirname(os.path.abspath(__file__)))
sys.path[:0] = [TESTS, os.path.join(TESTS, "lib")]
sys.dont_write_bytecode = True
from batches import FILE, calls_of, digest_of, handed_out, lines_of, shown
from growths import HUNDRED, STEPS
from worked import rows

MOST = 8192  # testbench reads no more bytes
ROOMS = ["- -", "0 -", "1 -", "2 -", "3 -", "4 -", "- 0", "- 1", "- 5", "4 1"]
FEW_ROOMS = ["- -", "0 -", "1 -", "4 -", "- 1"]

# What a block ends with, and what comes before and after it.
LAST = [
    "*x", "*x ", "*x # c", "&x", "&x # c", "!t", "!!t", "!<u>", "!e!t # c", "&x y", "!t y", "*x\n# c", "&x !t", "!t &x", "y",
    "y # c", "y\n    z", "'y'", '"y"', '"y\n    z"', "[y]", "{y: z}", "|\n      y", ">-\n      y", "",
]
FRAMES = [
    "a:\n  b: %s\nc: d\n", "a:\n  - %s\nc: d\n", "- a: %s\n- b\n", "- - %s\n- b\n", "- - - %s\nb: c\n",
    "a:\n  b:\n    c: %s\nd: e\n", "a: %s\nb: c\n", "- %s\n- b\n", "a:\n  b: %s\n---\nc: d\n", "a:\n  b: %s\n...\n",
    "a:\n  b: %s", "a:\n  b: %s\n? c\n: d\n", "a:\n  b: %s\n'c': d\n", "a:\n  b: %s\n[c]: d\n", "a:\n  b: %s\n&c d: e\n",
    "a:\n  b: %s\n\n\n# c\nd:\n", "a:\n  b: %s\n c: d\n",
]

FLOW = [
    "[&a b, *a, !t c]: d", "[&a b, *a, !t c]", "[*a]: b", "[*a]", "[*a , *b ]", "[*a, *b]: c\n", "{*a : b, &c d: e, !t f: g}",
    "[!<u> a, !e!b c]", "[&a]", "[&a , &b ]", "[!t]", "[!t , !u ]", "[! , !]", "{&a}", "{&a : b}", "{? &a : !t}",
    "{? *a , ? b}", "[a: *b, c: &d e]", "{a: [*b, &c d], e: {f: !g h}}", "[[&a b], {*c : d}]: e", "{a: *b}", "{a: *b }",
    "{a: &b}", "{a: !t}", "{a: *b\n}", "{a: &b c,\n d: *b}", "[a, b, c, d, e, f, g, h]", "[a, b, c, d, e, f, g, h]: i",
    "{a: b, c: d, e: f}", "{a: b, c: d, e: f}: g", "[[[a]]]", "[[[a]]]: b", "[a, [b, [c, [d]]]]", "[]", "[]: a", "{}",
    "{}: a", "[,]", "[a,]", "{a,}", "{a: }", "{: a}", "[? a]", "[? a : b, c]", "[a\n b, c]", "- [a, b]\n- {c: d}\n",
    "a: [b, c]\nd: {e: f}\n", "a: [b,\n  c]\nd: {e:\n  f}\n", "[a]: b\n[c]: d\n", "{a: b}: {c: d}\n{e: f}: [g]\n",
    "['a', \"b\", c]: d", "['a': b, \"c\":d]", "{'a':b,\"c\":d,e: f}", "[a b c, d e]", "[a #b\n, c]",
    "[a, b # c\n, d # e\n]: f", "[*a,*b]", "{&a b: *c, &d e: *f}", "[!t &a b, &c !u d]", "[!!t a, !!u {b: !!v c}]",
    "? [a, b]\n: [c]\n", "- ? {a: b}\n  : c\n", "[a:b, c:d]", "[a: b: c]", "[http://a/b, c]", "[-a, ?b, :c]", "[- a]",
    "[a, 'b\n  c', \"d\n  e\"]", "[%a, b%c]", "[ a , b ]", "[\n]", "[\n\n\n]: a",
]
JSON = [
    '{"a": 1, "b": [true, null, "c"], "d": {"e": "f"}}', '{"a":1,"b":[true,null,"c"],"d":{"e":"f"}}',
    '[{"a":1},{"a":2},{"a":3}]',
    '{\n  "a": 1,\n  "b": [\n    true,\n    null,\n    "c"\n  ],\n  "d": {\n    "e": "f"\n  }\n}\n',
    '[1, 2.5, -3e4, "x\\n\\u00e9", "", [], {}]', '{\n\t"a": 1,\n\t"b": "c"\n}\n', '{"a": "' + "long " * 30 + '", "b": 2}',
    '["' + '", "'.join(f"item {n}" for n in range(40)) + '"]',
    "{\n" + ",\n".join(f'  "key{n}": {{"x": {n}, "y": [{n}, "{n}"]}}' for n in range(20)) + "\n}\n", '"a"', "1\n",
    '["a"]\n["b"]\n', '{"a" : 1 , "b" : 2 }', '{"a"\n: 1}', '{"a":\n1}', '{"a":{"b":{"c":{"d":[[[[1]]]]}}}}',
    '[{"a":[{"b":[{"c":"d"}]}]}]',
]
BLOCKS = [
    "a: |\n  b\n  c\nd: e\n", "a: >\n  b\n  c\nd: e\n", "a: |-\n  b\nc: d\n", "a: |+\n  b\n\nc: d\n", "a: >2\n   b\nc: d\n",
    "a: |1-\n  b\n", "- |\n b\n- >\n c\n", "- |\n b", "|\n a", "|", "|\n", ">\n\n\n", "--- |\n a\n...\n",
    "--- >\n a\n---\nb\n", "a:\n  b: |\n    c\n  d: e\nf: g\n", "a:\n  b: >\n    c\n\n    d\ne: f\n", "a: | # c\n  b\n",
    "a: |\n  b\n# c\nd: e\n", "a: |\n\n  b\n  \n\nc: d\n", "- - |\n   a\n  - b\n- c\n", "a: &x |\n  b\nc: *x\n",
    "a: !t >\n  b\nc: d\n", "a: |\nb: c\n", "? |\n  a\n: |\n  b\n", "a: >\n  b\n   c\n  d\n\n  e\nf: g\n", "a: |\n  b\n c\n",
    "a: |\n" + "  some line\n" * 40 + "b: c\n", "- >-\n" + "  some words\n" * 40 + "- a\n",
]
DOCUMENTS = [
    "", " ", "\n", "\n\n", "---", "---\n", "...", "...\n", "---\n...\n", "---\n---\n", "a\n---\nb\n---\nc\n",
    "--- a\n--- b\n--- c", "a\n...\nb\n...\n", "%YAML 1.1\n--- a\n", "%YAML 1.1\n%TAG ! a:\n--- b\n...\n%YAML 1.2\n---\nc\n",
    "%TAG !e! a:b\n--- !e!c d\n", "%TAG !! a%41\n---\n!!b c\n", "%FOO\n---\na\n", "%FOO bar # c\n--- a\n",
    "--- [a]\n--- {b: c}\n--- 'd'\n", "--- # c\na: b\n", "---\na:\n  b: c\n---\nd:\n  - e\n", "- a\n- b\n---\n- c\n",
    "a:\n - b:\n    c\n...\n---\nd\n", "--- !t\n--- &a\n--- *a\n", "--- *a\n...\n", "---a", "--- |\n a\n--- >\n b\n",
    "[a]\n---\n[b]: c\n", "\ufeff--- a\n", "\ufeffa: b\n", "---\n# c\n...\n# d\n", "%YAML 1.1\n\n\n---\n\na\n",
]
ENDS = [
    "a:\n b:\n  c:\n   - d\n   - - e\nf: g\n", "a:\n b:\n  c:\n   d:\n    e: f\n", "a:\n b:\n  c:\n   d:\n    e: f\ng: h\n",
    "- - - a\n- b\n", "- - - a\n  - b\n- c\n", "? - a\n: - b\n", "?\n  ? a\n  : b\n: c\n", "? a\n? b\n: c\n",
    "a:\n- b\n- c\nd: e\n", "a:\n  - b: c\n    d: e\n  - f: g\nh:\n", "- a: b\n  c:\n    d: e\n- f\n",
    "- a:\n  - b:\n    - c:\n      - d\n- e\n", "a: b\nc:\n  d\ne: f\n", "a:\n\nb:\n\nc:\n", "- \n- \n-",
    "-\n  -\n    - a\n-\n", "? a", "? a\n", ": a\n", "- a\n-\tb\n", "a: b\nc: d\ne: f\ng: h\n",
    "a: 1\nbb: 22\nccc: 333\n" * 8, "a:\n  - b\n  - c\n" * 6,
    "".join(" " * n + "a:\n" for n in range(30)) + " " * 30 + "b\nc: d\n", "- " * 30 + "a\n- b\n", "a b\n c\n\n d\ne",
    "a b: c d\n  e\n  f\ng h: i\n",
]
QUOTED = [
    '"a": b\n', "'a': b\n'c': d\n", '"a b": c\n', '"a": "b"\n"c": "d"\n', "'it''s': 'x''y'\n", '"a\\tb": c\n', '"a" : b\n',
    "- 'k': v\n- \"l\": w\n", '"a":b', '"a"\n: b', '"a\n b": c', "'a\n b': c", '"a\n\n b"\n', "'a'", '"a"', '""', "''",
    '"": a', '- ""\n- \'\'\n', "a: 'b'\nc: \"d\"\ne: f\n", '"a" b', "'a' 'b'", "a: 'b' # c\n'd': e\n",
    '"\\x41\\u0042\\U00000043": d\n', '? "a"\n: "b"\n', '"a\\\n  b": c', '- "a"\n- "b": c\n', "'a': 'b'\n  \n'c': 'd'",
    '"' + "long " * 60 + '": b', "'" + "x" * 1030 + "': b",
]
COMMENTS = [
    "#", "# c", "#\n", "# c\na: b # d\n# e\n", "- a # b\n# c\n- d\n", "a: # c\n  b: c # d\n # e\nf: g\n", "a #b\n",
    "a#b: c#d\n", "[a, # c\n b] # d\n", "{a: b # c\n}\n", "# a\n\n# b\n\nc\n", "a:\n  b: c\n  # d\n  # e\n# f\ng: h\n",
    "- a\n# b\n", "a: b\n#", "a: &x # c\n  y\n", "a: !t # c\n  y\n", "? a # b\n: c # d\n", "'a' # b\n", '"a": # b\n  c\n',
    "# \u00e9\u4e2d\na: b # \U0001f600\n", "a: b # " + "x" * 200 + "\nc: d\n", "# " + "y" * 300 + "\n" * 5 + "- z\n",
]
WIDE = [
    "\u00e9: \u4e2d\u6587\n\u0440\u0443\u0441: &\u0061 x\n", "- \u4e2d\n- [\u6587, \"\U0001f600\"]\n",
    "\U0001f600: *a\nb: '\u00e9'\n", "a: |\n  \u4e2d\u6587\n  \u0440\n\u00e9: d\n", "a\u0085b: c\u2028- d\n",
    "a: b\r\nc:\r\n  - *d\r\ne: f\r", "{\"\u00e9\": [\u4e2d, *x, &y \u6587]}: \U0001f600", "\u00a0a: \u3000b\n",
]
SCANNER_FAULTS = [
    "a: b: c", "[a, b", "{a: b", "\"abc", "'abc", "a: @b", "a: `b", "- a\n b: c\n- %", "key: &\n", "*", "*a*b", "&a&b", "!<a",
    "!<a b", "!a%", "!a%4", "!a%ff x", "!e!%zz", "%YAML 1.\n---", "%YAML 1.12345678901\n---", "%TAG a\n", "%TAG ! \n", "%\n",
    "%FOO", "a\tb:\n\t- c", "a:\n\t- c", "- [a\n- b", "a: 'b\n---\n", "}", "]", "a: ]", "[}", "a\nb: c\n", '"\\q"', '"\\xZZ"',
    '"\\ud800"', "|x\n", "|0\n", ">\n\ta\n", "|\n  a\n b\n", "{a: b\n---\n", "- a\n\t- b", "a:\n  b: *x\n c d\n", "a: - b\n",
    "a: ? b\n", "- a: b: c\n", "[a: b]: c: d", "'a': 'b': c", "a\n\n\n b: c", "? a\n b\n: c: d\n", "[&a b, *a, !t c]: @",
    "[a, b, c]: d: e", "a: b\nc: d\n  e: f\n", "a: [b, c\nd: e\n", "- - - a\n b", "a:\n  b: *x\nc: d: e\n", "a:\n  b: *x@\n",
    "&a: b: c", "a: !t,b\n", "a: b\n- c\n", "- a\nb: c\n", "\"a\nb\": c", "x" * 1030 + ": b", "[" + "x" * 1030 + "]: b",
    "a: b\n" + "[" + "y " * 600 + "]: c: d", "@", "a: b\n@",
]
READER_FAULTS = [
    b"\xff", b"a\xff", b"a: b\n\xff", b"a: \xc3", b"\x80", b"- a\n- b\x01", b"- a\n- \x01b", b"[a, b\xed\xa0\x80]",
    b"a: *x\nb: \xf5", b"- " + b"x" * 40 + b"\xff", b"- *x\n- y\xff\n", b"'a': \"b\xff\"", b"a:\n  b: c\n# \xff\nd: e\n",
    b"a: |\n  b\n  \xe4\xb8\nc: d\n", b"[a, b, c]: d\n\xc0\x80", b"a: b\n" * 20 + b"c: \xfe\n", b"--- a\n---\n\x7f\n",
    b"{a: b}\x02", b"a: b\x00c: d\n", b"a\x00\xff", b"- a\n" * 8 + b"\x80",
]
LIMITED = [
    "[a, b, c, d, e]: f", "{a: b, c: d}", "[&a b, *a, !t c]: d", '"aaaaaaaaaa": b\nc: d\n', "a: [b, c, d]\ne: f\n",
    "- [*a, *b]\n- c: d\n", "{aaaa: bbbb, cccccccc: d}: e", "[[[[a]]]]", "a:\n  b: *x\nc: d\n", "aaaaa: b\nccccccc: d\n",
]
FRONT = "name: build\non: [push, pull_request]\nenv: &env\n  A: 1\n  B: \"two\"\njobs:\n"
JOB = """  job%d:
    runs-on: ubuntu-22
    env: *env
    # one step, and another
    steps:
      - uses: actions/checkout@v4
      - name: 'Run it'
        run: |
          make
          make test
        with: {depth: 1, tags: [a, *b, !c d]}
"""
LONG = FRONT + "".join(JOB % number for number in range(12)) + "end: !done\n"


def texts():
    """The inputs in UTF-8."""
    yield from (frame % last for frame in FRAMES for last in LAST)
    for group in FLOW, JSON, BLOCKS, DOCUMENTS, ENDS, QUOTED, COMMENTS, WIDE, SCANNER_FAULTS, [LONG]:
        yield from group


def utf16():
    """The inputs in UTF-16: every sixth text, and broken ones."""
    some = list(dict.fromkeys(texts()))[::6]
    for number, text in enumerate([*some, *WIDE]):
        little, big = text.encode("utf-16-le"), text.encode("utf-16-be")
        yield ("utf16le", little) if number % 2 else ("any", b"\xfe\xff" + big)
        yield ("utf16be", big) if number % 3 else ("any", b"\xff\xfe" + little)
    for text in "a: b\n", "[a, *b, c]: d", "a:\n  b: *x\nc: d\n", "- " + "x" * 33:
        little = text.encode("utf-16-le")
        for broken in b"\x00", b"\x00\xdc", b"\x00\xd8", b"\x00\xd8\x61\x00", b"\x01\x00":
            yield "utf16le", little + broken


def asked():
    """What is asked: the words and the input, each once."""
    every = [("any", "1024", text.encode("utf-8"), ROOMS) for text in texts()]
    every += [("utf8", "1024", data, ROOMS) for data in [*STEPS, *READER_FAULTS]]
    every += [(setting, "1024", data, FEW_ROOMS) for setting, data in utf16()]
    limits = "1", "2", "4", "6", "10", "65536"
    every += [("any", limit, text.encode("utf-8"), FEW_ROOMS) for text in LIMITED for limit in limits]
    scans = [(words, data) for words, data, _ in rows() if words[0] == "scan"]
    every += [(words[1], words[2] if len(words) > 2 else "1024", data, FEW_ROOMS) for words, data in scans]
    every += [("any", "1024", HUNDRED, FEW_ROOMS)]
    small = [one for one in every if len(one[2]) < MOST]
    named = [(f"{setting} {limit} {room}", data) for setting, limit, data, sizes in small for room in sizes]
    return list(dict.fromkeys(named))


def row_of(testbench, words, data):
    lines = lines_of(testbench, ["batches", *words.split(" ")], data)
    if lines is None:
        sys.exit(f"{words}, {data[:80]!r}: the program fails")
    calls = calls_of(lines)
    return "\t".join([words, data.hex() or "-", " / ".join(map(shown, calls)), digest_of(handed_out(calls))])


def main(testbench):
    with ThreadPoolExecutor(max_workers=os.cpu_count()) as pool:
        lines = list(pool.map(lambda one: row_of(testbench, *one), asked()))
    with open(FILE, "wb") as raw, gzip.GzipFile("", "wb", 9, raw, 0) as packed:
        packed.write("".join(line + "\n" for line in lines).encode("ascii"))
    print(f"{len(lines)} rows, {os.path.getsize(FILE)} bytes")


if __name__ == "__main__":
    if len(sys.argv) != 2 or sys.argv[1].startswith("-"):
        sys.exit(__doc__)
    main(sys.argv[1])
