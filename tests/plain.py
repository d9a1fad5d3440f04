#!/usr/bin/env python3
"""Compares the scanner with a plain program of two passes: plain.py PROGRAM.

The plain program asks the program `testbench`, which is beside the given one, for gaps, kinds and lexemes, reads all lexemes
of an input first, and lays the finished list out in a second pass. The inputs are 4,000 of those of vectors/scan.txt.gz that are
accepted UTF-8 without a byte order mark, and the lines are those that the given program lists.
"""

import gzip
import os
import subprocess
import sys
from concurrent.futures import ThreadPoolExecutor

MOST = 4000
CANDIDATES = {"FLOW_SEQUENCE_START", "FLOW_MAPPING_START", "ANCHOR", "ALIAS", "TAG", "SINGLE_QUOTED", "DOUBLE_QUOTED", "PLAIN"}
CLOSERS = {"STREAM_END", "DIRECTIVE", "DOCUMENT_START", "DOCUMENT_END"}
STARTS = {"BLOCK_ENTRY": "BLOCK-SEQUENCE-START", "KEY": "BLOCK-MAPPING-START", "VALUE": "BLOCK-MAPPING-START"}
STYLES = {"PLAIN": "plain", "SINGLE_QUOTED": "single", "DOUBLE_QUOTED": "double", "LITERAL": "literal", "FOLDED": "folded"}
KEY_BEHIND = {"FLOW_SEQUENCE_START", "FLOW_MAPPING_START", "FLOW_ENTRY", "BLOCK_ENTRY", "LITERAL", "FOLDED"}
REFUSED = {"BLOCK_ENTRY": "block sequence entries", "KEY": "mapping keys", "VALUE": "mapping values"}
NO_COLON = "while scanning a simple key; could not find expected ':'"


def mark(word):
    return tuple(int(n) for n in word.split(":"))


def word(m):
    return ":".join(str(n) for n in m)


class Refused(Exception):
    def __init__(self, context_mark, problem_mark, text):
        super().__init__(f"FAULT scanner {word(context_mark)} {word(problem_mark)} {text}")


class Reading:
    """What was read of an input: its lexemes, and a slot for a key at each depth."""

    def __init__(self, data, limit):
        self.data, self.text, self.limit = data, data.hex() or "-", limit
        self.lexemes, self.levels, self.slots = [], [], [None]
        self.allowed, self.reach = True, (0, 0, 0)

    def is_live(self, slot, m):
        start = self.lexemes[slot][1]
        return start[1] == m[1] and m[0] <= start[0] + self.limit

    def refuse_stale(self, start, m):
        """A key that starts there has to come, and may no longer come at m."""
        if start[1] != m[1] or m[0] > start[0] + self.limit:
            raise Refused(start, m, NO_COLON)

    def is_required(self, slot):
        return slot is not None and self.lexemes[slot][5]

    def close(self, kind, gap_end, start):
        """The levels that stay open, and the marks of the block ends."""
        levels, ends = list(self.levels), []
        while len(self.slots) == 1 and levels and (kind in CLOSERS or levels[-1] > start[2]):
            ends.append(gap_end if kind == "STREAM_END" and levels[-1] > gap_end[2] else start)
            levels.pop()
        return levels, ends

    def step(self):
        """Asks for what comes next, and takes it; true at the stream end."""
        flow = len(self.slots) > 1
        gap = (yield f"gap {int(flow)} {int(self.allowed)} {self.reach[0]} {self.text}").split(" ")
        gap_end, broken = mark(gap[0]), gap[1] == "true"
        root, top = self.slots[0], self.slots[-1]
        if self.is_required(root):
            self.refuse_stale(self.lexemes[root][1], gap_end)
        kind = yield f"kind {int(flow)} {gap_end[0]} {self.text}"
        if kind == "-":
            raise Refused(gap_end, gap_end, "while scanning for the next token; found character that cannot start any token")
        allowed = self.allowed or (not flow and broken)
        start = (gap_end[0], gap_end[1] + 1, 0) if kind == "STREAM_END" and gap_end[2] > 0 else gap_end
        live = top is not None and self.is_live(top, gap_end)
        key = top if kind == "VALUE" and live else None
        if not flow and not allowed and kind in REFUSED and key is None:
            raise Refused(gap_end, gap_end, f"-; {REFUSED[kind]} are not allowed in this context")
        if kind != "VALUE" and (allowed or kind not in CANDIDATES) and live and self.is_required(top):
            raise Refused(self.lexemes[top][1], start, NO_COLON)
        levels, ends = self.close(kind, gap_end, start)
        level = levels[-1] if levels else None
        said = yield f"lex {len(self.slots) - 1} {'-' if level is None else level} {gap_end[0]} {self.text}"
        if said.startswith("FAULT "):
            raise Refused(*[mark(m) for m in said.split(" ")[1:3]], said.split(" ", 3)[3])
        *parts, _, end, reach, passed = said.split(" ")[2:]
        self.take(kind, start, mark(end), mark(reach), parts, passed == "true", key, allowed, levels, ends)
        return kind == "STREAM_END"

    def take(self, kind, start, end, reach, parts, passed, key, allowed, levels, ends):
        flow, number = len(self.slots) > 1, len(self.lexemes)
        level = levels[-1] if levels else -1
        required = not flow and level == start[2]
        slots = list(self.slots)
        if kind not in CANDIDATES:
            slots[-1] = None
        elif allowed:
            slots[-1] = number
        root = slots[0]
        if root == number and required:
            self.refuse_stale(start, reach)
        elif root is not None and root < number and self.is_required(root):
            self.refuse_stale(self.lexemes[root][1], reach)
        opens = False
        if key is not None:
            self.lexemes[key][7] = True
            if not flow and self.lexemes[key][1][2] > level:
                self.lexemes[key][6] = "BLOCK-MAPPING-START"
                levels.append(self.lexemes[key][1][2])
        elif not flow and kind in STARTS and start[2] > level:
            opens = STARTS[kind]
            levels.append(start[2])
        self.lexemes.append([kind, start, end, parts, ends, required, opens, False])
        slots = [slot if slot is not None and self.is_live(slot, reach) else None for slot in slots]
        if kind.startswith("FLOW_") and kind.endswith("_START"):
            slots.append(None)
        elif kind.startswith("FLOW_") and kind.endswith("_END") and len(slots) > 1:
            slots.pop()
        after = kind in KEY_BEHIND or (not flow and (kind == "KEY" or (kind == "VALUE" and key is None)))
        self.allowed = after or (kind == "PLAIN" and passed)
        self.slots, self.levels, self.reach = slots, levels, reach

    def token(self, lexeme):
        kind, start, end, parts = lexeme[:4]
        at = f"{word(start)} {word(end)}"
        if kind == "DIRECTIVE":
            kind = "VERSION_DIRECTIVE" if self.data[start[0] :].startswith(b"%YAML") else "TAG_DIRECTIVE"
        if kind in STYLES:
            return f"SCALAR {at} {STYLES[kind]} {parts[0]}"
        return " ".join([kind.replace("_", "-"), at, *parts])

    def lay_out(self, fault):
        """The second pass: the lines of the finished list, up to the first key that may yet come if there is a fault."""
        lines = ["STREAM-START 0:0:0 0:0:0 UTF8"]
        waits = min((slot for slot in self.slots if slot is not None), default=None) if fault else None
        for number, lexeme in enumerate(self.lexemes):
            _, start, _, _, ends, _, opens, key = lexeme
            lines += [f"BLOCK-END {word(m)} {word(m)}" for m in ends]
            if number == waits:
                break
            lines += [f"{opens} {word(start)} {word(start)}"] if opens else []
            lines += [f"KEY {word(start)} {word(start)}"] if key else []
            lines.append(self.token(lexeme))
        return lines + ([fault] if fault else [])

    def scan(self):
        try:
            while not (yield from self.step()):
                pass
        except Refused as fault:
            return self.lay_out(str(fault))
        return self.lay_out(None)


def ask(testbench, questions):
    data = "".join(question + "\n" for question in questions).encode("ascii")
    done = subprocess.run([testbench], input=data, capture_output=True, check=True, timeout=60)
    return done.stdout.decode("ascii").splitlines()


def answers(testbench, scans):
    """Runs all scans at once: each round asks one question of each that still reads."""
    found, going = {}, {place: next(scan) for place, scan in scans.items()}
    while going:
        places = list(going)
        replies = ask(testbench, [going[place] for place in places])
        for place, reply in zip(places, replies, strict=True):
            try:
                going[place] = scans[place].send(reply)
            except StopIteration as stop:
                found[place] = stop.value
                del going[place]
    return found


def inputs():
    path = os.path.join(os.path.dirname(os.path.abspath(__file__)), "vectors", "scan.txt.gz")
    with gzip.open(path, "rt", encoding="ascii") as lines:
        for number, line in enumerate(lines, 1):
            words, data, wanted = line.rstrip("\n").split("\t")
            words, data = words.split(" "), bytes.fromhex(data.strip("-"))
            is_utf8 = words[1] in ("any", "utf8") and not data.startswith((b"\xef\xbb\xbf", b"\xff\xfe", b"\xfe\xff"))
            if is_utf8 and len(data) < 3000 and "FAULT reader" not in wanted and is_text(data):
                yield number, words, data


def is_text(data):
    """Whether an input is accepted: a refused one may have a scanner fault before the reader's."""
    try:
        text = data.decode("utf-8")
    except UnicodeDecodeError:
        return False
    return all(c in "\t\n\r\x85" or " " <= c <= "~" or c >= "\xa0" and c not in "\ufffe\uffff" for c in text)


def main(program):
    testbench = os.path.join(os.path.dirname(program), "..", "..", "testbench", "out", "testbench")
    chosen = {}
    for number, words, data in inputs():
        if len(chosen) < MOST:
            chosen[number] = words, data
    scans = {number: Reading(data, int(words[2]) if len(words) > 2 else 1024).scan() for number, (words, data) in chosen.items()}
    plain = answers(testbench, scans)

    def listed_at(place):
        words, data = chosen[place]
        return subprocess.run([program, *words], input=data, capture_output=True, timeout=60).stdout.decode("ascii").splitlines()

    wrong = 0
    with ThreadPoolExecutor(max_workers=os.cpu_count()) as pool:
        for place, listed in zip(chosen, pool.map(listed_at, chosen)):
            if listed != plain[place]:
                wrong += 1
                if wrong <= 5:
                    print(f"{place}: {chosen[place]}: plain {plain[place]}, listed {listed}")
    print(f"plain: {len(chosen)} compared, {wrong} differ")
    return 1 if wrong or not chosen else 0


if __name__ == "__main__":
    from lib.usage import given_program

    sys.exit(main(given_program()))
