"""The ways to the tokens: each public call that gives some, in Rattle and through C, and each command of the program.

A new public call gets a row here, among the ways or among the calls without tokens, or tests/ways.py fails. A way takes all
tokens of an input. Its answer is how many there are up to the stream end or the fault, and the kind of the fault, or `-`.
"""

import os
import re

from deep_texts import DEEP_TEXTS, USUAL_LIMIT
from repository import found, read

# Of each measure a text has at least so many: flow depth, indentation levels, tokens, and bytes.
SIZE = 50_000
# how often the parts of a text are repeated
MANY = 100_000
MEASURES = ("depth", "levels", "tokens", "length")
# so many calls are a word that a process may be given, and so many of them are peeks
MOST_CALLS, PEEKS = 110_000, 10_000
# An encoding: its codec, what comes before the text, and the setting.
UTF8 = ("utf-8", b"", "any")
UTF16 = [
    ("utf-16-le", b"\xff\xfe", "any"), ("utf-16-be", b"\xfe\xff", "any"),
    ("utf-16-le", b"", "utf16le"), ("utf-16-be", b"", "utf16be"),
]
SETTINGS = ["any", "utf8", "utf16le", "utf16be"]
# The texts that are taken in UTF-16 too. Together they have all measures.
IN_UTF16 = ("openers", "a key in sequences", "mappings in mappings", "escapes")


class Way:
    """A way: the program that takes it, the word for it there, the calls that it makes, and whether it has a key limit."""

    def __init__(self, program, word, *calls, has_limit=True):
        self.program, self.word, self.calls, self.has_limit = program, word, calls, has_limit
        self.name = f"{program} {word}"

    def words(self, setting, limit, tokens):
        """The words after the program's name for an input that has so many tokens, and a fault after them, if it is counted."""
        if self.program == "testbench":
            return ["count", self.word, str(limit), setting]
        if self.program == "ways":
            return [self.word, str(limit), str(SETTINGS.index(setting))]
        if self.word == "scan":
            return ["scan", setting]
        if self.word == "scan LIMIT":
            return ["scan", setting, str(limit)]
        made = min(tokens, MOST_CALLS)
        peeks = min(made, PEEKS) if self.word == "calls with peeks" else 0
        return ["calls", setting, "s" * (made - peeks) + "pk" * peeks]

    def reached(self, most):
        """How much of a measure is reached in a text that has so much of it, if two tokens are taken for each."""
        return min(most, MOST_CALLS // 2) if self.word.startswith("calls") else most

    def answer(self, done):
        """What a run answered: how many tokens, and the kind of the fault; `?` if it stopped otherwise."""
        lines = done.stdout.decode("ascii", "replace").splitlines()
        if self.program != "yamltok":
            told = re.fullmatch(r"(\d+) (\S+)", lines[0]) if len(lines) == 1 else None
            return (int(told[1]), told[2]) if told and not done.stderr and done.returncode == 0 else (0, "?")
        faults = [line.split(" ")[1] for line in lines if line.startswith("FAULT ")]
        if done.stderr or done.returncode != bool(faults):
            return 0, "?"
        others = ("FAULT ", "PEEK ", "SKIP NOTHING", "NO-TOKEN")
        return sum(not line.startswith(others) for line in lines), faults[0] if faults else "-"

    def expected(self, tokens, fault):
        """What is expected of an input that has so many tokens, and this fault after them."""
        if not self.word.startswith("calls"):
            return tokens, fault
        made = min(tokens + (fault != "-"), MOST_CALLS)
        return min(tokens, made), fault if made > tokens else "-"


WAYS = [
    Way("testbench", "scans", "yaml_parser_scan"),
    Way("testbench", "next", "yaml_scan_next"),
    Way("testbench", "skips", "yaml_parser_peek", "yaml_parser_skip"),
    Way("testbench", "lists", "yaml_run"),
    Way("testbench", "longer-lists", "yaml_run"),
    Way("testbench", "skip-lists", "yaml_run"),
    Way("testbench", "longer-skip-lists", "yaml_run"),
    Way("testbench", "all", "yaml_scan_all", has_limit=False),
    Way("testbench", "all-limit", "yaml_scan_all_limit"),
    Way("testbench", "sink", "yaml_scan_to"),
    Way("testbench", "batches", "yaml_scan_next_to"),
    Way("testbench", "returned", "yaml_scan_next_to"),
    Way("testbench", "kept", "yaml_kept_scan_to"),
    Way("testbench", "kept-ones", "yaml_kept_scan_to"),
    Way("testbench", "kept-peeks", "yaml_kept_peek", "yaml_kept_scan_to"),
    Way("testbench", "pieces", "yaml_fed_scan_to"),
    Way("testbench", "pieces-ones", "yaml_fed_scan_to"),
    Way("ways", "all", "bogzhami_scan_all"),
    Way("ways", "batches", "bogzhami_next"),
    Way("ways", "ones", "bogzhami_next"),
    Way("ways", "peeks", "bogzhami_peek", "bogzhami_next"),
    Way("ways", "pieces", "bogzhami_next_piece"),
    Way("yamltok", "scan", "scan", has_limit=False),
    Way("yamltok", "scan LIMIT", "scan"),
    Way("yamltok", "calls", "calls", has_limit=False),
    Way("yamltok", "calls with peeks", "calls", has_limit=False),
]

# What the other public calls give.
WITHOUT_TOKENS = {
    "a parser, whose tokens come by the calls of one": [
        "yaml_parser_t::new", "yaml_parser_t::with_key_limit", "yaml_kept_parser_t::new", "yaml_fed_parser_t::new",
        "bogzhami_open", "bogzhami_open_pieces", "bogzhami_close",
    ],
    "what a session shows": [
        "yaml_parser_fault", "yaml_parser_has_token", "yaml_parser_mark", "yaml_parser_queued", "yaml_kept_parser_t::mark",
        "yaml_kept_parser_t::is_over", "yaml_kept_parser_t::fault", "yaml_kept_parser_t::peeked", "yaml_fed_parser_t::fault",
        "yaml_fed_parser_t::peeked", "bogzhami_reach", "bogzhami_encoding",
    ],
    "lexemes": ["yaml_gap", "yaml_lexeme_at", "yaml_lexeme_kind"],
    "text and places": [
        "yaml_decode", "yaml_decode_front", "yaml_encoding_of", "yaml_index_from_end", "yaml_is_place", "yaml_mark_at", "decode",
        "bogzhami_place",
    ],
    "where a token's texts are": ["bogzhami_text", "bogzhami_second_text"],
    "classes of characters": [
        "AS_DIGIT", "AS_HEX", "IS_ALPHA", "IS_ASCII", "IS_BLANK", "IS_BLANKZ", "IS_BOM", "IS_BREAK", "IS_BREAKZ", "IS_CRLF",
        "IS_DIGIT", "IS_HEX", "IS_PRINTABLE", "IS_SPACE", "IS_TAB", "IS_Z", "WIDTH",
    ],
    "words": [
        "bogzhami_version", "bogzhami_token_name", "bogzhami_style_name", "bogzhami_encoding_name", "bogzhami_error_name",
        "bogzhami_status_text",
    ],
}


def rattle_calls():
    """The functions that lib.rt of yaml_scan makes public, and the public functions of the parsers."""
    uses = re.findall(r"(?s)\npub use [\w:]+::\{?(.*?)\}?;", read("crates/yaml_scan/src/lib.rt"))
    names = set(re.findall(r"\w+", " ".join(uses)))
    shown = dict(re.findall(r"(\w+) as (\w+)", " ".join(uses)))
    sources = [read(path) for crate in ("yaml_scan", "yaml_lexeme", "yaml_text") for path in found(f"crates/{crate}/src/*.rt")]
    yield from sorted(names & set(re.findall(r"(?m)^pub fn (\w+)", "".join(sources))))
    for text in sources:
        for kind, body in re.findall(r"(?ms)^impl(?:<'a>)? (yaml_parser_t|scanner_t|yaml_fed_parser_t)\S* \{\n(.*?)^\}", text):
            yield from (f"{shown.get(kind, kind)}::{name}" for name in re.findall(r"(?m)^    pub fn (\w+)", body))


def c_calls():
    """The functions of the header, and those that yaml_c gives their names."""
    yield from re.findall(r"(?m)^(?:[a-z]\w* )+\*?(bogzhami_\w+)\(", read("ffi/bogzhami.h"))
    for path in found("crates/yaml_c/src/*.rt"):
        yield from re.findall(r'(?m)^pub extern "C" fn (\w+)', read(path))


def commands():
    """The commands of the program."""
    return re.findall(r"(?m)^/// - `(\w+) ENC", read("crates/yaml_listing/src/args.rt"))


def table_problems():
    """The public calls that have no row, and the rows whose call is gone."""
    rows = {call for way in WAYS for call in way.calls} | {call for calls in WITHOUT_TOKENS.values() for call in calls}
    calls = {*rattle_calls(), *c_calls(), *commands()}
    yield from (f"lib/taking.py: {call} has no row" for call in sorted(calls - rows))
    yield from (f"lib/taking.py: {call} is no public call" for call in sorted(rows - calls))


def texts_of(way):
    """The deep texts that are taken in a way: those with the usual limit, if the way has no other."""
    return [deep for deep in DEEP_TEXTS if way.has_limit or deep.limit == USUAL_LIMIT]


def inputs_of(way):
    """What is taken in a way: the text, the encoding, and the bytes."""
    for deep in texts_of(way):
        for codec, mark, setting in [UTF8, *(UTF16 if deep.name in IN_UTF16 else [])]:
            yield deep, setting, mark + deep.text(MANY).encode(codec)


def size_problems():
    """The ways whose texts have not enough of a measure, in UTF-8 or in UTF-16."""
    for way in WAYS:
        for texts, told in (texts_of(way), "UTF-8"), ([deep for deep in texts_of(way) if deep.name in IN_UTF16], "UTF-16"):
            for measure in MEASURES:
                most = way.reached(max(getattr(deep, measure)(MANY) for deep in texts))
                if most < SIZE:
                    yield f"{way.name}: no text in {told} has a {measure} of {SIZE}, the most is {most}"


def path_of(program, name, room):
    """Where a program of the table is: the given one, its neighbour testbench, or one that was built in a folder."""
    if name == "ways":
        return os.path.join(room, "ways")
    return program if name == "yamltok" else os.path.join(os.path.dirname(program), "..", "..", "testbench", "out", "testbench")
