"""What libyaml makes of inputs: the lists of uses/libyaml/list.c, with libyaml's own library and with that of uses/libyaml."""

import itertools
import os
import re
import subprocess
import sys

TOP = os.path.dirname(os.path.dirname(os.path.dirname(os.path.abspath(__file__))))
USE = os.path.join(TOP, "uses", "libyaml")
OURS = os.path.join(USE, "out")
READER_FAULT = "ERROR 2 "
GIVEN_UP = "GIVEN UP"
CODECS = [None, "utf-8", "utf-16-le", "utf-16-be"]
BYTE_ORDER_MARKS = [(b"\xff\xfe", "utf-16-le"), (b"\xfe\xff", "utf-16-be"), (b"\xef\xbb\xbf", "utf-8")]
# for list.c, in place of how many bytes a read handler gives in a call: the input is a file
FILE = -1
ALL = 10**9


def environment(library):
    return {**os.environ, "LD_LIBRARY_PATH": library, "PYTHONHASHSEED": "0", "PYTHONIOENCODING": "utf-8"}


def run(words, given, library, **more):
    return subprocess.run(words, input=given, capture_output=True, env=environment(library), timeout=600, **more)


def questions(kind, inputs, chunk=0, fail=0, most=ALL):
    words = [(kind.encode(), setting, chunk, fail, most, len(data), data) for setting, data in inputs]
    return b"".join(b"%s %d %d %d %d %d\n%s" % one for one in words)


def listed(program, library, kind, inputs, chunk=0, fail=0, most=ALL):
    """What the program lists for each input with the library of that folder, or with libyaml's own if it is empty."""
    asked = questions(kind, inputs, chunk, fail, most)
    told = run([program], asked, library, check=True)
    lists = told.stdout.decode("utf-8", "replace").split("\n\n")[:-1]
    if len(lists) != len(inputs):
        sys.exit(f"libyaml: {len(lists)} lists for {len(inputs)} inputs")
    return [text.split("\n") for text in lists]


def codec_of(setting, data):
    """The codec of an input and how many bytes its byte order mark has, which belongs to no text."""
    if setting:
        return CODECS[setting], 0
    return next(((codec, len(mark)) for mark, codec in BYTE_ORDER_MARKS if data.startswith(mark)), ("utf-8", 0))


def by_characters(lines, text):
    """The list, with indexes of marks that count characters of the text."""
    if text.isascii():
        return lines
    starts = [byte & 0xC0 != 0x80 for byte in text.encode()]
    before = list(itertools.accumulate(starts, initial=0))
    return [re.sub(r"(?<= )(\d+)(?=:\d+:\d+)", lambda index: str(before[int(index[1])]), line) for line in lines]


def as_spelled(lines):
    """The list, with an error's words as libyaml spells them."""
    return [*lines[:-1], re.sub(r"(?<=; did not find expected )hexadecimal(?= number$)", "hexdecimal", lines[-1])]
