"""The places that bogzhami_place tells of offsets, compared with what Python's own codecs make of the bytes before them.

The text before an offset is what its codec decodes of the bytes up to there, without the byte order mark that decides the
encoding, up to the first bytes that spell no character of YAML 1.1 (docs/RULES.md). Lines and columns are counted in that text.
"""

import codecs
import ctypes as c
import os
import re
import time

from held import FFI, SETTINGS

CODECS = {"utf8": "utf-8", "utf16le": "utf-16-le", "utf16be": "utf-16-be"}
MARKS = [(codecs.BOM_UTF16_LE, "utf16le"), (codecs.BOM_UTF16_BE, "utf16be"), (codecs.BOM_UTF8, "utf8")]
BREAK = re.compile("\r\n|[\r\n\x85\u2028\u2029]")
NO_CHARACTER = re.compile("[^\t\n\r -~\x85\xa0-\ud7ff\ue000-\ufffd\U00010000-\U0010ffff]")
DONE, WRONG, FILL = 0, 2, 77

# Texts that are tried in each encoding, with a byte order mark and without one, and bytes that are tried as they are.
TEXTS = ["", "a", "ab: cd\nx: y\n", "a\r\nb\rc\nd\x85e\u2028f\u2029g\r", "\n\r\n\r\r\n", "\xe9\u20ac\U0001f600\r\n\U0001f600x",
         "\ufeffa\n\ufeffb", "a\nb\x01c\nd", "a\n\uffffb", "\x7f", "a\n\x80"]
BYTES = [b"ab: cd\nx: \xffb", b"a\n\xc3", b"a\n\xc3a\nb", b"\xe2\x82", b"\r\n\xf0\x9f\x98", b"a\xed\xa0\x80", b"\xc0\x80",
         b"\xf4\x90\x80\x80", b"\xef", b"\xef\xbb", b"\xef\xbb\xbf", b"\xef\xbba", b"\xff", b"\xfe", b"\xff\xfe", b"\xfe\xff",
         b"\xff\xfea", b"\xff\xfe\0\xd8", b"\xff\xfe\n\0\0\xd8a\0", b"\xfe\xff\0\n\xdc\0\0a", b"a\0\n\0\0\xdcb\0",
         b"\0a\0\n\xd8\0\xdc\0\0\r\0\n\xd8\0", b"\xff\xfe\xef\xbb\xbf\0", b"\xef\xbb\xbf\xff\xfea\0"]
FAR = [2**31, 2**32 + 1, 2**63, 2**64 - 1]  # offsets past every end
LONG = 20_000_000  # bytes of a long input
SECONDS = 20  # in which the places of two long inputs have to be told


class Mark(c.Structure):
    _fields_ = [(name, c.c_uint64) for name in ("index", "line", "column")]


def load():
    call = c.CDLL(os.path.join(FFI, "out", "libbogzhami.so")).bogzhami_place
    call.restype = c.c_uint32
    call.argtypes = [c.c_char_p, c.c_size_t, c.c_uint32, c.c_uint64, c.POINTER(Mark)]
    return call


def told(call, data, setting, offset):
    """The status of a call, and the mark that it leaves."""
    mark = Mark(FILL, FILL, FILL)
    status = call(data or None, len(data), setting, offset, c.byref(mark))
    return status, (mark.index, mark.line, mark.column)


def encoding(data, setting):
    """The encoding of an input, and how many bytes its byte order mark has, if that decides."""
    if setting != "any":
        return setting, 0
    return next(((name, len(mark)) for mark, name in MARKS if data.startswith(mark)), ("utf8", 0))


def text_of(data, codec):
    """The characters that bytes begin with."""
    try:
        text = codecs.getincrementaldecoder(codec)().decode(data)  # a character that is cut waits for its rest
    except UnicodeDecodeError as wrong:
        text = data[: wrong.start].decode(codec)
    found = NO_CHARACTER.search(text)
    return text[: found.start()] if found else text


def place(data, setting, offset):
    """The index, the line and the column of an offset."""
    name, skipped = encoding(data, setting)
    text = text_of(data[:offset][skipped:], CODECS[name])
    breaks = [found.end() for found in BREAK.finditer(text)]
    return len(text.encode("utf-8")), len(breaks), len(text) - (breaks[-1] if breaks else 0)


def small_inputs():
    for text in TEXTS:
        for codec in CODECS.values():
            yield text.encode(codec)
            yield ("\ufeff" + text).encode(codec)
    yield from BYTES


def faults(rows):
    """The inputs with a reader's fault: the data, the setting and the offset."""
    for words, data, wanted in rows:
        if wanted[-1].startswith("FAULT reader "):
            yield data, words[0], int(wanted[-1].split(" ")[2])


def every_offset():
    for data in small_inputs():
        for setting in SETTINGS:
            for offset in [*range(len(data) + 3), *FAR]:
                yield data, setting, offset


def differing(call, rows):
    """How many places are compared, and those that are not as they should be."""
    rows = list(rows)
    wrong = [row for row in rows if told(call, row[0], SETTINGS.index(row[1]), row[2]) != (DONE, place(*row))]
    return len(rows), wrong


def try_long(call):
    """The places near the end of two long inputs, and the seconds that they took."""
    start, wrong = time.monotonic(), []
    lines = LONG // 4
    for setting, data in [("utf8", b"abc\n" * lines), ("utf16le", b"a\0\n\0" * lines)]:
        width = 2 if setting == "utf16le" else 1
        found = told(call, data, SETTINGS.index(setting), LONG - width)
        if found != (DONE, (LONG // width - 1, lines - 1, 4 // width - 1)):
            wrong.append((setting, found))
    return time.monotonic() - start, wrong


def try_places(rows):
    call = load()
    counts, wrong = zip(differing(call, faults(rows)), differing(call, every_offset()))
    refused = [(setting, told(call, data, setting, 1)) for setting in (4, 5, 2**32 - 1) for data in (b"", b"a\nb")]
    bad = [row for row in refused if row[1] != (WRONG, (0, 0, 0))]
    seconds, long_wrong = try_long(call)
    print(f"ffi: places of {counts[0]} faults of the reader, and of {counts[1]} offsets of {len(list(small_inputs()))} inputs, "
          f"{len(wrong[0]) + len(wrong[1])} differ {[*wrong[0], *wrong[1]][:3] or ''}")
    print(f"ffi: {len(refused)} wrong encodings of a place, {len(bad)} not refused {bad or ''}")
    print(f"ffi: places in 2 inputs of {LONG} bytes, {seconds:.1f} seconds, {len(long_wrong)} wrong {long_wrong or ''}")
    is_enough = counts[0] > 1000 and counts[1] > 5000
    return not (wrong[0] or wrong[1] or bad or long_wrong) and is_enough and seconds < SECONDS
