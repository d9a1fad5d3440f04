"""Counts the tokens of YAML files and tells the fault of each: what a worker of check.py runs. Standard library only.

Counter(library).count(data) returns how many tokens an input has, and its fault as a line of text, or None. scan_part does so
for the files and the members of archives of a part, and makes a line for each.
"""

import collections
import ctypes
import os
import re
import stat
import zipfile
from ctypes import byref, c_bool, c_int32, c_size_t, c_uint32, c_uint64, c_void_p

from archives import Damaged, Tape, compression_of, open_file, read_tar, read_zip, tar_members

BATCH = 1024  # tokens a call
TOKEN_WORDS = 12  # a record of a token has 96 bytes
FIRST_TEXTS = 65536
READ = 1_000_000
KEY_LIMIT = 1024
FILE_WEIGHT = 10_000  # to open and read a file takes about as long as to scan so many bytes
ANY_ENCODING = 0
DONE, FAULT, NO_MEMORY, OVER, NO_ROOM = 0, 1, 3, 4, 5
READER_ERROR, SCANNER_ERROR = 2, 3
BREAK = re.compile("\r\n|[\r\n\x85\u2028\u2029]")
ZIP = b".zip"

# What is scanned is a path, for a file, or an Entry: a member of an archive that is not compressed, with its place, or an archive
# whose members are read one after the other, if `size` is None.
Entry = collections.namedtuple("Entry", "path member at size")
# The lines of a part, and how many files, tokens, bytes, faults and unread files they have.
Part = collections.namedtuple("Part", "lines files tokens bytes faults unread")


class Mark(ctypes.Structure):
    _fields_ = [("index", c_uint64), ("line", c_uint64), ("column", c_uint64)]


class Answer(ctypes.Structure):
    _fields_ = [
        ("token_count", c_uint64), ("text_len", c_uint64), ("error", c_uint32), ("problem_value", c_int32),
        ("problem_offset", c_uint64), ("problem_mark", Mark), ("context_mark", Mark),
        ("problem_len", c_uint64), ("context_len", c_uint64),
    ]


class Handle(ctypes.Structure):
    _fields_ = [("live", c_bool), ("held", c_void_p)]


def place(line, column):
    """A line and a column, which the scanner counts from 0, as editors show them."""
    return f"{line + 1}:{column + 1}"


def place_of_offset(data, offset):
    """Where in the text a byte of the input is."""
    encoding = {b"\xff\xfe": "utf-16-le", b"\xfe\xff": "utf-16-be"}.get(data[:2], "utf-8")
    text = data[:offset].decode(encoding, "ignore").removeprefix("\ufeff")
    ends = [found.end() for found in BREAK.finditer(text)]
    return place(len(ends), len(text) - (ends[-1] if ends else 0))


class Counter:
    """Counts with a library. Its rooms are used again for every batch and input, so it is for one thread at a time."""

    def __init__(self, path):
        library = ctypes.CDLL(path)
        self.open, self.next, self.close = library.bogzhami_open, library.bogzhami_next, library.bogzhami_close
        self.open.argtypes = [c_void_p, c_void_p, c_size_t, c_uint32, c_uint32]
        self.next.argtypes = [c_void_p, c_void_p, c_size_t, c_void_p, c_size_t, c_void_p, c_size_t, c_void_p]
        self.close.argtypes = [c_void_p]
        self.open.restype = self.next.restype = self.close.restype = c_uint32
        self.tokens = (c_uint64 * (TOKEN_WORDS * BATCH))()
        self.texts = ctypes.create_string_buffer(FIRST_TEXTS)
        self.answer = Answer()

    def count(self, data):
        """How many tokens an input has before its end or its fault, and the fault, or None."""
        handle, answer, tokens = Handle(), self.answer, 0
        status = self.open(byref(handle), data, len(data), ANY_ENCODING, KEY_LIMIT)
        try:
            while status == DONE:
                status = self.next(byref(handle), data, len(data), self.tokens, BATCH, self.texts, len(self.texts), byref(answer))
                tokens += answer.token_count
                if status == NO_ROOM:
                    self.texts = ctypes.create_string_buffer(answer.text_len)
                    status = DONE
        finally:
            self.close(byref(handle))
        return tokens, None if status == OVER else self.fault(status, data)

    def fault(self, status, data):
        """The fault of the last answer: where it is, what is wrong, and what was being read."""
        answer = self.answer
        if status == NO_MEMORY or status == FAULT and answer.error not in (READER_ERROR, SCANNER_ERROR):
            raise MemoryError("memory was refused")
        if status != FAULT:
            raise RuntimeError(f"the library returned {status}")
        words = self.texts[answer.text_len : answer.text_len + answer.problem_len + answer.context_len].decode("utf-8", "replace")
        problem, context = words[: answer.problem_len], words[answer.problem_len :]
        if answer.error == READER_ERROR:
            return f"{place_of_offset(data, answer.problem_offset)}: {problem} (byte {answer.problem_offset + 1} of the file)"
        start = f", {context} that starts at {place(answer.context_mark.line, answer.context_mark.column)}" if context else ""
        return f"{place(answer.problem_mark.line, answer.problem_mark.column)}: {problem}{start}"


def read_file(path):
    file = os.open(path, os.O_RDONLY | os.O_NONBLOCK | os.O_CLOEXEC)
    try:
        about = os.fstat(file)
        if not stat.S_ISREG(about.st_mode) and not stat.S_ISDIR(about.st_mode):
            raise OSError("it is no regular file")
        data = more = os.read(file, about.st_size + 1)
        while more and len(data) != about.st_size:  # it grows, or has no size, as in /proc, or is longer than a call reads
            more = os.read(file, max(about.st_size - len(data), READ))
            data += more
        return data
    finally:
        os.close(file)


def read_member(entry, path):
    with open(path, "rb", buffering=0) as archive:
        archive.seek(entry.at)
        data = archive.read(entry.size)
    if len(data) != entry.size:
        raise OSError("the archive ends in it")
    return data


def member_name(path, member):
    return path + b":" + os.fsencode(member)


def members(entry, path):
    """The name of each member of an archive that is read as a whole, with its bytes, or with what keeps it from being read."""
    for member, data in read_zip(path) if path.lower().endswith(ZIP) else read_tar(path):
        yield entry.path + b":" + member, data


def archive_entries(path):
    """The members of an archive, each with its weight: those of a tar that is not compressed, if all of it is whole and their
    bytes stand in it as they are. Otherwise the archive as a whole, which weighs what is given."""
    found, size = [], 0
    try:
        with open_file(path) as file:
            size = os.fstat(file.fileno()).st_size
            if not path.lower().endswith(ZIP) and not compression_of(file):
                for _, one in tar_members(Tape(file)):
                    if one.issparse():
                        raise Damaged("its bytes are not as they stand there")
                    if one.isreg():
                        found.append((Entry(path, one.name, one.offset_data, one.size), FILE_WEIGHT + one.size))
    except Exception:  # whatever it is, the worker that reads the archive tells it
        found = []
    return found or [(Entry(path, None, 0, None), FILE_WEIGHT + size)]


def inputs(entry, folder):
    """The name and the bytes of what an entry names, or what keeps it from being read, as an exception."""
    name = path = entry if isinstance(entry, bytes) else entry.path
    try:
        path = os.path.join(folder, path)
        if isinstance(entry, bytes):
            yield name, read_file(path)
        elif entry.size is None:
            yield from members(entry, path)
        else:
            name = member_name(entry.path, entry.member)
            yield name, read_member(entry, path)
    except Exception as wrong:  # zipfile has no list of what it raises
        yield name, wrong


def line(name, *cells):
    """A line with tabs between its cells; a tab or a line feed of the name is written as in C."""
    name = name.replace(b"\t", b"\\t").replace(b"\n", b"\\n")
    return name + "".join(f"\t{cell}" for cell in cells).encode() + b"\n"


def unread_line(name, why):
    return line(name, "-", "-", f"not read: {why}")


def joined(parts):
    """One part of several, in their order."""
    lines, *counts = zip(*parts)
    return Part(b"".join(lines), *map(sum, counts))


def reason(wrong):
    """Why something was not read, in words."""
    if isinstance(wrong, MemoryError):
        return "out of memory"
    if isinstance(wrong, (OSError, Damaged, zipfile.BadZipFile, NotImplementedError, ImportError)):
        return getattr(wrong, "strerror", None) or str(wrong)
    return f"it is damaged: {wrong or type(wrong).__name__}"


def scan_input(counter, name, data):
    """The part that is this one input, of which `data` is what keeps it from being read, or else its bytes."""
    try:
        if isinstance(data, Exception):
            return Part(unread_line(name, reason(data)), 1, 0, 0, 0, 1)
        tokens, fault = counter.count(data)
    except MemoryError as wrong:
        return Part(unread_line(name, reason(wrong)), 1, 0, 0, 0, 1)
    return Part(line(name, tokens, len(data), fault or "-"), 1, tokens, len(data), 1 if fault else 0, 0)


def scan_part(library, folder, entries, most):
    """Scans what the entries name, up to that with which they weigh `most`; their paths are from the folder. Returns the part,
    and how many entries it has."""
    counter, found, weight = Counter(library), [Part(b"", 0, 0, 0, 0, 0)], 0
    for done, entry in enumerate(entries):
        if weight >= most:
            return joined(found), done
        for name, data in inputs(entry, folder):
            found.append(scan_input(counter, name, data))
            weight += FILE_WEIGHT + found[-1].bytes
    return joined(found), len(entries)
