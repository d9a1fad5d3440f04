"""The examples pieces.c and pieces.cc, uses/json and yamltok, over pipes: what they list before more comes, and if reading fails; how much
is read again."""

import os
import select
import subprocess
import time

from held import FFI, STATIC

WAIT = 30  # seconds for what has to come at once
BLOCK = 60_000

# What is written into a pipe that stays open, and the lines that come then; at last the pipe is closed. The lines were written
# down from the rules: what may go on in what comes is not settled, and nor is what is fewer than eight characters before the end of
# what came, since a fault of the reader may take its place.
MAPPING = [
    (b"name: first entry\n", ["STREAM-START 0:0:0 0:0:0 UTF8", "BLOCK-MAPPING-START 0:0:0 0:0:0", "KEY 0:0:0 0:0:0",
                              "SCALAR 0:0:0 4:0:4 plain 6e616d65", "VALUE 4:0:4 5:0:5"]),
    (b"next: second entry\n", ["SCALAR 6:0:6 17:0:17 plain 666972737420656e747279", "KEY 18:1:0 18:1:0",
                               "SCALAR 18:1:0 22:1:4 plain 6e657874", "VALUE 22:1:4 23:1:5"]),
    (b"", ["SCALAR 24:1:6 36:1:18 plain 7365636f6e6420656e747279", "BLOCK-END 37:2:0 37:2:0", "STREAM-END 37:2:0 37:2:0"]),
]
FLOW = [
    (b"[one, two", ["STREAM-START 0:0:0 0:0:0 UTF8"]),  # it may be a key, until the next line is settled too
    (b",\n three four,\n", []),
    (b" five six seven]\n", ["FLOW-SEQUENCE-START 0:0:0 1:0:1", "SCALAR 1:0:1 4:0:4 plain 6f6e65", "FLOW-ENTRY 4:0:4 5:0:5",
                             "SCALAR 6:0:6 9:0:9 plain 74776f", "FLOW-ENTRY 9:0:9 10:0:10",
                             "SCALAR 12:1:1 22:1:11 plain 746872656520666f7572", "FLOW-ENTRY 22:1:11 23:1:12"]),
    (b"", ["SCALAR 25:2:1 39:2:15 plain 666976652073697820736576656e", "FLOW-SEQUENCE-END 39:2:15 40:2:16",
           "STREAM-END 41:3:0 41:3:0"]),
]
UTF16 = [
    ("\ufeffa ".encode("utf-16-le"), []),
    ("long scalar".encode("utf-16-le"), []),
    (b"", ["STREAM-START 0:0:0 0:0:0 UTF16LE", "SCALAR 0:0:0 13:0:13 plain 61206c6f6e67207363616c6172",
           "STREAM-END 13:1:0 13:1:0"]),
]
# The program ends at a fault, although the pipe is open.
FAULT = [
    (b"a: b: c\nand so on\n", ["STREAM-START 0:0:0 0:0:0 UTF8", "BLOCK-MAPPING-START 0:0:0 0:0:0", "KEY 0:0:0 0:0:0",
                               "SCALAR 0:0:0 1:0:1 plain 61", "VALUE 1:0:1 2:0:2", "SCALAR 3:0:3 4:0:4 plain 62",
                               "FAULT scanner 4:0:4 4:0:4 -; mapping values are not allowed in this context"]),
]
COURSES = [(MAPPING, 0), (FLOW, 0), (UTF16, 0), (FAULT, 1)]

LITERAL_LINE = b"  a line of text\n"

JSON = os.path.join(os.path.dirname(FFI), "uses", "json", "json.c")
FLAGS = ["-Wall", "-Wextra", "-Wpedantic", "-Werror", "-O2", "-I", FFI]
COMPILERS = {"pieces.c": ["cc", "-std=c99"], "pieces.cc": ["c++", "-std=c++17"], JSON: ["cc", "-std=c11"]}
NAMES = {"pieces.c": "pieces", "pieces.cc": "pieces_cc", JSON: "bogzhami-json"}


def build_pieces(room, source, *more, name=""):
    """Builds an example of ffi/, or json, with more words for the compiler."""
    path = os.path.join(room, NAMES[source] + name)
    subprocess.run([*COMPILERS[source], *FLAGS, os.path.join(FFI, source), *more, *STATIC, "-o", path], check=True)
    return path


class Course:
    """A run of a command, to which more is written once it has listed what is settled. `line_of` makes the line of a scan of a
    line of the program."""

    def __init__(self, command, reading, line_of=str, environment=None):
        pipe = subprocess.PIPE
        self.run = subprocess.Popen(command, stdin=reading, stdout=pipe, stderr=pipe, env=environment)
        self.left, self.line_of = b"", line_of

    def lines(self, count):
        """The next lines, so many of them, or as many as come in time."""
        end = time.monotonic() + WAIT
        while self.left.count(b"\n") < count and select.select([self.run.stdout], [], [], max(0, end - time.monotonic()))[0]:
            more = os.read(self.run.stdout.fileno(), 1 << 16)
            if not more:
                break
            self.left += more
        *found, self.left = self.left.split(b"\n", count) if self.left.count(b"\n") >= count else [self.left, b""]
        return [self.line_of(line.decode("ascii")) for line in found]

    def end(self):
        """What is listed at last, what is said, and the status."""
        listed, told = self.run.communicate(timeout=WAIT)
        lines = (self.left + listed).decode("ascii").splitlines()
        return [self.line_of(line) for line in lines], told.decode("ascii"), self.run.returncode


def course_problem(command, steps, status, line_of=str, environment=None):
    """What is wrong with a run over a pipe, or None."""
    reading, writing = os.pipe()
    course = Course(command, reading, line_of, environment)
    os.close(reading)
    for data, wanted in steps:
        if data:
            os.write(writing, data)
        else:
            os.close(writing)
        found = course.lines(len(wanted)) if wanted else []
        if found != wanted:
            course.run.kill()
            return f"after {data}: {found}, not {wanted}"
    ended = course.end()
    if steps[-1][0]:
        os.close(writing)
    return None if ended == ([], "", status) else f"at the end: {ended}"


ENTRY, BLOCKS = b"- entry\n", 25
UNSETTLED = 4  # so many entries at the end of what came need not be settled


def lines_of_entries(first, end):
    """The lines of the entries of a long sequence, from a number to another."""
    for n in range(first, end):
        at = n * len(ENTRY)
        yield f"BLOCK-ENTRY {at}:{n}:0 {at + 1}:{n}:1"
        yield f"SCALAR {at + 2}:{n}:2 {at + 7}:{n}:7 plain 656e747279"


def try_followed(command, script, line_of):
    """Whether a long sequence is listed block by block, as it comes, also when a megabyte came before."""
    reading, writing = os.pipe()
    course, each, listed, good = Course(command, reading, line_of), BLOCK // len(ENTRY), 0, True
    os.close(reading)
    start = ["STREAM-START 0:0:0 0:0:0 UTF8", "BLOCK-SEQUENCE-START 0:0:0 0:0:0"]
    for block in range(1, BLOCKS + 1):
        write_all(writing, ENTRY * each)
        wanted = [*(start if block == 1 else []), *lines_of_entries(listed, block * each - UNSETTLED)]
        listed, good = block * each - UNSETTLED, course.lines(len(wanted)) == wanted
        if not good:
            break
    os.close(writing)
    end = f"{len(ENTRY) * each * BLOCKS}:{each * BLOCKS}:0"
    rest = [*lines_of_entries(listed, each * BLOCKS), f"BLOCK-END {end} {end}", f"STREAM-END {end} {end}"]
    good = good and course.end() == (rest, "", 0)
    course.run.kill()
    size, told = len(ENTRY) * each * BLOCKS, "all right" if good else "wrong"
    print(f"{script}: {os.path.basename(command[0])}, {BLOCKS} blocks of a sequence of {size} bytes, {told}", flush=True)
    return good


def literal(length):
    """A mapping with a literal of some length and a short entry, and the lines of its tokens, without those of the end."""
    count = length // len(LITERAL_LINE)
    data = b"a: |\n" + LITERAL_LINE * count + b"b: the last\n"
    text, end = (LITERAL_LINE[2:] * count).hex(), 5 + len(LITERAL_LINE) * count
    line = count + 1
    return data, [
        "STREAM-START 0:0:0 0:0:0 UTF8", "BLOCK-MAPPING-START 0:0:0 0:0:0", "KEY 0:0:0 0:0:0", "SCALAR 0:0:0 1:0:1 plain 61",
        "VALUE 1:0:1 2:0:2", f"SCALAR 3:0:3 {end}:{line}:0 literal {text}", f"KEY {end}:{line}:0 {end}:{line}:0",
        f"SCALAR {end}:{line}:0 {end + 1}:{line}:1 plain 62", f"VALUE {end + 1}:{line}:1 {end + 2}:{line}:2",
    ]


def write_all(file, data):
    while data:
        data = data[os.write(file, data) :]


# Lets a read fail that comes to the end. It is called in place of the C library's, also by the library for C++.
FAILING = """#define _GNU_SOURCE
#include <errno.h>
#include <sys/syscall.h>
#include <unistd.h>
ssize_t read(int file, void *bytes, size_t len) {
    ssize_t count = syscall(SYS_read, file, bytes, len);
    if (count == 0 && file == 0)
        errno = EIO;
    return count || file != 0 ? count : -1;
}
"""


def compiled(room, name, source, *words):
    """Compiles some C to a file."""
    path = os.path.join(room, name)
    subprocess.run(["cc", "-O2", "-Wall", "-I", FFI, *words, "-x", "c", "-", "-o", path], input=source.encode("ascii"), check=True)
    return path


def try_failed(command, room, script, line_of, wanted_told):
    """Whether all that is settled is listed if reading fails. The end of the literal comes when so much of it came before that the
    program waits for more of it than that."""
    data, wanted = literal(1_500_000)
    failing = compiled(room, "failing.so", FAILING, "-shared", "-fPIC")
    done = subprocess.run(command, input=data, capture_output=True, timeout=WAIT, env={**os.environ, "LD_PRELOAD": failing})
    listed, told = [line_of(line) for line in done.stdout.decode("ascii").splitlines()], done.stderr.decode("ascii")
    name = os.path.basename(command[0])
    good = (listed, told, done.returncode) == (wanted, wanted_told, 3)
    print(f"{script}: {name}, reading fails: {len(listed)} lines, status {done.returncode}, {'all right' if good else 'wrong'}")
    return good


# Counts the bytes of all windows that a program gives to bogzhami_next_piece.
COUNTER = """#include "bogzhami.h"
#include <inttypes.h>
#include <stdio.h>
#include <stdlib.h>
static bool is_called;
static uint64_t given;
static void tell(void) { fprintf(stderr, "%" PRIu64, given); }
uint32_t __real_bogzhami_next_piece(struct bogzhami_handle *, uint64_t, const uint8_t *, size_t, bool, struct bogzhami_token *,
                                    size_t, uint8_t *, size_t, struct bogzhami_answer *, uint64_t *);
uint32_t __wrap_bogzhami_next_piece(struct bogzhami_handle *handle, uint64_t from, const uint8_t *window, size_t len, bool last,
                                    struct bogzhami_token *tokens, size_t tokens_len, uint8_t *texts, size_t texts_len,
                                    struct bogzhami_answer *answer, uint64_t *needed) {
    if (!is_called)
        is_called = !atexit(tell);
    given += len;
    return __real_bogzhami_next_piece(handle, from, window, len, last, tokens, tokens_len, texts, texts_len, answer, needed);
}
"""
LONG = 16_000_000
MOST_GIVEN = 8  # so many times the bytes of a literal, besides what is given while it is short
SHORT = 1 << 20
LEAST_READ = 4096


def try_again(source, room, script, line_of):
    """Whether the bytes of a long literal are given again a few times only, however many pieces they come in."""
    counter = compiled(room, "counter.o", COUNTER, "-c")
    program = build_pieces(room, source, counter, "-Wl,--wrap=bogzhami_next_piece", name="_counted")
    data, wanted = literal(LONG)
    done = subprocess.run([program], input=data, capture_output=True, timeout=2 * WAIT)
    given, most = int(done.stderr), MOST_GIVEN * len(data) + SHORT * SHORT // LEAST_READ
    listed = [line_of(line) for line in done.stdout.decode("ascii").splitlines()[: len(wanted)]]
    good = listed == wanted and given < most
    told = f"{given} bytes given in all calls, {'all right' if good else 'wrong'}"
    print(f"{script}: {NAMES[source]}, a literal of {len(data)} bytes: {told}")
    return good


def try_pipes(source, room, script="ffi", line_of=str):
    """Tries an example, or json, that was built before. `script` is told what comes of it."""
    command = [os.path.join(room, NAMES[source])]
    told = f"{NAMES[source]}: standard input: Input/output error\n"
    wrong = [problem for steps, status in COURSES if (problem := course_problem(command, steps, status, line_of))]
    print(f"{script}: {NAMES[source]}, {len(COURSES)} pipes, {len(wrong)} wrong {wrong[:1] or ''}", flush=True)
    good = [not wrong, try_followed(command, script, line_of), try_failed(command, room, script, line_of, told)]
    return all([*good, try_again(source, room, script, line_of)])
