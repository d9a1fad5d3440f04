"""What json, highlight and lint of uses/ write while their input comes: over pipes that are held open, and if a read fails."""

import os
import select
import signal
import subprocess
import time

from piped import LITERAL_LINE, WAIT, compiled, literal, write_all

SIZES = (1, 7, 4096)
LOST = 3  # the status if reading or writing fails

# Gives at most READ_MOST bytes at a time, and fails once READ_END bytes were read. It is called in place of the C library's.
READS = """#define _GNU_SOURCE
#include <errno.h>
#include <stdlib.h>
#include <sys/syscall.h>
#include <unistd.h>
static size_t number(const char *name, size_t otherwise) {
    const char *word = getenv(name);
    return word ? strtoul(word, NULL, 10) : otherwise;
}
ssize_t read(int file, void *bytes, size_t len) {
    static size_t count;
    size_t most = number("READ_MOST", len), left = number("READ_END", (size_t)-1) - count;
    if (left == 0) {
        errno = EIO;
        return -1;
    }
    most = most < left ? most : left;
    ssize_t given = syscall(SYS_read, file, bytes, len < most ? len : most);
    count += given > 0 ? (size_t)given : 0;
    return given;
}
"""

HEAD = '<h1>standard input</h1>\n<pre tabindex="0"><code><span class="line">'
NAME = '<span class="key">name</span><span class="indicator">:</span>'
NEXT = '<span class="line"><span class="key">next</span><span class="indicator">:</span>'
B_AND_C = '<span class="key">b</span><span class="indicator">:</span> <span class="plain">c</span>'
COMMENT = '<span class="comment">#</span>'
FOOT = "</body>\n</html>\n"
NO_VALUE = "mapping values are not allowed in this context"
MAPPING = [b"name: first entry\n", b"next: second entry\n"]
# What highlight is called with, NO_COLOR, what is written into a pipe that stays open, and what is shown then; what is shown at the
# end, and the problem. The text up to the last token that is settled is shown, which is none that fewer than eight characters
# follow. Behind a fault whole lines are. Of a page this is what comes after its head.
SHOWN = [
    ([], "1", MAPPING, ["name:", " first entry\nnext:"], " second entry\n", ""),
    ([], "", MAPPING, ["\x1b[36mname\x1b[0m\x1b[91m:\x1b[0m", " first entry\n\x1b[36mnext\x1b[0m\x1b[91m:\x1b[0m"],
     " second entry\n", ""),
    ([], "", [b"? first key\n", b": some value\n"], ["\x1b[91m?\x1b[0m", " \x1b[36mfirst key\x1b[0m\n\x1b[91m:\x1b[0m"],
     " some value\n", ""),
    (["--html"], "", MAPPING, [HEAD + NAME, f' <span class="plain">first entry</span>\n</span>{NEXT}'],
     f' <span class="plain">second entry</span>\n</span></code></pre>\n{FOOT}', ""),
    ([], "1", [b"#a\nb: c: d\nand so on\n", b"\xc3", b"\xa9\r", b"\n..", b".\n"],
     ["#a\nb: c: d\nand so on\n", "", "", "é\r\n", "...\n"], "", f"2:5: {NO_VALUE}"),
    (["--html"], "", [b"b: c: d\nand so", b" on"],
     [f'{HEAD}{B_AND_C}<mark class="fault" title="{NO_VALUE}">:</mark> d\n</span>', ""],
     f'<span class="line">and so on</span></code></pre>\n<p class="problem">Line 1, column 5: {NO_VALUE}</p>\n{FOOT}',
     f"1:5: {NO_VALUE}"),
    (["--html"], "", [b"\xef\xbb", b"\xbf", b"- long enough\n#"], ["", f"{HEAD}\ufeff", '<span class="indicator">-</span>'],
     f' <span class="plain">long enough</span>\n</span><span class="line">{COMMENT}</span></code></pre>\n{FOOT}', ""),
    ([], "1", [text.encode("utf-16-be") for text in ("\ufeff- a\n- b\n- c\n- d\n", "- e")], ["", ""],
     "- a\n- b\n- c\n- d\n- e", ""),
]
LITERAL = literal(1_500_000)[0]  # its end comes when the tool waits for more of it than that
A, B = (f"\x1b[36m{name}\x1b[0m\x1b[91m:\x1b[0m" for name in "ab")
YELLOW = f"\x1b[33m{LITERAL_LINE[:-1].decode()}\x1b[0m\n"
# What highlight is called with, an input, and what is shown of it if reading fails after so many bytes: all that came, and what is
# settled in its colour.
FAILED = [
    ([], b"- one: two three\n", 0, ""),
    ([], b"- one: two three\n- four: five\n", 16, "\x1b[91m-\x1b[0m \x1b[36mone\x1b[0m\x1b[91m:\x1b[0m two three"),
    ([], b"- abcd\n- '\xc3\xa9 and more", 11, "\x1b[91m-\x1b[0m abcd\n- '\x1b[7m\\xc3\x1b[0m"),
    ([], "\ufeff- a\n".encode("utf-16-le"), 8, "- a"),
    ([], b"b: c: d\nand so on\n", 15, "\x1b[36mb\x1b[0m\x1b[91m:\x1b[0m c\x1b[97;41m:\x1b[0m d\nand so "),
    ([], LITERAL, len(LITERAL), f"{A} \x1b[33m|\x1b[0m\n" + YELLOW * LITERAL.count(LITERAL_LINE) + f"{B} the last\n"),
    (["--html"], b"- one: two three\n", 0, FOOT),
    (["--html"], b"- one: <two\n", 11, f'{HEAD}<span class="indicator">-</span> one: &lt;two</span></code></pre>\n{FOOT}'),
]
# The same of lint: the messages of a document come once the marker after it is settled, and those of one with a fault at the end.
TWICE = [b"a: 1\na: 2\n---\nb: 1 and more\n", b"b: 2\n---\nand so on\n"]
TOLD_TWICE = [f'standard input:{line}:1: duplicate key "{key}", first at line {line - 1}\n' for line, key in ((2, "a"), (5, "b"))]
LINTED = [
    (["-"], "", TWICE, TOLD_TWICE, "", ""),
    (["-"], "", [b"a: 1\na: 2\n", b"---\nb: &c 1\n", b"...\n# and so on\n", b"b: {a: 1, a: 2}"],
     ["", TOLD_TWICE[0], 'standard input:4:4: no alias uses the anchor "c"\n', ""],
     'standard input:7:11: duplicate key "a", first at line 7\n', ""),
    (["-"], "", [b"a:\t1\n---\nb: c: d\nand so on\n", ("é" * 81 + "\n").encode()],
     ["standard input:1:3: tab in a line with a key\n", ""],
     f"standard input:3:5: {NO_VALUE}\nstandard input:5:81: line of 81 characters, more than 80\n", ""),
    (["-"], "", [b"\xef\xbb\xbfa: 1\na: 2", b"\n---\nb: some more\xff\n"],
     ["", TOLD_TWICE[0] + "standard input:4:13: invalid leading UTF-8 octet (byte 30 of the file)\n"], "", ""),
    (["-"], "", ["\ufeffa: 1\na: 2\n---\nb: some more\n".encode("utf-16-le")], [""], TOLD_TWICE[0], ""),
]
LINT_FAILED = [
    (["-"], b"".join(TWICE), 0, ""),
    (["-"], b"".join(TWICE), 20, ""),
    (["-"], b"".join(TWICE), 30, TOLD_TWICE[0]),
    (["-"], b"".join(TWICE), 47, "".join(TOLD_TWICE)),
]


def build_reads(room):
    """A library that changes the reads of a program that is run `in_pieces`."""
    return compiled(room, "reads.so", READS, "-shared", "-fPIC")


def in_pieces(reads, size):
    """The environment of a program whose reads give so many bytes at most."""
    return {**os.environ, "LD_PRELOAD": reads, "READ_MOST": str(size)}


class Follower:
    """A run of a program whose standard input is a pipe that stays open."""

    def __init__(self, words, **variables):
        reading, self.writing = os.pipe()
        environment = {**{name: value for name, value in os.environ.items() if name != "NO_COLOR"}, **variables}
        self.run = subprocess.Popen(words, stdin=reading, stdout=subprocess.PIPE, stderr=subprocess.PIPE, env=environment)
        os.close(reading)
        self.has_head, self.came = "--html" in words, b""

    def shown(self):
        """What came by now, without the head of a page."""
        return self.came.partition(b"<body>\n")[2] if self.has_head else self.came

    def read(self, count, end):
        """Reads until so many bytes are shown, or until a time."""
        while len(self.shown()) < count and select.select([self.run.stdout], [], [], max(0, end - time.monotonic()))[0]:
            more = os.read(self.run.stdout.fileno(), 1 << 16)
            if not more:
                return
            self.came += more

    def end(self):
        """Closes the pipe, and returns all that is shown, what is told and the status."""
        os.close(self.writing)
        rest, told = self.run.communicate(timeout=WAIT)
        self.came += rest
        return self.shown().decode(), told.decode(), self.run.returncode


def follow_wrong(tool, row):
    """What is wrong with what highlight or lint writes while its input comes, or None."""
    words, no_color, steps, wanted, last, problem = row
    follower, whole = Follower([tool, *words], NO_COLOR=no_color), ""
    for data, text in zip(steps, wanted):
        write_all(follower.writing, data)
        whole += text
        follower.read(len(whole.encode()), time.monotonic() + WAIT)
        if follower.shown().decode() != whole:
            follower.run.kill()
            return f"{words} after {data}: {follower.shown()}, not {whole.encode()}"
    ended = follower.end()
    told = f"standard input:{problem}\n" if problem else ""
    status = int(bool(problem) or row in LINTED)
    return None if ended == (whole + last, told, status) else f"{words} {steps}: {ended} at the end"


def failed_wrong(tool, reads, row):
    """What is wrong with what highlight or lint writes if a read fails, or None."""
    words, data, end, wanted = row
    environment = {**os.environ, "NO_COLOR": "", "LD_PRELOAD": reads, "READ_END": str(end)}
    done = subprocess.run([tool, *words], input=data, capture_output=True, timeout=WAIT, env=environment)
    shown = done.stdout.partition(b"<body>\n")[2] if "--html" in words else done.stdout
    told = f"{os.path.basename(tool)}: standard input: Input/output error\n"
    found = (shown.decode(), done.stderr.decode(), done.returncode)
    return None if found == (wanted, told, LOST) else f"{words} {data[:end][:80]}: {found[0][-300:]}, {found[1:]}"


def stop_wrong(words, is_closed):
    """What is wrong with how a tool ends that waits for more, or None: its output is closed, or the keyboard interrupts it. By then
    something of the first document is written, and the input stays open."""
    follower = Follower(words, NO_COLOR="1")
    write_all(follower.writing, TWICE[0])
    follower.read(1, time.monotonic() + WAIT)
    if is_closed:
        follower.run.stdout.close()
        write_all(follower.writing, TWICE[1])
    else:
        follower.run.send_signal(signal.SIGINT)
    try:
        status, told = follower.run.wait(WAIT), follower.run.stderr.read()
    except subprocess.TimeoutExpired:
        status, told = None, b"it goes on"
    finally:
        follower.run.kill()
        os.close(follower.writing)
    good = status in ((LOST, -signal.SIGPIPE) if is_closed else (-signal.SIGINT,)) and not told and follower.came
    return None if good else f"{words}: {follower.came}, {told}, status {status}"


def try_following(json, lint, highlight, room):
    """Tries the tools; highlight is None if it can not be built."""
    reads, tools = build_reads(room), [[json], [lint, "-"], *([[highlight]] if highlight else [])]
    found = [stop_wrong(words, is_closed) for words in tools for is_closed in (False, True)]
    found += [follow_wrong(lint, row) for row in LINTED]
    found += [failed_wrong(lint, reads, row) for row in LINT_FAILED]
    if highlight:
        found += [follow_wrong(highlight, row) for row in SHOWN]
        found += [failed_wrong(highlight, reads, row) for row in FAILED]
    wrong = [problem for problem in found if problem]
    told = f"{len(wrong)} wrong {wrong[:3] or ''}"
    print(f"tools: {len(found)} inputs of the tools that come or stop coming, {told}", flush=True)
    return not wrong
