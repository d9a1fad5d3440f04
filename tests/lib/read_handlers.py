"""The libyaml of uses/libyaml over read handlers: reads that fail, pipes that are held open, and long comments that come slowly."""

import re
import resource

from libyaml_lists import ALL, OURS, as_spelled, by_characters, codec_of, environment, listed
from piped import course_problem

KINDS = ["tokens", "events", "nodes"]
INPUT_ERROR = re.compile(r"ERROR 2 0:0:0 0:0:0 \d+ -1 -; input error")
SCANNED_ERROR = re.compile("ERROR [345] ")
TEXT = re.compile("[\t\n\r -~\x85\xa0-\ud7ff\ue000-\ufffd\U00010000-\U0010ffff]*")
# in how many bytes a call the input comes, and the number of the call that fails
FAILURES = [(1, 1), (1, 2), (1, 3), (2, 3), (5, 2), (5, 9), (1, 40), (7, 20), (4096, 2), (4096, 9)]
# so many bytes come before a read fails
CAME = [1, 2, 3, 4, 5, 7, 9, 12, 17, 25, 33, 40, 60]
# What libyaml says is said here once so many characters more came. It is the number in uses/libyaml/README.md.
MORE = 7

# The number of an encoding, what comes before a read fails, and what is listed then. It was written down by hand: a step
# of the scanner is settled if eight characters follow it, and the offset is that of the first character that is not whole.
ROWS = [
    (0, b"- a\n- b\n- 12345678", ["1 0:0:0 0:0:0 1", "7 0:0:0 0:0:0", "14 0:0:0 1:0:1", "21 2:0:2 3:0:3 1 =61",
                                 "14 4:1:0 5:1:1", "21 6:1:2 7:1:3 1 =62", "14 8:2:0 9:2:1",
                                 "ERROR 2 0:0:0 0:0:0 18 -1 -; input error"]),
    (0, b"a: b: c\nand so on", ["1 0:0:0 0:0:0 1", "8 0:0:0 0:0:0", "16 0:0:0 0:0:0", "21 0:0:0 1:0:1 1 =61",
                                "17 1:0:1 2:0:2", "21 3:0:3 4:0:4 1 =62",
                                "ERROR 3 4:0:4 4:0:4 0 0 -; mapping values are not allowed in this context"]),
    (0, b"", ["ERROR 2 0:0:0 0:0:0 0 -1 -; input error"]),
    (0, b"ab", ["ERROR 2 0:0:0 0:0:0 0 -1 -; input error"]),  # a byte order mark may come
    (1, b"ab", ["ERROR 2 0:0:0 0:0:0 2 -1 -; input error"]),
    (1, b"a\xc3", ["ERROR 2 0:0:0 0:0:0 1 -1 -; input error"]),
    (1, b"a\xc3\xa9", ["ERROR 2 0:0:0 0:0:0 3 -1 -; input error"]),
    (0, b"ab\xe4\xb8", ["ERROR 2 0:0:0 0:0:0 2 -1 -; input error"]),
    (0, b"ab\xf0\x9f\x98", ["ERROR 2 0:0:0 0:0:0 2 -1 -; input error"]),
    (0, b"ab\xf0\x9f\x98\x80", ["ERROR 2 0:0:0 0:0:0 6 -1 -; input error"]),
    (0, b"\xef\xbb\xbf", ["ERROR 2 0:0:0 0:0:0 3 -1 -; input error"]),
    (0, b"\xff\xfea\0b", ["ERROR 2 0:0:0 0:0:0 4 -1 -; input error"]),
    (0, b"\xfe\xff\0a\0b", ["ERROR 2 0:0:0 0:0:0 6 -1 -; input error"]),
    (2, b"a\0\x3d\xd8", ["ERROR 2 0:0:0 0:0:0 2 -1 -; input error"]),
    (3, b"\0a\xd8\x3d\xde", ["ERROR 2 0:0:0 0:0:0 2 -1 -; input error"]),
    (3, b"\0a\xd8\x3d\xde\0", ["ERROR 2 0:0:0 0:0:0 6 -1 -; input error"]),
    (2, b"-\0 \0a\0\n\0" * 30, ["ERROR 2 0:0:0 0:0:0 240 -1 -; input error"]),
    # so much waits in the comment that the end of what came was not scanned when the read fails
    (0, b"- a # " + b"c" * 1_500_000 + b"\n- b\n- 12345678",
     ["1 0:0:0 0:0:0 1", "7 0:0:0 0:0:0", "14 0:0:0 1:0:1", "21 2:0:2 3:0:3 1 =61", "14 1500007:1:0 1500008:1:1",
      "21 1500009:1:2 1500010:1:3 1 =62", "14 1500011:2:0 1500012:2:1", "ERROR 2 0:0:0 0:0:0 1500021 -1 -; input error"]),
]

# What is written into a pipe that stays open, and the lines of events that come then, which were written down by hand: the
# document `a: 1` and its end, and others. The first course is that of libyaml's own library. In the second one, which is that of
# the library here, `# more` and its line feed are MORE characters.
FIRST = ["3", "9", "6 a", "6 1", "10", "4"]
SECOND = ["3", "9", "6 b", "6 2", "10", "4"]
THEIR_COURSE = [(b"a: 1\n...\n", ["1", *FIRST]), (b"---\nb: 2\n...\n", SECOND), (b"", ["2"])]
COURSE = [
    (b"a: 1\n...\n", ["1"]),
    (b"# more\n", FIRST),
    (b"---\nb: 2\n...\n# more\n", SECOND),
    (b"--- third\n--- [fourth]\n", ["3", "6 third", "4", "3"]),
    (b"...\n\n\n\n\n\n\n\n", ["7", "6 fourth", "8", "4"]),
    (b"", ["2"]),
]
FAULTY_COURSE = [(b"a: 1\n# more\n", ["1", "3", "9", "6 a"]),
                 (b"b: c: d\n# more\n", ["6 1", "6 b", "6 c", "ERROR mapping values are not allowed in this context"])]

# A long sequence, and how many of its entries come at once. When this many of them came, the last few may be unsettled.
ENTRY, EACH, TIMES, UNSETTLED = b"- entry\n", 6000, 28, 4
ENTRY_EVENT = "6 entry"

# How many bytes libyaml asks a read handler for, and an input of three times as many.
ASKED = 16384
THREE_READS = b"- entry\n" * (3 * ASKED // 8)

# A comment of so many bytes, how many come in a call, and the most seconds of a processor. If each piece had the comment scanned
# anew, hundreds of gigabytes would be.
SLOW = [(1_000_000, 1, 10), (1_000_000, 7, 10), (60_000_000, 4096, 10)]


def is_text(setting, data):
    """Whether the reader finds nothing wrong in an input."""
    codec, skipped = codec_of(setting, data)
    try:
        return TEXT.fullmatch(data[skipped:].decode(codec)) is not None
    except UnicodeDecodeError:
        return False


def is_utf16(setting, data):
    return codec_of(setting, data)[0] != "utf-8"


def is_right(given, own, their, whole):
    """Whether a list is right for an input of which a read failed, by libyaml's list of that, and of the whole input.

    It may be the same. It may be a beginning of the whole list, and then the error of the read, which libyaml words the same,
    or before which it finds an error near the end of what came. In UTF-16 nothing is in front of that error.
    """
    codec, skipped = codec_of(*given)
    spelled = as_spelled(by_characters(own, given[1][skipped:].decode(codec)))
    if not INPUT_ERROR.fullmatch(own[-1]):
        return spelled == their and not is_utf16(*given)
    if is_utf16(*given) and len(own) > 1:
        return False
    return spelled[:-1] == whole[: len(own) - 1] and (own[-1] == their[-1] or bool(SCANNED_ERROR.match(their[-1])))


def try_failures(program, inputs):
    """Whether a read that fails is told as libyaml tells it, after a beginning of the tokens."""
    total, wrong = 0, []
    for kind in KINDS:
        for chunk, fail in FAILURES:
            some = [one for one in inputs if len(one[1]) > chunk * fail]
            lists = [listed(program, "", kind, some)]
            lists = [listed(program, library, kind, some, chunk, fail) for library in (OURS, "")] + lists
            total += len(some)
            wrong += [(kind, chunk, fail, given) for given, *three in zip(some, *lists) if not is_right(given, *three)]
    print(f"libyaml: {total} reads fail, {len(wrong)} are told wrongly {wrong[:1] or ''}")
    return not wrong and total > 10000


def try_rows(program):
    """Whether reads that fail are told as it was written down, and by libyaml with the same error."""
    wrong = []
    for setting, came, wanted in ROWS:
        lists = [listed(program, library, "tokens", [(setting, came)], 1, len(came) + 1)[0] for library in (OURS, "")]
        if lists[0] != wanted or lists[1][-1] != wanted[-1]:
            wrong.append((came[-40:], lists))
    print(f"libyaml: {len(ROWS)} rows of reads that fail, {len(wrong)} wrong {wrong[:1] or ''}")
    return not wrong


def late(program, kind, inputs, more):
    """Of how many inputs something is missing that libyaml says before a read fails, though so many characters more came; and
    of how many it was looked for."""
    total = missing = 0
    for came in CAME:
        some = [one for one in inputs if len(one[1]) >= came + more]
        theirs = listed(program, "", kind, some, 1, came + 1)
        ours = listed(program, OURS, kind, some, 1, came + more + 1)
        for their, own in zip(theirs, ours):
            said = their[:-1] if INPUT_ERROR.fullmatch(their[-1]) else their
            missing += as_spelled(own)[: len(said)] != said
        total += len(some)
    return missing, total


def try_lateness(program, inputs):
    """Whether what libyaml says is said here once MORE characters more came, but not always when one less came."""
    characters = [one for one in inputs if one[1].isascii() and not is_utf16(*one)]
    found = [late(program, kind, characters, MORE) for kind in KINDS]
    missing, total = (sum(counts) for counts in zip(*found))
    fewer = late(program, "tokens", characters, MORE - 1)[0]
    print(f"libyaml: {total} times {MORE} more characters come, {missing} lists lack what libyaml said; {fewer} with one less")
    return not missing and total > 10000 and fewer > 0


def long_course():
    """A sequence of more than a megabyte, which comes in parts, and the events of it that come then."""
    parts = [(ENTRY * EACH, [ENTRY_EVENT] * EACH) for _ in range(TIMES - 1)]
    start, end = ["1", "3", "7"], ["8", "4", "2"]
    first = (ENTRY * EACH, [*start, *[ENTRY_EVENT] * (EACH - UNSETTLED)])
    return [first, *parts, (b"", [*[ENTRY_EVENT] * UNSETTLED, *end])]


def try_talk(talk):
    """Whether the events of a document come over a pipe before the next one is written, also after much that came before."""
    courses = [("", THEIR_COURSE, 0), (OURS, COURSE, 0), (OURS, FAULTY_COURSE, 1), (OURS, long_course(), 0)]
    wrong = [found for library, *course in courses if (found := course_problem(talk, *course, environment=environment(library)))]
    print(f"libyaml: {len(courses)} pipes that are held open, {len(wrong)} wrong {wrong[:1] or ''}")
    return not wrong


def reads_to(program, library, data, fail):
    """The list of an input that comes by a handler which gives all that it is asked for, and whose call of that number fails."""
    return listed(program, library, "tokens", [(0, data)], ALL, fail)[0]


def try_asked(program):
    """Whether a read handler is asked for as much as by libyaml, and for more within a long comment."""
    comment = b"- a # " + b"c" * 1_000_000 + b"\n"
    wholes = [listed(program, "", "tokens", [(0, data)])[0] for data in (THREE_READS, comment)]
    wrong = 0
    for library in (OURS, ""):
        # three reads give the input, and the fourth one its end
        for fail in (3, 4):
            error = f"ERROR 2 0:0:0 0:0:0 {(fail - 1) * ASKED} -1 -; input error"
            wrong += reads_to(program, library, THREE_READS, fail)[-1] != error
        wrong += reads_to(program, library, THREE_READS, 5) != wholes[0]
    # what is read doubles nearly each time, so eight reads give the comment
    wrong += reads_to(program, OURS, comment, 11) != wholes[1]
    print(f"libyaml: what read handlers are asked for, {wrong} wrong")
    return not wrong


def seconds_of_children():
    used = resource.getrusage(resource.RUSAGE_CHILDREN)
    return used.ru_utime + used.ru_stime


def try_pace(program):
    """Whether long comments that come in small pieces take no more time than they should."""
    good, told = True, []
    for length, chunk, most in SLOW:
        data, start = b"- a # " + b"c" * length + b"\n- b\n", seconds_of_children()
        lines = listed(program, OURS, "tokens", [(0, data)], chunk)[0]
        seconds = seconds_of_children() - start
        told.append(f"{length} bytes by {chunk} take {seconds:.1f} seconds")
        good = good and seconds < most and lines == listed(program, "", "tokens", [(0, data)])[0]
    print(f"libyaml: {'; '.join(told)}{'' if good else ', WRONG'}")
    return good


def try_handlers(program, talk, inputs):
    """Tries all that; the inputs are those of libyaml.py."""
    texts = [one for one in inputs if is_text(*one) and len(one[1]) < 100_000]
    return all([try_failures(program, texts), try_rows(program), try_lateness(program, texts), try_talk(talk), try_asked(program),
                try_pace(program)])
