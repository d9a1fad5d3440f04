"""The calls of bogzhami.h for names, and what the examples list.c, pieces.c, list.cc, pieces.cc and list.rs say of themselves and of wrong uses."""

import ctypes as c
import os
import re
import signal
import subprocess
import tempfile

from held import FFI
from library import VERSION
from repository import read

# The calls for names, the enumeration that each is for, and how a name of the header becomes what the call returns.
NAMES = {
    "token_name": ("token_type", lambda name: name.removesuffix("_TOKEN").replace("_", "-")),
    "style_name": ("scalar_style", lambda name: name.removesuffix("_SCALAR_STYLE").lower().removesuffix("_quoted")),
    "encoding_name": ("encoding", lambda name: name.removesuffix("_ENCODING")),
    "error_name": ("error", lambda name: "none" if name == "NO_ERROR" else name.removesuffix("_ERROR").lower()),
}
FIRST_TOKEN = {"NO": "NO-TOKEN"}
STATUSES = ["done", "the input has a fault", "no such encoding, key limit or window", "out of memory", "all tokens were given",
            "a text is longer than the room for texts", "the handle holds no scanner", "more of the input has to come",
            "all of an input in UTF-16 has to come", "unknown"]

RUST = "list_rs"  # the name that list.rs is built by

USAGE = "usage: {0} [any|utf8|utf16le|utf16be [LIMIT]] < FILE    (LIMIT is 1 to 65536)\n"

# Wrong words, and what is said of them before the line of the usage.
WRONG_WORDS = {
    "utf9": "there is no encoding 'utf9'",
    "any 0": "there is no key limit '0'",
    "any 65537": "there is no key limit '65537'",
    "any 1x": "there is no key limit '1x'",
    "any -- -1": "there is no key limit '-1'",
    "any 4294968320": "there is no key limit '4294968320'",
    "any 1024 more": "there is no use for 'more'",
    "--jsn": "unrecognized option '--jsn'",
    "any --jsn": "unrecognized option '--jsn'",
    "-- --help": "there is no encoding '--help'",
}


def numbers(header, name):
    """The names and numbers of an enumeration of the header."""
    body = re.search(r"enum bogzhami_" + name + r" \{(.*?)\};", header, re.S)[1]
    return [(word, int(number)) for word, number in re.findall(r"\bBOGZHAMI_(\w+) = (\d+)", body)]


def text_of(library, call, number):
    function = getattr(library, f"bogzhami_{call}")
    function.restype, function.argtypes = c.c_char_p, [c.c_uint32]
    return function(number).decode("ascii")


def try_name_calls():
    """Whether each number of the header has the name that belongs to it, and the numbers around have none."""
    library, header, wrong, count = c.CDLL(os.path.join(FFI, "out", "libbogzhami.so")), read("ffi/bogzhami.h"), [], 0
    for call, (enumeration, spelled) in NAMES.items():
        found = numbers(header, enumeration)
        wanted = [(number, FIRST_TOKEN.get(spelled(name), spelled(name))) for name, number in found]
        wanted += [(len(found), "unknown"), (2**32 - 1, "unknown")]
        wrong += [(call, number, name) for number, name in wanted if text_of(library, call, number) != name]
        count += len(wanted)
    texts = [(number, text, text_of(library, "status_text", number)) for number, text in enumerate(STATUSES)]
    wrong += [("status_text", number, text) for number, text, found in texts if found != text]
    is_whole = len(numbers(header, "status")) == len(STATUSES) - 1
    print(f"ffi: {count + len(STATUSES)} numbers named, {len(wrong)} wrong {wrong or ''}")
    return not wrong and is_whole and count > 40


def call(program, words="", **streams):
    """The status of a program, and what it says on standard error and, if that is a pipe, on standard output."""
    how = {"stdin": subprocess.DEVNULL, "stdout": subprocess.PIPE, **streams}
    done = subprocess.run([program, *words.split()], stderr=subprocess.PIPE, timeout=60, text=True, **how)
    return done.returncode, done.stderr, done.stdout


def unread_pipe():
    """The end of a pipe to write to whose other end is closed."""
    reading, writing = os.pipe()
    os.close(reading)
    return writing


def ends(program, room):
    """Uses of an example: its status and what it says, and what these should be."""
    name = os.path.basename(program)
    listed = "STREAM-START 0:0:0 0:0:0 UTF8\nSTREAM-END 0:0:0 0:0:0\n"
    for words, wrong in WRONG_WORDS.items():
        yield words, call(program, words), (2, f"{name}: {wrong}\n{USAGE.format(name)}", "")
    folder = os.open(room, os.O_RDONLY)
    yield "a folder", call(program, stdin=folder), (3, f"{name}: standard input: Is a directory\n", "")
    os.close(folder)
    # Rust's standard library opens /dev/null in its place
    closed = (0, "", listed) if name == RUST else (3, f"{name}: standard input: Bad file descriptor\n", "")
    yield "a closed input", call(program, stdin=None, preexec_fn=lambda: os.close(0)), closed
    with open("/dev/full", "wb") as full:
        yield "a full disk", call(program, stdout=full), (3, f"{name}: standard output: No space left on device\n", None)
    # whoever started it may have it ignore the signal of a closed pipe, or may not
    pipe = unread_pipe()
    status, *told = call(program, stdout=pipe)
    yield "a closed pipe", (status in (3, -signal.SIGPIPE), *told), (True, "", None)
    yield "a closed pipe, no signal", call(program, stdout=pipe, restore_signals=False), (3, "", None)
    os.close(pipe)
    for words in ("--help", "-h", "any 9 --help"):
        status, told, said = call(program, words)
        is_whole = re.match(rf"usage: {name} \[ENC \[LIMIT\]\] < FILE\n\nLists .*  -h, --help .* --version .*status", said, re.S)
        yield words, (status, told, bool(is_whole)), (0, "", True)
    yield "--version", call(program, "any --version"), (0, "", f"{name} (Bogzhami) {VERSION}\n")
    yield "all right", call(program, "any -- 65536"), (0, "", listed)


def try_wrong_uses(programs):
    wrong, count = [], 0
    with tempfile.TemporaryDirectory() as room:
        for program in programs:
            found = list(ends(program, room))
            count += len(found)
            wrong += [(os.path.basename(program), what, said) for what, said, wanted in found if said != wanted]
    print(f"ffi: {count} uses of the examples, most of them wrong ones, {len(wrong)} answered in another way {wrong[:3] or ''}")
    return not wrong
