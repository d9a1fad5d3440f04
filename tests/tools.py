#!/usr/bin/env python3
"""What the tools and scripts say of themselves, and of wrong words, input and output: tools.py [PROGRAM].

The programs of uses/ are built under the names that they are installed by. `--help` and `--version` write to standard output
and end with 0, whatever other words there are; wrong words are named, with the line of the usage, and end with 2. `-` is
standard input, `--` ends the options, and an option may stand after a file. An input that can not be read (a file that is not
there or may not be read, a folder) is told with the reason, as is a full disk. A closed pipe ends a tool without a word,
whether or not the tool gets the signal. All of these end with 3, in each tool.

The shell scripts run, try, test, package, ffi/build and uses/libyaml/build, with no kit on the path, answer in the same way
before anything is proved. ./run and ./try refuse exactly the words that the program refuses, with the same words but for the
hint at a file of that name, and say that an input that is closed or a folder can not be read.

json lists the worked rows, every fifth input of vectors/scan.txt.gz, and inputs with characters that have to be escaped and
with tags that are not UTF-8. Each line is an object with the members that docs/COMMANDS.md names, in that order, and stands for
the line that `scan` has to give (lib/json_lines.py); it is the same if the input comes in pieces of 1, 7 and 4,096 bytes. Each
request for memory is refused in turn on five inputs.

Over a pipe that stays open json lists what is settled before more comes, and after a read that fails, and gives no byte again too
often (lib/piped.py). highlight shows what is settled, and after a read that fails all that came, and lint prints the messages of a
document after the marker behind it; what they write of some inputs, step by step, is written down in lib/following.py. All three
end at an interrupt and at a closed output while they wait.

With the files of packaging/completions, bash, zsh and fish complete lines to the commands, encodings, files and to exactly the
options that `--help` names. What needs a C compiler, rustc (1.63 or later) or a shell is skipped if there is none.
"""

import os
import re
import shutil
import signal
import subprocess
import sys
import tempfile

HERE = os.path.dirname(os.path.abspath(__file__))
sys.path[:0] = [HERE, os.path.join(HERE, "lib")]
sys.dont_write_bytecode = True
from completing import try_completions
from ffi import FFI, build_rust, has_rust
from following import try_following
from json_lines import scan_line, try_lines, try_memory
from library import TOP, VERSION, build_library
from piped import JSON as JSON_SOURCE
from piped import try_pipes
from statuses import WRONG

PROGRAM = os.path.join(TOP, "crates", "yamltok", "out", "yamltok")
SMALL = b"a: 1\na: 2\n"
FILES = {"small": SMALL, "-w": SMALL, "--help": SMALL, "wide": b"x" * 81, "many": b"a: 1\n" * 10000}
SAME = '2:1: duplicate key "a", first at line 1\n'
HTML = "<!DOCTYPE html>"
NOBODY = 65534
LINT, HIGHLIGHT, JSON = "bogzhami-lint", "bogzhami-highlight", "bogzhami-json"
USAGE = {
    LINT: "usage: bogzhami-lint [-w WIDTH] FILE ..", HIGHLIGHT: "usage: bogzhami-highlight [--html] [FILE ..]",
    JSON: "usage: bogzhami-json [-e ENC] [-l LIMIT] [FILE]",
}
OPTIONS = {
    LINT: ["-w, --width WIDTH", "-h, --help", "--version"], HIGHLIGHT: ["--html", "-h, --help", "--version"],
    JSON: ["-e, --encoding ENC", "-l, --key-limit LIMIT", "-h, --help", "--version"],
}
LOST = 3  # the status if reading or writing fails
STREAM_START = '{"type":"STREAM-START",'

# Wrong words, and what is said of them.
WRONG_WORDS = {
    LINT: {
        "": "no file is named", "--": "no file is named", "-w 9": "no file is named", "-w": "option requires an argument -- 'w'",
        "-w 0 small": "'0' is no width", "small -w 1x": "'1x' is no width", "-w -1 small": "'-1' is no width",
        "small --jsn": "unrecognized option '--jsn'", "-x small": "invalid option -- 'x'",
    },
    HIGHLIGHT: {"--jsn": "unrecognized option '--jsn'", "small --jsn": "unrecognized option '--jsn'", "-x": "unrecognized option '-x'"},
    JSON: {
        "--jsn": "unrecognized option '--jsn'", "small --jsn": "unrecognized option '--jsn'", "-x": "invalid option -- 'x'",
        "-e utf9": "there is no encoding 'utf9'", "small -l 0": "there is no key limit '0'", "-l 65537": "there is no key limit '65537'",
        "-l -1": "there is no key limit '-1'", "-e": "option requires an argument -- 'e'", "small -- wide": "there is no use for 'wide'",
    },
}

# Right words, the input that they are called with, the status, and how standard output begins.
RIGHT_WORDS = {
    LINT: [
        ("small", b"", 1, "small:" + SAME), ("-", SMALL, 1, "standard input:" + SAME), ("- small", b"a: 3", 1, "small:" + SAME),
        ("-- -w", b"", 1, "-w:" + SAME), ("-- --help", b"", 1, "--help:" + SAME), ("wide -w 81", b"", 0, ""),
        ("--width=80 wide", b"", 1, "wide:1:81: line of 81 characters, more than 80\n"), ("-w80 -- wide", b"", 1, "wide:1:81: "),
    ],
    HIGHLIGHT: [
        ("small", b"", 0, "a: 1\n"), ("", b"b: 1\n", 0, "b: 1\n"), ("-", b"b: 1\n", 0, "b: 1\n"), ("small -", b"b: 1\n", 0, "a: 1\na: 2\nb: 1\n"),
        ("-- --help", b"", 0, "a: 1\n"), ("small --html", b"", 0, HTML), ("--html -- -w", b"", 0, HTML), ("--html", b"b", 0, HTML),
    ],
    JSON: [
        ("small", b"", 0, STREAM_START), ("", b"b: 1\n", 0, STREAM_START), ("-", b"b: 1\n", 0, STREAM_START),
        ("-- --help", b"", 0, STREAM_START), ("small -l9 --encoding=utf8", b"", 0, STREAM_START),
        ("- -e utf16le", b"a", 1, '{"type":"FAULT","error":"reader",'), ("--key-limit 1 -", b"- &a b: c", 1, STREAM_START),
    ],
}


# Wrong words of ./run and ./try.
PROGRAM_WORDS = {
    "": "a command is missing", "scna any": "there is no command 'scna'", "scan": "scan needs an encoding",
    "scan utf9": "there is no encoding 'utf9'", "scan any 0": "there is no key limit '0'",
    "scan any 9 FILE": "there is no use for 'FILE'; the input is standard input",
    "decode any FILE": "there is no use for 'FILE'; the input is standard input", "calls any": "calls needs a word of s, p and k",
    "calls any spx": "there is no list of calls 'spx'", "--jsn": "there is no command '--jsn'",
    "README.md": "there is no command 'README.md'; the input is standard input",
    "scan README.md": "there is no encoding 'README.md'; the input is standard input",
    "scan any README.md": "there is no key limit 'README.md'; the input is standard input",
}


def say(what, count, wrong):
    print(f"tools: {what}: {count} calls, {len(wrong)} wrong {wrong[:3] or ''}", flush=True)
    return not wrong and count > 0


def build(room):
    """Builds the programs in a folder, under their installed names, and returns their paths."""
    archive = os.path.join(FFI, "out", "libbogzhami.a")
    flags = ["-std=c11", "-Wall", "-Wextra", "-pedantic", "-Werror", "-O2", "-I", FFI]
    made = {name: os.path.join(room, name) for name in (LINT, JSON)}
    for name, path in made.items():
        short = name.removeprefix("bogzhami-")
        subprocess.run(["cc", *flags, os.path.join(TOP, "uses", short, f"{short}.c"), archive, "-o", path], check=True)
    if has_rust():
        made[HIGHLIGHT] = os.path.join(room, HIGHLIGHT)
        build_rust(os.path.join(TOP, "uses", "highlight", "highlight.rs"), made[HIGHLIGHT])
    else:
        print("tools: highlight skipped: no rustc of 1.63 or later")
    return made


def open_room():
    """A new folder in which whoever runs the tools may look."""
    room = tempfile.TemporaryDirectory()
    os.chmod(room.name, 0o755)
    return room


def call(path, words, room, data=b"", **how):
    """The status of a program, and what it writes to standard error and standard output."""
    if "stdin" not in how:
        how["input"] = data
    how = {"stdout": subprocess.PIPE, "env": {**os.environ, "NO_COLOR": "1"}, **how}
    done = subprocess.run([path, *words.split()], cwd=room, stderr=subprocess.PIPE, timeout=60, **how)
    return done.returncode, done.stderr.decode(), (done.stdout or b"").decode()


def unread_pipe():
    """The end of a pipe to write to whose other end is closed."""
    reading, writing = os.pipe()
    os.close(reading)
    return writing


def told_wrong(name, path, room):
    """Wrong words, what came of them, and what should have come."""
    for words, wrong in WRONG_WORDS[name].items():
        yield words, call(path, words, room), (2, f"{name}: {wrong}\n{USAGE[name]}\n", "")


def said_of_itself(name, path, room):
    for words in ("--help", "-h", "small --help", "--help --jsn"):
        status, told, said = call(path, words, room)
        lines = said.splitlines()
        named = [line.strip().split("  ")[0] for line in lines if line.strip().startswith("-")]
        yield words, (status, told, lines[:1], named, "exit status" in said), (0, "", [USAGE[name]], OPTIONS[name], True)
    for words in ("--version", "small --version"):
        yield words, call(path, words, room), (0, "", f"{name} (Bogzhami) {VERSION}\n")
    with open("/dev/full", "wb") as full:
        lost = (LOST, f"{name}: standard output: No space left on device\n", "")
        yield "--version, a full disk", call(path, "--version", room, stdout=full), lost


def right(name, path, room):
    for words, data, status, begins in RIGHT_WORDS[name]:
        found, told, said = call(path, words, room, data)
        yield words, (found, told, said.startswith(begins) if begins else not said), (status, "", True)


def not_read(name, path, room):
    """Inputs that can not be read."""
    folder = os.open(room, os.O_RDONLY)
    if name != LINT:  # it looks at what the folder has
        yield "a folder", call(path, ".", room), (LOST, f"{name}: .: Is a directory\n", "")
    of_input = call(path, "-", room, stdin=folder)
    yield "standard input, a folder", of_input, (LOST, f"{name}: standard input: Is a directory\n", "")
    os.close(folder)
    yield "none", call(path, "none", room), (LOST, f"{name}: none: No such file or directory\n", "")
    how = {"user": NOBODY} if os.geteuid() == 0 else {}
    yield "no permission", call(path, "secret", room, **how), (LOST, f"{name}: secret: Permission denied\n", "")


def not_written(name, path, room):
    """Outputs that can not be written."""
    with open("/dev/full", "wb") as full:
        lost = f"{name}: standard output: No space left on device\n"
        yield "a full disk", call(path, "small", room, stdout=full), (LOST, lost, "")
    pipe = unread_pipe()
    for words in ("small", "many", "--help", "--version"):
        status, told, _ = call(path, words, room, stdout=pipe)
        yield f"{words}, a closed pipe", (status in (LOST, -signal.SIGPIPE), told), (True, "")
        unsignalled = call(path, words, room, stdout=pipe, restore_signals=False)
        yield f"{words}, a closed pipe, no signal", unsignalled, (LOST, "", "")
    os.close(pipe)


def try_tools(programs):
    wrong, count = [], 0
    with open_room() as room:
        for name, data in {**FILES, "secret": b""}.items():
            with open(os.path.join(room, name), "wb") as out:
                out.write(data)
        os.chmod(os.path.join(room, "secret"), 0)
        for name, path in programs.items():
            for kind in (told_wrong, said_of_itself, right, not_read, not_written):
                found = list(kind(name, path, room))
                count += len(found)
                wrong += [(name, what, got) for what, got, wanted in found if got != wanted]
    return say("lint, highlight and json", count, wrong)


# THE SCRIPTS

# The first line of each script's usage, and wrong words of it with what is said of them.
SCRIPTS = {
    "run": ("./run COMMAND ENC [WORD] < FILE", PROGRAM_WORDS),
    "try": ("./try COMMAND ENC [WORD] < FILE", PROGRAM_WORDS),
    "test": ("./test", {"all": "there is no use for 'all'", "--jsn": "there is no use for '--jsn'"}),
    "package": ("./package [--for-test DIR]", {
        "all": "there is no use for 'all'", "--for-test": "--for-test needs a folder after it",
        "--for-test /dev/null more": "there is no use for 'more'",
    }),
    "ffi/build": ("ffi/build", {
        "all": "there is no use for 'all'", "--jsn": "there is no use for '--jsn'", "--over": "--over needs a word after it",
        "--over /dev/null more": "there is no use for 'more'",
    }),
    "uses/libyaml/build": ("uses/libyaml/build", {"all": "there is no use for 'all'"}),
}
# Words that the program takes, beside those that it refuses.
TAKEN = ["scan any", "scan utf8 1", "scan any 65536", "scan any 10000", "decode utf16le", "calls utf16be spk", "calls any s"]


def call_script(script, words, **how):
    """What a script says with no kit on the path, so that it proves nothing whatever it does."""
    return call(os.path.join(TOP, script), words, TOP, **{"env": {"PATH": "/usr/bin:/bin"}, "stdin": subprocess.DEVNULL, **how})


def input_calls():
    """An input that can not be read is told before the program is built."""
    folder = os.open(TOP, os.O_RDONLY)
    for script in ("run", "try"):
        lost = (3, f"{script}: standard input: Is a directory\n", "")
        yield f"{script}, a folder", call_script(script, "scan any", stdin=folder), lost
        lost = (3, f"{script}: standard input: Bad file descriptor\n", "")
        yield f"{script}, closed", call_script(script, "scan any", stdin=None, preexec_fn=lambda: os.close(0)), lost
    os.close(folder)


def script_calls():
    for script, (usage, wrong_words) in SCRIPTS.items():
        for words, wrong in wrong_words.items():
            yield f"{script} {words}", call_script(script, words), (2, f"{script}: {wrong}\nusage: {usage}\n", "")
        for words in ("--help", "-h", "--help all"):
            status, told, said = call_script(script, words)
            is_whole = said.startswith(f"usage: {usage}\n\n") and "--version  " in said
            yield f"{script} {words}", (status, told, is_whole), (0, "", True)
        yield f"{script} --version", call_script(script, "--version"), (0, "", f"{script} (Bogzhami) {VERSION}\n")


def try_scripts():
    found = [*script_calls(), *input_calls()]
    return say("scripts", len(found), [(words, got) for words, got, wanted in found if got != wanted])


def try_same_words(program):
    """./run and ./try refuse the words that the program refuses, and no others, and say the same of them. What the program says of
    words that are no text, and of words after --help, ./run does not come to say."""
    code = '. "$1/scripts/words.sh"; usage() { echo usage; }; script=run; shift; check_command "$@"'
    every = [words.split(b" ") if words else [] for words in (*WRONG, *(words.encode() for words in TAKEN))]
    wrong = []
    for words in every:
        refused = subprocess.run(["bash", "-c", code, "bash", TOP, *words], capture_output=True)
        done = subprocess.run([program, *words], input=b"a", capture_output=True)
        said, told = refused.stderr.splitlines(), done.stderr.splitlines()
        has_own = b"\xff" in b"".join(words) or words[:1] in ([b"--help"], [b"-h"])
        same = has_own or not said or [b"yamltok: " + said[0].removeprefix(b"run: ")] == told[1:2]
        if (refused.returncode, done.returncode) not in ((2, 2), (0, 0), (0, 1)) or not same:
            wrong.append((words, refused.returncode, done.returncode, said[:1], told[1:2]))
    return say("words of ./run that the program takes, or refuses", len(every), wrong)


def main():
    if shutil.which("cc") is None:
        print("tools: skipped: no C compiler")
        return 0
    build_library()
    good = [try_scripts()]
    program = sys.argv[1] if len(sys.argv) > 1 else PROGRAM
    if os.path.exists(program):
        good.append(try_same_words(program))
    else:
        print("tools: words of ./run skipped: no program is built")
    with open_room() as room:
        programs = build(room)
        good += [try_tools(programs), try_lines(programs[JSON], program if os.path.exists(program) else None, room)]
        good += [try_memory(programs[JSON], room), try_pipes(JSON_SOURCE, room, "tools", scan_line)]
        good.append(try_following(programs[JSON], programs[LINT], programs.get(HIGHLIGHT), room))
    with open_room() as room:
        good.append(try_completions(room, OPTIONS))
    return 0 if all(good) else 1


if __name__ == "__main__":
    from lib.usage import answer_questions

    answer_questions()
    # If this runs in the background, the keyboard's interrupt may be ignored, by the programs that it starts too.
    signal.signal(signal.SIGINT, signal.default_int_handler)
    sys.exit(main())
