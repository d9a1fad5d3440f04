"""Edits of the sources, and programs in which a number says which of many edits is made.

A build takes half a minute, so `wrong.py` builds many wrong programs as one. An edit that changes nothing but bodies of
functions is written into a copy so that each such function has its right body and the wrong ones, and asks for a number:

    if has_mistake(7) { the body with edit 7 } else { the body as it is }

The number comes from a few lines of C: it is the first byte of standard input, or what a test chooses. With the number 0
the program is the right one. If the second byte is `r`, how many requests for memory were made is written at the end.

An edit that changes more than bodies of functions needs a program of its own.
"""

import os
import re
import shutil

from repository import TOP, edit_file

CALLS = os.path.join(TOP, "tests", "by_hand", "calls")
NUMBER_IN_C = r"""#include <stdio.h>
#include <unistd.h>
static unsigned char asked[2];
static unsigned long requests, greatest;
__attribute__((constructor)) static void read_mistake(void) { if (read(0, asked, 2) != 2) asked[0] = 0; }
void __sanitizer_malloc_hook(const volatile void *at, size_t size) { requests++; if (size > greatest) greatest = size; }
__attribute__((destructor)) static void tell(void) {
    char line[80];
    int len = snprintf(line, sizeof line, "REQUESTS %lu, THE GREATEST OF %lu BYTES\n", requests, greatest);
    if (asked[1] == 'r' && write(1, line, len) != len) _exit(9);
}
unsigned chosen_mistake(void) { return asked[0]; }
void choose_that_mistake(unsigned chosen) { asked[0] = chosen; }
"""
NUMBER_IN_RATTLE = """
unsafe extern "C" {
    safe fn chosen_mistake() -> u32;
    safe fn choose_that_mistake(number: u32);
}

pub fn has_mistake(number: u32) -> bool {
    chosen_mistake() == number
}

pub fn choose_mistake(number: u32) {
    choose_that_mistake(number)
}
"""
# The crate that has these functions: each other crate that has edits or tests uses it.
LOWEST = "yaml_text"
MOST_NUMBERS = 255

FUNCTION = re.compile(r'(?m)^( *)(?:pub(?:\([a-z ]+\))? )?(?:unsafe )?(?:extern "C" )?fn \w+')
TEST = re.compile(r"(?:///.*\n)*#\[test\]\nfn (\w+)((?:.*)\{)(\n(?s:.*?)\n\}\n)")
QUOTED = re.compile(r"""//.*|/\*(?s:.*?)\*/|b?"(?:\\.|[^"\\])*"|b?'(?:\\.|[^'\\])'""")


def read(path):
    with open(path, encoding="utf-8") as file:
        return file.read()


def write(path, text):
    with open(path, "w", encoding="utf-8") as file:
        file.write(text)


def copy_sources(room, left_out=("out", "must-fail")):
    """Copies the sources to a folder that is not there yet, by default without what was built."""
    os.mkdir(room)
    for name in ("crates.txt", "HANDLES"):
        shutil.copy(os.path.join(TOP, name), room)
    shutil.copytree(os.path.join(TOP, "crates"), os.path.join(room, "crates"), ignore=shutil.ignore_patterns(*left_out))
    return room


def pairs_of(name):
    """The texts that an edit replaces: the file, what stands there, and what the edit puts in its place."""
    crate, pairs = name.split("/")[0], []
    for line in read(os.path.join(TOP, edit_file(name))).split("\n"):
        key, _, value = line.partition(": ")
        if key == "crate":
            crate = value
        elif key == "file":
            path = f"crates/{crate}/{value}"
        elif key == "old":
            old = value
        elif key == "new":
            pairs.append((path, old, value))
    return pairs


def twin_of(name, texts):
    """What the harmless twin of an edit replaces. `-` is for a text that it does not replace."""
    pairs = pairs_of(name)
    if len(texts) != len(pairs):
        raise SystemExit(f"{name}: {len(pairs)} texts are replaced, and its twin has {len(texts)}")
    return [(path, old, text) for (path, old, _), text in zip(pairs, texts) if text != "-"]


def edited(texts, pairs):
    """The texts of the files that an edit changes. What it replaces has to stand there once."""
    made = {}
    for path, old, new in pairs:
        text = made.get(path, texts[path])
        if text.count(old) != 1:
            raise SystemExit(f"{path}: {old!r} stands there {text.count(old)} times")
        made[path] = text.replace(old, new)
    return made


def body_around(text, at):
    """Where the body of the function around a place begins and ends, or None. The sources are laid out by `rt fmt`."""
    fronts = [front for front in FUNCTION.finditer(text, 0, at)]
    if not fronts:
        return None
    indent = fronts[-1][1]
    start = re.compile(rf"(?m)^{indent}(?=\S)(?:.*[ )])?{{$").search(text, fronts[-1].start())
    end = text.find(f"\n{indent}}}\n", fronts[-1].start())
    return (start.end(), end) if start and start.end() <= at <= end else None


def is_whole(body):
    """Whether each brace of a body is closed in it, and none that was opened before."""
    depth = 0
    for brace in re.findall(r"[{}]", QUOTED.sub(" ", body)):
        depth += 1 if brace == "{" else -1
        if depth < 0:
            return False
    return depth == 0


def bodies_of(texts, pairs):
    """The wrong bodies of an edit: file, start and end of the right one, and the text. None if it changes something else."""
    bodies = {}
    for path, old, new in pairs:
        if not path.endswith(".rt"):
            continue
        place = body_around(texts[path], texts[path].find(old)) if texts[path].count(old) == 1 else None
        if place is None:
            return None
        body = bodies.get((path, *place), texts[path][place[0] : place[1]])
        bodies[path, *place] = body.replace(old, new)
        if body.count(old) != 1 or not is_whole(bodies[path, *place]):
            return None
    return bodies


def files_with_choices(texts, edits):
    """The texts of the files in which these edits, which are lists of wrong bodies by their numbers, are chosen by number."""
    chosen = {}
    for number, bodies in edits.items():
        for place, body in bodies.items():
            chosen.setdefault(place, []).append((number, body))
    made = {}
    for (path, start, end), wrong in sorted(chosen.items(), reverse=True):
        crate = "crate" if path.startswith(f"crates/{LOWEST}/") else LOWEST
        text = made.get(path, texts[path])
        close = re.match(r"\n *", text[end:])[0] + "    }"
        choices = "".join(f" if {crate}::has_mistake({number}) {{{body}{close} else" for number, body in wrong)
        made[path] = f"{text[:start]}{choices} {{{text[start:end]}{close}{text[end:]}"
    return made


def sources(room):
    """The texts of all sources of a copy, by their paths."""
    every = [os.path.join(at, name) for at, _, names in os.walk(os.path.join(room, "crates")) for name in names]
    return {os.path.relpath(path, room): read(path) for path in every if path.endswith((".rt", ".antt"))}


def front(number, tells_requests):
    """The bytes that come before the input of a program that was given the number."""
    return bytes([number]) + (b"r" if tells_requests else b"-")


def add_number(room):
    """Gives a copy the number that chooses a mistake, and has it count its requests for memory."""
    folder = os.path.join(room, "crates", LOWEST)
    os.mkdir(os.path.join(folder, "c"))
    write(os.path.join(folder, "c", "mistake.c"), NUMBER_IN_C)
    path = os.path.join(folder, "src", "lib.rt")
    write(path, read(path) + NUMBER_IN_RATTLE)


def add_calls(room, crate, module):
    """Puts the calls of by_hand/calls, which are tests that only wrong programs are run by, into a module of a copy."""
    path = os.path.join(room, "crates", crate, "src", module + ".rt")
    write(path, read(path) + "\n" + read(os.path.join(CALLS, crate, module + ".txt")))


def ask_tests(room, crate, asked):
    """Leaves a crate of a copy these tests alone, each with the number of a mistake: only a test may call what stops it."""
    folder = os.path.join(room, "crates", crate, "src")
    lowest = "crate" if crate == LOWEST else LOWEST
    left = set(asked)
    for name in sorted(os.listdir(folder)):
        path = os.path.join(folder, name)
        tests = {f"{name[:-len('.rt')]}::{test[1]}": test for test in TEST.finditer(read(path))}
        here = [(number, test) for number, test in sorted(asked) if test in tests]
        heads = [f"\n#[test]\nfn mistake_{number}_{tests[test][1]}{tests[test][2]}\n" for number, test in here]
        made = [f"{head}    {lowest}::choose_mistake({number});{tests[test][3]}" for head, (number, test) in zip(heads, here)]
        write(path, TEST.sub("", read(path)) + "".join(made))
        left -= set(here)
    if left:
        raise SystemExit(f"{crate}: there is no test {min(left)[1]}")
