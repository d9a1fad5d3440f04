#!/usr/bin/env python3
"""Builds the library of ffi/, and calls it from C, from Rust and from here: ffi.py [PROGRAM].

All inputs of vectors/scan.txt.gz are scanned at once through the shared library: with no room, with exactly the room that is
needed and with about half of it; the tokens and the fault are the expected ones, each record says where the input has the
token's text, and nothing else in a room has changed. Wrong settings and limits touch nothing but the answer. The places of
offsets are those that Python's codecs find (lib/offsets.py). A fault of the reader comes in the place of the step near it. The
records have the same sizes and places in C, in Rust and in the crate, and the header's numbers are the crate's. The examples
list.c, pieces.c, list.cc, pieces.cc and list.rs list what is expected, and those in C free all that they took; all say what
they are, and what is wrong with their words, their input and their output. pieces.c and pieces.cc list what is settled before
more comes, and after a read that fails, and give no byte again too often (lib/piped.py). The examples in ffi/README.md, the
header and the manual page are compiled as they stand there, and give the expected tokens, also of a text of 50 MB
(lib/pages.py). The library exports the names of the header, with the version that VERSION has, and names their numbers. Each
request for memory of list.c and pieces.c is refused in turn, and each of the crate's example that lists pieces, which ends at
once if it is a request of Rust's own.

A scanner that is held gives what the scan at once gives, whatever the batches, rooms, pieces, peeks, turns, threads and
refused requests are, wherever it is closed, and whichever other scanners of its input are closed before (held.c); valgrind and
the address sanitizer find nothing. It takes less than a megabyte besides a long input. How far it has read is that of
paces.txt.gz. scanner.rs gives the same tokens one by one, in batches, after peeks and of an input in pieces, and borrows from
the input what it can (held.rs). What needs a C compiler, its address sanitizer, rustc or valgrind is skipped if there is none.
"""

import ctypes as c
import gzip
import os
import re
import shutil
import signal
import subprocess
import sys
import tempfile
from concurrent.futures import ProcessPoolExecutor, ThreadPoolExecutor

HERE = os.path.dirname(os.path.abspath(__file__))
CRATE = os.path.join(os.path.dirname(HERE), "crates", "yaml_c", "src")
sys.path.insert(0, os.path.join(HERE, "lib"))
sys.dont_write_bytecode = True
from held import FFI, SETTINGS, VALGRIND, Handle, build_held, build_rust, build_rust_example, inputs_of_tests, try_long, try_reach
from held import try_rust, try_sanitized, try_tests, try_valgrind
from library import VERSION, build_library
from offsets import try_places
from pages import try_pages
from piped import build_pieces, try_pipes
from worked import MEMORY, build_refuser, run, run_counted
from wrong_uses import RUST, try_name_calls, try_wrong_uses

PLAIN = {"u32": c.c_uint32, "i32": c.c_int32, "u64": c.c_uint64}
RECORDS = ["mark", "token", "answer"]
ENCODINGS = ["ANY", "UTF8", "UTF16LE", "UTF16BE"]
STYLES = ["any", "plain", "single", "double", "literal", "folded"]
NOWHERE = c.c_void_p(64)  # an address that holds nothing and is not null
NO_PLACE = 2**64 - 1  # BOGZHAMI_NOWHERE
SIGNS = {("SCALAR", "plain"): 0, ("SCALAR", "single"): 1, ("SCALAR", "double"): 1, ("ALIAS", "any"): 1, ("ANCHOR", "any"): 1}
FILL = 0xA5
SPARE = 3
# The example of the READMEs: no token of the first line is given, since the fault is near.
NEAR = b"ab: cd\nx: \xffb"
NEAR_WANTED = ["STREAM-START 0:0:0 0:0:0 UTF8", "FAULT reader 10 255 invalid leading UTF-8 octet"]
SMALL = [
    b"a: 1", b"- [a, b]\n- {c: d}\n", b"a: {b: c, \"d\": [e, 'f']}\n", b"? |\n  text\n: 'x'\n", b"a: b: c",
    b"\xff\xfea\0:\0 \0b\0", b"a\xff",
]


def source(name):
    with open(os.path.join(CRATE, name), encoding="utf-8") as text:
        return text.read()


def crate_records():
    """The records that the crate declares, as ctypes has them, and the handle."""
    text, made = source("record.rt") + source("answer.rt"), {}
    for name in RECORDS:
        start = r"#\[repr\(C\)\]\n#\[derive\(Clone, Copy\)\]\npub struct \w+_" + name
        body = re.search(start + r" \{\n(.*?)\n\}", text, re.S).group(1)
        fields = re.findall(r"^    pub (\w+): (?:\w+_)?(\w+),$", body, re.M)
        made[name] = type(name, (c.Structure,), {"_fields_": [(field, {**PLAIN, **made}[kind]) for field, kind in fields]})
    return {**made, "handle": Handle}


MADE = crate_records()
Token, Answer = MADE["token"], MADE["answer"]


def layout():
    """A line for each record's size, and for each field's place and size."""
    for name, record in MADE.items():
        yield f"{name} {c.sizeof(record)}"
        for field, _ in record._fields_:
            place = getattr(record, field)
            yield f"{name}.{field} {place.offset} {place.size}"


def c_layout(room):
    """The same, from a C program that includes the header."""
    lines = []
    for name, record in MADE.items():
        lines.append(f'printf("{name} %zu\\n", sizeof(struct bogzhami_{name}));')
        for field, _ in record._fields_:
            at, size = f"offsetof(struct bogzhami_{name}, {field})", f"sizeof(((struct bogzhami_{name} *)0)->{field})"
            lines.append(f'printf("{name}.{field} %zu %zu\\n", {at}, {size});')
    path = os.path.join(room, "layout")
    with open(path + ".c", "w", encoding="ascii") as text:
        text.write('#include "bogzhami.h"\n#include <stdio.h>\nint main(void) {\n' + "\n".join(lines) + "\nreturn 0;\n}\n")
    subprocess.run(["cc", "-Wall", "-Werror", "-I", FFI, path + ".c", "-o", path], check=True)
    return subprocess.run([path], check=True, capture_output=True, text=True).stdout.split("\n")[:-1]


def check_cplusplus(room):
    """Compiles a C++ program that includes the header, if there is a compiler."""
    if shutil.which("c++"):
        path = os.path.join(room, "closed.cc")
        with open(path, "w", encoding="ascii") as text:
            text.write('#include "bogzhami.h"\nint main() {\n')
            text.write("bogzhami_handle handle = BOGZHAMI_CLOSED;\nreturn bogzhami_close(&handle) != BOGZHAMI_NOT_LIVE;\n}\n")
        words = ["-Wall", "-Wextra", "-Werror", "-I", FFI, path, os.path.join(FFI, "out", "libbogzhami.a")]
        subprocess.run(["c++", *words, "-o", path[:-3]], check=True)
        subprocess.run([path[:-3]], check=True)


def rust_layout(room):
    """The same as c_layout, from a Rust program that has scanner.rs as a module."""
    names, lines = {"mark": "Mark", "token": "Record", "answer": "Answer", "handle": "Handle"}, []
    for name, record in MADE.items():
        lines.append(f'println!("{name} {{}}", std::mem::size_of::<scanner::{names[name]}>());')
        for field, _ in record._fields_:
            made = f"scanner::{names[name]}::default()"
            at = f"{{ let made = {made}; &made.{field} as *const _ as usize - &made as *const _ as usize }}"
            lines.append(f'println!("{name}.{field} {{}} {{}}", {at}, std::mem::size_of_val(&{made}.{field}));')
    path = os.path.join(room, "layout_rs")
    with open(path + ".rs", "w", encoding="ascii") as text:
        module = os.path.join(os.path.dirname(HERE), "rust", "src", "scanner.rs")
        text.write(f'#[path = "{module}"]\nmod scanner;\nfn main() {{\n' + "\n".join(lines) + "\n}\n")
    build_rust(path + ".rs", path)
    return subprocess.run([path], check=True, capture_output=True, text=True).stdout.split("\n")[:-1]


def has_rust():
    """Whether there is a Rust compiler of at least 1.63."""
    if shutil.which("rustc") is None:
        return False
    told = subprocess.run(["rustc", "--version"], capture_output=True, text=True).stdout
    found = re.match(r"rustc (\d+)\.(\d+)", told)
    return bool(found) and (int(found[1]), int(found[2])) >= (1, 63)


def build_c(room):
    path = os.path.join(room, "list")
    words = ["-std=c99", "-Wall", "-Wextra", "-Wpedantic", "-Werror", "-O2", "-I", FFI]
    subprocess.run(["cc", *words, os.path.join(FFI, "list.c"), os.path.join(FFI, "out", "libbogzhami.a"), "-o", path], check=True)
    return path


def build_cplusplus(room):
    path = os.path.join(room, "list_cc")
    words = ["-std=c++17", "-Wall", "-Wextra", "-Wpedantic", "-Werror", "-O2", "-I", FFI]
    subprocess.run(["c++", *words, os.path.join(FFI, "list.cc"), os.path.join(FFI, "out", "libbogzhami.a"), "-o", path], check=True)
    return path


def same_numbers():
    """How many names of the header have the defined numbers, and those that have not. The statuses are the header's own."""
    with open(os.path.join(FFI, "bogzhami.h"), encoding="ascii") as text:
        enums = re.sub(r"enum bogzhami_status \{.*?\};", "", text.read(), flags=re.S)
    header = {name: int(number) for name, number in re.findall(r"\bBOGZHAMI_(\w+) = (\d+)", enums)}
    with open(os.path.join(CRATE, "..", "..", "yaml_text", "specs", "Types.antt"), encoding="utf-8") as text:
        rows = re.findall(r"^(?:encoding|error_type|scalar_style|token_type)_number YAML_(\w+) = (\d+)$", text.read(), re.M)
    defined = {name: int(number) for name, number in rows}
    return len(header), sorted(set(header.items()) ^ set(defined.items()))


def load():
    library = c.CDLL(os.path.join(FFI, "out", "libbogzhami.so"))
    call = library.bogzhami_scan_all
    call.restype = c.c_uint32
    size, number = c.c_size_t, c.c_uint32
    call.argtypes = [c.c_void_p, size, number, number, c.c_void_p, size, c.c_void_p, size, c.c_void_p]
    return call


class Call:
    """One call, with rooms that are filled before, and with spare room after them that the call does not know of."""

    def __init__(self, call, data, setting, limit, token_room, text_room):
        self.tokens = (Token * (token_room + SPARE))()
        self.texts = (c.c_uint8 * (text_room + SPARE))()
        self.answer = Answer()
        for room in (self.tokens, self.texts, self.answer):
            c.memset(c.byref(room), FILL, c.sizeof(room))
        tokens = c.byref(self.tokens) if token_room else NOWHERE
        texts = c.byref(self.texts) if text_room else NOWHERE
        given = c.c_char_p(data) if data else NOWHERE
        self.status = call(given, len(data), setting, limit, tokens, token_room, texts, text_room, c.byref(self.answer))

    def untouched(self, token_count, text_len):
        """Whether what follows so many records and bytes is unchanged."""
        size = c.sizeof(Token)
        tokens = bytes(self.tokens)[token_count * size :]
        texts = bytes(self.texts)[text_len:]
        return tokens.count(FILL) == len(tokens) and texts.count(FILL) == len(texts)


def mark(m):
    return f"{m.index}:{m.line}:{m.column}"


def token_line(t, texts, names):
    """A token's line, as the program lists it."""
    first = texts[t.text_at : t.text_at + t.first_len].hex() or "-"
    second = texts[t.text_at + t.first_len : t.text_at + t.first_len + t.second_len].hex() or "-"
    name = names[t.token_type]
    more = {
        "STREAM-START": [ENCODINGS[t.detail]] if t.detail < len(ENCODINGS) else ["?"],
        "VERSION-DIRECTIVE": [str(t.major), str(t.minor)],
        "TAG-DIRECTIVE": [first, second],
        "TAG": [first, second],
        "ALIAS": [first],
        "ANCHOR": [first],
        "SCALAR": [STYLES[t.detail] if t.detail < len(STYLES) else "?", first],
    }
    return " ".join([name, mark(t.start_mark), mark(t.end_mark), *more.get(name, [])])


def is_utf8(setting, data):
    return setting == 1 or setting == 0 and data[:2] not in (b"\xff\xfe", b"\xfe\xff")


def place(t, texts, setting, data, names):
    """Where the input has a token's text as it is: behind its quote or indicator, or nowhere. The mark of its start does not
    count a byte order mark that decides the encoding."""
    sign = SIGNS.get((names[t.token_type], STYLES[t.detail] if t.detail < len(STYLES) else "?"))
    if sign is None or not is_utf8(setting, data):
        return NO_PLACE
    at = t.start_mark.index + sign + (3 if setting == 0 and data.startswith(b"\xef\xbb\xbf") else 0)
    return at if data.startswith(texts[t.text_at : t.text_at + t.first_len], at) else NO_PLACE


def fault_line(a, texts):
    problem = texts[a.text_len : a.text_len + a.problem_len].decode("ascii")
    context = texts[a.text_len + a.problem_len : a.text_len + a.problem_len + a.context_len].decode("ascii")
    if a.error == 2:
        return f"FAULT reader {a.problem_offset} {a.problem_value} {problem}"
    if a.error == 3:
        return f"FAULT scanner {mark(a.context_mark)} {mark(a.problem_mark)} {context or '-'}; {problem}"
    return MEMORY


def type_names():
    """The names of the types as the program lists them, by their numbers in the header."""
    with open(os.path.join(FFI, "bogzhami.h"), encoding="ascii") as text:
        found = re.findall(r"\bBOGZHAMI_(\w+)_TOKEN = (\d+)", text.read())
    return {int(number): name.replace("_", "-") for name, number in found if name != "NO"}


def vectors():
    with gzip.open(os.path.join(HERE, "vectors", "scan.txt.gz"), "rt", encoding="ascii") as lines:
        for line in lines:
            words, data, wanted = line.rstrip("\n").split("\t")
            words = words.split(" ")
            yield words[1:], bytes.fromhex(data.strip("-")), wanted.split(" / ")


def fields(record):
    """A record's numbers, with those of the records in it."""
    for name, _ in record._fields_:
        value = getattr(record, name)
        yield from fields(value) if isinstance(value, c.Structure) else [value]


def wrong_with(call, names, words, data, wanted):
    """What is wrong with the library's answers to an input, or None."""
    setting, limit = SETTINGS.index(words[0]), int(words[1]) if len(words) > 1 else 1024
    none = Call(call, data, setting, limit, 0, 0)
    answer = list(fields(none.answer))
    tokens, texts = none.answer.token_count, none.answer.text_len + none.answer.problem_len + none.answer.context_len
    if not none.untouched(0, 0):
        return "something is written where there is no room"
    whole = Call(call, data, setting, limit, tokens + 1, texts + 1)
    written = bytes(whole.texts)
    found = [token_line(t, written, names) for t in whole.tokens[:tokens]]
    found += [fault_line(whole.answer, written)] if whole.status == 1 else []
    if found != wanted or whole.status != any(line.startswith("FAULT") for line in wanted) or none.status != whole.status:
        return f"wanted {wanted}, got {found} and status {whole.status}"
    places = [place(t, written, setting, data, names) for t in whole.tokens[:tokens]]
    if [t.input_at for t in whole.tokens[:tokens]] != places:
        return f"wanted the places {places}, got {[t.input_at for t in whole.tokens[:tokens]]}"
    if not whole.untouched(tokens, texts):
        return "something is written behind what is wanted"
    half = Call(call, data, setting, limit, tokens // 2, texts // 2)
    size = c.sizeof(Token) * (tokens // 2)
    if bytes(half.tokens)[:size] != bytes(whole.tokens)[:size] or bytes(half.texts)[: texts // 2] != written[: texts // 2]:
        return "what a smaller room holds is no beginning"
    if not half.untouched(tokens // 2, texts // 2):
        return "something is written past a room"
    if list(fields(whole.answer)) != answer or list(fields(half.answer)) != answer:
        return "the answers to one input in three sizes of room differ"
    return None


def compare(rows):
    call, names = load(), type_names()
    return [(words, data, text) for words, data, wanted in rows if (text := wrong_with(call, names, words, data, wanted))]


def wrong_calls():
    """How many wrong settings and limits were tried, and those that were not refused as expected."""
    call, bad = load(), []
    tried = [(4, 1024), (2**32 - 1, 1024), (0, 0), (3, 65537), (1, 2**32 - 1), (4, 0)]
    for setting, limit in tried:
        done = Call(call, b"a: 1", setting, limit, 9, 9)
        if done.status != 2 or any(fields(done.answer)) or not done.untouched(0, 0):
            bad.append((setting, limit))
    for setting, limit in [(0, 1), (0, 65536), (3, 1024)]:
        if Call(call, b"", setting, limit, 9, 99).status == 2:
            bad.append((setting, limit))
    return len(tried) + 3, bad


def try_near_fault():
    """Whether a fault of the reader comes in the place of the step near it, as the READMEs say, and nothing else does."""
    done, names = Call(load(), NEAR, 0, 1024, 9, 99), type_names()
    texts = bytes(done.texts)
    found = [token_line(t, texts, names) for t in done.tokens[: done.answer.token_count]] + [fault_line(done.answer, texts)]
    print(f"ffi: a fault of the reader and the step near it, {int(found != NEAR_WANTED)} wrong {found if found != NEAR_WANTED else ''}")
    return found == NEAR_WANTED


def lists_wrong(program, row):
    words, data, wanted = row
    done = subprocess.run([program, *words], input=data, capture_output=True, timeout=60)
    status = int(any(line.startswith("FAULT") for line in wanted))
    return (done.stdout.decode("ascii").split("\n")[:-1], done.returncode) != (wanted, status)


def refused(program, refuser, data, no_room=3):
    """Refuses each request for memory in turn, and one that is never made; how many runs there were of each kind. The status
    no_room is that of a program that has no memory of its own."""
    done, counts, _ = run_counted(program, [], data, refuser, 0)
    whole = done.stdout.decode("ascii").split("\n")[:-1]
    seen = {"whole": 0, "beginning": 0, "no room": 0, "wrong": 0}
    for number in range(1, sum(counts) + 2):
        done = run(program, [], data, refuser, str(number))
        found = done.stdout.decode("ascii").split("\n")[:-1]
        kind = "wrong"
        if found == whole and done.returncode in (0, 1):
            kind = "whole"
        elif done.returncode == no_room and found == whole[: len(found)]:
            kind = "no room"
        elif done.returncode == 1 and found[-1:] == [MEMORY] and found[:-1] == whole[: len(found) - 1]:
            kind = "beginning"
        seen[kind] += 1
    return seen


def leaks(program, row):
    """Whether valgrind finds a leak, or a wrong access."""
    return subprocess.run([*VALGRIND, program, *row[0]], input=row[1], capture_output=True, timeout=300).returncode == 99


def try_library(every):
    count = os.cpu_count()
    with ProcessPoolExecutor(max_workers=count) as pool:
        bad = [one for part in pool.map(compare, [every[i::count] for i in range(count)]) for one in part]
    for words, data, text in bad[:5]:
        print(words, data[:80], text[:600])
    tried, wrong = wrong_calls()
    numbers, others = same_numbers()
    print(f"ffi: {len(every)} inputs compared, {len(bad)} differ; {tried} settings and limits, {len(wrong)} wrong")
    print(f"ffi: {numbers} numbers of the header, {len(others)} not the defined ones")
    return not bad and not wrong and not others and numbers > 30 and len(every) > 20000


def try_names():
    """Whether the shared library exports the functions of the header, under the version of the interface, and nothing else."""
    with open(os.path.join(FFI, "bogzhami.h"), encoding="ascii") as text:
        names = set(re.findall(r"^(?:uint32_t |const char \*)(bogzhami_\w+)\(", text.read(), re.M))
    interface = "BOGZHAMI_" + VERSION.split(".")[0]
    wanted = {interface} | {f"{name}@@{interface}" for name in names}
    words = ["nm", "-D", "--defined-only", os.path.join(FFI, "out", "libbogzhami.so")]
    told = subprocess.run(words, check=True, capture_output=True, text=True).stdout
    found = {line.split(" ")[-1] for line in told.splitlines()}
    print(f"ffi: {len(found) - 1} names exported, {len(found ^ wanted)} not those of the header {sorted(found ^ wanted) or ''}")
    return found == wanted and len(names) == 16


def try_version():
    """Whether the header and the library have the version that VERSION has, and the library's name its first number."""
    with open(os.path.join(FFI, "bogzhami.h"), encoding="ascii") as text:
        header = text.read()
    numbers = dict(re.findall(r"#define BOGZHAMI_VERSION_(\w+) (\d+)", header))
    path = os.path.join(FFI, "out", "libbogzhami.so")
    call = c.CDLL(path).bogzhami_version
    call.restype = c.c_char_p
    told = subprocess.run(["objdump", "-p", path], check=True, capture_output=True, text=True).stdout
    loaded = re.search(r"SONAME +(\S+)", told)
    found = {
        "macro": re.search(r'#define BOGZHAMI_VERSION "(.*)"', header)[1],
        "numbers": ".".join(numbers.get(name, "?") for name in ("MAJOR", "MINOR", "PATCH")),
        "call": call().decode("ascii"),
        "name": os.path.basename(os.path.realpath(path)).removeprefix("libbogzhami.so."),
    }
    wrong = {what: said for what, said in found.items() if said != VERSION}
    if loaded[1] != "libbogzhami.so." + VERSION.split(".")[0]:
        wrong["loaded"] = loaded[1]
    print(f"ffi: version {VERSION}, {len(wrong)} of {len(found) + 1} places say another {wrong or ''}")
    return not wrong


def try_records(room, rust):
    wanted = list(layout())
    check_cplusplus(room)
    differ = [line for found in [c_layout(room), *([rust_layout(room)] if rust else [])] for line in set(found) ^ set(wanted)]
    print(f"ffi: {len(wanted)} sizes and places in C{' and Rust' if rust else ''}, {len(differ)} differ from the crate's {differ or ''}")
    return not differ and len(wanted) > 20


def try_examples(programs, rows):
    good = True
    for program in programs:
        with ThreadPoolExecutor(max_workers=os.cpu_count()) as pool:
            bad = [row for row, is_bad in zip(rows, pool.map(lambda row: lists_wrong(program, row), rows)) if is_bad]
        print(f"ffi: {os.path.basename(program)}: {len(rows)} inputs listed, {len(bad)} wrong {[row[:2] for row in bad[:3]] or ''}")
        good = good and not bad
    return good


def try_held(room, every, rust):
    programs, inputs = build_held(room), inputs_of_tests(every, SMALL)
    good = [
        try_tests(programs, every, inputs),
        try_valgrind(programs[0], inputs),
        try_sanitized(room, inputs),
        not rust or try_rust(room, every),
        try_long(programs[0]),
        try_reach(MADE),
    ]
    return all(good)


def try_refused(program, *no_room):
    """Whether a program gives right lines and then the fault, or has no room, where a request for memory is refused."""
    with tempfile.TemporaryDirectory() as room:
        refuser = build_refuser(room)
        with ThreadPoolExecutor(max_workers=os.cpu_count()) as pool:
            seen = list(pool.map(lambda data: refused(program, refuser, data, *no_room), SMALL))
    total = {kind: sum(one[kind] for one in seen) for kind in seen[0]}
    told = ", ".join(f"{count} {kind}" for kind, count in total.items())
    print(f"ffi: {os.path.basename(program)}: growths refused, {len(SMALL)} inputs: {told}")
    return not total["wrong"] and total["whole"] and total["beginning"] and total["no room"]


def try_pieces_in_rust(room, rows):
    """The crate's example that lists pieces. Rust ends a program that has no memory of its own by SIGABRT."""
    program = build_rust_example(room)
    os.environ["RUST_BACKTRACE"] = "0"  # it would take most of the time
    return try_examples([program], rows) and try_refused(program, -signal.SIGABRT)


def try_memory(program, rows):
    name = os.path.basename(program)
    good = try_refused(program)
    if shutil.which("valgrind") is None:
        print("ffi: leaks skipped: no valgrind")
        return good
    with ThreadPoolExecutor(max_workers=os.cpu_count()) as pool:
        lost = sum(pool.map(lambda row: leaks(program, row), rows))
    print(f"ffi: {name}: {len(rows)} inputs under valgrind, {lost} with a leak or a wrong access")
    return good and not lost


def main():
    if shutil.which("cc") is None:
        print("ffi: skipped: no C compiler")
        return 0
    build_library()
    every = list(vectors())
    rust = has_rust()
    if not rust:
        print("ffi: Rust skipped: no rustc of 1.63 or later")
    with tempfile.TemporaryDirectory() as room:
        programs, pieces = [build_c(room), build_pieces(room, "pieces.c")], ["pieces.c"]
        if shutil.which("c++"):
            programs += [build_cplusplus(room), build_pieces(room, "pieces.cc")]
            pieces.append("pieces.cc")
        if rust:
            programs.append(os.path.join(room, RUST))
            build_rust(os.path.join(FFI, "list.rs"), programs[-1])
        good = [
            try_library(every),
            try_near_fault(),
            try_places(every),
            try_names(),
            try_name_calls(),
            try_version(),
            try_records(room, rust),
            try_examples(programs, every[::40]),
            try_pages(room, rust),
            try_wrong_uses(programs),
            *[try_pipes(source, room) for source in pieces],
            try_memory(programs[0], every[::2000]),
            try_memory(programs[1], every[::2000]),
            try_held(room, every, rust),
            not rust or try_pieces_in_rust(room, every[::40]),
        ]
    return 0 if all(good) else 1


if __name__ == "__main__":
    from lib.usage import answer_questions

    answer_questions()
    sys.exit(main())
