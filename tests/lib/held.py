"""A scanner that is held between calls: what held.c and held.rs check of it, and how far it has read."""

import ctypes as c
import gzip
import os
import shutil
import struct
import subprocess
from concurrent.futures import ThreadPoolExecutor

HERE = os.path.dirname(os.path.dirname(os.path.abspath(__file__)))
FFI = os.path.join(os.path.dirname(HERE), "ffi")
SETTINGS = ["any", "utf8", "utf16le", "utf16be"]
WRAPPED = ["-Wl,--wrap=" + name for name in ("malloc", "calloc", "realloc", "free")]
SHARED = ["-L", os.path.join(FFI, "out"), "-lbogzhami", "-Wl,-rpath," + os.path.join(FFI, "out")]

CHECK = ["valgrind", "-q", "--error-exitcode=99", "--leak-check=full"]
VALGRIND = [*CHECK, "--show-leak-kinds=all", "--errors-for-leak-kinds=all"]

# Of which inputs of the vectors a test of held.c gets one: every input, every fifth. `inputs_of_tests` has the other tests.
TESTS = {"batches": 1, "rooms": 1, "prefixes": 1, "peeks": 1, "turns": 1, "threads": 50, "statuses": 50, "refused": 200}
TESTS.update({"sizes": 5, "closes": 5, "pairs": 5, "bytes": 5, "cuts": 20, "piece uses": 5, "piece closes": 50})
# Of how many of its inputs a test gets one under valgrind. With the address sanitizer it gets ten times as many.
CHECKED = {"prefixes": 400, "peeks": 400, "turns": 400, "threads": 40, "statuses": 20, "refused": 20}
CHECKED.update({"sizes": 40, "closes": 40, "pairs": 80, "refusals": 5, "offsets": 5, "needs": 40})
CHECKED.update({"pieces": 400, "bytes": 200, "cuts": 200, "piece uses": 200, "piece closes": 100, "piece refusals": 10})

# The kinds of inputs whose requests for memory are refused one by one: each has an expected line of which this is true.
KINDS = {
    "tags": lambda line: line.startswith("TAG "),
    "directives": lambda line: line.startswith(("TAG-DIRECTIVE ", "VERSION-DIRECTIVE ")),
    "names": lambda line: line.startswith(("ANCHOR ", "ALIAS ")),
    "flow": lambda line: line.startswith("FLOW-"),
    "block": lambda line: line.startswith("BLOCK-"),
    "block scalars": lambda line: line.startswith("SCALAR ") and line.split(" ")[3] in ("literal", "folded"),
    "quoted scalars": lambda line: line.startswith("SCALAR ") and line.split(" ")[3] in ("single", "double"),
    "UTF-16": lambda line: line.startswith("STREAM-START ") and line.split(" ")[3] in ("UTF16LE", "UTF16BE"),
    "faults of the reader": lambda line: line.startswith("FAULT reader "),
    "faults of the scanner": lambda line: line.startswith("FAULT scanner "),
}
EACH_KIND = 10  # so many inputs of each kind
SHORT = 100  # bytes of an input whose requests are refused for each way to cut it into pieces

# Inputs whose texts have one of these lengths, on each side of the length up to which the library uses a text's room again.
LENGTHS = [1, 2, 15, 16, 17, 1000, 4095, 4096, 4097, 70_000]
LONG_TEXTS = [
    "{0}", "'{0}'", '"{0}\\t"', "|\n {0}\n", ">\n {0}\n", "[{0}, '{0}', {{{0}: {0}}}]", "- *{0}\n- &{0} '{0}'\n", "!{0} a",
    "!e!{0} &{0} {0}", "!<{0}> [*{0}]", "%TAG !{0}! tag:{0}\n--- !{0}!{0} {0}\n", "{0}: {0}\n", '- {0}\n- "{0}', "{0} &{0} @",
]

LONG = 100_000_000  # bytes of an input that is scanned in batches of 256
MOST_GROWTH = 1000  # kilobytes that this may take besides the input


def packed(rows):
    """The inputs as held.c reads them."""
    made = []
    for words, data, _ in rows:
        limit = int(words[1]) if len(words) > 1 else 1024
        made.append(struct.pack("=IIQ", SETTINGS.index(words[0]), limit, len(data)) + data)
    return b"".join(made)


def of_kind(rows, kind):
    """So many inputs of a kind, from the longest to the shortest."""
    found = sorted((row for row in rows if any(map(kind, row[2]))), key=lambda row: len(row[1]), reverse=True)
    return found[:: len(found) // EACH_KIND][:EACH_KIND]


def long_texts():
    """An input for each length, each place of a text and each of two encodings."""
    for text in (one.format("x" * length) for length in LENGTHS for one in LONG_TEXTS):
        yield ["any", "65536"], text.encode("ascii"), None
        yield ["utf16le", "65536"], text.encode("utf-16-le"), None


def inputs_of_tests(rows, small):
    """The inputs that each test of held.c gets, of the vectors, of some small inputs, and of those that are made here."""
    inputs = {name: rows[::step] for name, step in TESTS.items()}
    inputs["nothing"] = [row for row in rows if not row[1]]
    inputs["refusals"] = [row for kind in KINDS.values() for row in of_kind(rows, kind)]
    inputs["refusals"] += [(["any"], data, None) for data in small]
    inputs["offsets"] = inputs["refusals"]
    inputs["needs"] = [*long_texts(), *rows[::10]]
    inputs["pieces"] = [*long_texts(), *rows]
    inputs["piece refusals"] = [row for row in inputs["refusals"] if len(row[1]) <= SHORT]
    return inputs


BUILD = ["cc", "-std=c11", "-Wall", "-Wextra", "-Wpedantic", "-Werror", "-O2", "-pthread", "-I", FFI]
BUILD += [os.path.join(HERE, "held.c"), *WRAPPED]
STATIC = [os.path.join(FFI, "out", "libbogzhami.a")]


def build_held(room):
    """Builds held.c with the static library and with the shared one."""
    programs = [os.path.join(room, name) for name in ("held", "held_shared")]
    for program, link in zip(programs, [STATIC, SHARED]):
        subprocess.run([*BUILD, *link, "-o", program], check=True)
    return programs


def build_sanitized(room):
    """Builds held.c with the address sanitizer; None if the compiler has none."""
    program = os.path.join(room, "held_sanitized")
    done = subprocess.run([*BUILD, *STATIC, "-g", "-fsanitize=address", "-o", program], capture_output=True)
    return program if done.returncode == 0 else None


def build_rust(text, path, *words):
    link = "link-arg=" + os.path.join(FFI, "out", "libbogzhami.a")
    subprocess.run(["rustc", "-O", "--edition", "2021", text, *words, "-C", link, "-o", path], check=True)


def build_rust_example(room):
    """Builds the crate's example that lists pieces, without cargo."""
    crate, path = os.path.join(room, "libbogzhami.rlib"), os.path.join(room, "pieces_rs")
    folder = os.path.join(os.path.dirname(HERE), "rust")
    words = ["rustc", "-O", "--edition", "2021", os.path.join(folder, "src", "lib.rs"), "--crate-name", "bogzhami"]
    subprocess.run([*words, "--crate-type", "rlib", "-o", crate], check=True)
    build_rust(os.path.join(folder, "examples", "pieces.rs"), path, "--extern", "bogzhami=" + crate)
    return path


def run_test(words, data):
    """What a program printed, and whether it found all right."""
    done = subprocess.run(words, input=data, capture_output=True, timeout=600)
    told = (done.stdout + done.stderr).decode("utf-8", "replace").strip()
    return told if done.returncode == 0 else f"{told}\nstatus {done.returncode}", done.returncode == 0


def try_rust(room, rows):
    program = os.path.join(room, "held_rs")
    build_rust(os.path.join(HERE, "held.rs"), program)
    # Rust's own standard input is never freed, so what is still reachable is no leak
    jobs = [([program], packed(rows)), ([*CHECK, program], packed(rows[::200]))]
    if shutil.which("valgrind") is None:
        jobs.pop()
    with ThreadPoolExecutor(max_workers=os.cpu_count()) as pool:
        ends = list(pool.map(lambda job: run_test(*job), jobs))
    for (words, _), (told, good) in zip(jobs, ends):
        print(f"ffi: held {'under valgrind, ' if len(words) > 1 else ''}{told[-2000:]}, {'all right' if good else 'wrong'}")
    return all(good for _, good in ends)


def try_tests(programs, rows, inputs):
    jobs = [([programs[0], name], packed(given)) for name, given in inputs.items()]
    jobs.append(([programs[1], "batches"], packed(rows)))
    with ThreadPoolExecutor(max_workers=os.cpu_count()) as pool:
        ends = list(pool.map(lambda job: run_test(*job), jobs))
    for (words, _), (told, _) in zip(jobs, ends):
        print(f"ffi: {os.path.basename(words[0])} {told}")
    is_enough = len(inputs["nothing"]) > 10 and len(inputs["refusals"]) > len(KINDS) * EACH_KIND
    return all(good for _, good in ends) and is_enough


def try_checked(words, inputs, under, times=1):
    """Runs tests under what finds wrong uses of memory, with so many times the inputs that CHECKED says."""
    jobs = [([*words, name], packed(inputs[name][:: max(1, step // times)])) for name, step in CHECKED.items()]
    with ThreadPoolExecutor(max_workers=os.cpu_count()) as pool:
        ends = list(pool.map(lambda job: run_test(*job), jobs))
    for told, good in ends:
        print(f"ffi: held under {under}, {told if good else told[-2000:]}")
    return all(good for _, good in ends)


def try_valgrind(program, inputs):
    if shutil.which("valgrind") is None:
        print("ffi: held under valgrind skipped: no valgrind")
        return True
    return try_checked([*VALGRIND, program], inputs, "valgrind")


def try_sanitized(room, inputs):
    program = build_sanitized(room)
    if program is None:
        print("ffi: held under the address sanitizer skipped: the compiler has none")
        return True
    return try_checked([program], inputs, "the address sanitizer", 10)


def try_long(program):
    told, good = run_test([program, "long", str(LONG)], b"")
    grown = int(told.split(" kilobytes")[0].rsplit(" ", 1)[1]) if good else None
    print(f"ffi: held {told}, at most {MOST_GROWTH}")
    return good and grown <= MOST_GROWTH


class Handle(c.Structure):
    _fields_ = [("live", c.c_bool), ("held", c.c_void_p)]


class Reader:
    """A scanner that is held by the shared library, which is called from here."""

    def __init__(self, records, words, data):
        self.library = c.CDLL(os.path.join(FFI, "out", "libbogzhami.so"))
        self.handle, self.input = Handle(), (c.c_char_p(data), c.c_size_t(len(data)))
        self.token, self.answer = records["token"](), records["answer"]()
        self.mark, self.is_shown = records["mark"](), False
        self.texts = (c.c_uint8 * (len(data) * 3 + 256))()
        self.library.bogzhami_open(c.byref(self.handle), *self.input, SETTINGS.index(words[0]), int(words[1]))

    def get(self, call, *count):
        texts, answer = (self.texts, c.c_size_t(len(self.texts))), c.byref(self.answer)
        call(c.byref(self.handle), *self.input, c.byref(self.token), *count, *texts, answer)
        return self.answer.token_count == 1

    def call(self, letter):
        """Scans, peeks, or skips the token that a peek has shown; returns how far was read."""
        if letter == "p":
            self.is_shown = self.get(self.library.bogzhami_peek)
        elif letter == "s" or self.is_shown:
            self.get(self.library.bogzhami_next, c.c_size_t(1))
            self.is_shown = False
        self.library.bogzhami_reach(c.byref(self.handle), c.byref(self.mark))
        return f"{self.mark.index}:{self.mark.line}:{self.mark.column}"

    def close(self):
        self.library.bogzhami_close(c.byref(self.handle))


def reaches(records, words, data):
    reader = Reader(records, words, data)
    found = [reader.call(letter) for letter in words[2]]
    reader.close()
    return found


def try_reach(records):
    """How far is read after each call, compared with paces.txt.gz."""
    with gzip.open(os.path.join(HERE, "paces.txt.gz"), "rt", encoding="ascii") as lines:
        rows = [line.rstrip("\n").split("\t") for line in lines]
    wrong = []
    for words, data, wanted in rows:
        marks = [one.split(" ")[1] for one in wanted.split(" / ")]
        found = reaches(records, words.split(" "), bytes.fromhex(data.strip("-")))
        if found != marks:
            wrong.append((words, data[:80], found, marks))
    print(f"ffi: how far is read, {len(rows)} lists of calls, {len(wrong)} differ {wrong[:1] or ''}")
    return not wrong and len(rows) > 2000
