"""The examples in C and Rust that ffi/README.md, bogzhami.h and the manual pages have: compiled as they stand there, and run.

Those in C are also run on a text of 50 MB. The first loops have less room than that: they give the tokens before it, and say that
more are left. The loop whose room grows gives all. What tells a fault stands there too: it prints line and column of a fault of
the scanner and of one of the reader. The loops over an input in pieces are given pieces of some bytes.
"""

import os
import re
import subprocess
from textwrap import dedent, indent

from held import FFI, build_rust
from repository import TOP, read

# A caller's use of a token that prints no long text.
USE = """static void use(const struct bogzhami_token *token, const uint8_t *texts) {
    size_t len;
    const char *text = bogzhami_text(token, texts, &len);
    printf("%s %.*s\\n", bogzhami_token_name(token->token_type), len < 9 ? (int)len : 9, text);
}
"""
# What the C example calls, and where its input comes from.
AROUND_C = """#include "bogzhami.h"
#include <inttypes.h>
#include <stdio.h>
#include <stdlib.h>
CALLED
int main(void) {
    static uint8_t input[LONG + 4];
    size_t input_len = fread(input, 1, sizeof input, stdin);
    setvbuf(stdout, NULL, _IOLBF, BUFSIZ);
EXAMPLE
    return (int)status;
}
"""
# The same for an example over an input in pieces, which come from standard input.
AROUND_PIECES = """#include "bogzhami.h"
#include <stdio.h>
CALLED
/* Puts some bytes behind those that came; false at the end. */
static bool read_more(uint8_t **input, size_t *len) {
    size_t count = fread(*input + *len, 1, 1 + *len % 3, stdin);
    *len += count;
    return count > 0;
}
int main(void) {
    static struct bogzhami_token tokens[256];
    static uint8_t texts[60], room[100];
    uint8_t *input = room;
    struct bogzhami_handle handle = BOGZHAMI_CLOSED;
    struct bogzhami_answer answer = {0};
EXAMPLE
    bogzhami_close(&handle);
    puts(bogzhami_status_text(status));
    return (int)status;
}
"""
LONG = 50_000_000
AROUND_RUST = """#[path = "MODULE"]
mod scanner;
use scanner::Scanner;
fn main() -> Result<(), scanner::Fault> {
EXAMPLE
    Ok(())
}
"""
FRONT = ["STREAM-START ", "BLOCK-MAPPING-START ", "KEY ", "SCALAR a", "VALUE "]
LEFT = "not all tokens were given: a text is longer than the room for texts"
# Inputs of the examples in C, and what a loop with too little room and one with enough print, with their statuses. The last two
# have a fault of the reader, which comes in the place of the steps near it.
NEAR = b"ab: cd\nx: \xffb"
NEAR_16 = b"\xfe\xff" + "ab: cd\x85x: ".encode("utf-16-be") + b"\xd8\0\0b"
C_WANTED = [
    (b"a: b: c", [([*FRONT, "SCALAR b", "1:5: mapping values are not allowed in this context"], 1)] * 2),
    (b"a: " + b"x" * LONG, [([*FRONT, LEFT], 5), ([*FRONT, "SCALAR xxxxxxxxx", "BLOCK-END ", "STREAM-END "], 4)]),
    (NEAR, [(["STREAM-START ", "2:4: invalid leading UTF-8 octet"], 1)] * 2),
    (NEAR_16, [(["STREAM-START ", "2:4: expected low surrogate area"], 1)] * 2),
]
# The same with the page's own use of a token: an input, and the lines.
USED_WANTED = [
    (b"a: 'b\n c'", ["1:1: STREAM-START ", "1:1: BLOCK-MAPPING-START ", "1:1: KEY ", "1:1: SCALAR a", "1:2: VALUE ",
                     "1:4: SCALAR b c", "3:1: BLOCK-END ", "3:1: STREAM-END "]),
    (NEAR, ["1:1: STREAM-START ", "2:4: invalid leading UTF-8 octet"]),
]
# Inputs of the loops over pieces, and what these print, with their statuses.
ENTRY = "SCALAR b", "BLOCK-END ", "STREAM-END ", "all tokens were given"
PIECES_WANTED = [
    (b"a: b", ([*FRONT, *ENTRY], 4)),
    ("\ufeffa: b".encode("utf-16-le"), ([*FRONT, *ENTRY], 4)),
    (b"a: b: c", ([*FRONT, "SCALAR b", "the input has a fault"], 1)),
    (b"a: " + b"x" * 97, ([*FRONT, "a text is longer than the room for texts"], 5)),
]
RUST_WANTED = ["StreamStart", "BlockMappingStart", "Key", "Scalar", "Value", "Scalar", "BlockEnd", "StreamEnd"]


def examples():
    """The blocks of ffi/README.md that are indented by four."""
    return re.findall(r"((?:^    .*\n)+)", read("ffi/README.md"), re.M)


def example_of_header(call):
    """The examples in the comment of bogzhami.h that makes a call."""
    found = re.findall(r"^/\*.*?\*/$", read("ffi/bogzhami.h"), re.M | re.S)
    comment = next(comment for comment in found if f"     uint32_t status = {call}(" in comment)
    return "".join(re.findall(r"^ \*     (.*\n)", comment, re.M))


def example_of_manual(page):
    """The examples of a manual page, as groff would show them."""
    found = re.findall(r"\n\.EX\n(.*?)\.EE\n", read(f"packaging/man/{page}.3"), re.S)
    return "".join(found).replace("\\e", "\\").replace("\\-", "-")


def parted(example):
    """What tells a fault in an example, and the rest of it."""
    tell = re.search(r"^static void tell\(.*?^}\n", example, re.M | re.S)[0]
    return tell, example.replace(tell, "")


def build_c(room, called, example, around=AROUND_C):
    """A program of what an example in C calls and of the example."""
    path = os.path.join(room, "page_c")
    with open(path + ".c", "w", encoding="utf-8") as text:
        made = around.replace("LONG", str(LONG)).replace("CALLED", called)
        text.write(made.replace("EXAMPLE", indent(example, "    ")))
    library = os.path.join(FFI, "out", "libbogzhami.a")
    subprocess.run(["cc", "-std=c99", "-Wall", "-Wextra", "-Werror", "-I", FFI, path + ".c", library, "-o", path], check=True)
    return path


def run_c(path, data):
    """What a program prints, and its status."""
    done = subprocess.run([path], input=data, stdout=subprocess.PIPE, stderr=subprocess.STDOUT, timeout=60)
    return done.stdout.decode("utf-8").splitlines(), done.returncode


def try_c(room, tell, example):
    """Whether an example in C prints what it should, on each input; a loop that calls calloc has room that grows."""
    path, grows = build_c(room, USE + tell, example), "calloc(" in example
    for data, wanted in C_WANTED:
        found = run_c(path, data)
        if found != wanted[grows]:
            print(f"ffi: {data[:9]}: {found[0][-5:]}, status {found[1]}, of\n{example}")
            return False
    return True


def try_used(room, use, tell, example):
    """Whether the page's own use of a token prints what it should."""
    path = build_c(room, use + tell, example)
    wrong = [(data, found) for data, wanted in USED_WANTED if (found := run_c(path, data)[0]) != wanted]
    print(*(f"ffi: the use of a token in ffi/README.md: {row}" for row in wrong), sep="\n", end="")
    return not wrong


def try_pieces(room, example):
    """Whether a loop over an input in pieces prints what it should, on each input."""
    path = build_c(room, USE, example, AROUND_PIECES)
    wrong = [(data, found) for data, wanted in PIECES_WANTED if (found := run_c(path, data)) != wanted]
    for row in wrong:
        print(f"ffi: a loop over pieces: {row}")
    return not wrong


def lines_of(path):
    return subprocess.run([path], check=True, capture_output=True, text=True, timeout=60).stdout.splitlines()


def try_rust_example(room, number, example):
    path = os.path.join(room, f"page_rust_{number}")
    with open(path + ".rs", "w", encoding="utf-8") as text:
        text.write(AROUND_RUST.replace("MODULE", os.path.join(TOP, "rust", "src", "scanner.rs")).replace("EXAMPLE", example))
    build_rust(path + ".rs", path)
    return [re.match(r"\w+", line)[0] for line in lines_of(path)] == RUST_WANTED


def try_pages(room, rust):
    blocks = [dedent(example) for example in examples()]
    use, tell = (next(block for block in blocks if block.startswith(f"static void {name}(")) for name in ("use", "tell"))
    in_c = [(tell, block) for block in blocks if "bogzhami_open(" in block]
    in_c += [parted(dedent(example)) for example in (example_of_header("bogzhami_open"), example_of_manual("bogzhami"))]
    in_pieces = [block for block in blocks if "bogzhami_open_pieces(" in block]
    in_pieces += [example_of_header("bogzhami_open_pieces"), example_of_manual("bogzhami_next_piece")]
    in_rust = [example for example in examples() if "Scanner::new(" in example]
    good = [try_c(room, *example) for example in in_c] + [try_used(room, use, *in_c[0])]
    good += [try_pieces(room, dedent(example)) for example in in_pieces]
    good += [try_rust_example(room, number, example) for number, example in enumerate(in_rust) if rust]
    print(f"ffi: {len(good)} examples of ffi/README.md, bogzhami.h and the manual pages, {good.count(False)} wrong")
    return all(good) and len(in_c) == 4 and len(in_pieces) == 3 and len(in_rust) == 2
