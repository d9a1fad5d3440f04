#!/usr/bin/env python3
"""Uses the crate of rust/ as those do who have a checkout, or the crate alone: crate.py [PROGRAM].

In a copy of the checkout, in a folder with a blank in its name, its tests and its examples run with no variable. The example
that lists a pipe lists what is settled while the pipe is open. From a crate of a user's, the library is found by a path that
is absolute, and by one that is relative to where cargo is called. Where there is none, the message has the whole path that was
looked at, and names ffi/build. What pkg-config says may have blanks. `cargo package` makes a crate that has all its sources,
which builds elsewhere. A match on Data or Fault without an arm for others is refused.

It needs cargo and a C compiler, and is skipped, and says so, if there is none.
"""

import filecmp
import json
import os
import shutil
import subprocess
import sys
import tarfile
import tempfile
import threading

HERE = os.path.dirname(os.path.abspath(__file__))
sys.path.insert(0, os.path.join(HERE, "lib"))
sys.dont_write_bytecode = True
from library import TOP, VERSION, build_library
from worked import rows

SMALL = b"a: 1"
LISTED = [lines for words, data, lines in rows() if (words, data) == (["scan", "any"], SMALL)][0]
DROPPED = ("BOGZHAMI_LIB_DIR", "PKG_CONFIG_PATH", "CARGO_TARGET_DIR", "RUSTFLAGS")
NONE = {"PKG_CONFIG": "false"}  # finds no library

# What comes by a pipe in two parts, and the lines after each.
FIRST, SECOND = b"- a\n- 'the second'\n", b"- b"
FIRST_LISTED = [
    "STREAM-START 0:0:0 0:0:0 UTF8", "BLOCK-SEQUENCE-START 0:0:0 0:0:0", "BLOCK-ENTRY 0:0:0 1:0:1", "SCALAR 2:0:2 3:0:3 plain 61",
    "BLOCK-ENTRY 4:1:0 5:1:1",
]
SECOND_LISTED = [
    "SCALAR 6:1:2 18:1:14 single 746865207365636f6e64", "BLOCK-ENTRY 19:2:0 20:2:1", "SCALAR 21:2:2 22:2:3 plain 62",
    "BLOCK-END 22:3:0 22:3:0", "STREAM-END 22:3:0 22:3:0",
]
SECONDS = 60

USER = """use bogzhami::{Data, Fault, Scanner};

fn name(data: &Data) -> &'static str {
    match data {
        Data::Scalar { .. } => "scalar",
        _ => "other",
    }
}

fn main() -> Result<(), Fault> {
    let names = Scanner::new(b"a: 1").map(|token| Ok(name(&token?.data))).collect::<Result<Vec<_>, Fault>>()?;
    println!("{}", names.join(" "));
    Ok(())
}
"""
USER_PRINTS = "other other other scalar other scalar other other\n"

# A match that names all that this version has, and what is said of it.
WHOLE_MATCH = """use bogzhami::Fault;

fn main() {
    let fault = bogzhami::Scanner::new(b"'").find_map(Result::err).expect("it is open");
    match fault {
        Fault::Memory | Fault::Reader { .. } | Fault::Scanner { .. } => (),
    }
}
"""
NOT_EXHAUSTIVE = "error[E0004]"


def say(good, text):
    print(f"crate: {text}{'' if good else ', WRONG'}", flush=True)
    return bool(good)


def run(folder, words, data=b"", **more):
    """What a command writes, and its status. The folder is where it is called, also by the shell's variable for that."""
    kept = {name: value for name, value in os.environ.items() if name not in DROPPED}
    done = subprocess.run(words, cwd=folder, input=data, env={**kept, "PWD": folder, **more}, capture_output=True, timeout=300)
    return done.returncode, done.stdout.decode("utf-8", "replace"), done.stderr.decode("utf-8", "replace")


def write(path, text):
    os.makedirs(os.path.dirname(path), exist_ok=True)
    with open(path, "w", encoding="utf-8") as out:
        out.write(text)


def make_checkout(top, has_library):
    """A copy of what the crate needs of a checkout."""
    shutil.copytree(os.path.join(TOP, "rust"), os.path.join(top, "rust"), ignore=shutil.ignore_patterns("target", "Cargo.lock"))
    write(os.path.join(top, "ffi", "bogzhami.h"), "")
    os.makedirs(os.path.join(top, "tests", "vectors"))
    shutil.copy(os.path.join(HERE, "vectors", "rows.txt"), os.path.join(top, "tests", "vectors"))
    if has_library:
        shutil.copytree(os.path.join(TOP, "ffi", "out"), os.path.join(top, "ffi", "out"), symlinks=True)
    return os.path.join(top, "rust")


def make_user(folder, crate, program=USER):
    """A crate of a user's that names this one."""
    write(os.path.join(folder, "src", "main.rs"), program)
    about = '[package]\nname = "user"\nversion = "1.0.0"\nedition = "2021"\n'
    write(os.path.join(folder, "Cargo.toml"), f'{about}\n[dependencies]\nbogzhami = {{ path = "{crate}" }}\n')
    return folder


def try_checkout(crate):
    """The commands of rust/README.md, right after ffi/build."""
    status, told, said = run(crate, ["cargo", "test", "--offline"], **NONE)
    good = say(status == 0 and "test rows_are_listed ... ok" in told, f"cargo test in a checkout{said[-900:] if status else ''}")
    status, told, said = run(crate, ["cargo", "run", "-q", "--offline", "--example", "list"], SMALL, **NONE)
    is_listed = (status, told.splitlines()) == (0, LISTED)
    good = say(is_listed, f"cargo run --example list in a checkout{said[-900:] if status else ''}") and good
    return try_pipe(crate) and good


def try_pipe(crate):
    """The example that lists a pipe: what is settled of a part of the input is listed before the rest comes."""
    status, told, said = run(crate, ["cargo", "run", "-q", "--offline", "--example", "pieces"], SMALL, **NONE)
    if (status, told.splitlines()) != (0, LISTED):
        return say(False, f"cargo run --example pieces in a checkout: {told}{said[-900:]}")
    program = os.path.join(crate, "target", "debug", "examples", "pieces")
    with subprocess.Popen([program], stdin=subprocess.PIPE, stdout=subprocess.PIPE) as lists:
        timer = threading.Timer(SECONDS, lists.kill)
        timer.start()
        lists.stdin.write(FIRST)
        lists.stdin.flush()
        first = [lists.stdout.readline().decode("ascii").rstrip("\n") for _ in FIRST_LISTED]
        second = lists.communicate(SECOND)[0].decode("ascii").splitlines()
        timer.cancel()
    good = (first, second, lists.returncode) == (FIRST_LISTED, SECOND_LISTED, 0)
    return say(good, f"an open pipe is listed{'' if good else f': {first}, {second}'}")


def try_user(room, alone, library):
    """The library by a variable, from a crate that is in no checkout."""
    user = make_user(os.path.join(room, "user"), alone)
    wrong = []
    shutil.copytree(library, os.path.join(user, "a library"), symlinks=True)
    for folder in (library, "a library", os.path.join("..", "user", "a library")):
        status, told, said = run(user, ["cargo", "run", "-q", "--offline"], BOGZHAMI_LIB_DIR=folder, **NONE)
        if (status, told) != (0, USER_PRINTS):
            wrong.append((folder, status, told, said[-900:]))
    return say(not wrong, f"3 paths of the library in a variable, {len(wrong)} wrong {wrong[:1] or ''}")


def try_messages(room, alone):
    """What is said where there is no library: the paths that were tried, and what makes one."""
    user = make_user(os.path.join(room, "lost"), alone)
    unbuilt = make_checkout(os.path.join(room, "unbuilt"), False)
    tried = [
        (user, {"BOGZHAMI_LIB_DIR": "lib"}, [os.path.join(user, "lib"), "BOGZHAMI_LIB_DIR is lib", "ffi/build"]),
        (user, {"BOGZHAMI_LIB_DIR": room}, [room, "no libbogzhami.a", "ffi/build"]),
        (user, {}, ["BOGZHAMI_LIB_DIR is not set", "pkg-config finds no library"]),
        (user, {"BOGZHAMI_LIB_DIR": ""}, ["BOGZHAMI_LIB_DIR is not set", "pkg-config finds no library"]),
        (unbuilt, {"BOGZHAMI_LIB_DIR": "lib"}, [f"libbogzhami.so is in {os.path.join(unbuilt, 'lib')}. ffi/build"]),
        (unbuilt, {}, [os.path.join(room, "unbuilt", "ffi", "out"), "ffi/build", "pkg-config finds no library"]),
        (user, {"PKG_CONFIG": "no-pkg-config"}, ["no-pkg-config can't be run"]),
    ]
    wrong = []
    for folder, more, parts in tried:
        status, _, said = run(folder, ["cargo", "build", "--offline"], **{**NONE, **more})
        missing = [part for part in parts if part not in said]
        if status != 101 or missing:
            wrong.append((more, status, missing, said[-900:]))
    return say(not wrong, f"{len(tried)} builds without a library, {len(wrong)} wrong {wrong[:1] or ''}")


def try_pkg_config(room, alone, library):
    """A folder with a blank, as pkg-config writes it."""
    program = os.path.join(room, "pkg-config")
    escaped = library.replace(" ", "\\ ")
    write(program, f"#!/bin/sh\ncat << 'END'\n-L{escaped} -lbogzhami \nEND\n")
    os.chmod(program, 0o755)
    user = make_user(os.path.join(room, "told"), alone)
    status, told, said = run(user, ["cargo", "run", "-q", "--offline"], PKG_CONFIG=program, LD_LIBRARY_PATH=library)
    return say((status, told) == (0, USER_PRINTS), f"a library in a folder with a blank, by pkg-config{said[-900:] if status else ''}")


def try_whole_match(room, alone, library):
    user = make_user(os.path.join(room, "matches"), alone, WHOLE_MATCH)
    status, _, said = run(user, ["cargo", "check", "--offline"], BOGZHAMI_LIB_DIR=library)
    return say(status == 101 and NOT_EXHAUSTIVE in said, f"a match without an arm for others is refused{'' if status else said[-900:]}")


def try_package(room, crate, library):
    """Packages the crate in a checkout, and uses what is in the package elsewhere."""
    status, _, said = run(crate, ["cargo", "package", "--offline"], **NONE)
    if status:
        return say(False, f"cargo package: {said[-900:]}")
    name = f"bogzhami-{VERSION}"
    with tarfile.open(os.path.join(crate, "target", "package", f"{name}.crate")) as packed:
        packed.extractall(room)
    user = make_user(os.path.join(room, "elsewhere"), os.path.join(room, name))
    status, told, said = run(user, ["cargo", "run", "-q", "--offline"], BOGZHAMI_LIB_DIR=library, **NONE)
    good = say((status, told) == (0, USER_PRINTS), f"what cargo package makes is used elsewhere{said[-900:] if status else ''}")
    is_same = filecmp.cmp(os.path.join(TOP, "LICENSE"), os.path.join(room, name, "LICENSE"), shallow=False)
    return say(is_same, "the package has the licence of the repository") and good


def try_manifest(crate):
    status, told, said = run(crate, ["cargo", "metadata", "--offline", "--no-deps", "--format-version", "1"])
    about = json.loads(told)["packages"][0] if status == 0 else {}
    missing = [name for name in ("repository", "documentation", "license", "readme", "description") if not about.get(name)]
    wrong = missing or about.get("rust_version") != "1.63" or about.get("version") != VERSION
    return say(not wrong, f"the manifest has what a registry wants{f': {missing}, {about}, {said}' if wrong else ''}")


def main():
    for tool in ("cc", "cargo"):
        if shutil.which(tool) is None:
            return 0 if say(True, f"skipped: no {tool}") else 1
    build_library()
    with tempfile.TemporaryDirectory() as room:
        room = os.path.realpath(room)
        crate = make_checkout(os.path.join(room, "a checkout"), True)
        alone = os.path.join(room, "crate")
        shutil.copytree(crate, alone)
        library = os.path.join(room, "a checkout", "ffi", "out")
        shared = os.path.join(room, "shared library")
        shutil.copytree(library, shared, symlinks=True, ignore=shutil.ignore_patterns("*.a"))
        good = [try_manifest(crate), try_checkout(crate), try_user(room, alone, library), try_messages(room, alone)]
        good += [try_pkg_config(room, alone, shared), try_whole_match(room, alone, library), try_package(room, crate, library)]
    return 0 if all(good) else 1


if __name__ == "__main__":
    from lib.usage import answer_questions

    answer_questions()
    sys.exit(main())
