#!/usr/bin/env python3
"""A kit that proves nothing (orders.py): it is `rt` and `rattle`, and leaves what they leave, out of what was built before.

KIT_MADE is the folder of that. KIT_LOG gets a line for each call: its words, and those of the files of KIT_WATCHED, from the
folder KIT_TOP, that are there. With KIT_FAILS the gate fails, and with KIT_WAITS it waits for so many seconds.
"""

import os
import shutil
import sys
import time

MADE = os.environ["KIT_MADE"]
LIBRARIES = ["yaml_text", "yaml_lexeme", "yaml_scan"]
PROGRAMS = ["yamltok", "testbench"]


def log_call(words):
    top = os.environ["KIT_TOP"]
    there = [path for path in os.environ["KIT_WATCHED"].split() if os.path.exists(os.path.join(top, path))]
    with open(os.environ["KIT_LOG"], "a", encoding="utf-8") as out:
        out.write(f"{' '.join(words)}\t{' '.join(there)}\n")


def put(name, path):
    os.makedirs(os.path.dirname(path), exist_ok=True)
    shutil.copy(os.path.join(MADE, name), path)


def links():
    for folder, folders, names in os.walk("."):
        folders[:] = [name for name in folders if name != ".git"]
        yield from (os.path.join(folder, name) for name in folders + names if os.path.islink(os.path.join(folder, name)))


def end_gate(passed, failed):
    print(f"{passed} passed, {failed} failed", flush=True)
    return 1 if failed else 0


def gate():
    """Refuses links, removes what was built, and leaves the libraries and the programs."""
    link = next(links(), None)
    if link or not os.path.isdir(".git") or not os.path.isfile("crates.txt"):
        print(f"rt: {link} is a link, or this is not the top of a repository")
        return end_gate(0, 1)
    for crate in os.listdir("crates"):
        shutil.rmtree(os.path.join("crates", crate, "out"), ignore_errors=True)
    time.sleep(float(os.environ.get("KIT_WAITS", "0")))
    for crate in LIBRARIES:
        os.makedirs(f"crates/{crate}/out/rlib/{crate}.rlib")
        print(f"rt: {crate} proved", flush=True)
    if os.environ.get("KIT_FAILS"):
        return end_gate(3, 1)
    for name in PROGRAMS:
        put(name, f"crates/{name}/out/{name}")
    return end_gate(5, 0)


def check(crate):
    print(f"rt: chose --jobs 1 for {crate}\nso far: 0 of 2 functions checked; the verdict comes last\nchecked {crate}::laws::one, 1 of 2")
    return 0


def main(words):
    log_call(words)
    crate = os.path.basename(os.getcwd())
    if words[0] == "version":
        print("a kit for tests")
    elif words[0] == "ci":
        return gate()
    elif words[0] == "check":
        return check(crate)
    elif words[0] == "run":
        put(crate, f"out/{crate}")
    elif words[0] == "lib":
        check(crate)
        put("libyaml_c.a", "out/libyaml_c.a")
    elif words[0] == "build" and words[1:3] == ["--crate-name", "yaml_c"]:
        put("libyaml_c.a", words[words.index("-o") + 1])
    elif words[0] == "try":
        return os.spawnv(os.P_WAIT, os.path.join(MADE, crate), [crate, *words[words.index("--") + 1 :]])
    else:
        print(f"a kit for tests: {words}")
        return 2
    return 0


if __name__ == "__main__":
    sys.exit(main(sys.argv[1:]))
