#!/usr/bin/env python3
"""Runs the commands of CONTRIBUTING.md and of the READMEs as they stand there, where they are cheap: commands.py [PROGRAM].

A command is a line of a code block, without its comment. Each of CONTRIBUTING.md that takes seconds is run, and its status and
what it prints are compared; each other one is left out for a reason that is printed, and its names are compared to those that
./dev lists. A command that is in neither list is wrong. Each command of ./dev is called without a name, with wrong ones and
with too many, and ./dev is asked for its help and its version. Each script of tests/ that needs a program says so if it is
called without one, and all of them say what they do with --help, and how they are called with an option that they have not.
What needs the built programs is left out if they are not there or older than the sources. Takes one to two minutes.

The commands of the READMEs at the top, in ffi/, rust/, python/, bench/ and the folders of uses/ are run one after the other, in
a checkout of a commit in which nothing is built, with a kit that proves nothing (lib/kit.py, lib/readmes.py). The first that
fails is told. What is left out has its reason, as has what needs a tool that is not there. Afterwards git sees no new file, and
./package, which comes last, takes the checkout. package.py does the same in its root, and runs all commands of the README of
the tarball.

So are the commands of docs/PERF.md by which the benchmark is measured, in a clone and with an unproved build (lib/start.py).
"""

import importlib.machinery
import importlib.util
import os
import re
import subprocess
import sys
import tempfile
from concurrent.futures import ThreadPoolExecutor

sys.path.insert(0, os.path.join(os.path.dirname(os.path.abspath(__file__)), "lib"))
TOP = os.path.dirname(os.path.dirname(os.path.abspath(__file__)))
sys.dont_write_bytecode = True
DOCUMENT = "CONTRIBUTING.md"

# Commands that are run: whether they need the program, and what they print with status 0.
RUN = {
    "./dev docs": (False, r"documents: \d+ paths, 0 wrong\n(documents: \d+ [\w, ]+, 0 wrong\n)+"),
    "./dev vector 613a2031": (True, r"(?s).*\nscan any < 613a2031: as expected\n  STREAM-START 0:0:0 0:0:0 UTF8\n.*"),
    "./dev test statuses": (True, r"statuses: \d+ ends, 0 wrong\n"),
    "./dev change escape": (False, r"A new escape in double quotes\nIt begins in\n(  [^ ].*\n(    .*\n)*|\w.*\n)+Watch\n(  - .*\n(    .*\n)*)+"),
}

# Commands that are not run, and why.
LEFT_OUT = {
    "./dev quick": "it builds for a minute or two, and the vectors are compared with what the gate built",
    "./dev check yaml_text IS_ALPHA": "the gate has proved it",
    "./dev check yaml_text": "the gate has proved it",
    "./dev test breaks": "the gate has run it",
    "./dev edit bom_of_two_bytes": "the gate has tried it, and it takes minutes",
    "./dev folders": "it would write files; ./dev docs says whether they are right",
    "./test": "it calls this script",
}

# Words of ./dev with no name, a wrong one, or too many: the status, and what is said on standard error or output.
WRONG_NAMES = {
    "": (2, r"\./dev COMMAND \[NAME\]"),
    "help": (0, r"\./dev COMMAND \[NAME\]"),
    "--help": (0, r"\./dev COMMAND \[NAME\]"),
    "--version": (0, r"^dev \(Bogzhami\) [\d.]+\n$"),
    "chek": (2, r"no command chek\. Near it:\n  change\n  check\nusage: \./dev COMMAND \[NAME\] .*\n$"),
    "--jsn": (2, r"no command --jsn\. There are:\n(  \w+\n)*usage: \./dev COMMAND \[NAME\] .*\n$"),
    "check": (2, r"Which crate\?\n(  \w+\n)*  yaml_text\n"),
    "check yaml_txt": (2, r"no crate yaml_txt\. Near it:\n(  \w+\n)*  yaml_text\n"),
    "check yaml_text IS_ALPH": (2, r"Near it:\n  classes::IS_ALPHA\n"),
    "check yaml_text zzzz": (2, r"There are:\n(  [\w:]+\n)*  classes::IS_ALPHA\n"),
    "test": (2, r"Which test\?\n(  [\w:]+\n)*  documents\n"),
    "test vector": (2, r"no test vector\. Near it:\n  vectors\n$"),
    "edit": (2, r"Which edit\?\n(  [\w/]+\n)*  yaml_text/bom_of_two_bytes\n"),
    "edit bom_of_three_bytes": (2, r"Near it:\n(  [\w/]+\n)*  yaml_text/bom_of_two_bytes\n"),
    "change": (2, r"^Which change\?\n(  \w+\n)*  escape\n"),
    "change token": (2, r"no change token\. Near it:\n  token_field\n$"),
    "change key_limt": (2, r"no change key_limt\. Near it:\n  key_limit\n$"),
    "change escape more": (2, r"^There is no use for more\.\nusage: \./dev change NAME\n$"),
    "vector": (2, r"Which input\? Its bytes in hexadecimal"),
    "vector 6": (2, r"Which input\? Its bytes in hexadecimal"),
    "docs more": (2, r"^There is no use for more\.\nusage: \./dev docs\n$"),
    "quick x y": (2, r"^There is no use for x\.\nusage: \./dev quick\n$"),
    "check yaml_text IS_ALPHA more": (2, r"^There is no use for more\.\nusage: \./dev check CRATE \[FUNCTION\]\n$"),
    "quick --help": (0, r"\./dev COMMAND \[NAME\]"),
    "check yaml_text --version": (0, r"^dev \(Bogzhami\) [\d.]+\n$"),
}

# files of bench/ that are no measure by themselves
PARTS_OF_BENCH = ["child.py", "common.py", "texts.py"]


def load_dev():
    """The functions of ./dev."""
    loader = importlib.machinery.SourceFileLoader("dev", os.path.join(TOP, "dev"))
    module = importlib.util.module_from_spec(importlib.util.spec_from_loader("dev", loader))
    loader.exec_module(module)
    return module


def commands():
    """The lines of the document's code blocks, without their comments."""
    with open(os.path.join(TOP, DOCUMENT), encoding="utf-8") as text:
        for line in text:
            if line.startswith("    "):
                yield re.sub(r"\s+#(?!\[).*", "", line.strip())


def call(command):
    """Its exit status, and all that it prints."""
    done = subprocess.run(["bash", "-c", command], cwd=TOP, stdin=subprocess.DEVNULL, capture_output=True, text=True, timeout=50)
    return done.returncode, done.stdout + done.stderr


def call_all(lines):
    with ThreadPoolExecutor(max_workers=os.cpu_count()) as pool:
        return list(pool.map(call, lines))


def has_names(dev, command):
    """Whether ./dev takes the names of a command that is not run."""
    _, name, *names = [*command.split(), ""]
    known = {"check": lambda: dev.crates(), "test": lambda: dev.scripts() + list(dev.tests()), "edit": lambda: list(dev.edits())}
    names = [word for word in names if word]
    if name in known and not dev.chosen(name, names[0], known[name]()):
        return False
    return len(names) < 2 or bool(dev.chosen("function", names[1], dev.functions(names[0])))


def try_command(dev, command):
    """Whether a command is right; says what it printed if not, and why it is left out if it is."""
    if command in RUN:
        needs_program, wanted = RUN[command]
        if needs_program and not dev.is_built():
            print(f"commands: {command}: left out, since no program is built of these sources")
            return True
        status, said = call(command)
        is_right = status == 0 and re.fullmatch(wanted, said) is not None
        print(f"commands: {command}: {'run' if is_right else f'WRONG, status {status}: {said[-1000:]}'}")
        return is_right
    if command not in LEFT_OUT:
        print(f"commands: {command}: WRONG, it is neither run nor left out")
        return False
    print(f"commands: {command}: left out, since {LEFT_OUT[command]}")
    return has_names(dev, command)


def try_commands(dev):
    found = list(commands())
    wrong = [command for command in found if not try_command(dev, command)]
    wrong += [f"{command} is not in {DOCUMENT}" for command in {**RUN, **LEFT_OUT} if command not in found]
    print(f"commands: {len(found)} of {DOCUMENT}, {len(wrong)} wrong {wrong or ''}")
    return not wrong and len(found) > 5


def try_wrong_names():
    wrong = []
    answers = call_all(f"./dev {words}" for words in WRONG_NAMES)
    for (words, (wanted, pattern)), (status, said) in zip(WRONG_NAMES.items(), answers):
        if status != wanted or not re.search(pattern, said):
            wrong.append((words, status, said[-300:]))
    print(f"commands: {len(WRONG_NAMES)} missing or wrong names, {len(wrong)} wrong {wrong or ''}")
    return not wrong


def try_uses_of_docs():
    """./dev docs without the kit, and when the reader of its lines ends after the first."""
    lines = [f"PATH={os.path.dirname(sys.executable)}:/usr/bin:/bin ./dev docs", "./dev docs | head -n 1", "python3 tests/walks.py | head -n 1"]
    wrong = [(line, said[-300:]) for line, (status, said) in zip(lines, call_all(lines)) if status or "Traceback" in said]
    print(f"commands: {len(lines)} other uses of ./dev docs and walks, {len(wrong)} wrong {wrong or ''}")
    return not wrong


def try_usages(dev):
    """A script that is given no program and needs one says how it is called."""
    needing = [name for name in dev.scripts() if "given_program()" in dev.read(f"tests/{name}.py")]
    needing.remove("commands")
    asked = [(name, f"tests/{name}.py {words}") for name in needing for words in ("", "/dev/null/none")]
    wrong = []
    for (name, words), (status, said) in zip(asked, call_all(f"{sys.executable} {words}" for _, words in asked)):
        if status != 2 or f"tests/{name}.py" not in said or "Traceback" in said:
            wrong.append((words, status, said[-200:]))
    print(f"commands: {len(needing)} scripts called without a program, {len(wrong)} wrong {wrong or ''}")
    return not wrong and len(needing) > 10


def try_helps(dev):
    """Each script that is asked what it does says it, and one that is given an option that it has not says how it is called:
    nothing is built or run for that."""
    asked = [(name, status, f"tests/{name}.py {word}") for name in dev.scripts() for word, status in (("--help", 0), ("--jsn", 2))]
    wrong = []
    for (name, wanted, words), (status, said) in zip(asked, call_all(f"{sys.executable} {words}" for _, _, words in asked)):
        if status != wanted or not re.match(rf"usage: (tests/)?{name}\.py ", said):
            wrong.append((words, status, said[-200:]))
    print(f"commands: {len(asked)} scripts that are asked for help, or given an option, {len(wrong)} wrong {wrong or ''}")
    return not wrong and len(asked) > 20


def try_measures():
    """Each script of bench/ that is asked what it does says it, and measures nothing."""
    asked = [name for name in sorted(os.listdir(os.path.join(TOP, "bench"))) if name.endswith(".py") and name not in PARTS_OF_BENCH]
    answers = call_all(f"{sys.executable} bench/{name} --help" for name in asked)
    wrong = [(name, said[-200:]) for name, (status, said) in zip(asked, answers) if status or name not in said or "Traceback" in said]
    print(f"commands: {len(asked)} scripts of bench/ that are asked for help, {len(wrong)} wrong {wrong or ''}")
    return not wrong and len(asked) > 10


def try_readmes(dev):
    """The READMEs of the repository, in a checkout on this machine, with a kit that proves nothing."""
    import readmes
    from package import PROVED, copy_sources, git
    from places import make_folder
    if not dev.is_built() or not os.path.exists(os.path.join(TOP, PROVED[2])):
        print("commands: the READMEs: left out, since no program or no library is built of these sources")
        return True
    with tempfile.TemporaryDirectory() as room:
        wrong, count, left = readmes.try_checkout(make_folder(room), copy_sources, os.path.join(TOP, PROVED[1]), git)
    print("".join(f"commands: {line}\n" for line in left) + f"commands: {count} of the READMEs, {wrong or '0 wrong'}")
    return not wrong and count > 15


def try_start(dev):
    """The commands of docs/PERF.md, by which a copy at the start is made and timed."""
    import start
    why = start.reason()
    if why:
        print(f"commands: {start.DOCUMENT}: left out, since {why}")
        return True
    is_built = dev.is_built() and os.path.exists(os.path.join(TOP, start.PROGRAM))
    with tempfile.TemporaryDirectory() as room:
        wrong, count, left = start.try_recipe(room, is_built)
    print("".join(f"commands: {start.DOCUMENT}: left out: {line}\n" for line in left), end="")
    print(f"commands: {count} of {start.DOCUMENT}, {wrong or '0 wrong'}")
    return not wrong and count > 5


def main():
    dev = load_dev()
    good = [try_readmes(dev), try_commands(dev), try_wrong_names(), try_uses_of_docs(), try_usages(dev)]
    return 0 if all([*good, try_helps(dev), try_measures(), try_start(dev)]) else 1


if __name__ == "__main__":
    from lib.usage import answer_questions

    answer_questions()
    sys.exit(main())
