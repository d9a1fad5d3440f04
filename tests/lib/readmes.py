"""The commands of the READMEs: each is run as it stands there, in a place, and the first that does not do what it should is told.

A command is a line of a block of code that begins as one, or of a block that is marked as sh, without its comment. In a checkout a
kit that proves nothing stands for the Rattle kit. A command that is left out has a reason, and what it needs and the place has not
is told as well.
"""

import os
import re
import shutil

from places import make_kit
from repository import found, read
from worked import rows

READMES = ["ffi/README.md", "rust/README.md", "python/README.md", "uses/*/README.md", "bench/README.md", "README.md"]
IN_FOLDER = {"rust/README.md": "rust"}  # their commands are given there, and all others at the top
BEGINS = re.compile(r"\(?(\./|[\w./-]*bin/|[\w./-]+/build\b|[A-Z_]+=\S+ |"
                    r"(cc|c\+\+|rustc|cargo|printf|python3|export|find|git|dask-\w+|tar|cp|mkdir|eval|cd|man|pip|cmake|rt) )")

# Forms of commands, and what stands for their words.
WORDS = {"[-w WIDTH] ": "", "FILE ..": "uses/lint/mistakes.yaml"}

# Beginnings of commands that are not run, and why.
LEFT_OUT = {
    "python3 bench/all.py": "it measures for ten minutes",
    "python3 bench/plot.py": "it draws what was measured",
    "dask-scheduler": "it runs until it is ended",
    "dask-worker": "it runs until it is ended",
    "python3 uses/many/check.py --scheduler tcp://HOST": "tests/many.py asks a scheduler of its own",
    "BOGZHAMI_LIB_DIR=/path/to": "it is for a crate of the reader's",
    "python3 -m bogzhami.pyyaml": "it is for a program of the reader's; tests/loaders.py runs others",
}

# Beginnings of commands that may end with 1, since their example has mistakes.
MAY_FIND = ("bin/lint", "bin/highlight", "bin/bogzhami-lint", "bin/bogzhami-highlight", "python3 -m bogzhami.yamllint",
            "python3 uses/many/check.py")

# What a command with these words needs, as a shell asks for it.
NEEDS = {
    "cc ": "command -v cc", "c++ ": "command -v c++", "rustc ": "command -v rustc", "cargo ": "command -v cargo",
    "pkg-config ": "command -v pkg-config", "bogzhami.yamllint": "python3 -c 'import yamllint'",
    "yaml.CSafeLoader": "/usr/bin/python3 -c 'import yaml; yaml.CSafeLoader'",
    "uses/libyaml/": "test -f /usr/include/yaml.h", "check.py": "python3 -c 'import distributed'",
    "./package": "command -v git && command -v dpkg-source && command -v rustc && test -f /usr/include/yaml.h",
    "python3 ": "command -v python3", "libbogzhami-dev/": "test -d /usr/share/doc/libbogzhami-dev",
    "man ": "command -v man", "cmake ": "command -v cmake", "python3 -m venv": "python3 -c 'import ensurepip'",
    "../bogzhami-env/": "python3 -c 'import ensurepip'",
}
LISTS = "printf 'a: 1' | "
SMALL = "".join(line + "\n" for words, data, lines in rows() if (words, data) == (["scan", "any"], b"a: 1") for line in lines)

# What stands for each script of tests/, so that ./test ends soon.
SCRIPT = "import sys\nsys.exit(0)\n"


def blocks(text):
    """The lines of each block of commands."""
    for fenced, plain in re.findall(r"^```sh\n(.*?)^```$|((?:^    [^\n]*\n)+)", text, re.M | re.S):
        lines = [line.strip() for line in (fenced or plain).splitlines()]
        if fenced or BEGINS.match(lines[0]):
            yield lines


def commands(text):
    """The commands of a document, with what stands for their placeholders."""
    for line in (line for block in blocks(text) for line in block):
        line = re.sub(r"(^|\s+)#(?!\[).*", "", line)
        for word, meant in WORDS.items():
            line = line.replace(word, meant)
        if line:
            yield line


def reason(place, command):
    """Why a command is not run in a place; nothing if it is."""
    for beginning, why in LEFT_OUT.items():
        if command.startswith(beginning):
            return why
    for words, probe in NEEDS.items():
        if words in command and place.run(["sh", "-c", probe]).returncode:
            return f"there is nothing that answers: {probe}"
    return None


def script(lines):
    """A shell's script that gives the commands one by one, and says the number of each on standard error before it."""
    for number, line in enumerate(lines):
        ends = "01" if line.startswith(MAY_FIND) else "0"
        yield f"echo '@@ {number}' >&2\nstatus=0\n{line} || status=$?\ncase $status in [{ends}]) ;; *) exit 99 ;; esac\n"


def try_readme(place, path, text, folder, **how):
    """What is wrong with the commands of a document that are run in a folder of a place, how many are run, and which are not."""
    every = list(commands(text))
    left = {line: why for line in every if (why := reason(place, line))}
    run = [line for line in every if line not in left]
    done = place.run(["bash", "-c", "".join(script(run))], folder=folder, **how)
    out, told = done.stdout.decode("utf-8", "replace"), done.stderr.decode("utf-8", "replace")
    wanted = sum(line.startswith(LISTS) for line in run)
    if done.returncode:
        number, _, words = told.rpartition("@@ ")[2].partition("\n")
        return f"{path}: {run[int(number)]}: {words[-800:]}{out[-400:]}", len(run), left
    if out.count(SMALL) != wanted:
        return f"{path}: {out.count(SMALL)} of {wanted} commands list the tokens of 'a: 1'", len(run), left
    return None, len(run), left


def make_checkout(place, copy, program, git):
    """A checkout of a commit in a place, in which nothing is built and whose tests pass at once, and its environment."""
    top, kit = f"{place.folder}/checkout", f"{place.folder}/kit"
    make_kit(place.outer(place.folder), program)
    copy(place.outer(top))
    for name in os.listdir(place.outer(f"{top}/tests")):
        if name.endswith(".py"):
            with open(place.outer(f"{top}/tests/{name}"), "w", encoding="ascii") as out:
                out.write(SCRIPT)
    if git:
        git(place.outer(top), "init", "-q")
        git(place.outer(top), "add", "-A")
        git(place.outer(top), "commit", "-q", "-m", "a commit")
    return top, {"PATH": f"{kit}/bin:{place.environment['PATH']}", "KIT_MADE": f"{kit}/made", "KIT_LOG": f"{kit}/log",
                 "KIT_TOP": top, "KIT_WATCHED": ""}


def links_in(top):
    """The links in a checkout, but for those in folders of what is built, and in git's own."""
    for folder, folders, names in os.walk(top):
        folders[:] = [name for name in folders if name not in ("out", "dist", "target", ".git")]
        yield from (os.path.join(folder, name) for name in [*folders, *names] if os.path.islink(os.path.join(folder, name)))


def try_checkout(place, copy, program, git):
    """Runs the READMEs of the repository in a checkout: what is wrong, or None, how many commands are run, and why others are not.
    They leave nothing there that git sees, so ./package, which comes last, takes it; and no link, at which a kit might stop."""
    git = git if shutil.which("git") else None
    top, how = make_checkout(place, copy, program, git)
    count, every = 0, []
    for path in (path for pattern in READMES for path in found(pattern)):
        wrong, run, left = try_readme(place, path, read(path), os.path.join(top, IN_FOLDER.get(path, "")), **how)
        count += run
        every += [f"{path}: {line}: left out, since {why}" for line, why in left.items()]
        if wrong:
            return wrong, count, every
    new = git(place.outer(top), "status", "--porcelain") if git else ""
    links = sorted(links_in(place.outer(top)))
    left = f"git sees what they leave: {new}" if new else f"they leave links: {links}" if links else None
    return left, count, every
