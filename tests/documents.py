#!/usr/bin/env python3
"""Checks that the documents and the repository name the same things: documents.py [PROGRAM]. No program is run but `rt version`.

One line of output for each check; what is wrong is printed before it. The checks:

- paths: what a document has in backticks or as a link, and looks like a path of the repository, is there. A `*` stands for
  any name. Paths that begin with a folder of the root are from there, and others may be from any folder. What scripts write may
  be missing: bench/results.md, docs/speed.svg, and what is in a folder of what is built.
- rules: RULES.md begins with a link to each heading, and names each module of the three crates of the library. walks.py follows
  what stands under the headings.
- edits: every must-fail edit has a line in edits.txt, and every line has its edit. A line of twins.txt is for an edit, and has
  a text, or `-`, for each that the edit replaces. What an edit replaces stands once in its file. The README.md of a crate's
  must-fail edits names each of them, and no others. If its last column, "Refused by", begins with a name, the code has a function
  of that name; and each definition in that column is in the file that is named before it.
- exceptions: docs/DECISIONS.md counts and names the functions that have more than four parameters.
- kits: README.md names the kit that `rt version` names, among those that the proofs were made with.
- versions: the header, the program's definition, the Rust crate, the Python module and the newest entry of CHANGELOG.md have the
  version of VERSION. The Python module looks for the library of its major version.
- machines: where a document says x86-64, it says x86-64-v2, which is what the kit compiles for.
- crates: docs/RATTLE.md has the lines of crates.txt of all crates that its own crate needs.
- written: what `./dev folders` writes is what it would write now, and can be written: each file of a table begins with a
  sentence, each law has a comment, the order of what Headline.antt stands on has all that it reaches and no more, and the marks
  of a part are there once.
- lemmas: the file beside a folder of lemmas has a line `mod NAME` for each file there.
- picture: the picture in ARCHITECTURE.md has each crate once, with those that it uses; and each function in it is in the file of
  its module.
- changes: each change of tests/changes.txt is in CONTRIBUTING.md with its title and its command, and no others are there. The
  files and folders that its lines begin with are there, and so is what they have in backticks.
- scripts: the table of tests/README.md has a line for each script of tests/, and no others.
"""

import fnmatch
import os
import re
import shutil
import signal
import subprocess
import sys

sys.path.insert(0, os.path.join(os.path.dirname(os.path.abspath(__file__)), "lib"))
sys.dont_write_bytecode = True
from changes import LIST, changes, files_of
from citing import FUNCTION, statements
from mistakes import pairs_of
from repository import TOP, edit_name, edits, found, read
from rules import front_and_sections
from written import stale

DOCUMENTS = ["README.md", "CHANGELOG.md", "CONTRIBUTING.md", "docs/*.md", "tests/README.md", "tests/changes.txt", "bench/*.md",
             "uses/*/README.md", "ffi/README.md", "packaging/DECISIONS.md", "rust/README.md", "python/README.md",
             "crates/*/README.md"]
FOLDERS = ("bench", "crates", "docs", "ffi", "packaging", "python", "rust", "tests", "uses")
ENDINGS = ("antt", "c", "css", "edit", "gz", "h", "html", "md", "py", "rs", "rt", "txt")
STAND_FOR_NAMES = {"FILE", "FUNCTION", "METHOD", "NAME", "TYPE", "Topic", "f", "topic"}
BUILT = {"bin", "dist", "out", "target"}
WRITTEN_BY_SCRIPTS = ("results.md", "speed.svg")
MOST_PARAMETERS = 4
PATH = re.compile(r"(\.\./|\./)?[\w*.-]+(/[\w*.-]+)*/?")


# PATHS

def with_stars(path):
    """A path whose placeholders stand for any name."""
    parts = path.split("/")
    return "/".join("*" + part[len(part.split(".")[0]):] if part.split(".")[0] in STAND_FOR_NAMES else part for part in parts)


def ends_of_paths():
    """The ends of all paths that are not built: of a/b/c they are a/b/c, b/c and c."""
    ends = set()
    for folder, folders, files in os.walk(TOP):
        folders[:] = [name for name in folders if name not in BUILT | {".git", "__pycache__"}]
        for name in folders + files:
            parts = os.path.relpath(os.path.join(folder, name), TOP).split("/")
            ends.update("/".join(parts[at:]) for at in range(len(parts)))
    return ends


def is_path(word):
    """Whether a word of a document is to be a path of the repository, and of what no script writes."""
    first, last = word.split("/")[0], word.split("/")[-1]
    is_one = word.startswith(("./", "../")) or word.endswith("/") or first in FOLDERS or "." in last and last.split(".")[-1] in ENDINGS
    return bool(PATH.fullmatch(word)) and is_one and not BUILT & set(word.split("/")) and not word.endswith(WRITTEN_BY_SCRIPTS)


def is_there(word, folder, ends):
    """Whether a path is there: from the root if it begins at one of its folders, from the document's folder, or from any."""
    plain = with_stars(word.removeprefix("./").rstrip("/"))
    near = found(os.path.normpath(os.path.join(folder, plain)))
    if word.startswith("./") or plain.split("/")[0] in FOLDERS:
        return bool(found(plain))
    return bool(near or plain in ends or "*" in plain and fnmatch.filter(ends, plain))


def words_of(text):
    for quoted in re.findall(r"`([^`\n]+)`", text):
        yield from quoted.split()
    for link in re.findall(r"\]\(([^)\s]+)\)", text):
        if ":" not in link:
            yield link.split("#")[0]


def check_paths():
    ends, count, wrong = ends_of_paths(), 0, []
    for document in (path for pattern in DOCUMENTS for path in found(pattern)):
        words = [word for word in words_of(read(document)) if is_path(word)]
        count += len(words)
        wrong += [f"{document}: {word} is not there" for word in words if not is_there(word, os.path.dirname(document), ends)]
    return count, wrong


# RULES

def anchor(heading):
    return re.sub(r"[^\w -]", "", heading.lower()).replace(" ", "-")


def check_rules():
    front, sections = front_and_sections()
    wanted, text = [anchor(heading) for heading, _ in sections], read("docs/RULES.md")
    wrong = ["RULES.md: the links are not those of the headings, in their order"] if re.findall(r"\]\(#([^)]+)\)", front) != wanted else []
    modules = [path for crate in ("yaml_text", "yaml_lexeme", "yaml_scan") for path in found(f"crates/{crate}/src/**/*.rt")]
    named = [path for path in modules if not re.search(r"(tests|lib)\.rt$", path)]
    return len(sections), wrong + [f"RULES.md: it does not name {path}" for path in named if f"`{path}`" not in text]


# EDITS

def refused_by_none(path, names):
    """The functions and definitions that are said to refuse an edit, and are not there."""
    for line in read(path).split("\n"):
        cells = re.fullmatch(r"\| `(\w+)` \|.*\|([^|]*)\|", line)
        name = re.match(r" `(?:\w+::)?(\w+)`", cells[2]) if cells else None
        if name and name[1] not in names:
            yield f"{path}: {cells[1]} is refused by {name[1]}, which is no function"
        for file, definition, crate in re.findall(r"`((?:inside\.)?[A-Z]\w*)\.(\w+)`(?: of `(\w+)`)?", cells[2] if cells else ""):
            specs = f"crates/{crate or path.split('/')[1]}/specs/{file.replace('.', '/')}.antt"
            if not found(specs) or definition not in dict(statements(read(specs))):
                yield f"{path}: {cells[1]} is refused by {definition}, which is not in {specs}"


def rows_of(path):
    """The rows of a table whose cells are parted by tabs, without its comments."""
    return [line.split("\t") for line in read(path).split("\n") if line and not line.startswith("#")]


def differing(path, told, there):
    """What a list tells and is not there, and what is there and the list does not tell."""
    return [f"{path}: {name} is missing" for name in sorted(there - told)] + [f"{path}: {name} is gone" for name in sorted(told - there)]


def check_edits():
    every = {name: pairs_of(name) for name in edits()}
    wrong = differing("tests/edits.txt", {row[0] for row in rows_of("tests/edits.txt")}, set(every))
    wrong += [f"twins.txt: {name} does not replace {len(texts)} texts"
              for name, *texts in rows_of("tests/twins.txt") if len(every.get(name, [])) != len(texts)]
    for name, path, text in ((name, path, text) for name, pairs in every.items() for path, text, _ in pairs):
        count = read(path).count(text) if found(path) else 0
        wrong += [f"{name}: {text!r} stands {count} times in {path}"] if count != 1 else []
    functions = set(re.findall(r"\bfn (\w+)", "".join(read(path) for path in found("crates/*/src/**/*.rt"))))
    for folder in found("crates/*/must-fail"):
        path, there = f"{folder}/README.md", {edit_name(edit) for edit in found(f"{folder}/*.edit")}
        wrong += differing(path, set(re.findall(r"^\| `(\w+)`", read(path), re.M)), there)
        wrong += refused_by_none(path, functions)
    return len(every), wrong


# EXCEPTIONS

def count_parameters(text, start):
    """How many parameters begin at this place of a file, after an opening parenthesis."""
    depth, commas, last = 1, 0, "("
    for letter in text[start:]:
        depth += (letter in "([{<") - (letter in ")]}>")
        if not depth:
            return commas + (last not in "(,")
        commas += letter == "," and depth == 1
        last = letter if not letter.isspace() else last
    raise ValueError("a list of parameters does not end")


def check_exceptions():
    told = re.search(r"^- \*\*Functions have at most four parameters\*\*.* but for (\d+)\..*$", read("docs/DECISIONS.md"), re.M)
    code = "".join(re.sub(r"//[^\n]*", "", read(path)).replace("->", "  ") for path in found("crates/*/src/**/*.rt"))
    many = [place[1] for place in re.finditer(r"\bfn (\w+)(?:<[^(]*>)?\(", code) if count_parameters(code, place.end()) > MOST_PARAMETERS]
    wrong = [f"docs/DECISIONS.md: {name} has more than four parameters" for name in many if f"`{name}`" not in told[0]]
    return len(many), wrong + ([] if int(told[1]) == len(many) else [f"docs/DECISIONS.md: these functions are {len(many)}"])


# KITS

def check_kits():
    """The kit of this machine is one that the README names. Without a kit, only that the README names one."""
    named = re.findall(r"`(rattle-kit-[^`]*)`", read("README.md"))
    if shutil.which("rt") is None:
        print("documents: the kit of this machine skipped: the command rt is not on the path")
        return len(named), []
    said = subprocess.run(["rt", "version"], capture_output=True, check=True, text=True).stdout.strip()
    return len(named), [] if said in named else [f"README.md: it names {named}, and rt version says {said}"]


# VERSIONS

def check_versions():
    version = read("VERSION").strip()
    places = {
        "CHANGELOG.md": r"^## (\S+), \d{4}-\d\d-\d\d$",
        "ffi/bogzhami.h": r'^#define BOGZHAMI_VERSION "(.*)"$',
        "crates/yaml_listing/specs/Note.antt": r'^note_text Version = codes "yamltok \(Bogzhami\) (.*)\\n"$',
        "rust/Cargo.toml": r'^version = "(.*)"$',
        "python/bogzhami/__init__.py": r'^__version__ = "(.*)"$',
    }
    said = {path: re.search(pattern, read(path), re.M) for path, pattern in places.items() if found(path)}
    wrong = [f"{path}: the version is not {version}" for path, word in said.items() if not word or word[1] != version]
    library = re.search(r'^NAMES = \("libbogzhami\.so\.(\d+)"', read("python/bogzhami/library.py"), re.M)
    if not library or library[1] != version.split(".")[0]:
        wrong.append(f"python/bogzhami/library.py: NAMES does not have the major version of {version}")
    return len(said), wrong


# MACHINES

def check_machines():
    patterns = [*DOCUMENTS, "packaging/README.md", "packaging/debian/source/README.source"]
    paths = [path for pattern in patterns for path in found(pattern)]
    return len(paths), [f"{path}: it says x86-64, and not x86-64-v2" for path in paths if re.search(r"x86-64(?!-v2)", read(path))]


# CRATES

def uses(text):
    """The crates that lines of a crates.txt name, each with those that it uses."""
    return {name: others.split() for name, others in re.findall(r"^ *(\w+)(?: \w+)?: (.+)$", text, re.M)}


def check_crates():
    listed, crates = uses(re.search(r"^    yaml_text: (?:.*\n)+?\n", read("docs/RATTLE.md"), re.M)[0]), uses(read("crates.txt"))
    needed = [name for crate in listed if crate not in crates for name in listed[crate]]
    for name in needed:
        needed += [other for other in crates.get(name, []) if other not in needed]
    wrong = [f"docs/RATTLE.md: {name}: {listed.get(name)}" for name in needed if listed.get(name) != crates.get(name, listed.get(name))]
    return len(needed), wrong


# PICTURE

def check_picture():
    layers, way = re.search(r"^```text\n(.*?)\n\n(.*?)\n```$", read("docs/ARCHITECTURE.md"), re.M | re.S).groups()
    drawn = {line.split()[0]: re.findall(r"\w+", line.partition(" uses ")[2]) for line in layers.split("\n") if line[0] != " "}
    crates = uses(read("crates.txt"))
    wrong = [f"ARCHITECTURE.md: {name} uses {others}" for name, others in crates.items()
             if drawn.get(name) != [other for other in others if other in crates]]
    for crate, module, names in re.findall(r"^(\w+)[ .]+(\w+) +(.*)$", way, re.M):
        lines = [line for path in found(f"crates/{crate}/src/**/{module}.rt") for line in read(path).split("\n")]
        there = [begun[1] for begun in map(FUNCTION.match, lines) if begun]
        wrong += [f"ARCHITECTURE.md: {crate}/{module} has no {name}" for name in re.findall(r"\w+", names) if name not in there]
    return len(drawn) + way.count("\n") + 1, wrong


# WHAT IS WRITTEN

def check_written():
    try:
        return 1, [f"{path}: it is not what ./dev folders writes" for path in stale()]
    except ValueError as problem:
        return 1, [str(problem)]


def check_lemmas():
    paths = found("crates/*/proofs/[A-Z]*/*.antt")
    lists = {path: (f"{os.path.dirname(path)}.antt", os.path.basename(path)[: -len(".antt")]) for path in paths}
    return len(paths), [f"{path}: {of} does not list it" for path, (of, name) in lists.items()
                        if not re.search(rf"^(pub )?mod {name}\b", read(of), re.M)]


# CHANGES AND SCRIPTS

def check_changes():
    told = set(re.findall(r"^- \*\*(.*)\*\*, `\./dev change (\w+)`: ", read("CONTRIBUTING.md"), re.M))
    wrong = differing("CONTRIBUTING.md", told, {(title, name) for name, (title, _) in changes().items()})
    files = [(name, path) for name, (_, lines) in changes().items() for path in files_of(lines)]
    return len(files), wrong + [f"{LIST}: {name}: {path} is not there" for name, path in files if not found(path)]


def check_scripts():
    told = set(re.findall(r"^\| `(\w+)` \|", read("tests/README.md").partition("## ")[0], re.M))
    there = {os.path.basename(path)[: -len(".py")] for path in found("tests/*.py")}
    return len(there), differing("tests/README.md", told, there)


CHECKS = {"paths": check_paths, "rules": check_rules, "edits": check_edits, "functions of many parameters": check_exceptions,
          "kits": check_kits, "versions": check_versions, "documents without other machines": check_machines, "crates of a user": check_crates,
          "lines of the picture": check_picture, "writing of documents": check_written, "files of lemmas": check_lemmas,
          "files of changes": check_changes, "scripts": check_scripts}


def main():
    signal.signal(signal.SIGPIPE, signal.SIG_DFL)  # the reader of the lines may end early, as head does
    failed = False
    for what, check in CHECKS.items():
        count, wrong = check()
        print("".join(f"{line}\n" for line in wrong) + f"documents: {count} {what}, {len(wrong)} wrong")
        failed |= bool(wrong) or not count
    return 1 if failed else 0


if __name__ == "__main__":
    from lib.usage import answer_questions

    answer_questions()
    sys.exit(main())
