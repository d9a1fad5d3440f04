"""Which definitions a contract cites, and which a definition is made of. A definition is its crate, file and name."""

import functools
import re

from repository import found, read

WORD = re.compile(r"(?<![\w.'-])([A-Za-z_][\w-]*)(?:\.([A-Za-z_][\w-]*))?")
FUNCTION = re.compile(r' *(?:pub(?:\(\w+\))? )?(?:const )?(?:unsafe )?(?:extern "C" )?fn (\w+)')
CLAUSE = re.compile(r"^ +(?:ghost|requires|ensures)\b", re.M)
# A name, or more in braces, of a file of definitions; a file can have another name here.
NAMES = re.compile(r"Rattle\.(\w+)\.specs\.([\w.]+)\.\{([^}]*)\}")
FILE = re.compile(r"Rattle\.(\w+)\.specs\.([\w.]+)(?: as (\w+))?(?=[;\n])")
BEGINS = re.compile(r"(?:(?:abbrev|unfoldable|pub|data|record) )+(?!use )([^\s:]+)(?= |$)|([\w-]+) :")


def file_of(path):
    """The crate of a file of definitions, and the file's name in `use` lines."""
    return path.split("/")[1], path.partition("/specs/")[2][: -len(".antt")].replace("/", ".")


def used(text):
    """What the `use` lines of a file bring: the definition of each name, and the file of each file's name."""
    names, files = {}, {}
    for crate, file, listed in NAMES.findall(text):
        for entry in listed.split(","):
            name, _, other = entry.strip().partition(" as ")
            names[other or name] = (crate, file, name)
    for crate, file, other in FILE.findall(text):
        files[other or file.split(".")[-1]] = (crate, file)
    return names, files


def cited(text, names, files):
    """The definitions that a text names."""
    for word, inner in WORD.findall(text):
        if word in files and inner:
            yield (*files[word], inner)
        elif word in names:
            yield names[word]


# CODE

def heads(text):
    """Each function with its lines up to its body."""
    name, head = None, []
    for line in text.split("\n"):
        begun = FUNCTION.match(line)
        if begun:
            name, head = begun[1], []
        if name:
            head.append(line)
        if name and (line.strip() in ("{", "{}") or line.endswith(";") or line.endswith(" {") and not CLAUSE.match(line)):
            yield name, "\n".join(head)
            name = None


@functools.cache
def clauses(path):
    """Each clause of a file of code: its keyword, the function, how far this is known (0 if it is public, 1 in the crate, 2 in the
    file), the clause's name if it has one, and the definitions that it cites."""
    text, every = read(path), []
    names, files = used(text)
    for name, head in heads(text):
        known = [head.lstrip().startswith(word) for word in ("pub ", "pub(crate) ", "")].index(True)
        starts = [clause.start() for clause in CLAUSE.finditer(head)]
        for begin, end in zip(starts, [*starts[1:], len(head)]):
            keyword, clause = re.match(r" +(\w+)\*?(?: (\w+)(?= \{))?", head[begin:end]).groups()
            every.append((keyword, name, known, clause, set(cited(head[begin:end], names, files))))
    return every


# DEFINITIONS

def statements(text):
    """Each definition or lemma of a file with its lines, without comments. Those of a module are indented by two."""
    name, lines, margin = None, [], ""
    for line in [*text.split("\n"), "end :"]:
        if line and line[0] not in " -})":
            margin = "  " if line.startswith("module ") else ""
        begun = line.startswith(margin) and BEGINS.match(line[len(margin) :])
        if begun or margin and line.startswith("module "):
            if name:
                yield name, "\n".join(lines)
            name, lines = begun and (begun[1] or begun[2]), []
        if name and not line.lstrip().startswith("--"):
            lines.append(line)


@functools.cache
def made_of():
    """For each definition of the repository those that it names."""
    made = {}
    for path in found("crates/*/specs/**/*.antt"):
        text = read(path)
        names, files = used(text)
        own = dict(statements(text))
        here = {name: (*file_of(path), name) for name in own}
        made.update({here[name]: set(cited(own[name], {**names, **here}, files)) for name in own})
    return made


def leads_to(begun, wanted):
    """Whether a definition is made of another one, or of some that are."""
    seen, left = set(), [begun]
    while left:
        one = left.pop()
        if one not in seen:
            seen.add(one)
            left += made_of().get(one, ())
    return wanted in seen - {begun}


@functools.cache
def lemmas(path):
    """For each lemma of a file the definitions that it names."""
    text = read(path)
    names, files = used(text)
    return {name: set(cited(lines, names, files)) for name, lines in statements(text)}
