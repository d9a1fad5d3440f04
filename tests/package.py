#!/usr/bin/env python3
"""Makes the packages with ./package, and uses them as a user would, where there is no kit: package.py [PROGRAM].

A copy of the repository is brought from one state that ./package refuses to the next: no checkout, no proved build, tests that
have not passed, changes that are in no commit, a new file, a built file that was changed, sources that were not proved. Each
has its message. Then a proved and tested commit is packaged twice, by ./package --for-test, and the bytes are the same; so are
those of the packages that are made of its source package, unpacked where there is no checkout.

The packages are looked into (lib/debian.py): what is in the tarball, that no file has a path of this machine, and what BUILT
says. lintian has nothing to say of the Debian packages and of the source package, down to its hints, but what the files
*.lintian-overrides of packaging/debian/ explain. Programs and libraries are stripped, and have no instruction of a later level
than x86-64-v2. The symbols file is what the library exports and what the header declares. The Debian changelogs have the
versions, dates and words of CHANGELOG.md, and all packages the address in packaging/homepage. Each path that a document of a
package names leads into the package, to a file that the packages install, or into the source package, and then the document
says so. The source package has the files that git knows.

The Debian packages are installed by dpkg in a new root, which debootstrap makes from the machine's own package source, and in
which apt installs compilers. There the programs, programs in C and C++ that are compiled by what pkg-config and CMake say, the
crate's examples, and the Python module if there is one, list the worked rows of vectors/rows.txt as yamltok does. Python knows
the version of the module, and pip installs it out of the tarball's folder. The crate's own tests run by `cargo test --offline`,
and so does a crate that names it. PyYAML's CSafeLoader runs over the packaged libyaml. The lines of README.md that show what
deep nesting costs are given, with a text that is less deep: over the packaged libyaml it takes less than two seconds, and over
libyaml's own at least ten times as long. When the packages are removed, nothing of them is left. Then the tarball is unpacked in the same root, in a folder with a blank in its name, and the commands of its
README are given; so are those of the repository's READMEs, in a checkout (lib/readmes.py).

It needs the program and the library that ./test has built, two to four minutes, 1.5 GB of disk and the rights of root. Without
debootstrap, a package source that answers, or these rights, the tarball is tried in an empty folder of this machine, with an
environment that has no kit, and the Debian packages are skipped. What needs another tool that is not there is skipped too, and
says so.
"""

import glob
import gzip
import os
import re
import shutil
import subprocess
import sys
import tempfile
import time
from concurrent.futures import ThreadPoolExecutor

HERE = os.path.dirname(os.path.abspath(__file__))
sys.path.insert(0, os.path.join(HERE, "lib"))
sys.dont_write_bytecode = True
import debian
import readmes
from installing import make_virtual, wrong_installed
from library import TOP, VERSION
from places import NoRoot, make_folder, make_root
from repository import read
from worked import rows

# What is of this checkout and no part of the repository, as .gitignore has it: the first in any folder, the others in one. A
# folder elsewhere may be called target.
MACHINE_FILES = {".git", "__pycache__", "out"}
MACHINE_FILES_IN = {".": {"bin", "dist"}, "rust": {"Cargo.lock", "target"}}
FULL = VERSION + "+test"
NAME = f"bogzhami-{FULL}-linux-x86_64"
ROWS = [(words[1:], data, wanted) for words, data, wanted in rows() if words[0] == "scan"]
SMALL = b"a: 1"
LISTED = next(wanted for words, data, wanted in ROWS if data == SMALL and words == ["any"])
PROVED = ["bin/proved", "crates/yamltok/out/yamltok", "ffi/out/libbogzhami.a", f"ffi/out/libbogzhami.so.{VERSION}"]
MISTAKES = 'mistakes.yaml:7:1: duplicate key "name", first at line 1'

# The path of this checkout, and not a part of another path or of a word; it may follow the letter of a flag for a compiler.
OF_THIS_MACHINE = re.compile(rb"(?:(?<![\w.}-])|(?<=-[IL]))" + re.escape(TOP.encode()) + rb"(?![\w.-])")

HAS_MODULE = os.path.exists(os.path.join(TOP, "python", "bogzhami", "__init__.py"))

# What has to be in the tarball; what needs a tool that may be missing is added by `wanted_files`.
FILES = """BUILT CHANGELOG.md LICENSE PROMISES.md README.md VERSION bin/yamltok bin/bogzhami-lint bin/bogzhami-json examples/list.c examples/list.cc
examples/listing.h examples/listing.hh examples/pieces.c examples/pieces.cc examples/mistakes.yaml include/bogzhami.h lib/libbogzhami.a lib/libbogzhami.so lib/libbogzhami.so.MAJOR lib/libbogzhami.so.VERSION
lib/pkgconfig/bogzhami.pc lib/cmake/bogzhami/bogzhami-config.cmake lib/cmake/bogzhami/bogzhami-config-version.cmake rust/Cargo.toml rust/LICENSE rust/README.md rust/build.rs rust/src/lib.rs rust/src/scanner.rs
rust/examples/list/main.rs rust/examples/list/listing.rs rust/examples/list/command.rs rust/examples/pieces.rs rust/tests/rows.rs rust/tests/rows.txt
rust/tests/pieces.rs rust/tests/refused.rs rust/tests/worked/mod.rs share/man/man1/yamltok.1.gz
share/man/man1/bogzhami-json.1.gz share/man/man1/bogzhami-lint.1.gz share/man/man1/bogzhami-highlight.1.gz share/man/man3/bogzhami.3.gz
share/bash-completion/completions/bogzhami-json share/zsh/site-functions/_yamltok share/fish/vendor_completions.d/bogzhami-json.fish"""
MODULE = """LICENSE README.md pyproject.toml packing/backend.py packing/METADATA bogzhami/__init__.py bogzhami/__init__.pyi
bogzhami/py.typed bogzhami/libbogzhami.so.MAJOR"""
TOLD = ["/usr/share/doc/python3-bogzhami/README.md", "/usr/share/man/man7/python3-bogzhami.7.gz"]
VERSIONS = "import importlib.metadata, bogzhami; print(importlib.metadata.version('bogzhami'), bogzhami.__version__)"


def say(good, text):
    print(f"package: {text}{'' if good else ', WRONG'}", flush=True)
    return bool(good)


def skip(text):
    print(f"package: skipped: {text}", flush=True)
    return True


def shown(wrong):
    """The first of what is wrong, cut to some lines."""
    return str(wrong[:2])[:600] if wrong else ""


# WHAT IS REFUSED

def package(top, *words):
    done = subprocess.run([os.path.join(top, "package"), *words], capture_output=True, text=True, timeout=300)
    return done.returncode, (done.stdout + done.stderr).strip()


def git(top, *words):
    settings = ["user.name=tests", "user.email=tests@localhost", "commit.gpgsign=false", "core.hooksPath=/dev/null"]
    command = ["git", "-C", top, *[word for setting in settings for word in ("-c", setting)], *words]
    return subprocess.run(command, check=True, capture_output=True, text=True).stdout


def commit_all(top):
    git(top, "add", "-A")
    git(top, "commit", "-q", "--allow-empty", "-m", "a commit")


def append(path, data):
    with open(path, "ab") as out:
        out.write(data)


def change(path, pattern, text):
    """Replaces the first place of a pattern."""
    with open(path, encoding="utf-8") as old:
        changed = re.sub(pattern, text, old.read(), count=1, flags=re.M)
    with open(path, "w", encoding="utf-8") as out:
        out.write(changed)


def machine_files(folder, names):
    """What a copy of the repository leaves out of a folder."""
    return (MACHINE_FILES | MACHINE_FILES_IN.get(os.path.relpath(folder, TOP), set())).intersection(names)


def copy_sources(top):
    """Copies the repository without what is built."""
    shutil.copytree(TOP, top, symlinks=True, ignore=machine_files)


def copy_built(top):
    for path in PROVED:
        os.makedirs(os.path.dirname(os.path.join(top, path)), exist_ok=True)
        shutil.copy2(os.path.join(TOP, path), os.path.join(top, path))
    shutil.copy2(os.path.join(top, PROVED[3]), os.path.join(top, "ffi", "out", "libbogzhami.so"))
    with open(os.path.join(top, PROVED[0]), encoding="ascii") as text:
        lines = [line for line in text if not line.startswith("tests ")]
    with open(os.path.join(top, PROVED[0]), "w", encoding="ascii") as out:
        out.writelines(lines)


def refusals(top):
    """Brings a copy of the repository from one state that is refused to the next: what has to be said, and what is."""
    yield "this is no checkout of a commit", package(top)
    git(top, "init", "-q")
    commit_all(top)
    yield "there is no proved build: run ./test", package(top)
    copy_built(top)
    yield "the tests have not all passed", package(top)
    append(os.path.join(top, "bin", "proved"), b"tests 2 passed, 0 failed\n")
    append(os.path.join(top, "README.md"), b"\n")
    yield "the tree has changes that are in no commit", package(top)
    git(top, "checkout", "-q", "README.md")
    append(os.path.join(top, "new"), b"")
    yield "the tree has changes that are in no commit", package(top)
    os.remove(os.path.join(top, "new"))
    append(os.path.join(top, "ffi", "out", "libbogzhami.a"), b"\n")
    yield "a built file is not the one that ./test has built", package(top)
    shutil.copy2(os.path.join(TOP, PROVED[2]), os.path.join(top, PROVED[2]))
    append(os.path.join(top, "ffi", "bogzhami.h"), b"\n")
    commit_all(top)
    yield "what ./test has proved is not these sources", package(top)
    git(top, "reset", "-q", "--hard", "HEAD~")
    for wanted, pattern, text in [("has no date", r", \d{4}-\d\d-\d\d$", ""), ("its newest version is not", "^## 1", "## 31")]:
        change(os.path.join(top, "CHANGELOG.md"), pattern, text)
        commit_all(top)
        yield f"CHANGELOG.md: .*{wanted}", package(top)
        git(top, "reset", "-q", "--hard", "HEAD~")


def digests(folder):
    with open(os.path.join(folder, "dist", "SHA256SUMS"), encoding="ascii") as text:
        return text.read()


def try_refusals(room):
    """Tries each state that is refused, and then the one that is not, twice."""
    if shutil.which("git") is None:
        return skip("states that are refused: no git")
    top = os.path.join(room, "copy")
    copy_sources(top)
    found = [(wanted, status, told) for wanted, (status, told) in refusals(top)]
    wrong = [one for one in found if one[1] != 1 or not re.match("package: " + one[0], one[2])]
    say(not wrong, f"{len(found)} states refused, {len(wrong)} not as they should be {shown(wrong)}")
    good, told = not wrong, package(top)
    if told[0] and "install " in told[1]:
        return skip(f"the packages of a commit: {told[1]}") and good
    if told[0]:
        return say(False, f"a commit that is proved and tested: {told[1]}")
    first = digests(top)
    again = package(top)[0] == 0 and digests(top) == first
    git_is_clean = not subprocess.run(["git", "-C", top, "status", "--porcelain"], capture_output=True).stdout
    good = say(again and git_is_clean, f"{len(first.splitlines())} files made of a commit, the same bytes twice") and good
    return try_unpacked(room, top) and good


def try_unpacked(room, top):
    """Makes the packages of the source package, which is unpacked where there is no checkout: they are those of the commit."""
    if not glob.glob(os.path.join(top, "dist", "*.dsc")):
        return skip("an unpacked source package: none was made")
    folder = os.path.join(room, "unpacked")
    debian.unpack_source(os.path.join(top, "dist"), folder)
    copy_built(folder)
    append(os.path.join(folder, "bin", "proved"), b"tests 2 passed, 0 failed\n")
    status, told = package(folder)
    wanted = [line for line in digests(top).splitlines() if not line.endswith((".dsc", ".tar.xz"))]
    good = status == 0 and digests(folder).splitlines() == wanted
    what = f"{len(wanted)} files made of the source package, the same bytes as of the commit"
    return say(good, what if good else what + told[-600:])


# WHAT IS IN THE PACKAGES

def wanted_files(told):
    names = FILES.replace("so.MAJOR", "so." + VERSION.split(".")[0]).replace("so.VERSION", "so." + VERSION).split()
    if "needs rustc" not in told:
        names.append("bin/bogzhami-highlight")
    if "needs libyaml.a" not in told:
        names += ["libyaml/libyaml-0.so.2", "libyaml/README.md", "libyaml/COPYRIGHT.libyaml"]
    if HAS_MODULE:
        names += ["python/" + name.replace("MAJOR", VERSION.split(".")[0]) for name in MODULE.split()]
        names += [f"python/bogzhami-{VERSION}.dist-info/METADATA", "share/man/man7/python3-bogzhami.7.gz"]
    return set(names)


def contents(folder):
    for path, _, names in os.walk(folder):
        for name in names:
            yield os.path.relpath(os.path.join(path, name), folder)


def try_contents(folder, told):
    """Looks into the tarball: what has to be there, no link that leads nowhere, no path of this machine, right versions."""
    found = set(contents(folder))
    wrong = [f"{name} is missing" for name in sorted(wanted_files(told) - found)]
    for name in sorted(found):
        path = os.path.join(folder, name)
        if not os.path.realpath(path).startswith(os.path.realpath(folder) + "/") or not os.path.exists(path):
            wrong.append(f"{name} is a link that leads nowhere")
            continue
        with (gzip.open if name.endswith(".gz") else open)(path, "rb") as data:
            text = data.read()
        if OF_THIS_MACHINE.search(text):
            wrong.append(f"{name} has a path of this machine")
        if re.search(rb"@[A-Z]+@", text) and not text.startswith(b"\x7fELF") and name != "lib/libbogzhami.a":
            wrong.append(f"{name} has a place that was not filled")
    with open(os.path.join(folder, "BUILT"), encoding="utf-8") as text:
        built = text.read()
    for word in (f"bogzhami {FULL}, a test build", "commit ", "proved   with rattle-kit-", "sources ", "tests "):
        if word not in built:
            wrong.append(f"BUILT does not say: {word}")
    return say(not wrong and len(found) > 30, f"{len(found)} files in the tarball, {len(wrong)} wrong {wrong[:5] or ''}")


def warnings_of(page):
    """What groff warns of in a manual page; nothing if there is no groff."""
    if shutil.which("groff") is None:
        return ""
    with gzip.open(page, "rb") as text:
        done = subprocess.run(["groff", "-man", "-Tutf8", "-ww", "-z"], input=text.read(), capture_output=True)
    return done.stderr.decode("utf-8", "replace").strip()


def text_of(page):
    with gzip.open(page, "rt", encoding="ascii") as text:
        return text.read()


def declarations(header):
    """The calls of the header, each with its declaration, without blanks and line breaks. Its own functions are none."""
    found = re.findall(r"^(?!static)(\w[\w *]*(bogzhami_\w+)\([^;]*;)", header, re.M)
    return {name: re.sub(r"\s", "", declaration) for declaration, name in found}


def declared(page):
    """The declaration that the manual page of a call has, in the same way; nothing if there is no such page."""
    if not os.path.exists(page):
        return ""
    synopsis = text_of(page).partition("#include <bogzhami.h>\n.PP\n")[2].partition(".fi\n")[0]
    return re.sub(r'[\s"]', "", re.sub(r"^\.BI? ", "", synopsis, flags=re.M))


def try_manual(folder):
    """Looks into the manual pages: groff has no warning, bogzhami(3) names the calls and the statuses of the header, and each call
    has a page with its declaration."""
    pages = sorted(glob.glob(os.path.join(folder, "share", "man", "*", "*.gz")))
    wrong = [warning for page in pages if (warning := warnings_of(page))]
    with open(os.path.join(folder, "include", "bogzhami.h"), encoding="ascii") as text:
        header = text.read()
    calls, section = declarations(header), os.path.join(folder, "share", "man", "man3")
    wrong += [f"{name}(3)" for name, wanted in calls.items() if declared(os.path.join(section, f"{name}.3.gz")) != wanted]
    names = set(calls)
    names |= set(re.findall(r"(BOGZHAMI_\w+) = ", re.search(r"enum bogzhami_status \{.*?\};", header, re.S)[0]))
    manual = text_of(os.path.join(section, "bogzhami.3.gz"))
    wrong += [f"bogzhami(3) does not name {name}" for name in sorted(names) if not re.search(rf"\b{name}\b", manual)]
    return say(not wrong and len(names) > 14, f"{len(pages)} manual pages, {len(names)} names, {len(wrong)} wrong {shown(wrong)}")


# THE DEBIAN PACKAGES AS FILES

def try_lintian(made):
    if shutil.which("lintian") is None:
        return skip("lintian: there is none")
    wrong = debian.lintian(made)
    return say(not wrong, f"lintian: {len(wrong)} lines that no override explains {shown(wrong)}")


def try_files(made, tarball, room):
    """Looks into the Debian packages, their source package and the tarball."""
    if not glob.glob(os.path.join(made, "*.deb")):
        return skip("the Debian packages as files: none were made")
    folders = debian.unpack(made, os.path.join(room, "debs"))
    every, library = [tarball, *folders.values()], os.path.join(TOP, PROVED[3])
    wrong = [line for folder in every for line in debian.wrong_programs(folder)]
    wrong += debian.wrong_symbols(folders, library) + debian.wrong_homepage(folders, tarball)
    logs = [f"{folder}/usr/share/doc/{name}/changelog.gz" for name, folder in folders.items()]
    wrong += [line for log in logs for line in debian.wrong_changelog(log, FULL)]
    wrong += [] if debian.OF_V2.search(debian.disassembled(library)) else ["the library needs no x86-64-v2"]
    good = say(not wrong, f"{len(every)} packages: programs, symbols, changes and addresses, {len(wrong)} wrong {shown(wrong)}")
    return try_documents(made, folders, tarball) and good


def try_documents(made, folders, tarball):
    source_tarball = f"bogzhami_{FULL}.tar.xz"
    if not os.path.exists(os.path.join(made, source_tarball)):
        return skip("paths in documents, and the source package: it was not made")
    sources = debian.source_names(os.path.join(made, source_tarball))
    wrong = debian.wrong_source(sources)
    good = say(not wrong, f"{len(sources)} files and folders in the source package, {len(wrong)} wrong {shown(wrong)}")
    wrong = [line for folder in [tarball, *folders.values()]
             for line in debian.wrong_paths(folder, folders.values(), sources, source_tarball)]
    return say(not wrong, f"paths in the documents of the packages, {len(wrong)} lead nowhere {shown(wrong)}") and good


def try_pip(folder, room):
    """The Python module of the tarball, as pip installs it with nothing fetched."""
    if not HAS_MODULE:
        return skip("pip: the Python module is not there")
    own = make_virtual(sys.executable, os.path.join(room, "virtual"))
    if own is None:
        return skip("pip: this Python makes no virtual environment")
    wrong = wrong_installed(own, os.path.join(folder, "python"), room)
    return say(not wrong, f"pip installs the Python module of the tarball {shown(wrong)}")


# WHAT IS DONE WITH THEM

# Lists each input by a program, which is called as `"$@" ENC LIMIT`, with its exit status as the last line.
LIST_ALL = """while read -r name words; do
  status=0
  "$@" $words < "$name" > "$name.out" || status=$?
  echo "$status" >> "$name.out"
done < inputs"""


def put_inputs(place):
    """Makes a new folder with the worked rows, where `LIST_ALL` looks for them."""
    folder = f"{place.folder}/rows"
    shutil.rmtree(place.outer(folder), ignore_errors=True)
    os.makedirs(place.outer(folder))
    with open(place.outer(f"{folder}/inputs"), "w", encoding="ascii") as out:
        out.writelines(f"{number} {' '.join(words)}\n" for number, (words, _, _) in enumerate(ROWS))
    for number, (_, data, _) in enumerate(ROWS):
        with open(place.outer(f"{folder}/{number}"), "wb") as out:
            out.write(data)
    return folder


def listed(place, command, **how):
    """For each worked row the lines that a program writes, and last its exit status."""
    folder = put_inputs(place)
    place.run(["sh", "-euc", LIST_ALL, "sh", *command], folder=folder, **how)
    for number in range(len(ROWS)):
        path = place.outer(f"{folder}/{number}.out")
        if not os.path.exists(path):
            yield []
            continue
        with open(path, encoding="utf-8", errors="replace") as text:
            yield text.read().splitlines()


def try_rows(place, what, command, **how):
    """Whether a program lists the worked rows."""
    wrong = []
    for (words, data, wanted), found in zip(ROWS, listed(place, command, **how)):
        if found != [*wanted, "1" if wanted[-1].startswith("FAULT") else "0"]:
            wrong.append((words, data, found))
    return say(not wrong and len(ROWS) > 80, f"{what}: {len(ROWS)} worked rows listed, {len(wrong)} wrong {shown(wrong)}")


def try_command(place, what, words, wanted="", **how):
    """Whether a command succeeds and prints that."""
    done = place.run(words, **how)
    told = (done.stdout + done.stderr).decode("utf-8", "replace")
    good = done.returncode == 0 and wanted in told
    return say(good, what if good else f"{what}: status {done.returncode}: {told[-1500:]}")


def try_shell(place, what, lines, wanted="", **how):
    return try_command(place, what, ["sh", "-euc", "\n".join(lines)], wanted, **how)


def try_tools(place, where, folder):
    """The programs in a folder, over the example with mistakes."""
    good = [try_rows(place, f"yamltok {where}", [f"{folder}/yamltok", "scan"])]
    good.append(try_command(place, f"bogzhami-json {where}", [f"{folder}/bogzhami-json"], '"type":"STREAM-END"', data=SMALL))
    example = os.path.join(TOP, "uses", "lint", "mistakes.yaml")
    shutil.copy(example, place.outer(place.folder))
    done = place.run([f"{folder}/bogzhami-lint", "mistakes.yaml"])
    told = done.stdout.decode("utf-8").splitlines()
    good.append(say(done.returncode == 1 and MISTAKES in told and len(told) == 8, f"bogzhami-lint {where}: {len(told)} messages"))
    if not os.path.exists(place.outer(f"{folder}/bogzhami-highlight")):
        return all(good) and skip("bogzhami-highlight was not built")
    with open(example, "rb") as text:
        data = text.read()
    shown = place.run([f"{folder}/bogzhami-highlight"], data).stdout
    plain = re.sub(rb"\x1b\[[0-9;]*[mK]", b"", shown)
    return say(plain == data != shown, f"bogzhami-highlight {where}: {len(data)} bytes shown in colours") and all(good)


# THE DEBIAN PACKAGES

def try_c(place, name, compiler, flags):
    """A program in C or C++ that is compiled by what pkg-config says."""
    examples = "/usr/share/doc/libbogzhami-dev/examples"
    command = f"{compiler} {flags} -Wall -Wextra -Werror {examples}/{name} $(pkg-config --cflags --libs bogzhami) -o {name}.out"
    good = try_shell(place, f"{name} compiled by pkg-config, and loads the library",
                     [command, f"ldd ./{name}.out"], f"libbogzhami.so.{VERSION.split('.')[0]} => ")
    return good and try_rows(place, f"{name} over the shared library", [f"{place.folder}/{name}.out"])


CMAKE = """cmake_minimum_required(VERSION 3.13)
project(user C)
find_package(bogzhami MAJOR REQUIRED)
find_package(bogzhami 999 QUIET)
if(bogzhami_FOUND)
  message(FATAL_ERROR "there is no version 999")
endif()
find_package(bogzhami REQUIRED)
add_executable(shared list.c)
target_link_libraries(shared PRIVATE bogzhami::bogzhami)
add_executable(static list.c)
target_link_libraries(static PRIVATE bogzhami::static)
"""


def try_cmake(place, example, *words):
    """The example in C, which is built by what find_package of CMake says, with both libraries."""
    if not (place.has("cmake") and place.has("make") and place.has("cc")):
        return skip("CMake: it is not there")
    folder = f"{place.folder}/user of cmake"
    shutil.rmtree(place.outer(folder), ignore_errors=True)
    os.makedirs(place.outer(folder))
    for path in (example, os.path.join(os.path.dirname(example), "listing.h")):
        shutil.copy(place.outer(path), place.outer(folder))
    with open(place.outer(folder) + "/CMakeLists.txt", "w", encoding="ascii") as out:
        out.write(CMAKE.replace("MAJOR", VERSION.split(".")[0]))
    good = try_command(place, "CMake finds the library", ["cmake", "-S", ".", "-B", "made", *words], folder=folder)
    good = good and try_command(place, "CMake builds list.c", ["cmake", "--build", "made"], folder=folder)
    return good and all([try_rows(place, f"list.c by CMake, {name}", [f"{folder}/made/{name}"]) for name in ("shared", "static")])


def try_crate(place, crate, **how):
    """The crate's own tests, and its examples; the crate is copied first."""
    folder = f"{place.folder}/crate"
    shutil.rmtree(place.outer(folder), ignore_errors=True)
    shutil.copytree(place.outer(crate), place.outer(folder))
    version = place.run(["rustc", "--version"]).stdout.decode("ascii").strip()
    done = place.run(["cargo", "test", "--offline"], folder=folder, **how)
    passed = sum(int(count) for count in re.findall(rb"(\d+) passed; 0 failed", done.stdout))
    told = "" if done.returncode == 0 else (done.stdout + done.stderr).decode("utf-8", "replace")[-1500:]
    good = say(done.returncode == 0 and passed >= 9, f"{passed} tests of the crate by cargo test --offline, {version}{told}")
    good = good and try_command(place, "the crate's examples are built", ["cargo", "build", "--offline", "--examples"],
                                folder=folder, **how)
    built = f"{folder}/target/debug/examples"
    return good and all([try_rows(place, f"the crate's example {name}", [f"{built}/{name}"]) for name in ("list", "pieces")])


# What is in Rust without a crate, and the folders that it is made of.
RUST_PROGRAMS = {"highlight": "uses/highlight/highlight.rs", "list-rust": "ffi/list.rs", "held": "tests/held.rs"}
RUST_FOLDERS = ["uses/highlight", "rust/src", "rust/examples/list"]


def try_rust_programs(place, library):
    """The programs in Rust without a crate, compiled by the rustc of the place, which may be the oldest that they allow."""
    for folder in RUST_FOLDERS:
        shutil.copytree(os.path.join(TOP, folder), place.outer(f"{place.folder}/{folder}"), dirs_exist_ok=True)
    good = True
    for name, source in RUST_PROGRAMS.items():
        os.makedirs(os.path.dirname(place.outer(f"{place.folder}/{source}")), exist_ok=True)
        shutil.copy(os.path.join(TOP, source), place.outer(f"{place.folder}/{source}"))
        words = ["rustc", "-D", "warnings", "--edition", "2021", source, "-C", f"link-arg={library}", "-o", name]
        good = try_command(place, f"{source} is compiled by {said_by(place, ['rustc', '--version'])}", words) and good
    return good and try_rows(place, "ffi/list.rs", [f"{place.folder}/list-rust"])


USER = """use bogzhami::{Fault, Scanner};

fn main() -> Result<(), Fault> {
    let names = Scanner::new(b"a: 1").map(|token| Ok(format!("{:?}", token?.data)));
    println!("{}", names.collect::<Result<Vec<_>, Fault>>()?.join(" / "));
    Ok(())
}
"""


def try_dependent(place, crate, **how):
    """A crate of a user's that names this one."""
    folder = f"{place.folder}/user"
    os.makedirs(place.outer(folder) + "/src", exist_ok=True)
    with open(place.outer(folder) + "/Cargo.toml", "w", encoding="ascii") as out:
        out.write('[package]\nname = "user"\nversion = "1.0.0"\nedition = "2021"\n\n')
        out.write(f'[dependencies]\nbogzhami = {{ path = "{crate}" }}\n')
    with open(place.outer(folder) + "/src/main.rs", "w", encoding="ascii") as out:
        out.write(USER)
    wanted = 'Key / Scalar { value: "a", style: Plain } / Value / '
    return try_command(place, "a crate that names this one", ["cargo", "run", "-q", "--offline"], wanted, folder=folder, **how)


def try_module(place, **how):
    """The Python module, which lists tokens, and PyYAML's parser over it."""
    if not HAS_MODULE:
        return skip("the Python module: it is not there")
    if not place.has("python3"):
        return skip("the Python module: no python3")
    good = try_rows(place, "the Python module", ["/usr/bin/python3", "-m", "bogzhami"], **how)
    words = ["/usr/bin/python3", "-c", VERSIONS]
    good = try_command(place, "the version of the Python module", words, f"{VERSION} {VERSION}", **how) and good
    code = 'import bogzhami.pyyaml, yaml\nprint(yaml.load("a: [1, 2]", bogzhami.pyyaml.SafeLoader))'
    if place.run(["/usr/bin/python3", "-c", "import yaml"]).returncode:
        return good and skip("PyYAML over the Python module: there is none")
    return try_command(place, "PyYAML over the Python module", ["/usr/bin/python3", "-c", code], "{'a': [1, 2]}", **how) and good


def try_libyaml(place, folder):
    """PyYAML's loader in C over the libyaml that is packaged. It spells a word that libyaml does not."""
    if not os.path.exists(place.outer(folder) + "/libyaml-0.so.2"):
        return skip("libyaml-0.so.2 was not built")
    if place.run(["/usr/bin/python3", "-c", "import yaml; yaml.CSafeLoader"]).returncode:
        return skip("no PyYAML for libyaml-0.so.2")
    code = 'import yaml\nprint(yaml.load("a: [1, 2]", yaml.CSafeLoader))\nyaml.load(chr(34) + chr(92) + "xZZ", yaml.CSafeLoader)'
    done = place.run(["/usr/bin/python3", "-c", code], LD_LIBRARY_PATH=folder)
    good = done.stdout == b"{'a': [1, 2]}\n" and b"expected hexadecimal number" in done.stderr
    return say(good, f"PyYAML's CSafeLoader over {folder}/libyaml-0.so.2{'' if good else done.stderr.decode()}")


DEEP, SECONDS = 30000, 2


def attack():
    """The lines of README.md that show what deep nesting costs, with a text that is less deep."""
    block = next(lines for lines in readmes.blocks(read("README.md")) if lines[0].startswith("ATTACK="))
    return [re.sub(r'"\[" \* \d+', f'"[" * {DEEP}', line) for line in block]


def try_attack(place, folder):
    """Gives these lines: the second one is over libyaml, and the third one over the library of the packages."""
    if not os.path.exists(place.outer(folder) + "/libyaml-0.so.2"):
        return skip("what deep nesting costs: libyaml-0.so.2 was not built")
    if place.run(["/usr/bin/python3", "-c", "import yaml; yaml.CSafeLoader"]).returncode:
        return skip("what deep nesting costs: no PyYAML for libyaml-0.so.2")
    done = place.run(["bash", "-c", "\n".join(attack())], TIMEFORMAT="%U")
    told = done.stderr.decode("utf-8", "replace")
    seconds = [float(word) for word in re.findall(r"^\d+\.\d+$", told, re.M)]
    good = done.stdout == b"%d tokens\n" % (DEEP + 2) * 2 and len(seconds) == 2
    good = good and seconds[1] < SECONDS and seconds[0] > 10 * seconds[1]
    return say(good, f"the lines of README.md on nesting: {' and '.join(map(str, seconds))} seconds{'' if good else ': ' + told[-600:]}")


def install(place, folder, names):
    """Installs Debian packages in a root by dpkg alone."""
    for name in names:
        shutil.copy(os.path.join(folder, name), place.outer(place.folder))
    return try_command(place, f"{len(names)} Debian packages installed", ["dpkg", "-i", *names])


def left_behind(place):
    """What is named like the packages and is still there."""
    words = ["sh", "-c", "find /usr /var/lib/dpkg/info -name '*bogzhami*' -o -name yamltok"]
    return place.run(words).stdout.decode("utf-8").split()


def try_debian(place, folder):
    names = sorted(os.path.basename(path) for path in glob.glob(os.path.join(folder, "*.deb")))
    if not names:
        return skip("no Debian packages were made")
    if not install(place, folder, names):
        return False
    lib = f"/usr/lib/{said_by(place, ['gcc', '-print-multiarch'])}"
    good = [
        say(said_by(place, ["pkg-config", "--modversion", "bogzhami"]) == FULL, "pkg-config says the version"),
        try_tools(place, "of the Debian packages", "/usr/bin"),
        try_c(place, "list.c", "cc", "-std=c99"),
        try_c(place, "pieces.c", "cc", "-std=c99"),
        try_c(place, "list.cc", "c++", "-std=c++17"),
        try_c(place, "pieces.cc", "c++", "-std=c++17"),
        try_cmake(place, "/usr/share/doc/libbogzhami-dev/examples/list.c"),
        try_crate(place, "/usr/share/bogzhami/rust"),
        try_dependent(place, "/usr/share/bogzhami/rust"),
        try_rust_programs(place, f"{lib}/libbogzhami.a"),
        try_module(place),
        try_command(place, "what the Python module is told by", ["ls", *TOLD]) if HAS_MODULE else True,
        try_libyaml(place, f"{lib}/bogzhami"),
        try_attack(place, f"{lib}/bogzhami"),
        try_sections(place, "the Debian packages", ["Debian packages"], place.folder),
    ]
    packages = [name.split("_")[0] for name in names]
    good.append(try_command(place, "the Debian packages removed", ["dpkg", "-P", *packages]))
    left = left_behind(place)
    good.append(say(not left, f"{len(left)} files of the Debian packages left {left[:3] or ''}"))
    return all(good)


def said_by(place, words):
    return place.run(words).stdout.decode("utf-8").strip()


# THE TARBALL

def sections():
    """The parts of the README of the tarball by their headings; the first has the title."""
    with open(os.path.join(TOP, "packaging", "README.md"), encoding="utf-8") as text:
        return {part.partition("\n")[0]: part for part in re.split(r"^## ", text.read(), flags=re.M)}


def blocks(heading):
    """The commands that the README of the tarball gives under a heading, block by block."""
    found = re.findall(r"(?:^    .*\n)+", sections()[heading], re.M)
    return [[line[4:] for line in block.splitlines()] for block in found]


def try_sections(place, where, headings, folder):
    """The commands under some headings of the README of the tarball, as they stand there."""
    wrong, count, left = readmes.try_readme(place, "README.md", "\n".join(sections()[name] for name in headings), folder)
    for line, why in left.items():
        skip(f"README of the tarball: {line}: {why}")
    return say(not wrong, f"README of the tarball, {where}: {count} commands {wrong or ''}")


def try_block(place, what, lines, folder, **how):
    return try_shell(place, f"README of the tarball, {what}", lines, "\n".join(LISTED) + "\n", folder=folder, **how)


def try_tarball(place, packed):
    """Unpacks the tarball in a place, in a folder with a blank in its name, and does what its README says."""
    above = f"{place.folder}/a place"
    os.makedirs(place.outer(above), exist_ok=True)
    subprocess.run(["tar", "-xf", packed, "-C", place.outer(above)], check=True)
    folder = f"{above}/{NAME}"
    good = [try_tools(place, "of the tarball", f"{folder}/bin"), try_libyaml(place, f"{folder}/libyaml")]
    rest = [name for name in sections() if name not in ("C and C++", "Rust", "Python", "Debian packages")]
    good.append(try_sections(place, "what is under no heading of a language", rest, folder))
    static, shared = blocks("C and C++")
    if not (place.has("cc") and place.has("c++")):
        good.append(skip("C and C++ from the tarball: no compiler"))
    else:
        good.append(try_block(place, "C and C++ with the static library", static, folder))
        good += [try_rows(place, f"{name} of the tarball", [f"{folder}/{name}"]) for name in ("list", "list-cc", "pieces", "pieces-cc")]
        if place.has("pkg-config"):
            good.append(try_block(place, "C by pkg-config", shared, folder))
            good.append(try_rows(place, "list of the tarball, over the shared library", [f"{folder}/list"]))
        else:
            good.append(skip("C by pkg-config: there is none"))
        good.append(try_cmake(place, f"{folder}/examples/list.c", f"-DCMAKE_PREFIX_PATH={folder}"))
    good.append(try_tarball_crate(place, folder))
    good.append(try_module(place, PYTHONPATH=f"{folder}/python"))
    if HAS_MODULE and place.has("python3"):
        good.append(try_block(place, "Python", blocks("Python")[0], folder))
    return all(good)


def try_tarball_crate(place, folder):
    if not place.has("cargo"):
        return skip("Rust from the tarball: no cargo")
    how = {"BOGZHAMI_LIB_DIR": f"{folder}/lib"}
    good = try_block(place, "Rust", blocks("Rust")[0], folder)
    good = good and try_rows(place, "the crate of the tarball", [f"{folder}/rust/target/debug/examples/list"])
    return good and try_dependent(place, f"{folder}/rust", **how)


# ALL OF IT

def look_into(room, packed):
    """Unpacks the tarball to be looked at."""
    subprocess.run(["tar", "-xf", packed, "-C", room], check=True)
    return os.path.join(room, NAME)


def make_place(room):
    began = time.monotonic()
    try:
        place = make_root(room)
        seconds = time.monotonic() - began
        print(f"package: a new root, made from the machine's package source in {seconds:.0f} seconds", flush=True)
    except (NoRoot, OSError, subprocess.SubprocessError) as problem:
        place = make_folder(room)
        print(f"package: no root: {problem}; the tarball is tried in a folder instead", flush=True)
    return place


def try_readmes(place):
    """The READMEs of the repository in the root, with a kit that proves nothing. Without a root commands.py does the same."""
    wrong, count, left = readmes.try_checkout(place, copy_sources, os.path.join(TOP, PROVED[1]), git)
    for line in left:
        skip(line)
    return say(not wrong and count > 15, f"{count} commands of the READMEs in the root, in a checkout {wrong or ''}")


def try_packages(made, place):
    good = [say(not place.has("rt"), "the kit is not there")]
    with ThreadPoolExecutor(max_workers=1) as pool:
        beside = pool.submit(try_readmes, place) if place.root else None
        good.append(try_debian(place, made) if place.root else skip("the Debian packages: they need a root"))
        good.append(try_tarball(place, os.path.join(made, NAME + ".tar.gz")))
        good.append(beside.result() if beside else True)
    return all(good)


def main():
    if shutil.which("cc") is None:
        return 0 if skip("no C compiler") else 1
    with tempfile.TemporaryDirectory() as room:
        made = os.path.join(room, "made")
        status, told = package(TOP, "--for-test", made)
        if not say(status == 0, "./package --for-test" if status == 0 else told):
            return 1
        with ThreadPoolExecutor(max_workers=1) as pool:
            place = pool.submit(make_place, room)
            folder = look_into(room, os.path.join(made, NAME + ".tar.gz"))
            good = [try_contents(folder, told), try_manual(folder), try_pip(folder, room), try_files(made, folder, room)]
            good += [try_lintian(made), try_refusals(room)]
            good.append(try_packages(made, place.result()))
    return 0 if all(good) else 1


if __name__ == "__main__":
    from lib.usage import answer_questions

    answer_questions()
    sys.exit(main())
