#!/usr/bin/env python3
"""Runs ./test, ./package, ffi/build, uses/libyaml/build and ./run, each after each, over a kit that proves nothing: orders.py
[PROGRAM].

A copy of the repository is a checkout of a commit, and its tests/ has scripts that only call the program and look for the
library. Instead of the Rattle kit, lib/kit.py is on the path: it leaves what the kit leaves, out of the program and the library
that are built, and like the kit it refuses links and removes what was built. Each command follows each, and itself. All succeed,
and what was built before is there whenever the kit is called, and at the end. The same holds if the gate fails or is broken off,
and then ./package refuses what was not tested, and with a compiler that compiles nothing. .ci/run in a new clone has the gate
prove the clone itself. dpkg-buildpackage makes the same packages of the source package, byte for byte.

Without the kit, without a program that is needed, or in a checkout that can not be written to, each command says so in one line
before anything is proved, and .ci/run before anything is installed. What .ci/run installs is what is lacking, and no package that
is only recommended. What RT_JOBS says reaches the kit from each command that proves, and what is no number is refused. CDPATH
makes no difference. The progress is that of the log. What needs a C compiler or git is skipped, and
says so, if there is none.
"""

import filecmp
import glob
import os
import re
import shutil
import signal
import subprocess
import sys
import tempfile
import time

HERE = os.path.dirname(os.path.abspath(__file__))
sys.path.insert(0, os.path.join(HERE, "lib"))
sys.dont_write_bytecode = True
from debian import unpack_source
from library import TOP, VERSION, build_library
from package import git, machine_files
from places import make_kit
from worked import rows

PROGRAM = os.path.join("crates", "yamltok", "out", "yamltok")
LIBRARY = f"ffi/out/libbogzhami.so.{VERSION}"
LIBYAML = "uses/libyaml/out/libyaml-0.so.2"
WATCHED = [PROGRAM, "ffi/out/libbogzhami.a", LIBRARY, LIBYAML, "bin/proved", "dist/SHA256SUMS"]
NO_KIT = "The command rt is not on the path: this needs the Rattle kit.\n"
NOBODY = 65534
PLAIN = "/usr/sbin:/usr/bin:/sbin:/bin"
SMALL = b"a: 1"
LISTED = "".join(line + "\n" for words, data, lines in rows() if (words, data) == (["scan", "any"], SMALL) for line in lines)

# What stands for each script of tests/: it calls the program, and sees that there is a library.
SCRIPT = f"""import os, subprocess, sys
done = subprocess.run([sys.argv[1], "scan", "any"], input={SMALL!r}, capture_output=True)
sys.exit(done.stdout != {LISTED.encode()!r} or not os.path.exists({LIBRARY!r}))
"""

# What makes packages. On a machine without all that they need a test build is made, outside of the checkout.
TOOLS = ("rustc", "dpkg-deb", "dpkg-source", "objdump")
HAS_ALL = os.path.exists("/usr/include/yaml.h") and all(shutil.which(tool) for tool in TOOLS)
PACKAGE = "./package" if HAS_ALL else "./package --for-test ../made"

# The commands, and what they print.
COMMANDS = {
    "./test": r"\n\d+ passed, 0 failed\n$",
    PACKAGE: r"bogzhami-.*\.tar\.gz\n",
    "ffi/build": r"made  ffi/out/libbogzhami\.a",
    "uses/libyaml/build": r"made  uses/libyaml/out/libyaml-0\.so\.2",
    "./run scan any": re.escape(LISTED) + "$",
}


def say(good, text):
    print(f"orders: {text}{'' if good else ', WRONG'}", flush=True)
    return bool(good)


def skip(text):
    print(f"orders: skipped: {text}", flush=True)
    return True


# A COPY OF THE REPOSITORY, AND A KIT

class Copy:
    """A copy of the repository, of a commit, in which nothing is built."""

    def __init__(self, room, name):
        self.room, self.top = room, os.path.join(room, name)
        self.log = os.path.join(room, f"{name}.log")
        shutil.copytree(TOP, self.top, symlinks=True, ignore=machine_files)
        tests = os.path.join(self.top, "tests")
        for script in os.listdir(tests):
            if script.endswith(".py"):
                with open(os.path.join(tests, script), "w", encoding="utf-8") as out:
                    out.write(SCRIPT)
        git(self.top, "init", "-q")
        git(self.top, "add", "-A")
        git(self.top, "commit", "-q", "-m", "a commit")

    def environment(self, **more):
        """The environment of a command, with the kit first on the path."""
        kit = os.path.join(self.room, "kit")
        dropped = ("LIBRARY_IS_BUILT", "IN_PLACE", "CC", "RT_JOBS")
        # a path that cd searches, as some have it in their shell
        more = {"CDPATH": self.top, **more}
        kept = {name: value for name, value in os.environ.items() if name not in dropped}
        return {**kept, "PATH": f"{kit}/bin:{os.environ['PATH']}", "KIT_MADE": f"{kit}/made", "KIT_LOG": self.log,
                "KIT_TOP": self.top, "KIT_WATCHED": " ".join(WATCHED), **more}

    def run(self, command, **more):
        """The status of a command, and all that it prints."""
        self.forget_calls()
        done = subprocess.run(command.split(), cwd=self.top, input=SMALL, env=self.environment(**more), stdout=subprocess.PIPE,
                              stderr=subprocess.STDOUT, timeout=100)
        return done.returncode, done.stdout.decode("utf-8", "replace")

    def forget_calls(self):
        if os.path.exists(self.log):
            os.remove(self.log)

    def calls(self):
        """Each call of the kit by the last command: its words, and what was there."""
        if not os.path.exists(self.log):
            return []
        with open(self.log, encoding="utf-8") as lines:
            return [(words, set(there.split())) for words, there in (line.rstrip("\n").split("\t") for line in lines)]

    def built(self):
        return {path for path in WATCHED if os.path.exists(os.path.join(self.top, path))}

    def proved(self):
        """The stamp of ./test; nothing if there is none."""
        path = os.path.join(self.top, "bin", "proved")
        if not os.path.exists(path):
            return ""
        with open(path, encoding="utf-8") as text:
            return text.read()


# ORDERS

def pairs_in_a_row(count):
    """The numbers below count in an order in which each follows each, and itself, once."""
    left = {one: list(range(count)) for one in range(count)}
    path, walk = [0], []
    while path:
        if left[path[-1]]:
            path.append(left[path[-1]].pop())
        else:
            walk.append(path.pop())
    return walk[::-1]


def wrong_with(copy, command, wanted):
    """What is wrong with a command that has to succeed, or None."""
    before = copy.built()
    status, told = copy.run(command)
    if status or not re.search(wanted, told):
        return f"status {status}: {told[-600:]}"
    lost = [f"{sorted(before - there)} at rt {words}" for words, there in copy.calls() if before - there]
    lost += [f"{sorted(before - copy.built())} at the end"] if before - copy.built() else []
    return f"gone: {lost}" if lost else None


def try_orders(copy):
    names = [name for name in COMMANDS if name != "uses/libyaml/build" or os.path.exists("/usr/include/yaml.h")]
    walk = [names[number] for number in pairs_in_a_row(len(names))]
    wrong = []
    for last, name in zip([None, *walk], walk):
        found = wrong_with(copy, name, COMMANDS[name])
        wrong += [f"{name} after {last}: {found}"] if found else []
    missing = {PROGRAM, LIBRARY, "bin/proved"} - copy.built()
    good = not wrong and not missing and len(set(zip(walk, walk[1:]))) == len(names) ** 2
    return say(good, f"{len(walk)} commands, each after each, {len(wrong)} wrong {wrong[:3] or ''}{missing or ''}")


def try_before(copy):
    """What needs something that is not built says what to call."""
    lacking = r"^There is no (ffi/out/libbogzhami\.a: run ffi/build|libyaml\.a: install libyaml-dev)\.\n$"
    found = [(copy.run("./package"), 1, r"there is no proved build: run \./test"), (copy.run("uses/libyaml/build"), 3, lacking)]
    wrong = [told for (status, told), wanted, pattern in found if status != wanted or not re.search(pattern, told)]
    return say(not wrong and not copy.built(), f"{len(found)} commands before anything is built, {len(wrong)} wrong {wrong or ''}")


def try_blank(copy):
    """In a folder with a blank in its name, the line for the shared library that ffi/build prints does what it says."""
    status, told = copy.run("ffi/build")
    line = re.search(r"^ *(cc .* -Wl,-rpath,.*?)    \(the shared library\)$", told, re.M)
    compiled = line[1].replace("FILE.c", "ffi/list.c -o bin/list") if line else "false"
    done = subprocess.run(["bash", "-c", f"{compiled} && bin/list"], cwd=copy.top, input=SMALL, capture_output=True, timeout=60)
    good = status == 0 and done.stdout.decode() == LISTED
    return say(good, f"the line that ffi/build prints, in a folder with a blank{'' if good else told[-300:] + done.stderr.decode()[-300:]}")


# THE GATE FAILS, OR IS BROKEN OFF

def try_failing_gate(copy):
    before, stamp = copy.built(), copy.proved()
    status, told = copy.run("./test", KIT_FAILS="yes")
    good = status == 1 and told.endswith("3 passed, 1 failed\n") and copy.built() == before
    good = good and "tests " in stamp and stamp.startswith(copy.proved()) and "tests " not in copy.proved()
    refused = copy.run("./package")
    good = good and refused[0] == 1 and "the tests have not all passed" in refused[1]
    return say(good, f"a gate that fails: what was built stays, and is no longer called tested{'' if good else told[-600:]}")


def try_broken_off(copy):
    """Ends ./test, and all that it has started, while the gate proves. The signal is one that no background process ignores."""
    before, stamp = copy.built(), copy.proved()
    copy.forget_calls()
    how = {"cwd": copy.top, "env": copy.environment(KIT_WAITS="30"), "stdout": subprocess.DEVNULL, "stderr": subprocess.DEVNULL}
    started = subprocess.Popen(["./test"], stdin=subprocess.DEVNULL, start_new_session=True, **how)
    began = time.monotonic()
    while not any(words == "ci" for words, _ in copy.calls()) and time.monotonic() - began < 30:
        time.sleep(0.1)
    os.killpg(started.pid, signal.SIGTERM)
    started.wait(timeout=30)
    good = time.monotonic() - began < 30 and copy.built() == before and copy.proved() == stamp
    return say(good, "a gate that is broken off: what was built stays")


def try_broken_compiler(copy):
    """A compiler that compiles nothing: what was built stays."""
    compiler = os.path.join(copy.room, "kit", "bin", "broken-cc")
    with open(compiler, "w", encoding="ascii") as out:
        out.write('#!/bin/sh\ncase "$*" in *-print-*|*--version*|*-E*) exec cc "$@" ;; esac\necho broken >&2\nexit 1\n')
    os.chmod(compiler, 0o755)
    before, wrong = copy.built(), []
    for command in ("ffi/build", PACKAGE, "uses/libyaml/build"):
        status, told = copy.run(command, CC=compiler)
        if status != 1 or "broken" not in told or copy.built() != before:
            wrong.append((command, status, told[-300:], before - copy.built()))
    return say(not wrong, f"3 commands with a compiler that compiles nothing, {len(wrong)} wrong {wrong or ''}")


# A NEW CLONE

def try_clone(copy):
    """.ci/run in a new clone, with no input, as a machine calls it: the gate is called in the clone itself."""
    done = subprocess.run(["bash", ".ci/run"], cwd=copy.top, stdin=subprocess.DEVNULL, env=copy.environment(CI="true"),
                          stdout=subprocess.PIPE, stderr=subprocess.STDOUT, timeout=100)
    told = done.stdout.decode("utf-8", "replace")
    rlib = os.path.exists(os.path.join(copy.top, "crates", "yaml_scan", "out", "rlib"))
    good = done.returncode == 0 and re.search(COMMANDS["./test"], told) and rlib and "tests " in copy.proved()
    again = wrong_with(copy, "bash .ci/run", COMMANDS["./test"])
    return say(good and not again, f".ci/run in a new clone, and again{'' if good else told[-600:]} {again or ''}")


# THE SOURCE PACKAGE

def try_source(copy):
    """The source package of the copy, as Debian's tools unpack and build it: the Debian packages are those of the copy."""
    if not HAS_ALL or shutil.which("dpkg-buildpackage") is None:
        return skip("the source package is built: it takes all that ./package needs, and dpkg-buildpackage")
    status, told = copy.run("./package")
    dist, folder = os.path.join(copy.top, "dist"), os.path.join(copy.room, "source", "unpacked")
    os.makedirs(os.path.dirname(folder))
    unpack_source(dist, folder)
    done = subprocess.run(["dpkg-buildpackage", "-b", "-us", "-uc", "-d"], cwd=folder, stdin=subprocess.DEVNULL,
                          env=copy.environment(KIT_TOP=folder), stdout=subprocess.PIPE, stderr=subprocess.STDOUT, timeout=200)
    names = [os.path.basename(path) for path in glob.glob(os.path.join(dist, "*.deb"))]
    others = [name for name in names if not is_same(os.path.join(dist, name), os.path.join(folder, "..", name))]
    good = status == 0 and done.returncode == 0 and len(names) > 2 and not others
    told = "" if good else told[-300:] + done.stdout.decode("utf-8", "replace")[-600:]
    return say(good, f"dpkg-buildpackage makes {len(names)} packages of the source package, {len(others)} of other bytes {told}")


def is_same(one, other):
    return os.path.exists(other) and filecmp.cmp(one, other, shallow=False)


# WHAT IS NOT THERE

def try_no_kit(copy):
    if shutil.which("rt", path=PLAIN):
        return skip("commands without the kit: it is on the system's own path")
    wrong = []
    for command in ("./run scan any", "./try scan any", "./test", "ffi/build"):
        status, told = copy.run(command, PATH=PLAIN)
        if (status, told) != (3, NO_KIT):
            wrong.append((command, status, told[-300:]))
    return say(not wrong and not copy.built(), f"4 commands without the kit, {len(wrong)} wrong {wrong or ''}")


def try_clone_without_kit(copy):
    """.ci/run installs nothing on a machine without the kit. What stands for apt-get here only leaves a file."""
    if shutil.which("rt", path=PLAIN):
        return skip(".ci/run without the kit: it is on the system's own path")
    tools, called = os.path.join(copy.room, "no kit"), os.path.join(copy.room, "called")
    os.makedirs(tools)
    with open(os.path.join(tools, "apt-get"), "w", encoding="ascii") as out:
        out.write(f"#!/bin/sh\n: > '{called}'\n")
    os.chmod(os.path.join(tools, "apt-get"), 0o755)
    status, told = copy.run("bash .ci/run", PATH=f"{tools}:{PLAIN}")
    good = (status, told) == (3, NO_KIT) and not os.path.exists(called)
    return say(good, f".ci/run without the kit installs nothing{'' if good else told[-300:]}")


# What .ci/run installs of Debian's packages that have a command of their own.
PACKAGES = "gcc libc6-dev g++ git rustc cargo cmake valgrind debootstrap dpkg-dev lintian zsh fish".split()


def try_lacking(clone):
    """.ci/run where nothing is but the kit: it installs each package that is lacking, and none that is only recommended. What
    stands for apt-get here installs nothing, so it ends with 1."""
    tools, called = os.path.join(clone.room, "lacking"), os.path.join(clone.room, "installed")
    os.makedirs(tools)
    for name in ("bash", "dirname"):
        os.symlink(shutil.which(name), os.path.join(tools, name))
    for name, line in (("rt", ""), ("apt-get", f"echo \"$@\" >> '{called}'; [ \"$1\" = update ]")):
        with open(os.path.join(tools, name), "w", encoding="ascii") as out:
            out.write(f"#!/bin/sh\n{line}\n")
        os.chmod(os.path.join(tools, name), 0o755)
    status, told = clone.run("bash .ci/run", PATH=tools)
    with open(called, encoding="ascii") as lines:
        calls = [line.split() for line in lines]
    wanted, names = [["update", "-q"], ["install", "-y", "-q", "--no-install-recommends"]], calls[-1][4:]
    good = status == 1 and [words[:4] for words in calls] == wanted and set(PACKAGES) <= set(names)
    told = "" if good else told
    return say(good, f".ci/run installs the {len(names)} packages that are lacking, and no recommended ones{told}")


def try_not_writable(copy):
    """A checkout that can not be written to: each command says so before anything is proved."""
    user = {"user": NOBODY} if os.geteuid() == 0 else {}
    for folder in (copy.room, os.path.join(copy.room, "kit")):
        os.chmod(folder, 0o755)
    os.chmod(copy.top, 0o555)
    wanted = (3, f"The folder {copy.top} can not be written to: call this in a copy of it that can.\n")
    wrong = []
    for command in ("./run scan any", "./test", "ffi/build"):
        done = subprocess.run(command.split(), cwd=copy.top, env=copy.environment(), stdin=subprocess.DEVNULL, stdout=subprocess.PIPE,
                              stderr=subprocess.STDOUT, timeout=100, **user)
        if (done.returncode, done.stdout.decode("utf-8", "replace")) != wanted:
            wrong.append((command, done.returncode, done.stdout.decode("utf-8", "replace")[-300:]))
    os.chmod(copy.top, 0o755)
    return say(not wrong and not copy.calls(), f"3 commands in a checkout that can not be written, {len(wrong)} wrong {wrong or ''}")


def try_words(copy):
    """The scripts say what they lack, and which words they take, before anything is proved."""
    tried = [("ffi/build", {"CC": "no-compiler"}, 3, r"^There is no no-compiler: install gcc\.\n$"),
             ("./run scan any 0", {}, 2, r"^run: there is no key limit '0'\n"), ("./try scna any", {}, 2, r"^try: there is no command 'scna'\n"),
             ("ffi/build --version", {"CDPATH": "."}, 0, r"^ffi/build \(Bogzhami\) [\d.]+\n$"),
             ("uses/libyaml/build --version", {"CDPATH": "."}, 0, r"^uses/libyaml/build \(Bogzhami\) [\d.]+\n$"),
             ("./test all", {}, 2, r"^test: there is no use for 'all'\n"), ("./run --help", {}, 0, r"^usage: \./run COMMAND"),
             ("ffi/build --help", {"PATH": PLAIN}, 0, r"^usage: ffi/build\n"),
             ("ffi/build --jobs 1", {}, 2, r"^ffi/build: there is no use for '--jobs'\nusage: ffi/build"),
             ("ffi/build --over", {}, 2, r"^ffi/build: --over needs a word after it\nusage: ffi/build"),
             ("./run scan any", {"RT_JOBS": "0"}, 2, r"^run: RT_JOBS is no number of jobs: '0'\nusage: \./run"),
             ("./test", {"RT_JOBS": "all"}, 2, r"^test: RT_JOBS is no number of jobs: 'all'\nusage: \./test\n"),
             ("ffi/build", {"RT_JOBS": "-1"}, 2, r"^ffi/build: RT_JOBS is no number of jobs: '-1'\nusage: ffi/build\n"),
             ("./dev check yaml_text", {"RT_JOBS": "1 2"}, 2, r"^RT_JOBS is no number of jobs: '1 2'\n$")]
    wrong = []
    for command, more, wanted, pattern in tried:
        status, told = copy.run(command, **more)
        if status != wanted or not re.search(pattern, told) or copy.calls():
            wrong.append((command, status, told[-300:]))
    return say(not wrong, f"{len(tried)} calls that prove nothing, {len(wrong)} wrong {wrong or ''}")


def try_jobs(copy):
    """How many functions are proved at once, by a variable that each command that proves reads, and by none."""
    tried = {"./run scan any": ["check"] * 5 + ["run"], "ffi/build": ["lib"], "./dev check yaml_text": ["check"]}
    wrong = []
    for more, jobs in (({}, []), ({"RT_JOBS": "3"}, ["--jobs", "3"])):
        for command, verbs in tried.items():
            shutil.rmtree(os.path.join(copy.top, "crates", "yamltok", "out"), ignore_errors=True)
            status, told = copy.run(command, **more)
            called = [words.split(" -- ")[0].split() for words, _ in copy.calls()]
            if status or called != [[verb, *jobs] for verb in verbs]:
                wrong.append((command, more, called, told[-300:]))
    return say(not wrong, f"{len(tried)} commands with RT_JOBS and without, {len(wrong)} wrong {wrong or ''}")


# What rt prints, and what is shown of it.
LOG = [("so far: 3 of 114 functions checked", "3 of 114 functions checked"),
       ("so far: 1 of 87 functions checked", "1 of 87 functions checked"),
       ("rt: yaml_text: another run on this machine is proving the same; waiting for it", "waits for another run on this machine"),
       ("rt: chose --jobs 4 for yaml_text", "yaml_text: begun"),
       ("so far: 0 of 114 functions checked; the verdict comes last", "yaml_text: 0 of 114 functions checked"),
       ("checked yaml_text::utf8::len_of, 57 of 114", "yaml_text: 57 of 114 functions checked"),
       ("so far: 9 of 114 functions checked", "yaml_text: 57 of 114 functions checked"),
       ("fn yaml_text::utf8::len_of: proved", "yaml_text: 57 of 114 functions checked"),
       ("rt: chose --jobs 4 for yaml_c", "yaml_c: begun"),
       ("so far: 9 of 87 functions checked", "yaml_c: 9 of 87 functions checked")]


def try_progress(room):
    """The progress is shown as the log has it, and the log is kept."""
    log = os.path.join(room, "progress.log")
    text = "".join(line + "\n" for line, _ in LOG)
    code = f'. "{TOP}/scripts/proving.sh"; : > "$1"; show_progress "$1" 10 0'
    done = subprocess.run(["bash", "-c", code, "bash", log], input=text, capture_output=True, text=True, timeout=30)
    wanted = [f"{shown}; 0 min, of about 10 min from nothing" for _, shown in LOG]
    with open(log, encoding="ascii") as kept:
        good = kept.read() == text and done.stderr.splitlines() == wanted
    return say(good, f"{len(LOG)} lines of a log, and the progress that is shown{'' if good else done.stderr}")


def main():
    for tool in ("cc", "ar", "git"):
        if shutil.which(tool) is None:
            return 0 if skip(f"no {tool}") else 1
    program = os.path.abspath(sys.argv[1]) if len(sys.argv) > 1 else os.path.join(TOP, PROGRAM)
    if not os.path.exists(program):
        return 0 if skip("no program is built") else 1
    build_library()
    with tempfile.TemporaryDirectory() as room:
        make_kit(room, program)
        copy, clone = Copy(room, "copy"), Copy(room, "clone")
        good = [try_no_kit(copy), try_clone_without_kit(clone), try_lacking(clone), try_words(copy), try_not_writable(copy), try_progress(room)]
        good += [try_blank(Copy(room, "a copy")), try_jobs(Copy(room, "jobs")), try_before(copy), try_orders(copy)]
        good += [try_source(copy), try_broken_compiler(copy), try_broken_off(copy), try_failing_gate(copy), try_clone(clone)]
    return 0 if all(good) else 1


if __name__ == "__main__":
    from lib.usage import answer_questions

    answer_questions()
    sys.exit(main())
