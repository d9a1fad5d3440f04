#!/usr/bin/env python3
"""Builds the library of ffi/, and scans many files with uses/many over it: many.py [PROGRAM].

Most of it runs over a scheduler and two workers of dask.distributed that are started here. The lines of the inputs of
vectors/rows.txt and vectors/scan.txt.gz that are scanned in any encoding with the usual key limit are the expected ones, as
files and as members of archives, plain and compressed; but the vectors do not say in which line a fault of the reader is, and
some of those places are written down here. Those of 120 generated texts, in UTF-8 and UTF-16, with and without a fault, are
those of a plain loop in one process. What can not be read gets a line that says why, and all else is scanned: missing files,
folders, pipes, damaged archives.

Small archives of each kind (lib/damaged.py) are cut after each byte, and a bit is flipped in each byte: all bits, one after the
other, and of a plain tar one of them. Each of these is told, or has the lines of the whole archive, unless no checksum is over
the bit; and of a plain tar no member before a cut is lost. Single archives have what else may be wrong: no end marker, other bytes
after it, a damaged header, an encrypted member, a wrong directory. A file with holes has the bytes that it had. Of 6,000 small
members each takes less than six times as long in a compressed archive as in a plain one.

The workers log each file that they open (lib/opens.py), and wait at one of them. There a worker is killed, in the middle of a
part, when all other parts are done: the lines are all there, the three files of its part that it had opened were opened twice,
and the other 97 once. At a file that ends each worker, only that file is lost. Of 600 files, most are 300 times as long as the
others: each is opened once, though parts are cut by a guess. If the scheduler is killed, that is said, and the lines before are
whole. A write that fails has its status and says why; nothing is said at a pipe that is closed, or at an interrupt of all
processes at several times.

Without dask.distributed, check.py has its help, its version and what it says of wrong words, and of anything else it says that
this is needed. What needs a C compiler or dask.distributed is skipped if there is none.
"""

import collections
import concurrent.futures
import io
import itertools
import json
import os
import pty
import random
import re
import shutil
import signal
import subprocess
import sys
import tarfile
import tempfile
import time
import zipfile

HERE = os.path.dirname(os.path.abspath(__file__))
TOP = os.path.dirname(HERE)
MANY = os.path.join(TOP, "uses", "many")
CHECK = os.path.join(MANY, "check.py")
sys.path[:0] = [HERE, os.path.join(HERE, "lib"), MANY, os.path.join(TOP, "bench")]
sys.dont_write_bytecode = True
import damaged
from archives import read_tar
from count import Counter
from ffi import FFI, vectors
from library import VERSION, build_library
from realistic import realistic
from uses import LINTS, fault_message
from worked import rows

LIBRARY = os.path.join(FFI, "out", "libbogzhami.so")
PATIENCE = 60  # seconds that anything may take
EQUAL = b"a: 1\n- b: [c, d]\n" * 10
GENERATED = 120  # texts
DEATHS = 2  # how many workers may end at a part before the scheduler gives it up
WHY_LOST = "not read: each worker that read it was ended"


def python_with_dask():
    for python in (sys.executable, "/usr/bin/python3"):
        if shutil.which(python) and subprocess.run([python, "-c", "import distributed"], capture_output=True).returncode == 0:
            return python
    return None


def wait_for(is_there):
    """What a function returns as soon as that is true."""
    for _ in range(PATIENCE * 50):
        found = is_there()
        if found:
            return found
        time.sleep(0.02)
    raise TimeoutError(is_there.__name__)


class Machines:
    """A scheduler with two workers, each with a nanny that begins it again when it ends."""

    def __init__(self, python, room):
        self.python, self.room, self.programs = python, room, []
        self.files, self.log = os.path.join(room, "opened"), os.path.join(room, "opens.log")
        self.go, self.scheduler_file = os.path.join(room, "go"), os.path.join(room, "scheduler.json")
        os.mkdir(self.files)

    def start(self, what, *words):
        names = {"OPENS_FOLDER": self.files, "OPENS_LOG": self.log, "OPENS_GO": self.go}
        environment = {**os.environ, **names, "DASK_DISTRIBUTED__SCHEDULER__ALLOWED_FAILURES": str(DEATHS - 1)}
        command = [self.python, "-m", f"distributed.cli.dask_{what}", "--no-dashboard", *words]
        with open(os.path.join(self.room, what + ".log"), "wb") as log:
            self.programs.append(subprocess.Popen(command, cwd=self.room, env=environment, stdout=log, stderr=log))

    def __enter__(self):
        preload = os.path.join(HERE, "lib", "opens.py")
        self.start("scheduler", "--host", "127.0.0.1", "--port", "0", "--scheduler-file", self.scheduler_file)
        wait_for(lambda: os.path.exists(self.scheduler_file) and os.path.getsize(self.scheduler_file))
        with open(self.scheduler_file, encoding="ascii") as file:
            self.address = json.load(file)["address"]
        self.start("worker", self.address, "--nworkers", "2", "--nthreads", "1", "--preload", preload, "--local-directory", self.room)
        return self

    def __exit__(self, *_):
        for program in reversed(self.programs):
            program.terminate()
        for program in reversed(self.programs):
            try:
                program.wait(20)
            except subprocess.TimeoutExpired:
                program.kill()
                program.wait()

    def opens(self):
        """The process and the name of each file that was opened."""
        if not os.path.exists(self.log):
            return []
        with open(self.log, encoding="utf-8") as lines:
            return [tuple(line.split()) for line in lines]

    def scan(self, names, *words):
        """Begins a scan of these files."""
        listing = write(self.room, "list", b"".join(os.fsencode(name) + b"\n" for name in names))
        command = [self.python, CHECK, "--scheduler", self.address, *words, listing]
        return subprocess.Popen(command, cwd=self.room, stdout=subprocess.PIPE, stderr=subprocess.PIPE)

    def lines(self, names, *words):
        """The lines of a scan of these files, the words on standard error, and the status."""
        program = self.scan(names, *words)
        out, errors = program.communicate(timeout=PATIENCE)
        return out.decode("utf-8", "surrogateescape").split("\n")[:-1], errors.decode(), program.returncode


def write(room, name, data):
    path = os.path.join(room, name)
    with open(path, "wb") as file:
        file.write(data)
    return path


def differences(what, found, wanted):
    """How many lines differ, after the first of them are printed."""
    wrong = [(one, other) for one, other in zip(found, wanted) if one != other]
    for one, other in wrong[:5]:
        print(f"many: {what}: {one[:300]!r}, and not {other[:300]!r}")
    if len(found) != len(wanted):
        print(f"many: {what}: {len(found)} lines, and not {len(wanted)}")
    return len(wrong) + abs(len(found) - len(wanted))


# What is scanned


def vector_line(name, data, lines):
    """The line that a vector wants. Of a fault of the reader the place is left out, since the vectors have none."""
    is_fault = lines[-1].startswith("FAULT")
    return f"{name}\t{len(lines) - is_fault}\t{len(data)}\t{fault_message(lines[-1]) if is_fault else '-'}"


def without_place(line, wanted):
    """The line without the place of its fault, if the wanted one has none."""
    cells, fault = line.split("\t"), wanted.split("\t")[-1]
    if fault.startswith(": ") and cells[-1].endswith(fault):
        cells[-1] = fault
    return "\t".join(cells)


def vector_inputs():
    scans = [(data, lines) for words, data, lines in rows() if words == ["scan", "any"]]
    return scans + [(data, lines) for words, data, lines in vectors() if words == ["any"]]


def generated():
    """Texts of several lengths and encodings, of which a third has a fault somewhere."""
    r = random.Random(31)
    for number in range(GENERATED):
        text = realistic(r.choice([0, 300, 5000, 60_000]), number) + r.choice(["", "a: '" + "é" * r.randrange(200_000) + "'\n"])
        data = text.encode(r.choice(["utf-8", "utf-8", "utf-16"]))
        at = r.randrange(len(data) + 1)
        yield data if r.random() < 0.6 else data[:at] + r.choice([b"\xff", b"\n]: {", b"\0\0"]) + data[at:]


def plain_line(counter, name, data):
    tokens, fault = counter.count(data)
    return f"{name}\t{tokens}\t{len(data)}\t{fault or '-'}"


def try_faults(counter):
    """The places of faults that are written down by hand for lint."""
    wrong, count = 0, 0
    for name in ("scanner", "context", "reader", "blank before", "marked", "big"):
        data, wanted = LINTS[name][:2]
        count += 1
        wrong += differences(name, [counter.count(data)[1]], wanted[-1:])
    print(f"many: {count} faults, {wrong} wrong")
    return not wrong


def archive(path, mode, inputs, **settings):
    """Writes an archive that has more than files: a folder, a link, a name of 300 bytes."""
    with tarfile.open(path, mode, **settings) as made:
        folder = tarfile.TarInfo("folder")
        folder.type = tarfile.DIRTYPE
        made.addfile(folder)
        for name, data in inputs:
            member = tarfile.TarInfo(name)
            member.size = len(data)
            made.addfile(member, io.BytesIO(data))
        link = tarfile.TarInfo("link")
        link.type, link.linkname = tarfile.SYMTYPE, inputs[0][0]
        made.addfile(link)


def zip_archive(path, inputs):
    """Writes a zip archive that has more than files: a folder."""
    with zipfile.ZipFile(path, "w", zipfile.ZIP_DEFLATED) as made:
        made.writestr("folder/", b"")
        for name, data in inputs:
            made.writestr(name, data)


def try_damaged(room):
    """Small archives that are damaged at each byte, and single ones, read in processes of this machine without a cluster."""
    jobs = [(one.name, what) for one in damaged.small_archives() for what in (damaged.wrong_cuts, damaged.wrong_flips)]
    with concurrent.futures.ProcessPoolExecutor() as processes:
        begun = [processes.submit(damaged.wrong_damages, LIBRARY, *job) for job in jobs]
        found = [one.result() for one in begun]
    wrong, count = sum((one for one, _ in found), []), sum(many for _, many in found)
    more_wrong, more = damaged.wrong_cases(LIBRARY, room)
    holes = damaged.wrong_holes(room)
    for one in (wrong + more_wrong)[:10]:
        print(f"many: damaged: {one[:300]}")
    told = "no GNU tar for files with holes" if holes is None else f"files with holes in 2 formats, {len(holes)} wrong"
    print(f"many: {count} bytes of {len(jobs) // 2} archives cut and flipped, {len(wrong)} wrong; {more} others, {len(more_wrong)} wrong; {told}")
    return not wrong and not more_wrong and not holes and count > 40_000 and more > 30


def seconds_to_read(path):
    """The least processor time that reading a tar archive took, of three times, and how many members it has."""
    taken = []
    for _ in range(3):
        start = time.process_time()
        count = sum(1 for _ in read_tar(path))
        taken.append(time.process_time() - start)
    return min(taken), count


def try_small_members(room):
    """Small members of archives that unpack to a thousand times as many bytes: each takes about as long as of a plain tar."""
    inputs, seconds = [(str(number), EQUAL) for number in range(6000)], {}
    for kind in ("", "gz", "bz2", "xz"):
        path = os.path.join(room, "small.tar" + kind)
        archive(path, "w:" + kind, inputs)
        seconds[kind], count = seconds_to_read(path)
    times = {kind: seconds[kind] / seconds[""] for kind in ("gz", "bz2", "xz")}
    wrong = sum(one > 6 for one in times.values()) + (count != len(inputs))
    told = ", ".join(f"{kind} {one:.1f}" for kind, one in times.items())
    print(f"many: {count} small members take so many times as long as of a plain tar: {told}; {wrong} wrong")
    return not wrong


def try_files(machines, room, counter):
    """Vectors and generated texts, as files."""
    inputs = vector_inputs()
    names = [f"{number}.yaml" for number in range(len(inputs))]
    wanted = [vector_line(name, data, lines) for name, (data, lines) in zip(names, inputs)]
    texts = list(generated())
    for name, (data, _) in zip(names, inputs):
        write(room, name, data)
    for number, data in enumerate(texts):
        names.append(os.path.join(room, f"text{number}"))
        wanted.append(plain_line(counter, write(room, names[-1], data), data))
    found, errors, status = machines.lines(names, "--part", "2")
    found = [without_place(line, other) for line, other in zip(found, wanted)] + found[len(wanted) :]
    wrong = differences("files", found, wanted) + (status != 1 or f"check: {len(names)} files, " not in errors)
    print(f"many: {len(names)} files, {wrong} wrong")
    return not wrong and len(inputs) > 5000 and sum(line.endswith("\t-") for line in wanted[len(inputs) :]) in range(GENERATED // 4, GENERATED * 3 // 4)


def try_archives(machines, room, counter):
    """The same kinds of inputs as members of archives, plain and compressed, and of some that are cut."""
    inputs = [(f"{number}/{'n' * (300 if number % 9 == 0 else 3)}", data) for number, (data, _) in enumerate(vector_inputs()[::20])]
    inputs += [(f"text{number}", data) for number, data in enumerate(itertools.islice(generated(), 30))]
    kinds = (("a.tar", "w", {}), ("b.tar.gz", "w:gz", {}), ("c.TAR.xz", "w:xz", {"preset": 0}), ("d.tar.bz2", "w:bz2", {}))
    for name, mode, settings in kinds:
        archive(os.path.join(room, name), mode, inputs, **settings)
    zip_archive(os.path.join(room, "e.zip"), inputs)
    names = [*(name for name, _, _ in kinds), "e.zip"]
    lines = [plain_line(counter, f"{name}:{member}", data) for name in names for member, data in inputs]
    found, _, status = machines.lines(names, "--part", "1")
    wrong = differences("archives", found, lines) + (status != 1)
    for name in names:
        path = os.path.join(room, name)
        os.truncate(path, os.path.getsize(path) // 2)
    found, _, status = machines.lines([*names, "0.yaml"])
    unread = [line for line in found if "\t-\t-\tnot read: " in line]
    wrong += status != 3 or len(unread) != len(names) or not found[-1].startswith("0.yaml\t") or len(found) < len(inputs)
    wrong += len(set(found) - set(unread) - set(lines)) != 1
    print(f"many: {len(lines)} members of {len(names)} archives, and {len(names)} cut archives, {wrong} wrong")
    return not wrong


def try_unread(machines, room):
    """Files that can not be read, among others."""
    os.mkdir(os.path.join(room, "folder"))
    os.mkdir(os.path.join(room, "folder.zip"))
    os.mkfifo(os.path.join(room, "pipe"))
    os.mkfifo(os.path.join(room, "pipe.tar"))
    write(room, "no.tar", b"a: 1")
    write(room, "tab\there", b"a: 1")
    write(room, "\udce9", b"a: b: c")
    rows_wanted = [
        ("none", "none\t-\t-\tnot read: No such file or directory"),
        ("tab\there", "tab\\there\t8\t4\t-"),
        ("folder", "folder\t-\t-\tnot read: Is a directory"),
        ("pipe", "pipe\t-\t-\tnot read: it is no regular file"),
        ("pipe.tar", "pipe.tar\t-\t-\tnot read: it is no regular file"),
        ("folder.zip", "folder.zip\t-\t-\tnot read: Is a directory"),
        ("none.tar.gz", "none.tar.gz\t-\t-\tnot read: No such file or directory"),
        ("no.tar", "no.tar\t-\t-\tnot read: .."),
        ("n" * 300, "n" * 300 + "\t-\t-\tnot read: File name too long"),
        ("nul\0", "nul\0\t-\t-\tnot read: .."),
        ("\udce9", "\udce9\t6\t7\t1:5: mapping values are not allowed in this context"),
    ]
    found, errors, status = machines.lines([name for name, _ in rows_wanted])
    found = [re.sub(r"^((no\.tar|nul\0)\t-\t-\tnot read: )\w.*", r"\1..", line) for line in found]
    wrong = differences("unread", found, [line for _, line in rows_wanted])
    wrong += status != 3 or "1 with a fault, 9 not read; " not in errors
    print(f"many: {len(rows_wanted)} files, most of them not to be read, {wrong} wrong")
    return not wrong


# Workers that end


def equal_files(machines, count, special):
    """Writes files of one length, and returns their names and the size of a part that has so many of them."""
    names = [f"{number}.yaml" for number in range(count)]
    for at, name in special.items():
        names[at] = name
    return [write(machines.files, name, EQUAL) for name in names]


def part_of(count):
    """The size of a part of so many equal files, as check.py weighs them, in megabytes."""
    return str(count * (10_000 + len(EQUAL)) / 1e6)


def try_kill(machines, counter):
    """Kills a worker while it opens the third file of a part of five, when all that others can do is done."""
    paths = equal_files(machines, 100, {52: "wait.yaml"})
    program = machines.scan(paths, "--part", part_of(5))
    name_of = [os.path.basename(path) for path in paths]

    def all_but_one_part():
        names = [name for _, name in machines.opens()]
        return "wait.yaml" in names and len(set(names)) >= 93

    wait_for(all_but_one_part)
    time.sleep(0.5)
    killed = next(process for process, name in machines.opens() if name == "wait.yaml")
    os.kill(int(killed), signal.SIGKILL)
    wait_for(lambda: sum(name == "wait.yaml" for _, name in machines.opens()) == 2)
    write(machines.room, "go", b"")
    out, _ = program.communicate(timeout=PATIENCE)
    wrong = differences("kill", out.decode().split("\n")[:-1], [plain_line(counter, path, EQUAL) for path in paths])
    times = collections.Counter(name for _, name in machines.opens())
    wanted = {**dict.fromkeys(name_of, 1), **dict.fromkeys(name_of[50:53], 2)}
    if times != wanted:
        print(f"many: kill: files were opened {times}")
    processes = [process for process, name in machines.opens() if name == "wait.yaml"]
    wrong += times != wanted or program.returncode != 0 or processes[0] == processes[1]
    print(f"many: a worker killed in the middle of {len(paths)} files, {wrong} wrong")
    return not wrong


def try_deadly(machines, counter):
    """A file at which each worker ends, in a part of two, is lost alone."""
    paths = equal_files(machines, 40, {25: "deadly.yaml"})
    found, errors, status = machines.lines(paths, "--part", part_of(2))
    wanted = [plain_line(counter, path, EQUAL) for path in paths]
    wanted[25] = f"{paths[25]}\t-\t-\t{WHY_LOST}"
    deaths = sum(name == "deadly.yaml" for _, name in machines.opens())
    wrong = differences("deadly", found, wanted) + (status != 3 or "1 not read; " not in errors) + (deaths != 2 * DEATHS)
    print(f"many: a file at which {deaths} workers ended, {wrong} wrong")
    return not wrong


def try_uneven(machines, counter):
    """Files that are longer than was guessed from every third of them: what workers give back is scanned, and nothing twice."""
    paths = [write(machines.files, f"uneven{number}.yaml", EQUAL * (300 if number % 3 else 1)) for number in range(600)]
    before = len(machines.opens())
    found, _, status = machines.lines(paths)
    wrong = differences("uneven", found, [plain_line(counter, path, EQUAL * (300 if number % 3 else 1)) for number, path in enumerate(paths)])
    times = collections.Counter(name for _, name in machines.opens()[before:])
    wrong += status != 0 or times != dict.fromkeys(map(os.path.basename, paths), 1)
    print(f"many: {len(paths)} files of uneven lengths, {wrong} wrong")
    return not wrong


def try_gone(machines, counter):
    """The scheduler is killed while a worker waits: the lines are whole and the first ones, and the call says what it is."""
    paths = equal_files(machines, 60, {40: "wait.yaml"})
    os.remove(machines.go)
    before = len(machines.opens())
    program = machines.scan(paths, "--part", part_of(2))
    wait_for(lambda: len(machines.opens()) >= before + len(paths) - 3)
    time.sleep(0.5)
    machines.programs[0].kill()
    out, errors = program.communicate(timeout=PATIENCE)
    write(machines.room, "go", b"")
    wanted = b"".join(plain_line(counter, path, EQUAL).encode() + b"\n" for path in paths)
    good = wanted.startswith(out) and (not out or out.endswith(b"\n")) and len(out) < len(wanted)
    wrong = (not good) + ((program.returncode, errors) != (3, b"check: the scheduler is gone\n"))
    if wrong:
        print(f"many: gone: status {program.returncode}, {errors[:300]}")
    print(f"many: the scheduler killed after {out.count(10)} of {len(paths)} lines, {wrong} wrong")
    return not wrong


# On one machine


def try_alone(python, room):
    """A cluster that check.py begins itself, with a list on standard input and a terminal for the bar; and wrong calls."""
    write(room, "good", b"a: 1")
    main, terminal = pty.openpty()
    words = [python, CHECK, "--workers", "2"]
    done = subprocess.run([*words, "-"], cwd=room, input=b"good\n\ngood\n", stdout=subprocess.PIPE, stderr=terminal, timeout=PATIENCE)
    os.close(terminal)
    shown = os.read(main, 65536).decode()
    os.close(main)
    wrong = differences("alone", done.stdout.decode().split("\n"), ["good\t8\t4\t-", "good\t8\t4\t-", ""])
    wrong += done.returncode != 0 or "#] 100%  2 files, 0 with a fault" not in shown
    for more, status, wanted in (
        ("none", 3, "check: none: No such file or directory\n"), (".", 3, "check: .: Is a directory\n"),
        ("- <&-", 3, "check: Bad file descriptor\n"),
        ("--library none good", 3, "check: .*none: cannot open shared object file: No such file or directory\n"),
        ("--workers 0 good", 2, "usage: check (?s:.*)\ncheck: error: .*\n"),
    ):
        line = ["sh", "-c", f'"$@" {more}', "sh", *words]
        done = subprocess.run(line, cwd=room, stdin=subprocess.DEVNULL, capture_output=True, text=True, timeout=PATIENCE)
        wrong += (done.returncode, done.stdout) != (status, "") or not re.fullmatch(wanted, done.stderr)
    print(f"many: a cluster of its own and wrong calls, {wrong} wrong")
    return not wrong


def ended(python, room, how, more=()):
    """The status and the words on standard error of a scan of many files that are not there, which a function ends."""
    words = [python, CHECK, "--workers", "1", "--part", "1", *more, "absent"]
    program = subprocess.Popen(words, cwd=room, stdout=subprocess.PIPE, stderr=subprocess.PIPE, start_new_session=True)
    how(program)
    errors = program.communicate(timeout=PATIENCE)[1].decode()
    return program.returncode, errors


def interrupt(program):
    os.killpg(program.pid, signal.SIGINT)


def close_pipe(program):
    program.stdout.readline()
    program.stdout.close()
    program.stdout = None


def interrupt_in_the_middle(program):
    program.stdout.readline()
    interrupt(program)


def interrupted_after(seconds):
    def wait(program):
        with_imports = f"/proc/{program.pid}/maps"
        wait_for(lambda: "lib-dynload" in open(with_imports, encoding="utf-8").read())  # no longer Python's own beginning
        time.sleep(seconds)
        interrupt(program)

    return wait


def try_broken_off(python, room, *more):
    """Writes that fail, a pipe that is closed, and interrupts at several times, from the keyboard: to all processes at once."""
    write(room, "absent", b"".join(b"none%d\n" % number for number in range(60_000)))
    ways = {"interrupted in the middle": interrupt_in_the_middle, "closed pipe": close_pipe}
    ways.update((f"interrupted after {seconds} s", interrupted_after(seconds)) for seconds in (0, 0.5, 1, 1.5))
    wanted = {name: (3 if name == "closed pipe" else 130, "") for name in ways}
    found = {name: ended(python, room, how, more) for name, how in ways.items()}
    for target, words in (("/dev/full", "No space left on device"), ("&-", "Bad file descriptor")):
        command = ["sh", "-c", f'"$@" >{target}', "sh", python, CHECK, "--workers", "1", *more, "absent"]
        done = subprocess.run(command, cwd=room, capture_output=True, text=True, timeout=PATIENCE)
        found[target] = done.returncode, done.stderr
        wanted[target] = 3, f"check: write failed: {words}\n"
    wrong = {name: told for name, told in found.items() if told != wanted[name]}
    print(f"many: {len(found)} ways to be broken off, {len(wrong)} wrong {str(wrong)[:600] if wrong else ''}")
    return not wrong


def try_no_dask():
    """A Python without dask.distributed: help, version and wrong words need none, and all else says that it is needed. With -E
    and -S Python finds none."""
    wrong = []
    for words, status, wanted in (
        ("--help", 0, "usage: check "), ("--version", 0, f"check (Bogzhami) {VERSION}\n"), ("", 2, "usage: check "),
        ("--part 0 list", 2, "usage: check "), ("list", 3, "check: No module named 'dask': dask.distributed is needed "),
    ):
        done = subprocess.run([sys.executable, "-E", "-S", CHECK, *words.split()], capture_output=True, text=True, timeout=PATIENCE)
        told = done.stderr if status else done.stdout
        if done.returncode != status or not told.startswith(wanted) or "Traceback" in told:
            wrong.append((words, done.returncode, told[-300:]))
    print(f"many: 5 calls without dask.distributed, {len(wrong)} wrong {wrong or ''}")
    return not wrong


def main():
    # A program that a script starts in the background ignores interrupts, and so would those that are started here.
    signal.signal(signal.SIGINT, signal.default_int_handler)
    good, python = [try_no_dask()], python_with_dask()
    if shutil.which("cc") is None or python is None:
        print("many: skipped: no C compiler" if python else "many: skipped: no dask.distributed (Debian: python3-distributed)")
        return 0 if all(good) else 1
    build_library()
    counter = Counter(LIBRARY)
    good.append(try_faults(counter))
    with tempfile.TemporaryDirectory() as room:
        good += [try_damaged(room), try_small_members(room)]
    with tempfile.TemporaryDirectory() as room:
        with Machines(python, room) as machines:
            good += [
                try_kill(machines, counter),
                try_deadly(machines, counter),
                try_uneven(machines, counter),
                try_files(machines, room, counter),
                try_archives(machines, room, counter),
                try_unread(machines, room),
                try_broken_off(python, room, "--scheduler", machines.address),
                try_gone(machines, counter),
            ]
        good += [try_alone(python, room), try_broken_off(python, room)]
    return 0 if all(good) else 1


if __name__ == "__main__":
    from lib.usage import answer_questions

    answer_questions()
    sys.exit(main())
