#!/usr/bin/env python3
"""Scans the YAML files that a list names, on many processors or machines: check.py [--scheduler ADDRESS] LIST.

LIST has a path a line; `-` is standard input. Of a path that ends as a tar or zip archive, the regular members are scanned. For each
file there is one line of output, in the order of the list, with tabs in it: path, tokens, bytes, and the fault with its line
and column, or `-`. The exit status is 0, 1 if a file has a fault, 2 if the call is wrong, and 3 if a file was not read.
"""

import os
import signal

LOST, INTERRUPTED = 3, 130  # exit statuses
HANDLER = signal.getsignal(signal.SIGINT)
if __name__ == "__main__" and HANDLER is signal.default_int_handler:
    signal.signal(signal.SIGINT, lambda *_: os._exit(INTERRUPTED))  # what is imported takes a while

import argparse
import collections
import contextlib
import errno
import hashlib
import itertools
import logging
import math
import pickle
import queue
import sys
import time
from concurrent.futures import CancelledError
from multiprocessing import resource_tracker

HERE = os.path.dirname(os.path.abspath(__file__))
sys.path.insert(0, HERE)
sys.dont_write_bytecode = True
import archives
import count
from count import FILE_WEIGHT, Part, archive_entries, joined, member_name, scan_part, unread_line

TOP = os.path.join(HERE, "..", "..")
LIBRARY = os.path.join(TOP, "ffi", "out", "libbogzhami.so")


def version():
    """The version of the checkout that this file is in."""
    try:
        with open(os.path.join(TOP, "VERSION"), encoding="ascii") as text:
            return text.read().strip()
    except OSError:
        return "unknown"


def arguments():
    parser = argparse.ArgumentParser(prog="check", description="Scans the YAML files that a list names.")
    parser.add_argument("--scheduler", metavar="ADDRESS", help="of dask.distributed, as tcp://HOST:8786; without it, a cluster here")
    parser.add_argument("--workers", metavar="N", type=int, help="of the cluster here: as many as there are processors, if not given")
    parser.add_argument("--part", metavar="MB", type=float, default=64, help="the most that a worker gets at a time (64)")
    parser.add_argument("--library", metavar="FILE", type=os.path.abspath, default=LIBRARY, help="libbogzhami.so (that of ffi/out)")
    parser.add_argument("--version", action="version", version=f"check (Bogzhami) {version()}", help="print the version")
    parser.add_argument("list", metavar="LIST", help="a file with a path a line, or -")
    words = parser.parse_args()
    if words.part <= 0 or words.workers is not None and words.workers < 1:
        parser.error("a part has more than 0 MB, and a cluster at least one worker")
    return words


if __name__ == "__main__":
    WORDS = arguments()  # before what may be missing is imported

try:
    import dask.config
    from distributed import Client, KilledWorker, LocalCluster, WorkerPlugin, get_worker
    from distributed.comm import CommClosedError
except ImportError as lacking:
    sys.stderr.write(f"check: {lacking}: dask.distributed is needed (Debian: python3-distributed, for /usr/bin/python3)\n")
    sys.exit(LOST)

ARCHIVES = (b".tar", b".tar.gz", b".tgz", b".tar.bz2", b".tbz2", b".tar.xz", b".txz", b".zip")
MEGABYTE = 1_000_000
SAMPLE = 256  # the system is asked for the size of about so many files, to guess how long all are
ROUND_SHARE = 0.75  # a round of parts, one for each processor, is so much of what is left,
LEAST_SHARE = 0.1  # but not less than so much of all
TOO_MUCH = 1.25  # a worker gives back the rest of a part that weighs so many times what was guessed
WAITING_EACH = 2  # how many parts a processor may have at a time: one that it scans, and one that waits
BAR = 30
# What dask.distributed does for its charts: look up the source of who hands out work, and look every 10 ms at what a worker does.
NO_CHARTS = {"distributed.diagnostics.computations.ignore-modules": [".*"], "distributed.worker.profile.enabled": False}


class SendLibrary(WorkerPlugin):
    """Puts the library into the folder of each worker, also of one that comes later, under a name of its own."""

    def __init__(self, path):
        with open(path, "rb") as file:
            self.data = file.read()
        self.file_name = f"libbogzhami-{hashlib.sha256(self.data).hexdigest()[:16]}.so"

    def setup(self, worker):
        path = os.path.join(worker.local_directory, self.file_name)
        if not os.path.exists(path):
            with open(path + ".new", "wb") as file:
                file.write(self.data)
            os.rename(path + ".new", path)


def scan_on_worker(packed):
    file_name, *words = pickle.loads(packed)
    return scan_part(os.path.join(get_worker().local_directory, file_name), *words)


# The list


def read_list(name):
    """The lines of the list, without the empty ones."""
    with open(0 if name == "-" else name, "rb", closefd=name != "-") as file:
        data = file.read()
    return [line for line in data.split(b"\n") if line]


def size_of(path):
    try:
        return os.stat(path).st_size
    except (OSError, ValueError):
        return 0


class Job:
    """A part: its entries, and what they weigh as far as is known. A worker that has scanned so many of them that they weigh
    `most` gives back the rest. The lines come when it is done."""

    def __init__(self, entries, weight, most):
        self.entries, self.weight, self.most, self.lines = entries, weight, most, None


class Cut:
    """Cuts what a list names into parts, in rounds: one part for each processor. The first round is large, so that there are few
    parts, and the last ones are small, so that all processors end at about the same time.

    A file is not looked at before a worker reads it. Each counts as the mean of some that are spread over the list."""

    def __init__(self, lines, most):
        self.lines, self.most = lines, most
        self.archives = [number for number, path in enumerate(lines) if path.lower().endswith(ARCHIVES)]
        sample = lines[:: len(lines) // SAMPLE + 1]
        self.usual = FILE_WEIGHT + sum(map(size_of, sample)) // max(1, len(sample))
        self.total, self.given = self.usual * len(lines), 0  # what all weighs, as far as is known, and what the parts weigh

    def runs(self):
        """Entries that follow one another in the list, and what each of them weighs."""
        start = 0
        for number in self.archives:
            yield self.lines[start:number], self.usual
            found = archive_entries(self.lines[number])
            self.total += sum(weight for _, weight in found) - self.usual
            yield from (([entry], weight) for entry, weight in found)
            start = number + 1
        yield self.lines[start:], self.usual

    def job(self, entries, weight):
        self.given += weight
        return Job(entries, weight, round(TOO_MUCH * weight))

    def shares(self, processors):
        """What each part may weigh, which is the same in all of a round."""
        while True:
            share = max((self.total - self.given) * ROUND_SHARE, self.total * LEAST_SHARE)
            files = math.ceil(share / processors / self.usual)
            yield from [min(self.most, files * self.usual)] * processors

    def jobs(self, processors):
        """All parts, for so many processors."""
        entries, full, share, shares = [], 0, 0, self.shares(processors)
        for run, weight in self.runs():
            at = 0
            while at < len(run):
                share = share if entries else next(shares)
                fit = max(0 if entries else 1, (share - full) // weight)
                more = run[at : at + fit]
                entries += more
                full, at = full + weight * len(more), at + len(more)
                if at < len(run):
                    yield self.job(entries, full)
                    entries, full = [], 0
        if entries:
            yield self.job(entries, full)


# Scanning


def lost(entry):
    """The part of an entry at which every worker ended."""
    name = entry if isinstance(entry, bytes) else entry.path if entry.member is None else member_name(entry.path, entry.member)
    return Part(unread_line(name, "each worker that read it was ended"), 1, 0, 0, 0, 1)


class Scan:
    """The scan of all parts by the workers that a client knows."""

    def __init__(self, client, library, folder):
        plugin = SendLibrary(library)
        client.upload_file(archives.__file__)  # which count imports
        client.upload_file(count.__file__)
        client.register_worker_plugin(plugin, name=plugin.file_name)
        self.client, self.words = client, (plugin.file_name, folder)
        self.processors, self.asked = sum(client.nthreads().values()), time.monotonic()
        self.order = []  # the parts that are begun and whose lines are not written, as in the list
        self.left = collections.deque()  # those of them that no worker has
        self.running, self.ended = 0, queue.SimpleQueue()

    def room(self):
        """How many parts may be with the workers at a time. More workers may have come, or some gone."""
        if time.monotonic() > self.asked + 1:
            self.processors, self.asked = sum(self.client.nthreads().values()), time.monotonic()
        return WAITING_EACH * max(1, self.processors)

    def submit(self, parts):
        # packed, since dask would look into each entry for results of other calls
        packed = [pickle.dumps((*self.words, entries, most)) for entries, most in parts]
        return self.client.map(scan_on_worker, packed, pure=False)

    async def bring(self, job, future):
        """Puts what comes of a part into the queue: what a worker found, or what went wrong."""
        try:
            result = await self.client.gather(future, asynchronous=True)
        except BaseException as wrong:
            result = wrong
        self.ended.put((job, result))

    def fill(self, jobs):
        """Begins parts, as many as there is room for: what was given back, and then new ones."""
        free = range(self.room() - self.running)
        new = list(itertools.islice(jobs, max(0, len(free) - len(self.left))))
        self.order += new
        self.left += new
        begun = [self.left.popleft() for _ in free if self.left]
        futures = self.submit([(job.entries, job.most) for job in begun]) if begun else []
        for job, future in zip(begun, futures):
            self.client.loop.add_callback(self.bring, job, future)
        self.running += len(begun)

    def again(self, entries):
        """Scans a part whose workers were all ended, by ever smaller pieces, so that only what ends them is not read."""
        if len(entries) == 1:
            return lost(entries[0])
        size, pieces = math.isqrt(len(entries)), []
        for at in range(0, len(entries), size):
            piece = entries[at : at + size]
            try:
                pieces.append(self.submit([(piece, math.inf)])[0].result()[0])
            except KilledWorker:
                pieces.append(self.again(piece) if len(piece) > 1 else lost(piece[0]))
        return joined(pieces)

    def give_back(self, job, done):
        """Makes parts of what a worker left of a part. If they are like what it scanned, they weigh what was guessed."""
        size = math.ceil(done / TOO_MUCH)
        rest = [job.entries[at : at + size] for at in range(done, len(job.entries), size)]
        job.weight //= len(rest) + 1
        pieces = [Job(entries, job.weight, job.most) for entries in rest]
        at = self.order.index(job) + 1
        self.order[at:at] = pieces
        self.left += pieces

    def end(self, job, result):
        if isinstance(result, KilledWorker):
            result = self.again(job.entries), len(job.entries)
        if isinstance(result, BaseException):
            raise result
        part, done = result
        if done < len(job.entries):
            self.give_back(job, done)
        job.lines = part.lines
        return part._replace(lines=b"")

    def parts(self, jobs):
        """What was found in each part, as parts are done; its lines are in the job."""
        self.fill(jobs)
        while self.running:
            job, result = self.ended.get()
            self.running -= 1
            found = self.end(job, result)
            self.fill(jobs)
            yield found

    def ready(self):
        """The parts whose lines are to be written next."""
        while self.order and self.order[0].lines is not None:
            yield self.order.pop(0)


# What is written and shown


class Unwritten(Exception):
    """A failed write of lines, with the system's error."""


def write_out(data):
    """Writes to standard output at once, so that nothing is left to be written if it fails."""
    try:
        left = memoryview(data)
        while left:
            left = left[os.write(1, left) :]
    except OSError as reason:
        raise Unwritten(reason) from None


class Bar:
    """A bar on standard error, if that is a terminal: how much of the list is behind us."""

    def __init__(self):
        self.start, self.is_shown = time.monotonic(), sys.stderr.isatty()

    def show(self, share, found):
        if self.is_shown:
            speed = found.bytes / MEGABYTE / (time.monotonic() - self.start)
            full = "#" * round(BAR * share)
            text = f"[{full:{BAR}}] {share:4.0%}  {found.files} files, {found.faults} with a fault  {speed:.0f} MB/s"
            sys.stderr.write(f"\r{text}\x1b[K")
            sys.stderr.flush()

    def end(self, found, processors):
        taken = time.monotonic() - self.start
        sys.stderr.write(
            ("\r\x1b[K" if self.is_shown else "")
            + f"check: {found.files} files, {found.bytes} bytes, {found.tokens} tokens; {found.faults} with a fault, "
            f"{found.unread} not read; {taken:.2f} s on {processors} processors\n"
        )


def write_all(scan, cut, processors, bar):
    """Writes the lines of all parts in the order of the list, and returns their counts."""
    found, behind = Part(b"", 0, 0, 0, 0, 0), 0
    for part in scan.parts(cut.jobs(processors)):
        for job in scan.ready():
            write_out(job.lines)
            behind += job.weight
        found = joined([found, part])
        bar.show(behind / cut.total, found)
    return found


@contextlib.contextmanager
def uninterrupted():
    """Keeps an interrupt from the keyboard waiting. Threads that begin meanwhile, and what they begin, never get any."""
    came = []
    resource_tracker.ensure_running()  # else a thread that makes a process begins it, and gets interrupts after that
    handler = signal.signal(signal.SIGINT, lambda *_: came.append(True))
    mask = signal.pthread_sigmask(signal.SIG_BLOCK, {signal.SIGINT})
    try:
        yield
    finally:
        signal.pthread_sigmask(signal.SIG_SETMASK, mask)
        signal.signal(signal.SIGINT, handler)
    if came and handler is not signal.SIG_IGN:
        raise KeyboardInterrupt


def begin_client(words, begun):
    """A client of the scheduler that is named, or of a cluster on this machine. It is closed with what has begun."""
    if words.scheduler:
        return begun.enter_context(Client(words.scheduler))
    workers = words.workers or len(os.sched_getaffinity(0))
    settings = {"threads_per_worker": 1, "dashboard_address": None, "silence_logs": logging.CRITICAL}
    cluster = begun.enter_context(LocalCluster(n_workers=workers, **settings))
    return begun.enter_context(Client(cluster))


def scan_list(words, cut):
    """Scans what a list names, and returns the exit status."""
    with contextlib.ExitStack() as begun:
        with uninterrupted():
            client = begin_client(words, begun)
        client.wait_for_workers(1)
        scan = Scan(client, words.library, os.fsencode(os.getcwd()))
        processors, bar = scan.processors, Bar()
        found = write_all(scan, cut, processors, bar)
        bar.end(found, processors)
    return LOST if found.unread else 1 if found.faults else 0


def told_of(wrong):
    """What an error of the system is about, if that has a name, and what it is."""
    return f"{wrong.filename}: {wrong.strerror}" if isinstance(wrong.filename, str) else wrong.strerror or wrong


def main(words):
    logging.disable(logging.CRITICAL)  # what dask.distributed would say of workers and schedulers that end
    dask.config.set(NO_CHARTS)
    try:
        signal.signal(signal.SIGINT, HANDLER)
        if sys.stdout is None:  # another file might have its number
            raise Unwritten(OSError(errno.EBADF, os.strerror(errno.EBADF)))
        count.Counter(words.library)
        return scan_list(words, Cut(read_list(words.list), max(1, round(words.part * MEGABYTE))))
    except (CancelledError, CommClosedError):
        sys.stderr.write("check: the scheduler is gone\n")
    except Unwritten as wrong:
        if wrong.args[0].errno != errno.EPIPE:
            sys.stderr.write(f"check: write failed: {wrong.args[0].strerror}\n")
        return LOST
    except KeyboardInterrupt:
        return INTERRUPTED
    except OSError as wrong:
        sys.stderr.write(f"check: {told_of(wrong)}\n")
    return LOST


if __name__ == "__main__":
    sys.exit(main(WORDS))
