#!/usr/bin/env python3
"""Measures the scanner beside what a user would take instead, as far as Debian has it, and writes peers.md: peers.py [BYTES].

All take the same realistic text of 10,000,000 bytes from memory, on one processor, by turns, in one run. Each has a driver in
peers/, a program that stays, so that what is compiled while it runs is compiled in the first turns. A time is the processor
time of the whole driver, with what collects memory or compiles in other threads, so that other work on the machine counts as
little as it can. Best and median of nine turns; what took ten seconds in all gets no further turn. PROCESSOR is the number of
the processor, 1 if it is not set. peers.md is written after each round of turns. Of what is loaded, the entries of the top mapping are counted. What has no package here
is skipped, and says why.
"""

import collections
import datetime
import glob
import os
import shutil
import statistics
import subprocess
import sys
import tempfile

from c import machine
from common import answer_help, line, ratio
from realistic import realistic

HERE = os.path.dirname(os.path.abspath(__file__))
DRIVERS = os.path.join(HERE, "peers")
FFI = os.path.join(os.path.dirname(HERE), "ffi")
LIBRARY = os.path.join(FFI, "out", "libbogzhami.a")
CRATES = "/usr/share/cargo/registry"
GO = "/usr/share/gocode"
JAR = "/usr/share/java/snakeyaml.jar"
NODE = "/usr/share/nodejs"
PYTHON = "/usr/bin/python3"
PINNED = ["taskset", "-c", os.environ.get("PROCESSOR", "1")]
TURNS = 9
SECONDS = 10  # after that a measure gets no further turn

# `tool` is a program that is needed, `build` makes the driver in a folder and returns the command that runs it, `whats` are the
# words that the driver knows, with what they mean.
Peer = collections.namedtuple("Peer", "name package tool build whats")
Row = collections.namedtuple("Row", "name version what count best median turns")


class Lacking(Exception):
    """Why a peer can not be measured."""


def compiled(words, **settings):
    done = subprocess.run(words, capture_output=True, text=True, **settings)
    if done.returncode:
        raise Lacking(f"`{words[0]}` failed: {done.stderr.strip().splitlines()[0] if done.stderr.strip() else done.returncode}")


def build_ours(room):
    if not os.path.exists(LIBRARY):
        raise Lacking("`ffi/build` was not run")
    program = os.path.join(room, "ours")
    compiled(["cc", "-O2", "-I", FFI, "-I", DRIVERS, os.path.join(DRIVERS, "ours.c"), LIBRARY, "-o", program])
    return [program]


def build_c(source, *libraries):
    def build(room):
        program = os.path.join(room, source.split(".")[0])
        compiler = "c++" if source.endswith(".cc") else "cc"
        compiled([compiler, "-O2", "-I", DRIVERS, os.path.join(DRIVERS, source), *libraries, "-o", program])
        return [program]
    return build


def crate_source(name):
    found = sorted(glob.glob(os.path.join(CRATES, name + "-[0-9]*", "src", "lib.rs")))
    if not found:
        raise Lacking(f"no source of the crate {name}")
    return found[-1]


def build_rust(room):
    base = ["rustc", "-O", "--cap-lints", "allow", "--edition", "2018", "-L", room]
    compiled([*base, "--crate-type", "rlib", "--crate-name", "linked_hash_map", crate_source("linked-hash-map")], cwd=room)
    words = ["--crate-type", "rlib", "--crate-name", "yaml_rust", "--extern", "linked_hash_map"]
    compiled([*base, *words, crate_source("yaml-rust")], cwd=room)
    program = os.path.join(room, "yaml_rust")
    compiled([*base, "--extern", "yaml_rust", os.path.join(DRIVERS, "yaml_rust.rs"), "-o", program], cwd=room)
    return [program]


def build_go(source):
    def build(room):
        program = os.path.join(room, source.split(".")[0])
        settings = {**os.environ, "GO111MODULE": "off", "GOPATH": GO, "GOCACHE": os.path.join(room, "go")}
        compiled(["go", "build", "-o", program, os.path.join(DRIVERS, source)], env=settings)
        return [program]
    return build


def build_node(source):
    return lambda room: ["env", "NODE_PATH=" + NODE, "node", os.path.join(DRIVERS, source)]


def build_java(room):
    compiled(["javac", "-cp", JAR, "-d", room, os.path.join(DRIVERS, "SnakeYaml.java")])
    return ["java", "-cp", f"{JAR}:{room}", "SnakeYaml"]


def build_python(room):
    return [PYTHON, os.path.join(DRIVERS, "pyyaml.py")]


THREE = {"tokens": "tokens", "events": "events", "loading": "loading"}
BY_C = {"tokens by C": "tokens, by libyaml", "events by C": "events, by libyaml", "loading by C": "loading, by libyaml"}
PEERS = [
    Peer("this scanner", None, "cc", build_ours, {"tokens": "tokens, `bogzhami_next`, 256 a call"}),
    Peer("libyaml (C)", "libyaml-dev", "cc", build_c("libyaml.c", "-lyaml"), THREE),
    Peer("libfyaml (C)", "libfyaml-dev", "cc", build_c("libfyaml.c", "-lfyaml"), THREE),
    Peer("yaml-cpp (C++)", "libyaml-cpp-dev", "c++", build_c("yaml_cpp.cc", "-lyaml-cpp"), {"events": "events", "loading": "loading"}),
    Peer("yaml-rust (Rust)", "librust-yaml-rust-dev", "rustc", build_rust, THREE),
    Peer("goccy/go-yaml (Go)", "golang-github-goccy-go-yaml-dev", "go", build_go("goccy.go"), {"tokens": "tokens, `lexer.Tokenize`"}),
    Peer("yaml.v3 (Go)", "golang-gopkg-yaml.v3-dev", "go", build_go("yaml_v3.go"),
         {"nodes": "a tree of nodes", "loading": "loading"}),
    Peer("yaml (JavaScript)", "node-yaml", "node", build_node("yaml.js"),
         {"tokens": "tokens, `Lexer`", "tree": "a tree of tokens, `Parser`", "loading": "loading"}),
    Peer("js-yaml (JavaScript)", "node-js-yaml", "node", build_node("js_yaml.js"), {"loading": "loading"}),
    Peer("SnakeYAML (Java)", "libyaml-snake-java", "javac", build_java, THREE),
    Peer("PyYAML (Python)", "python3-yaml", PYTHON, build_python, {**THREE, **BY_C}),
]


def version_of(package):
    """The version of Debian's package, or None if it is not installed."""
    if shutil.which("dpkg-query") is None:
        return None
    words = ["dpkg-query", "-W", "-f", "${db:Status-Status} ${Version}", package]
    done = subprocess.run(words, capture_output=True, text=True)
    status, _, version = done.stdout.partition(" ")
    return version if done.returncode == 0 and status == "installed" else None


class Driver:
    """The program of a peer, which takes what it is told and says how long that took."""

    def __init__(self, peer, room, path):
        if peer.package and version_of(peer.package) is None:
            raise Lacking(f"Debian's {peer.package} is not installed")
        if shutil.which(peer.tool) is None:
            raise Lacking(f"no {peer.tool}")
        folder = os.path.join(room, peer.name.split(" ")[0].replace("/", "-"))
        os.makedirs(folder)
        command = [*PINNED, *peer.build(folder), path]
        pipes = {"stdin": subprocess.PIPE, "stdout": subprocess.PIPE, "stderr": subprocess.DEVNULL}
        self.program = subprocess.Popen(command, text=True, **pipes)

    def take(self, what):
        """How many there were and how many nanoseconds they took, or None if the program failed."""
        try:
            self.program.stdin.write(what + "\n")
            self.program.stdin.flush()
            count, taken = self.program.stdout.readline().split()
        except (OSError, ValueError):
            return None
        return (int(count), float(taken)) if int(count) else None

    def close(self):
        self.program.kill()
        self.program.communicate()


class Measure:
    """What one peer is asked for, and the turns that it had."""

    def __init__(self, peer, driver, what):
        self.peer, self.driver, self.what = peer, driver, what
        self.count, self.times, self.failed = 0, [], False

    def turn(self):
        if self.failed or sum(self.times) > SECONDS * 1e9:
            return
        found = self.driver.take(self.what)
        self.failed = found is None
        if found:
            self.count = found[0]
            self.times.append(found[1])


def start(room, path):
    """A driver's measures for each peer, and the reasons of those that are skipped."""
    measures, skipped = [], []
    for peer in PEERS:
        try:
            driver = Driver(peer, room, path)
        except Lacking as why:
            skipped.append((peer, str(why)))
            continue
        measures += [Measure(peer, driver, what) for what in peer.whats]
    return measures, skipped


def rows(measures, size):
    """The cells of each measure. What is how many times as fast is told of the best turns."""
    ours = next((min(one.times) for one in measures if one.peer.package is None and one.times), None)
    for one in measures:
        version = version_of(one.peer.package) if one.peer.package else "-"
        front = [one.peer.name, version, one.peer.whats[one.what]]
        if not one.times or one.failed:
            yield [*front, "failed", "-", "-", "-"]
            continue
        best, median = min(one.times), statistics.median(one.times)
        speeds = f"{size / best * 1e3:.1f} ({size / median * 1e3:.1f})"
        yield [*front, f"{one.count}", speeds, f"{len(one.times)}", ratio(best / ours) if ours else "-"]


def text_of(measures, skipped, size, before, after):
    columns = ["By", "Version", "What is taken", "How many", "MB/s, best (median)", "Turns", "This scanner is as many times as fast"]
    made = [
        "# Beside what else there is", "",
        f"`bench/peers.py`, {datetime.date.today()}. A realistic text of {size:,} bytes (`realistic.py`), from memory, on one processor, "
        f"by turns; processor time of the whole program. Before: {before}; after: {after}.", "",
        line(columns), "|---" * len(columns) + "|",
        *(line(cells) for cells in rows(measures, size)),
        *(line([peer.name, "-", "skipped", "-", "-", "-", why]) for peer, why in skipped), "",
    ]
    return "\n".join(made)


def write(text):
    with open(os.path.join(HERE, "peers.md"), "w", encoding="utf-8") as file:
        file.write(text)


def measure(path):
    """Takes the turns, and returns the text with the table."""
    with tempfile.TemporaryDirectory() as room:
        measures, skipped = start(room, path)
        before = machine()
        for _ in range(TURNS):
            for one in measures:
                one.turn()
            write(text_of(measures, skipped, os.path.getsize(path), before, machine()))
        for driver in {one.driver for one in measures}:
            driver.close()
        return text_of(measures, skipped, os.path.getsize(path), before, machine())


def main():
    size = int(sys.argv[1]) if len(sys.argv) > 1 else 10_000_000
    with tempfile.TemporaryDirectory() as room:
        path = os.path.join(room, "realistic.yaml")
        with open(path, "w", encoding="ascii") as file:
            file.write(realistic(size, 7))
        text = measure(path)
    write(text)
    print(text, end="")


if __name__ == "__main__":
    answer_help()
    main()
