#!/usr/bin/env python3
"""Measures the module of python/ beside PyYAML's own loaders and its C loaders: python.py [BYTES] [TURNS] prints a table.

The text is that of realistic.py (200,000 bytes, seed 7). All loaders take turns, ours and the C loaders three times in each turn;
the figure is the best. Times are of the process (user and system), so that other work on the machine counts little.
"""

import gc
import os
import sys
import time

HERE = os.path.dirname(os.path.abspath(__file__))
TOP = os.path.dirname(HERE)
os.environ.setdefault("BOGZHAMI_LIBRARY", os.path.join(TOP, "ffi", "out", "libbogzhami.so"))
sys.path[:0] = [os.path.join(TOP, "python")]

import yaml
from common import answer_help
from bogzhami import pyyaml, scan
from realistic import realistic

try:
    from yamllint import linter
    from yamllint.config import YamlLintConfig
except ImportError:
    linter = None

LOADERS = {
    name: (getattr(yaml, name), getattr(pyyaml, name), getattr(yaml, "C" + name))
    for name in ("BaseLoader", "SafeLoader", "FullLoader")
}


def drained(tokens):
    for _ in tokens:
        pass


def lint(text, loader):
    """Lints by a loader, in the place where yamllint looks for its own."""
    usual, yaml.BaseLoader = yaml.BaseLoader, loader
    try:
        drained(linter.run(text, YamlLintConfig("extends: default")))
    finally:
        yaml.BaseLoader = usual


def rows(text):
    """What is measured: its name, a call that takes a loader, and the loaders: PyYAML's own, ours, and PyYAML's C loader."""
    base = LOADERS["BaseLoader"]
    yield "`yaml.scan`", lambda loader: drained(yaml.scan(text, Loader=loader)), base
    yield "`yaml.parse`", lambda loader: drained(yaml.parse(text, Loader=loader)), base
    for name, loaders in LOADERS.items():
        yield f"`yaml.load`, `{name}`", lambda loader: yaml.load(text, Loader=loader), loaders
    if linter is not None:
        yield "yamllint", lambda loader: lint(text, loader), base[:2]
    yield "`bogzhami.scan`", lambda _: drained(scan(text)), (None,)


def seconds(call, loader):
    """How long a call takes. What earlier calls have left is collected before it."""
    gc.collect()
    start = time.process_time()
    call(loader)
    return time.process_time() - start


def best_of(measured, turns):
    """The best time of each row's loaders, which take turns."""
    best = {}
    for _ in range(turns):
        for name, call, loaders in measured:
            for number, loader in enumerate(loaders):
                times = [seconds(call, loader) for _ in range(3 if number else 1)]
                best[name, number] = min(best.get((name, number), times[0]), *times)
    return best


def main():
    size, turns = (int(word) for word in [*sys.argv[1:], *["200000", "7"][len(sys.argv) - 1 :]])
    text = realistic(size, 7)
    measured = list(rows(text))
    best = best_of(measured, turns)
    print(f"Python {sys.version.split()[0]}, PyYAML {yaml.__version__}; seconds for a megabyte, the best of {turns} turns\n")
    print("| What | PyYAML's own | this | times as fast | PyYAML's C loader |\n|---|---|---|---|---|")
    for name, _, loaders in measured:
        times = [f"{best[name, number] / len(text) * 1e6:.3f}" for number in range(len(loaders))]
        own, ours, by_c = times if len(times) == 3 else [*times, "-"] if len(times) == 2 else ["-", *times, "-"]
        ratio = f"{best[name, 0] / best[name, 1]:.1f}" if len(times) > 1 else "-"
        print(f"| {name} | {own} | {ours} | {ratio} | {by_c} |")


if __name__ == "__main__":
    answer_help()
    main()
