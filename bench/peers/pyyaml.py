"""PyYAML: its own scanner, parser and loader, and those over libyaml, whose names end in "by C". What a driver is given and
prints is told in turns.h."""

import sys
import time

import yaml


def count(items):
    return sum(1 for _ in items)


with open(sys.argv[1], encoding="utf-8") as file:
    text = file.read()
WAYS = {
    "tokens": lambda: count(yaml.scan(text, yaml.SafeLoader)),
    "events": lambda: count(yaml.parse(text, yaml.SafeLoader)),
    "loading": lambda: len(yaml.load(text, yaml.SafeLoader)),
    "tokens by C": lambda: count(yaml.scan(text, yaml.CSafeLoader)),
    "events by C": lambda: count(yaml.parse(text, yaml.CSafeLoader)),
    "loading by C": lambda: len(yaml.load(text, yaml.CSafeLoader)),
}
for line in sys.stdin:
    start = time.process_time_ns()
    made = WAYS[line.rstrip("\n")]()
    print(made, time.process_time_ns() - start, flush=True)
