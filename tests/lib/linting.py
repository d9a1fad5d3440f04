"""Messages of yamllint for the texts of standard input, over PyYAML's own scanner and over that of python/: linting.py FOLDER.

A text is a line with the number of its bytes, and these. For each there is a line: the messages over both in JSON, and whether
both scanners give the same tokens with the same marks.
"""

import json
import sys

sys.path.insert(0, sys.argv[1])
import yaml
from bogzhami.pyyaml import BaseLoader
from bogzhami.pyyaml.placed import PlacedLoader
from yamllint import linter
from yamllint.config import YamlLintConfig

OWN = yaml.BaseLoader
SETTINGS = YamlLintConfig("extends: default")


def messages(text, loader):
    """What yamllint says of a text: line, column, rule and words of each message."""
    yaml.BaseLoader = loader
    try:
        return [[one.line, one.column, one.rule, one.desc] for one in linter.run(text, SETTINGS)]
    except Exception as error:  # of the reader, and yamllint's own
        return [[type(error).__name__]]
    finally:
        yaml.BaseLoader = OWN


def tokens(text, loader):
    """The tokens with their places, and None if they end with an error."""
    found = []
    try:
        for one in yaml.scan(text, Loader=loader):
            marks = [(mark.line, mark.column, mark.pointer) for mark in (one.start_mark, one.end_mark)]
            found.append((type(one).__name__, marks, getattr(one, "value", None), getattr(one, "style", None)))
    except (yaml.YAMLError, ValueError):
        found.append(None)
    return found


while line := sys.stdin.buffer.readline():
    given = sys.stdin.buffer.read(int(line)).decode()
    ours, own = tokens(given, BaseLoader), tokens(given, OWN)
    print(json.dumps([messages(given, OWN), messages(given, PlacedLoader), ours == own and ours[-1] is not None]))
