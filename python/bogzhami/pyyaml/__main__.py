"""Runs a program with the loaders of this package in the place of PyYAML's:

    python3 -m bogzhami.pyyaml SCRIPT [WORD ..]
    python3 -m bogzhami.pyyaml -m MODULE [WORD ..]

The program is run as by `python3 SCRIPT [WORD ..]` or `python3 -m MODULE [WORD ..]`, and its exit status is that of this
command. It is 2 if the words are wrong or there is no such program, and 3 if there is no library or the help can not be
written; a line on standard error says why.
"""

import importlib.util
import os
import runpy
import sys
import zipfile
from typing import List, Optional

from .. import __version__
from ..__main__ import refuse, write_out
from ..library import LIBRARY, Missing
from .instead import replace_loaders

PROGRAM = "python3 -m bogzhami.pyyaml"
USAGE = f"usage: {PROGRAM} [-m] SCRIPT [WORD ..]"
HELP = f"""{USAGE}

Runs a program that uses PyYAML, with the loaders of bogzhami.pyyaml in the
place of PyYAML's. Its own words come after it.

  -m          the program is a module, as for python3 -m
  --help      prints this
  --version   prints the version

The exit status is that of the program; 2 for wrong words, or if there is no
such program; 3 if there is no library."""


def tell(text: str) -> int:
    """Writes a text, and returns the status: 3 if that fails, of which nothing is said if a pipe is closed."""
    try:
        write_out(text + "\n")
    except BrokenPipeError:
        return 3
    except OSError as reason:
        return refuse(3, f"{PROGRAM}: write failed: {reason.strerror}")
    return 0


def missing_module(name: str) -> Optional[str]:
    """Why there is no module of a name, or None if there is one."""
    try:
        return None if importlib.util.find_spec(name) else f"no module named {name}"
    except (ModuleNotFoundError, ValueError) as reason:
        return str(reason)


def missing_script(path: str) -> Optional[str]:
    """Why a script can not be read, or None if it can. A folder may have one, as for python3."""
    try:
        if not os.path.isdir(path):
            open(path, "rb").close()
    except OSError as reason:
        return f"{path}: {reason.strerror}"
    return None


def put_in_front(script: str) -> None:
    """Puts the folder of a script in front of the folders that modules are looked for in, where that of this command was."""
    if getattr(sys.flags, "safe_path", sys.flags.isolated):
        return
    del sys.path[0]
    if not (os.path.isdir(script) or zipfile.is_zipfile(script)):  # which runpy puts there itself
        sys.path.insert(0, os.path.dirname(os.path.realpath(script)))


def run(words: List[str], is_module: bool) -> None:
    """Runs the program that the first word names."""
    sys.argv = words
    replace_loaders()
    if is_module:
        runpy.run_module(words[0], run_name="__main__", alter_sys=True)
    else:
        put_in_front(words[0])
        runpy.run_path(words[0], run_name="__main__")


def main() -> int:
    words = sys.argv[1:]
    asked = {"-h": HELP, "--help": HELP, "--version": f"bogzhami {__version__}"}
    if words and words[0] in asked:
        return tell(asked[words[0]])
    is_module = words[:1] == ["-m"]
    words = words[1:] if is_module else words
    if not words or words[0].startswith("-"):
        wrong = f"no such option: {words[0]}" if words else "a program is wanted"
        return refuse(2, f"{PROGRAM}: {wrong}", USAGE)
    missing = missing_module(words[0]) if is_module else missing_script(words[0])
    if missing is not None:
        return refuse(2, f"{PROGRAM}: {missing}")
    if isinstance(LIBRARY, Missing):
        return refuse(3, f"{PROGRAM}: {LIBRARY.words}")
    run(words, is_module)
    return 0


if __name__ == "__main__":
    sys.exit(main())
