#!/usr/bin/env python3
"""Checks how the real process ends: statuses.py PROGRAM.

For each command: its exit status, and what is on standard output and on standard error, if its words are wrong or
no text, its input is closed or a folder, and its output is closed, full or a pipe that no one reads. Of wrong words the first that
is wrong or missing is named. So is what the program says of itself, with any input and without one.
"""

import os
import subprocess
import sys

HERE = os.path.dirname(os.path.abspath(__file__))
COMMANDS = ["decode any", "scan any", "scan any 9", "calls any spks", "follow any"]
STREAM_START = b"STREAM-START 0:0:0 0:0:0 UTF8\n"
GOOD = {
    "decode any": b"TEXT UTF8 1 1:0:1\n",
    "scan any": STREAM_START + b"SCALAR 0:0:0 1:0:1 plain 61\nSTREAM-END 1:1:0 1:1:0\n",
    "scan any 9": STREAM_START + b"SCALAR 0:0:0 1:0:1 plain 61\nSTREAM-END 1:1:0 1:1:0\n",
    "follow any": STREAM_START + b"SCALAR 0:0:0 1:0:1 plain 61\nSTREAM-END 1:1:0 1:1:0\n",
    "calls any spks": STREAM_START + b"PEEK SCALAR 0:0:0 1:0:1\nSKIP\nSTREAM-END 1:1:0 1:1:0\n",
}
READER_FAULT = b"FAULT reader 1 255 invalid leading UTF-8 octet\n"
FAULTY = dict.fromkeys(COMMANDS, READER_FAULT)
FAULTY["calls any spks"] = READER_FAULT + b"PEEK NO-TOKEN\nSKIP NOTHING\nNO-TOKEN\n"
# What the program says of itself, whatever its input is.
VERSION = b"yamltok (Bogzhami) " + open(os.path.join(os.path.dirname(HERE), "VERSION"), "rb").read()
HELP = b"""usage: yamltok COMMAND ENC [WORD] < FILE

  scan ENC [LIMIT]  list all tokens, with a key limit of 1 to 65536 bytes
  follow ENC        list each token as soon as no more input can change it
  calls ENC WORD    list the answers to calls: s (scan), p (peek), k (skip)
  decode ENC        say what text the input is
  -h, --help        print this
  --version         print the version

ENC is any, utf8, utf16le or utf16be. The exit status is 0; 1 if a line is a
fault; 2 for wrong words; 3 if a read or a write fails or memory is refused.
"""
NOTES = {"--help": HELP, "-h": HELP, "--version": VERSION}
NO_TEXT = b"a word is no text"
NO_USE = b"there is no use for '%s'; the input is standard input"
# Wrong words, and what is said of them after the line `wrong arguments`.
WRONG = {
    b"": b"a command is missing", b"decode": b"decode needs an encoding", b"scan": b"scan needs an encoding",
    b"calls": b"calls needs an encoding", b"decode latin1": b"there is no encoding 'latin1'", b"decode any any": NO_USE % b"any",
    b"follow": b"follow needs an encoding", b"follow utf-8": b"there is no encoding 'utf-8'", b"follow any 9": NO_USE % b"9",
    b"scan any 0": b"there is no key limit '0'", b"scan any 65537": b"there is no key limit '65537'",
    b"scan any 07": b"there is no key limit '07'", b"scan any +1": b"there is no key limit '+1'",
    b"scan any ": b"there is no key limit ''", b"scan any 9 9": NO_USE % b"9", b"scan utf9 0": b"there is no encoding 'utf9'",
    b"calls any": b"calls needs a word of s, p and k", b"calls any x": b"there is no list of calls 'x'",
    b"calls any s s": NO_USE % b"s", b"calls any x s s": b"there is no list of calls 'x'", b"list any": b"there is no command 'list'",
    b"list": b"there is no command 'list'", b"--help any": NO_USE % b"any", b"-h --version": NO_USE % b"--version",
    b"--versions": b"there is no command '--versions'", b"-": b"there is no command '-'", b"--": b"there is no command '--'",
    b"\xff any": NO_TEXT, b"decode \xff": NO_TEXT, b"scan any \xff": NO_TEXT, b"calls any s\xff": NO_TEXT,
}
READ, WRITE = (b"yamltok: " + text + b"\n" for text in (b"read failed", b"write failed"))


def run(program, words, data=b"", before=None, **devices):
    """Runs the program; `before` is done in the new process, as closing one of its files."""
    if "stdin" not in devices:
        devices["input"] = data
    devices.setdefault("stdout", subprocess.PIPE)
    done = subprocess.run([program, *words], stderr=subprocess.PIPE, preexec_fn=before, timeout=60, **devices)
    return done.returncode, done.stdout or b"", done.stderr


def unread_pipe():
    """The end of a pipe to write to whose other end is closed."""
    reading, writing = os.pipe()
    os.close(reading)
    return writing


def refused(words):
    """How the program ends if these words are wrong."""
    return 2, b"", b"yamltok: wrong arguments\nyamltok: " + WRONG[words] + b"\n" + HELP.partition(b"\n")[0] + b"\n"


def ends(program):
    """What is checked: a name, what came, and what is expected: status, standard output, standard error."""
    for words in WRONG:
        yield words, run(program, words.split(b" ") if words else [], b"a"), refused(words)
    for word, text in NOTES.items():
        yield word, run(program, [word], b"a\xff"), (0, text, b"")
        yield f"{word}, input closed", run(program, [word], stdin=None, before=lambda: os.close(0)), (0, text, b"")
        with open("/dev/full", "wb") as full:
            yield f"{word}, output full", run(program, [word], b"a", stdout=full), (3, b"", WRITE)
    with open(os.devnull, "rb") as unread:
        yield "wrong words, no input", run(program, ["scan", "any", "0"], stdin=unread), refused(b"scan any 0")
    folder = os.open(HERE, os.O_RDONLY)
    for command in COMMANDS:
        words = command.split(" ")
        yield command, run(program, words, b"a"), (0, GOOD[command], b"")
        yield f"{command}, a fault", run(program, words, b"a\xff"), (1, FAULTY[command], b"")
        yield f"{command}, input closed", run(program, words, stdin=None, before=lambda: os.close(0)), (3, b"", READ)
        yield f"{command}, input a folder", run(program, words, stdin=folder), (3, b"", READ)
        closed = run(program, words, b"a", stdout=None, before=lambda: os.close(1))
        yield f"{command}, output closed", closed, (3, b"", WRITE)
        with open("/dev/full", "wb") as full:
            yield f"{command}, output full", run(program, words, b"a", stdout=full), (3, b"", WRITE)
        pipe = unread_pipe()
        yield f"{command}, output a closed pipe", run(program, words, b"a", stdout=pipe), (3, b"", WRITE)
        os.close(pipe)
        closed = run(program, words, stdin=None, stdout=None, before=lambda: (os.close(0), os.close(1)))
        yield f"{command}, input and output closed", closed, (3, b"", READ)
    os.close(folder)


def main(program):
    count = wrong = 0
    for name, found, wanted in ends(program):
        count += 1
        if found != wanted:
            wrong += 1
            print(f"{name!r}: wanted {wanted}, got {found}")
    print(f"statuses: {count} ends, {wrong} wrong")
    return 1 if wrong or not count else 0


if __name__ == "__main__":
    from lib.usage import given_program

    sys.exit(main(given_program()))
