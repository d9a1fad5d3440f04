"""Lists the tokens of an input, as `yamltok scan` does: python3 -m bogzhami [ENCODING [LIMIT]] < FILE

ENCODING is any (as without it), utf8, utf16le or utf16be, and LIMIT is the key limit. The exit status is that of
`yamltok scan`: 0, 1 if the last line is a fault, 2 for wrong words, and 3 if a read or a write failed, there is no
memory for the input, or there is no library. A line on standard error says why it is 2 or 3, but nothing is said if who
reads the lines has closed the pipe. It is 130 if the keyboard interrupts it.
"""

import os
import sys
from typing import Iterable, Iterator, List, Tuple

from . import Encoding, Fault, Mark, Token, TokenType, __version__, scan
from .library import LIBRARY, Missing

PROGRAM = "python3 -m bogzhami"
USAGE = f"usage: {PROGRAM} [any|utf8|utf16le|utf16be [LIMIT]] < FILE"
HELP = f"""{USAGE}

Lists the tokens of standard input, or those before the fault, and the fault.
LIMIT is the key limit, 1 to 65536; without it, it is 1024.

  --help      prints this
  --version   prints the version

The exit status is 0; 1 if the last line is a fault; 2 for wrong words; 3 if a
read or a write failed, there is no memory for the input, or there is no library."""
STYLES = ("", "plain", "single", "double", "literal", "folded")
LINES = 1000  # that are written at once
SETTINGS = {encoding.name.lower(): encoding for encoding in Encoding}


def words_of(token: Token) -> List[str]:
    """What a token has besides its marks."""
    if token.encoding is not None:
        return [token.encoding.name]
    if token.version is not None:
        return [str(number) for number in token.version]
    texts = [text for text in (token.handle, token.value) if text is not None]
    style = [STYLES[token.style]] if token.style is not None else []
    return style + [(text.encode() if isinstance(text, str) else text).hex() or "-" for text in texts]


def line_of(token: Token) -> str:
    return " ".join([token.type.name.replace("_", "-"), place(token.start_mark), place(token.end_mark), *words_of(token)])


def place(mark: Mark) -> str:
    return "{}:{}:{}".format(*mark)


def fault_line(fault: Fault) -> str:
    if fault.mark is None or fault.context_mark is None:
        return f"FAULT reader {fault.offset} {fault.value} {fault.problem}"
    return f"FAULT scanner {place(fault.context_mark)} {place(fault.mark)} {fault.context or '-'}; {fault.problem}"


def listing(data: bytes, encoding: Encoding, key_limit: int) -> Iterator[Tuple[str, int]]:
    """The lines, each with the exit status if it is the last."""
    try:
        for token in scan(data, encoding, key_limit):
            yield line_of(token), 0
    except Fault as fault:
        yield fault_line(fault), 1
    except MemoryError:
        yield "FAULT memory", 1


def settings_of(words: List[str]) -> Tuple[Encoding, int]:
    """The settings that the words name. ValueError says which of them is wrong."""
    encoding, limit, *more = [*words, *["any", "1024"][len(words) :]]
    if more:
        raise ValueError(f"too many words: {' '.join(more)}")
    if encoding not in SETTINGS:
        raise ValueError(f"no such encoding: {encoding}")
    if not (limit.isascii() and limit.isdigit() and 0 < int(limit) <= 65536):
        raise ValueError(f"no key limit: {limit}")
    return SETTINGS[encoding], int(limit)


def read_input() -> bytes:
    with open(0, "rb", closefd=False) as file:
        return file.read()


def write_out(text: str) -> None:
    """Writes to standard output at once, so that nothing is left to be written if it fails or is interrupted."""
    left = memoryview(text.encode("ascii"))
    while left:
        left = left[os.write(1, left) :]


def write_lines(lines: Iterable[Tuple[str, int]]) -> int:
    """Writes the lines, and returns the status of the last one. OSError says that they could not all be written."""
    status, waiting = 0, []
    for line, status in lines:
        waiting.append(line + "\n")
        if len(waiting) == LINES:
            write_out("".join(waiting))
            waiting.clear()
    write_out("".join(waiting))
    return status


def refuse(status: int, *words: str) -> int:
    """Says why the status is that, if there is someone to say it to."""
    if sys.stderr is not None:
        print(*words, sep="\n", file=sys.stderr)
    return status


def run(words: List[str]) -> int:
    """Does what the words ask for, and returns the exit status."""
    asked = {"-h": HELP, "--help": HELP, "--version": f"bogzhami {__version__}"}
    try:
        told = [asked[word] for word in words if word in asked]
        if told:
            return write_lines([(told[0], 0)])
        settings = settings_of(words)
    except ValueError as reason:
        return refuse(2, f"{PROGRAM}: {reason}", USAGE)
    if isinstance(LIBRARY, Missing):
        return refuse(3, f"{PROGRAM}: {LIBRARY.words}")
    try:
        data = read_input()
    except OSError as reason:
        return refuse(3, f"{PROGRAM}: read failed: {reason.strerror}")
    except MemoryError:
        return refuse(3, f"{PROGRAM}: there is no memory for the input")
    return write_lines(listing(data, *settings))


def main() -> int:
    try:
        return run(sys.argv[1:])
    except BrokenPipeError:
        return 3
    except OSError as reason:
        return refuse(3, f"{PROGRAM}: write failed: {reason.strerror}")
    except KeyboardInterrupt:
        return 130


if __name__ == "__main__":
    sys.exit(main())
