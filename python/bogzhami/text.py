"""The text that an input is: its codec, its lines, and places in it."""

import re
from typing import List, Tuple, Union

CODECS = ("utf-8", "utf-8", "utf-16-le", "utf-16-be")
BYTE_ORDER_MARKS = ((b"\xff\xfe", 2), (b"\xfe\xff", 3), (b"\xef\xbb\xbf", 1))
BREAK = re.compile("\r\n|[\r\n\x85\u2028\u2029]")


def encoding_of(data: Union[bytes, bytearray], setting: int = 0) -> Tuple[int, int]:
    """The number of the input's encoding, and how many bytes its byte order mark has, which belongs to no text.

    With a setting other than 0, that is the encoding, and a byte order mark is a character of the text.
    """
    if setting:
        return setting, 0
    return next(((encoding, len(mark)) for mark, encoding in BYTE_ORDER_MARKS if data.startswith(mark)), (1, 0))


class Lines:
    """Where the lines of a text start that comes in pieces."""

    __slots__ = ("starts", "length", "_ends_in_cr")

    def __init__(self) -> None:
        self.starts = [0]  # how many characters come before each line
        self.length = 0
        self._ends_in_cr = False

    def add(self, text: str) -> None:
        """Appends a piece of the text."""
        if self._ends_in_cr and text.startswith("\n"):
            self.starts.pop()  # one break came in two pieces
        before = self.length
        self.starts.extend(before + found.end() for found in BREAK.finditer(text))
        self.length += len(text)
        self._ends_in_cr = text.endswith("\r") if text else self._ends_in_cr

    def end(self) -> Tuple[int, int]:
        """Line and column of the end of what came."""
        return len(self.starts) - 1, self.length - self.starts[-1]


def place_in_front(data: Union[bytes, bytearray], setting: int, offset: int) -> Tuple[int, int]:
    """Line and column of the character that the byte of that offset belongs to, if what is in front of it is text."""
    encoding, skipped = encoding_of(data, setting)
    text = data[skipped:offset].decode(CODECS[encoding], "ignore")
    lines = Lines()
    lines.add(text)
    return lines.end()
