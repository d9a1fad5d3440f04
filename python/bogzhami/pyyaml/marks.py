"""Marks of PyYAML, of which the parts that count characters of the whole text are made when they are looked at."""

import codecs
from typing import Any, Callable, Optional, Union

import yaml.error

from ..text import CODECS, Lines, encoding_of

# How the UTF-8 of a text ends if its last line has a break.
BREAKS = (b"\n", b"\r", b"\xc2\x85", b"\xe2\x80\xa8", b"\xe2\x80\xa9")


class Source:
    """An input, as its marks show it, and what came of it if it comes in pieces.

    A byte order mark that has decided the encoding is not part of its text.
    """

    __slots__ = (
        *("name", "data", "encoding", "skipped", "is_text", "is_shown", "is_ascii", "is_whole", "open_end"),
        *("_seen", "_lines", "_decoder", "_decoded", "_buffer"),
    )

    def __init__(self, name: str, data: Union[bytes, bytearray], is_shown: bool) -> None:
        """`is_shown` says whether marks have a buffer, out of which errors show a line."""
        self.name, self.data, self.is_shown = name, data, is_shown
        self.encoding, self.skipped = 1, 0
        self.is_text = self.is_whole = False
        self.is_ascii = True
        self.open_end = -1
        self._seen = self._decoded = 0  # how many bytes `see` has looked at, and how many were decoded for `_lines`
        self._lines = Lines()
        self._decoder: Optional[codecs.IncrementalDecoder] = None
        self._buffer: Optional[str] = None

    def see(self, is_text: bool, is_whole: bool) -> None:
        """Looks at what came since it was called before: whether as `str`, and whether that is the end.

        It is called once there is a token or an error, so the first time there is enough to tell the encoding.
        """
        if self.is_whole:
            return
        if self._seen == 0:
            self.encoding, self.skipped = encoding_of(self.data)
        self.is_ascii = self.is_ascii and self.encoding == 1 and self.data[self._seen :].isascii()
        self._seen = len(self.data)
        self.is_text, self.is_whole = is_text, is_whole
        if is_whole:
            self.open_end = self._open_end()

    def _open_end(self) -> int:
        """How many bytes the text has in UTF-8 if its last line has no break, otherwise -1."""
        if self.encoding == 1:
            size, has_break = len(self.data) - self.skipped, self.data.endswith(BREAKS)
        else:
            text = self.buffer[:-1].encode("utf-8", "surrogatepass")
            size, has_break = len(text), text.endswith(BREAKS)
        return -1 if size == 0 or has_break else size

    @property
    def buffer(self) -> str:
        """The text of an input that is whole, and a 0 after it, as PyYAML's reader has it."""
        if self._buffer is None:
            self._buffer = self.data[self.skipped :].decode(CODECS[self.encoding], "replace") + "\0"
        return self._buffer

    @property
    def lines(self) -> Lines:
        """The lines of the text that came."""
        if self._decoder is None:
            self._decoder, self._decoded = codecs.getincrementaldecoder(CODECS[self.encoding])("replace"), self.skipped
        if self._decoded < self._seen:
            self._lines.add(self._decoder.decode(self.data[self._decoded : self._seen]))
            self._decoded = self._seen
        return self._lines

    def mark(self, place: int, line: int, column: int) -> "Mark":
        """The mark of a place. At the end of a text whose last line has no break, it is in that line."""
        return self.end_of_last_line() if place == self.open_end else Mark(self, place, line, column)

    def end_of_last_line(self) -> "Mark":
        """The mark of the end of a text whose last line has no break."""
        return Mark(self, self.open_end, *self.lines.end())


class Made:
    """An attribute that is made when it is first looked at, and that can be set."""

    __slots__ = ("make", "name")

    def __init__(self, make: Callable[[Any], Any]) -> None:
        self.make, self.name = make, make.__name__

    def __get__(self, mark: Any, owner: Any = None) -> Any:
        if mark is None:
            return self
        value = self.make(mark)
        setattr(mark, self.name, value)
        return value


class Mark(yaml.error.Mark):
    """A place in a source: how many bytes of its text in UTF-8 come before it, its line and its column.

    What PyYAML's marks have besides is made of these.
    """

    __slots__ = ("source", "place", "line", "column")

    def __init__(self, source: Source, place: int, line: int, column: int) -> None:
        self.source, self.place, self.line, self.column = source, place, line, column

    @Made
    def name(self) -> str:
        return self.source.name

    @Made
    def index(self) -> int:
        """How many characters come before it."""
        return self.place if self.source.is_ascii else self.source.lines.starts[self.line] + self.column

    @Made
    def pointer(self) -> Optional[int]:
        return self.index if self.source.is_shown else None

    @Made
    def buffer(self) -> Optional[str]:
        return self.source.buffer if self.source.is_shown else None
