"""Tokens, their marks, and the one fault of an input that is no YAML."""

import enum
from typing import NamedTuple, Optional, Tuple, Union

from .held import Refusal
from .text import place_in_front

Text = Union[str, bytes]


class Encoding(enum.IntEnum):
    """The encoding of an input. As a setting, `ANY` leaves it to a byte order mark; without one it is UTF-8."""

    ANY = 0
    UTF8 = 1
    UTF16LE = 2
    UTF16BE = 3


def encoding_of(setting: int) -> Encoding:
    """The encoding that a setting names. ValueError says which there are."""
    try:
        return Encoding(setting)
    except ValueError:
        names = ", ".join(f"Encoding.{encoding.name}" for encoding in Encoding)
        raise ValueError(f"encoding {setting!r}: one of {names} is wanted") from None


class ScalarStyle(enum.IntEnum):
    """How a scalar is written."""

    PLAIN = 1
    SINGLE_QUOTED = 2
    DOUBLE_QUOTED = 3
    LITERAL = 4
    FOLDED = 5


class TokenType(enum.IntEnum):
    """What a token is."""

    STREAM_START = 1
    STREAM_END = 2
    VERSION_DIRECTIVE = 3
    TAG_DIRECTIVE = 4
    DOCUMENT_START = 5
    DOCUMENT_END = 6
    BLOCK_SEQUENCE_START = 7
    BLOCK_MAPPING_START = 8
    BLOCK_END = 9
    FLOW_SEQUENCE_START = 10
    FLOW_SEQUENCE_END = 11
    FLOW_MAPPING_START = 12
    FLOW_MAPPING_END = 13
    BLOCK_ENTRY = 14
    FLOW_ENTRY = 15
    KEY = 16
    VALUE = 17
    ALIAS = 18
    ANCHOR = 19
    TAG = 20
    SCALAR = 21


class Mark(NamedTuple):
    """A place in the text. Whatever the encoding of the input, the index counts bytes of the text in UTF-8."""

    index: int  # type: ignore[assignment]  # how many bytes come before it; a tuple has a method of this name
    line: int  # how many line breaks end before it
    column: int  # how many characters come between the last of these breaks and it


class Token(NamedTuple):
    """A token, with the mark of its start and the mark after its last character. What it does not have is None.

    Texts are `str`. Only what a tag or a %TAG directive writes by `%` may be other bytes than UTF-8; then it is `bytes`.
    """

    type: TokenType
    start_mark: Mark
    end_mark: Mark
    value: Optional[Text] = None  # of a scalar; the name of an alias or anchor, the suffix of a tag, the prefix of %TAG
    handle: Optional[str] = None  # of a tag, or of %TAG
    style: Optional[ScalarStyle] = None  # of a scalar
    encoding: Optional[Encoding] = None  # of the stream start
    version: Optional[Tuple[int, int]] = None  # of %YAML

    def __repr__(self) -> str:
        parts = (f"{name}={value!r}" for name, value in zip(self._fields, self) if value is not None)
        return f"Token({', '.join(parts)})"


class Fault(ValueError):
    """Why an input was refused. Lines and columns count from 0, as those of marks; the message counts from 1.

    kind          "scanner" if no token can be read there, "reader" if the bytes are no text
    problem       what is wrong
    line, column  where
    context       what was being read, or None
    mark          line and column with the index; None for a reader's fault
    context_mark  where what was being read starts; the mark again if there is no context, and None for a reader's fault
    offset        reader: how many bytes of the input come before what is wrong; otherwise None
    value         reader: the octet, unit or code point that is wrong, or -1 if the input ends too early; otherwise None
    """

    def __init__(
        self,
        kind: str,
        problem: str,
        line: int,
        column: int,
        context: Optional[str] = None,
        mark: Optional[Mark] = None,
        context_mark: Optional[Mark] = None,
        offset: Optional[int] = None,
        value: Optional[int] = None,
    ) -> None:
        super().__init__(kind, problem, line, column, context, mark, context_mark, offset, value)
        self.kind, self.problem, self.line, self.column = kind, problem, line, column
        self.context, self.mark, self.context_mark = context, mark, context_mark
        self.offset, self.value = offset, value

    def __str__(self) -> str:
        words = f"{self.line + 1}:{self.column + 1}: {self.problem}"
        if self.context is not None and self.context_mark is not None:
            start = self.context_mark
            return f"{words}, {self.context} that starts at {start.line + 1}:{start.column + 1}"
        return words if self.offset is None else f"{words} (byte {self.offset + 1} of the input)"


def fault_of(refusal: Refusal, data: Union[bytes, bytearray], setting: int) -> Fault:
    """The fault of an input. The line and column of a reader's fault are counted from what is in front of it."""
    if refusal.is_reader:
        line, column = place_in_front(data, setting, refusal.offset)
        return Fault("reader", refusal.problem, line, column, offset=refusal.offset, value=refusal.value)
    mark, context_mark = Mark(*refusal.mark), Mark(*refusal.context_mark)
    return Fault("scanner", refusal.problem, mark.line, mark.column, refusal.context, mark, context_mark)
