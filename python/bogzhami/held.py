"""A scanner of one input that is held between calls, and gives its tokens in batches of records."""

import ctypes
import operator
import struct
import threading
from typing import Any, Iterator, NamedTuple, Optional, SupportsIndex, Tuple, Union, cast

from .library import FAULT, LIBRARY, MEMORY_ERROR, MORE, NO_MEMORY, NO_ROOM, READER_ERROR, WHOLE, WRONG
from .library import Answer, Handle, Place, Record

BATCH = 256
TEXT_ROOM = 1 << 14
LARGEST_LIMIT = 65536
LONG_REST = 1 << 20
NOWHERE = (0, 0, 0)
TAKEN = "str, bytes, what has a buffer, or an open file"
PIECES_TAKEN = "str, bytes, or what has a buffer"
NO_MEMORY_WORDS = "the scanner was refused memory"

# Parts of a record: what every token has, its texts, and the version of a directive.
SIZE = ctypes.sizeof(Record)
FIELDS = struct.Struct("=II8xQQ8xQQQQQQ8x")
TEXTS = struct.Struct("=16xQQQ56x")
VERSION = struct.Struct("=8xii80x")
assert SIZE == FIELDS.size == TEXTS.size == VERSION.size

Fields = Tuple[int, int, int, int, int, int, int, int, int, int]


class Refusal(NamedTuple):
    """The fault as the library tells it. A mark is index, line and column; those of a reader's fault are zeros."""

    is_reader: bool
    problem: str
    context: Optional[str]
    mark: Tuple[int, int, int]
    context_mark: Tuple[int, int, int]
    offset: int
    value: int


class Batch(NamedTuple):
    """Some tokens: their records, and the bytes of their texts."""

    records: bytes
    texts: bytes

    def fields(self) -> Iterator[Fields]:
        """Of each record: type, detail, where its texts are, the length of the first, index, line and column of both marks."""
        return cast("Iterator[Fields]", FIELDS.iter_unpack(self.records))

    def texts_of(self, number: int) -> Tuple[bytes, bytes]:
        """Both texts of the record of that number."""
        start, first, second = TEXTS.unpack_from(self.records, SIZE * number)
        return self.texts[start : start + first], self.texts[start + first : start + first + second]

    def version_of(self, number: int) -> Tuple[int, int]:
        """The version in the record of that number."""
        major, minor = VERSION.unpack_from(self.records, SIZE * number)
        return major, minor


Content = Union[str, bytes, bytearray, memoryview]


def bytes_of(data: Content, taken: str = TAKEN) -> bytes:
    """The bytes that are scanned: those of the text in UTF-8, with a surrogate that is alone as three bytes, or a copy.

    TypeError says that the input is nothing that can be scanned, and what is taken.
    """
    if isinstance(data, str):
        return data.encode("utf-8", "surrogatepass")
    if type(data) is bytes:
        return data
    try:
        return bytes(memoryview(data))
    except TypeError:
        given = type(data).__name__
        raise TypeError(f"{given} is given: {taken} is wanted") from None


def limit_of(key_limit: SupportsIndex) -> int:
    """The key limit as a number. ValueError says that it is none."""
    try:
        limit = operator.index(key_limit)
    except TypeError:
        limit = 0
    if not 0 < limit <= LARGEST_LIMIT:
        raise ValueError(f"key limit {key_limit!r}: a whole number from 1 to {LARGEST_LIMIT} is wanted")
    return limit


def place_of(mark: Place) -> Tuple[int, int, int]:
    return mark.index, mark.line, mark.column


class Scanner:
    """A scanner of one input. What it gives is in memory of its own; its rooms are used again.

    Any number of threads may use it, one after the other: a call waits until that of another thread has ended.
    """

    def __init__(self) -> None:
        self._lock = threading.Lock()
        self._handle = Handle()
        self._records = ctypes.create_string_buffer(SIZE * BATCH)
        self._texts = ctypes.create_string_buffer(TEXT_ROOM)
        self._answer = Answer()
        self._refusal: Optional[Refusal] = None
        self._has_no_memory = False

    def next(self) -> Union[Batch, Refusal, None]:
        """The next tokens, or the fault, or None after the stream end, the fault, or `close`.

        MemoryError says that memory was refused, and comes again at each call.
        """
        with self._lock:
            if self._refusal is None and not self._has_no_memory:
                status = self._read()
                if status == NO_ROOM:
                    self._texts = ctypes.create_string_buffer(self._answer.text_len)
                    status = self._read()
                if status == FAULT:
                    self._has_no_memory = self._answer.error == MEMORY_ERROR
                    self._refusal = None if self._has_no_memory else self._told()
                if self._answer.token_count:
                    return self._given()
            refusal, self._refusal = self._refusal, None
        if self._has_no_memory:
            raise MemoryError(NO_MEMORY_WORDS)
        return refusal

    def close(self) -> None:
        """Frees what the library holds, at any time and any number of times."""
        with self._lock:
            self._refusal, self._has_no_memory = None, False
            LIBRARY.bogzhami_close(ctypes.byref(self._handle))

    def __del__(self) -> None:
        if hasattr(self, "_handle") and self._handle.live:
            LIBRARY.bogzhami_close(ctypes.byref(self._handle))

    def _read(self) -> int:
        """Calls the library for the next tokens, and returns its status."""
        raise NotImplementedError

    def _rooms(self) -> Tuple[Any, ...]:
        """Where a call of the library puts what it gives."""
        return self._records, BATCH, self._texts, len(self._texts), ctypes.byref(self._answer)

    def _given(self) -> Batch:
        """The records and the texts that the last call has put."""
        records = memoryview(self._records)[: SIZE * self._answer.token_count]
        return Batch(bytes(records), bytes(memoryview(self._texts)[: self._answer.text_len]))

    def _told(self) -> Refusal:
        """The fault that the last call has told of, unless memory was refused."""
        answer = self._answer
        problem_at, context_at = answer.text_len, answer.text_len + answer.problem_len
        words = memoryview(self._texts)
        problem = bytes(words[problem_at:context_at]).decode("ascii")
        context = bytes(words[context_at : context_at + answer.context_len]).decode("ascii")
        if answer.error == READER_ERROR:
            return Refusal(True, problem, None, NOWHERE, NOWHERE, answer.problem_offset, answer.problem_value)
        mark, context_mark = place_of(answer.problem_mark), place_of(answer.context_mark)
        return Refusal(False, problem, context or None, mark, context_mark, 0, 0)


def check_opened(status: int, encoding: int, limit: int) -> None:
    """Raises what the status of a call says that opens a scanner."""
    if status == WRONG:
        raise ValueError(f"encoding {encoding} or key limit {limit}")
    if status == NO_MEMORY:
        raise MemoryError(NO_MEMORY_WORDS)


class Held(Scanner):
    """A scanner of an input that is there as a whole."""

    def __init__(self, data: bytes, encoding: int, key_limit: SupportsIndex) -> None:
        """ValueError says that there is no such encoding or key limit, MemoryError that memory was refused."""
        limit = limit_of(key_limit)
        super().__init__()
        self.data, self.encoding = data, encoding
        self._input = (ctypes.byref(self._handle), data, len(data))
        check_opened(LIBRARY.bogzhami_open(*self._input, encoding, limit), encoding, limit)

    def _read(self) -> int:
        status: int = LIBRARY.bogzhami_next(*self._input, *self._rooms())
        return status


class Fed(Scanner):
    """A scanner of an input that comes in pieces. It gives a token once no more of the input can change it.

    `next` returns None also where more has to come before there is a token or a fault; then `wants_more` is set. What is not
    whole is scanned again from its start when more came. So once it has a megabyte, that is tried again only when it has
    grown by a quarter, or at the end.
    """

    def __init__(self, encoding: int, key_limit: SupportsIndex) -> None:
        """The settings are those of `Held`. Pieces that are `str` are scanned as UTF-8, whatever encoding is set."""
        self._limit = limit_of(key_limit)
        super().__init__()
        self.data, self.encoding = bytearray(), encoding  # all that came is kept, since a reader's fault is placed by it
        self.is_text: Optional[bool] = None  # whether the pieces are `str`, once there is one
        self.is_whole = self.wants_more = False
        self._needed_from = ctypes.c_uint64()
        self._given_to = 0  # how many bytes of the text come before the end of the last token that was given
        self._due = 0  # how many bytes have to be there before the library is called again

    def put(self, piece: Content, taken: str = PIECES_TAKEN) -> None:
        """Appends a piece. TypeError says that it is none, or no `str` after `str`, or no bytes after bytes.

        MemoryError says that memory was refused; then the piece was not put.
        """
        data, is_text = bytes_of(piece, taken), isinstance(piece, str)
        with self._lock:
            if self.is_text is None:
                self._open(is_text)
            if self.is_text is not is_text:
                raise TypeError(f"{type(piece).__name__} is given after {'str' if self.is_text else 'bytes'}")
            self.data += data

    def end(self) -> None:
        """Says that no more comes."""
        with self._lock:
            if self.is_text is None:
                self._open(False)
            self.is_whole = True

    def hurry(self) -> None:
        """Has `next` look at all that came, since it may be long until more comes."""
        self._due = 0

    def _open(self, is_text: bool) -> None:
        encoding = 0 if is_text else self.encoding
        status = LIBRARY.bogzhami_open_pieces(ctypes.byref(self._handle), encoding, self._limit)
        check_opened(status, encoding, self._limit)
        self.encoding, self.is_text = encoding, is_text

    def _read(self) -> int:
        status, size = MORE, len(self.data)
        if self.is_whole or (self.is_text is not None and size >= self._due):
            # the bytes can not grow while the start of them is there
            start = ctypes.byref(ctypes.c_char.from_buffer(self.data)) if size else None
            window = ctypes.byref(self._handle), 0, start, size, self.is_whole
            status = LIBRARY.bogzhami_next_piece(*window, *self._rooms(), ctypes.byref(self._needed_from))
            self._wait(status, size)
        else:
            self._answer.token_count = 0
        self.wants_more = status in (MORE, WHOLE)
        return status

    def _wait(self, status: int, size: int) -> None:
        """Sets after a call with so many bytes with how many the next one is due."""
        count = self._answer.token_count
        if count:
            self._given_to = FIELDS.unpack_from(self._records, SIZE * (count - 1))[7]
        rest = size - self._given_to
        if status in (MORE, WHOLE):
            self._due = size + (1 if rest < LONG_REST else rest // 4)
