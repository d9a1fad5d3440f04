"""The tokens of a YAML 1.1 input, with exact marks, by the proved scanner of libbogzhami.

    for token in bogzhami.scan("a: 1"):
        print(token.type.name, token.start_mark.line, token.value)

A fault, which ends the tokens, is raised as `Fault`. An open file is scanned while it is read, and a `Feeder` is given its
input in pieces. `bogzhami.pyyaml` has loaders for PyYAML, `python3 -m bogzhami.yamllint`
runs yamllint over this scanner, and `python3 -m bogzhami` lists tokens.
"""

import os
from typing import Iterator, Optional, SupportsIndex, Union

from .files import Input, Reading
from .held import Batch, Content, Fed, Held, Refusal, bytes_of, limit_of
from .tokens import Encoding, Fault, Mark, ScalarStyle, Text, Token, TokenType, encoding_of, fault_of

__version__ = "1.1.0"

__all__ = ["Encoding", "Fault", "Feeder", "Mark", "ScalarStyle", "Token", "TokenType", "scan"]

_STREAM_START, _VERSION_DIRECTIVE, _TAG_DIRECTIVE, _ALIAS, _ANCHOR, _TAG, _SCALAR = 1, 3, 4, 18, 19, 20, 21
_TAKEN = "str, bytes, what has a buffer, an open file, or a path"
_TYPES = (TokenType.STREAM_START, *TokenType)  # by number; none has the number 0
_STYLES = (None, *ScalarStyle)
_ENCODINGS = tuple(Encoding)


def scan(data: Input, encoding: Encoding = Encoding.ANY, key_limit: SupportsIndex = 1024) -> Iterator[Token]:
    """Yields the tokens of an input, up to the stream end or the fault, which is raised after the tokens before it.

    The input is scanned as its tokens are taken, 256 at a time, so what is not asked for is not scanned. A `str` is scanned
    as UTF-8, whatever encoding is set, and may begin with U+FEFF as a file does; bytes that can change are copied first. An
    open file is read as its tokens are taken, and is not closed: a pipe gives a token as soon as no more of it can change that.
    A path, such as `pathlib.Path`, stands for the bytes of its file, which is read to its end at once; a `str` is always a
    text. The key limit is how many bytes a simple key may have, 1 to 65536.
    Whoever stops early need not do anything: the scanner is freed with the generator, or when that is closed. Several
    threads may scan at once, each with a generator of its own.

    Raises Fault; ValueError, at once, for wrong settings; TypeError for what can not be scanned; MemoryError if memory is
    refused; OSError if a path can not be read. What a read of an open file raises comes after the tokens before it.
    """
    chosen, limit = encoding_of(encoding), limit_of(key_limit)
    if isinstance(data, os.PathLike):
        with open(data, "rb") as file:
            return _tokens(Held(file.read(), chosen, limit))
    if hasattr(data, "read"):
        return _tokens(Reading(data, chosen, limit))
    setting = Encoding.ANY if isinstance(data, str) else chosen
    return _tokens(Held(bytes_of(data, _TAKEN), setting, limit))


class Feeder:
    """A scanner that is fed its input in pieces, as they come.

        feeder = bogzhami.Feeder()
        for piece in pieces:
            for token in feeder.feed(piece):
                use(token)
        for token in feeder.close():
            use(token)

    Whatever the pieces are, the tokens and the fault are those that `scan` gives for all of the input, with the same settings.
    The pieces are either all `str`, or all bytes. A token comes as soon as no more of the input can change it: if the input is
    in UTF-16 all come after `close`, and within a scalar of more than a megabyte it may take a quarter of that longer.

    What is not taken of an iterator comes first in the next one. A fault is raised by the iterator, after the tokens before it,
    and then by each one that is made later. A feeder is used by one thread at a time.
    """

    def __init__(self, encoding: Encoding = Encoding.ANY, key_limit: SupportsIndex = 1024) -> None:
        """The settings are those of `scan`; ValueError says that one is wrong."""
        self._fed = Fed(encoding_of(encoding), key_limit)
        self._waiting: Iterator[Token] = iter(())  # the tokens of a batch that were not taken
        self._refusal: Optional[Refusal] = None  # what has ended the tokens

    def feed(self, data: Content) -> Iterator[Token]:
        """Takes the next piece, and returns an iterator over the tokens that are settled by now.

        The piece is taken at once, whether the iterator is used or not. Raises ValueError after `close`; TypeError for what is
        no piece, or not of the kind of those before; MemoryError if memory is refused. Then nothing is taken. The iterator
        raises Fault, and MemoryError.
        """
        if self._fed.is_whole:
            raise ValueError("feed after close")
        self._fed.put(data)
        return self._settled()

    def close(self) -> Iterator[Token]:
        """Says that no more comes, and returns an iterator over the rest of the tokens. It may be called again."""
        self._fed.end()
        return self._settled()

    def _settled(self) -> Iterator[Token]:
        while True:
            # no `yield from`, which would close the tokens that are waiting together with this generator
            for token in self._waiting:
                yield token
            given = self._refusal or self._fed.next()
            if given is None:
                return
            if isinstance(given, Refusal):
                self._refusal = given
                raise fault_of(given, self._fed.data, self._fed.encoding)
            self._waiting = _tokens_of(given)


def _tokens(scanner: Union[Held, Reading]) -> Iterator[Token]:
    try:
        while isinstance(batch := scanner.next(), Batch):
            yield from _tokens_of(batch)
        if isinstance(batch, Refusal):
            raise fault_of(batch, scanner.data, scanner.encoding)
    finally:
        scanner.close()


def _tokens_of(batch: Batch) -> Iterator[Token]:
    """The tokens of a batch."""
    texts = batch.texts
    for record, fields in enumerate(batch.fields()):
        number, detail, at, size, start, line, column, end, end_line, end_column = fields
        marks = Mark(start, line, column), Mark(end, end_line, end_column)
        if number == _SCALAR:
            yield Token(_TYPES[number], *marks, texts[at : at + size].decode(), None, _STYLES[detail])
        elif number == _ALIAS or number == _ANCHOR:
            yield Token(_TYPES[number], *marks, texts[at : at + size].decode())
        elif number == _TAG or number == _TAG_DIRECTIVE:
            handle, value = batch.texts_of(record)
            yield Token(_TYPES[number], *marks, _text(value), handle.decode())
        elif number == _STREAM_START:
            yield Token(_TYPES[number], *marks, encoding=_ENCODINGS[detail])
        elif number == _VERSION_DIRECTIVE:
            yield Token(_TYPES[number], *marks, version=batch.version_of(record))
        else:
            yield Token(_TYPES[number], *marks)


def _text(data: bytes) -> Text:
    """The bytes as text, if they are UTF-8."""
    try:
        return data.decode()
    except UnicodeDecodeError:
        return data
