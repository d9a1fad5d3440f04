"""The loaders, and the scanner that PyYAML's parser asks for tokens."""

from typing import Any, List, Optional, Type, TypeVar, Union

from yaml.constructor import BaseConstructor, Constructor, FullConstructor, SafeConstructor, UnsafeConstructor
from yaml.error import YAMLError
from yaml.reader import Reader, ReaderError
from yaml.resolver import BaseResolver, Resolver
from yaml.scanner import Scanner, ScannerError
from yaml.tokens import ScalarToken, Token

from ..files import Readable, Reading
from ..held import Batch, Content, Held, Refusal, bytes_of
from ..text import CODECS
from .marks import Source
from .shortcuts import QuickComposer, QuickParser
from .tokens import Maker

ANY = 0
Kind = TypeVar("Kind")
Stream = Union[Content, Readable]


class Scanning:
    """What PyYAML's `Reader` and `Scanner` are for its parser: the tokens of a stream, one after the other.

    A stream is `str`, bytes, or a file. It is scanned as tokens are asked for, 256 at a time, and a file is read as they are: from
    a pipe a token comes as soon as no more of it can change that. An error is raised in place of the token that can not be
    read, each time that it is asked for. What a read raises comes after the tokens before it.
    """

    # how many bytes a simple key may have, 1 to 65536
    key_limit = 1024

    def __init__(self, stream: Stream) -> None:
        self._held: Union[Held, Reading, None]
        if hasattr(stream, "read"):
            self.name = getattr(stream, "name", "<file>")
            self._held = reading = Reading(stream, ANY, self.key_limit)
            self._source = Source(self.name, reading.data, False)
        else:
            self.name = "<unicode string>" if isinstance(stream, str) else "<byte string>"
            self._held = held = Held(bytes_of(stream), ANY, self.key_limit)
            self._source = Source(self.name, held.data, True)
            self._source.see(isinstance(stream, str), True)
        self._maker = Maker(self._source)
        self._waiting: List[Token] = []  # the tokens of a batch that were not taken, the next one last
        self._error: Optional[YAMLError] = None

    def check_token(self, *choices: Type[Token]) -> bool:
        """Whether there is a next token, and of one of these types if any is given."""
        waiting = self._waiting
        if not waiting and not self._fill():
            return False
        return not choices or isinstance(waiting[-1], choices)

    def peek_token(self) -> Optional[Token]:
        """The next token, which stays, or None after the last one."""
        return self._waiting[-1] if self._waiting or self._fill() else None

    def get_token(self) -> Optional[Token]:
        """The next token, or None after the last one."""
        return self._waiting.pop() if self._waiting or self._fill() else None

    def take_scalar_after(self, kind: Type[Token]) -> Optional[ScalarToken]:
        """Takes a token of that type and the scalar right after it, and returns the scalar; or takes nothing if it is not known
        that these two come next."""
        waiting = self._waiting
        if len(waiting) < 2 or not isinstance(waiting[-1], kind) or not isinstance(waiting[-2], ScalarToken):
            return None
        waiting.pop()
        return waiting.pop()

    def dispose(self) -> None:
        """Frees the scanner; there are no more tokens."""
        super().dispose()  # type: ignore[misc]  # of the parser, which comes after it in each loader
        self._waiting.clear()
        self._error = None
        if self._held is not None:
            self._held.close()
            self._held = None

    def _fill(self) -> bool:
        """Takes the next batch if all tokens were taken. Returns whether there are any, or raises the error that comes next."""
        given = None if self._error is not None else self._next()
        if isinstance(given, Batch):
            try:
                self._maker.tokens_of(given, self._waiting)
            except ScannerError as error:
                self._error = error
            self._waiting.reverse()
        elif isinstance(given, Refusal):
            self._error = self._error_of(given)
        if self._error is not None and not self._waiting:
            raise self._error.with_traceback(None)
        return bool(self._waiting)

    def _next(self) -> Union[Batch, Refusal, None]:
        """What the scanner gives next, after the source has seen what was read for it."""
        held = self._held
        if held is None:
            return None
        given = held.next()
        if isinstance(held, Reading):
            self._source.see(held.is_text is True, held.is_whole)
        return given

    def _error_of(self, refusal: Refusal) -> YAMLError:
        """The fault as PyYAML's exception."""
        source = self._source
        if not refusal.is_reader:
            context_mark = source.mark(*refusal.context_mark) if refusal.context else None
            return ScannerError(refusal.context, context_mark, refusal.problem, source.mark(*refusal.mark))
        position, character, encoding = refusal.offset, refusal.value, CODECS[source.encoding]
        if character < 0:  # the input ends too early, or no character begins so
            character = source.data[position]
        if source.is_text:
            position, encoding = len(source.data[:position].decode("utf-8", "surrogatepass")), "unicode"
        return ReaderError(self.name, position, character, encoding, refusal.problem)


class BaseLoader(Scanning, QuickParser, QuickComposer, BaseConstructor, BaseResolver):
    """As `yaml.BaseLoader`: every scalar is a `str`."""

    def __init__(self, stream: Stream) -> None:
        Scanning.__init__(self, stream)
        QuickParser.__init__(self)
        QuickComposer.__init__(self)
        BaseConstructor.__init__(self)
        BaseResolver.__init__(self)


class SafeLoader(Scanning, QuickParser, QuickComposer, SafeConstructor, Resolver):
    """As `yaml.SafeLoader`: the types of YAML, and no others."""

    def __init__(self, stream: Stream) -> None:
        Scanning.__init__(self, stream)
        QuickParser.__init__(self)
        QuickComposer.__init__(self)
        SafeConstructor.__init__(self)
        Resolver.__init__(self)


class FullLoader(Scanning, QuickParser, QuickComposer, FullConstructor, Resolver):
    """As `yaml.FullLoader`: the types of YAML, and those of Python that PyYAML takes for harmless."""

    def __init__(self, stream: Stream) -> None:
        Scanning.__init__(self, stream)
        QuickParser.__init__(self)
        QuickComposer.__init__(self)
        FullConstructor.__init__(self)
        Resolver.__init__(self)


class UnsafeLoader(Scanning, QuickParser, QuickComposer, UnsafeConstructor, Resolver):
    """As `yaml.UnsafeLoader`: any object of Python, so an input can do anything that Python can."""

    def __init__(self, stream: Stream) -> None:
        Scanning.__init__(self, stream)
        QuickParser.__init__(self)
        QuickComposer.__init__(self)
        UnsafeConstructor.__init__(self)
        Resolver.__init__(self)


class Loader(Scanning, QuickParser, QuickComposer, Constructor, Resolver):
    """As `yaml.Loader`, which is `yaml.UnsafeLoader` by its older name."""

    def __init__(self, stream: Stream) -> None:
        Scanning.__init__(self, stream)
        QuickParser.__init__(self)
        QuickComposer.__init__(self)
        Constructor.__init__(self)
        Resolver.__init__(self)


class Replacing(Scanning, Reader, Scanner, QuickParser, QuickComposer):
    """What stands before PyYAML's reader and scanner in a class that has them: they are made, and read nothing."""

    def check_printable(self, data: str) -> None:
        pass

    def determine_encoding(self) -> None:
        pass

    def fetch_stream_start(self) -> None:
        pass


def loader_like(kind: Type[Kind]) -> Type[Kind]:
    """A class of loaders that is derived from another one, and scans as those of this module do.

    It has what that class has: constructors and resolvers, also those that are added to it later, and methods of its own. It
    may be any class with PyYAML's reader and scanner in Python, such as `yaml.SafeLoader` or what is derived from it.
    """
    if not (isinstance(kind, type) and issubclass(kind, Reader) and issubclass(kind, Scanner)):
        raise TypeError(f"{kind!r} has not PyYAML's reader and scanner in Python, as yaml.SafeLoader has")
    if Scanning in kind.__mro__:
        return kind  # this function has made it, or a class that it is derived from

    class Like(kind, Replacing):  # type: ignore[misc, valid-type]  # whose base is not known before
        def __init__(self, stream: Stream, *words: Any, **named: Any) -> None:
            Scanning.__init__(self, stream)
            super().__init__(stream, *words, **named)

    Like.__name__, Like.__qualname__, Like.__doc__ = kind.__name__, kind.__qualname__, kind.__doc__
    return Like
