"""Open files, which are scanned while they are read."""

import io
import os
from typing import Any, Callable, Optional, Protocol, SupportsIndex, Type, Union

from .held import Batch, Content, Fed, Refusal

LEAST_READ = 1 << 12
TAKEN = "str or bytes out of a file"


class Readable(Protocol):
    """An open file, or what has a `read` as a file has."""

    def read(self, size: int, /) -> Union[str, bytes]:
        ...


Input = Union[Content, Readable, "os.PathLike[str]"]


class Reading(Fed):
    """A scanner of an open file, which is read as tokens are asked for, and no further than they need.

    A read asks for as many bytes as came before, or for 4,096, so that there are few reads. What an exception of a read comes
    after is scanned before it is raised.
    """

    def __init__(self, file: Readable, encoding: int, key_limit: SupportsIndex) -> None:
        super().__init__(encoding, key_limit)
        self._file = file
        self._call: Optional[Callable[[int], Any]] = None
        self._failure: Optional[Exception] = None

    def next(self) -> Union[Batch, Refusal, None]:
        """As `Fed.next`, with what is read until there is something to return. It raises what a read raises."""
        given = super().next()
        while given is None and self.wants_more:
            self._read_on()
            given = super().next()
        return given

    def _read_on(self) -> None:
        """Reads a piece, or raises why the read before has failed, after what came before it was scanned."""
        failure, self._failure = self._failure, None
        try:
            if failure is not None:
                raise failure
        finally:
            del failure  # whose traceback has this call
        try:
            piece = self._piece()
            self.put(piece, TAKEN)
        except Exception as reason:  # whatever a file raises
            self._failure = reason
            self.hurry()
            return
        if not piece:
            self.end()

    def _piece(self) -> Any:
        """What the file gives, which is empty at its end."""
        if self._call is None:
            self._call = call_of(self._file)
        return self._call(max(LEAST_READ, len(self.data)))


def call_of(file: Any) -> Callable[[int], Any]:
    """The call that reads from a file. Where a file has one, it is a call that returns what a pipe has.

    `read` waits until all came that it is asked for, if the file has a buffer. A class whose `read` is its own is read by that.
    """
    kind = type(file)
    if isinstance(file, io.BufferedIOBase) and goes_with_read(kind, "read1"):
        # `read1` may return nothing before the end, if the file is one that does not wait
        return lambda size: file.read1(size) or file.read(1)
    if isinstance(file, io.TextIOWrapper) and goes_with_read(kind, "readline") and not file.seekable():
        call: Callable[[int], Any] = file.readline
        return call
    call = file.read
    return call


def goes_with_read(kind: Type[Any], name: str) -> bool:
    """Whether a method of a class knows of its `read`: it is of the same class as that, or of a later one."""
    return issubclass(owner(kind, name), owner(kind, "read"))


def owner(kind: Type[Any], name: str) -> Type[Any]:
    """The class that a class has a method from, or `object` if it has none of that name."""
    return next((one for one in kind.__mro__ if name in vars(one)), object)
