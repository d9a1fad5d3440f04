from typing import Any, Iterator, Optional, Type, TypeVar

from yaml.composer import Composer
from yaml.constructor import BaseConstructor, Constructor, FullConstructor, SafeConstructor, UnsafeConstructor
from yaml.parser import Parser
from yaml.resolver import BaseResolver, Resolver
from yaml.tokens import Token

from .loaders import Stream

_Kind = TypeVar("_Kind")

__all__ = [
    "BaseLoader",
    "FullLoader",
    "Loader",
    "SafeLoader",
    "Scanning",
    "UnsafeLoader",
    "load",
    "load_all",
    "loader_like",
    "replace_loaders",
    "safe_load",
    "safe_load_all",
]

class Scanning:
    key_limit: int
    name: str
    def __init__(self, stream: Stream) -> None: ...
    def check_token(self, *choices: Type[Token]) -> bool: ...
    def peek_token(self) -> Optional[Token]: ...
    def get_token(self) -> Optional[Token]: ...
    def dispose(self) -> None: ...

class BaseLoader(Scanning, Parser, Composer, BaseConstructor, BaseResolver):
    def __init__(self, stream: Stream) -> None: ...

class SafeLoader(Scanning, Parser, Composer, SafeConstructor, Resolver):
    def __init__(self, stream: Stream) -> None: ...

class FullLoader(Scanning, Parser, Composer, FullConstructor, Resolver):
    def __init__(self, stream: Stream) -> None: ...

class UnsafeLoader(Scanning, Parser, Composer, UnsafeConstructor, Resolver):
    def __init__(self, stream: Stream) -> None: ...

class Loader(Scanning, Parser, Composer, Constructor, Resolver):
    def __init__(self, stream: Stream) -> None: ...

def loader_like(kind: Type[_Kind]) -> Type[_Kind]: ...
def load(stream: Stream, Loader: Type[Any]) -> Any: ...
def load_all(stream: Stream, Loader: Type[Any]) -> Iterator[Any]: ...
def safe_load(stream: Stream) -> Any: ...
def safe_load_all(stream: Stream) -> Iterator[Any]: ...
def replace_loaders() -> None: ...
