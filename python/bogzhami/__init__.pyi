from typing import Iterator, SupportsIndex

from .files import Input
from .held import Content
from .tokens import Encoding as Encoding, Fault as Fault, Mark as Mark, ScalarStyle as ScalarStyle, Token as Token
from .tokens import TokenType as TokenType

__version__: str
__all__ = ["Encoding", "Fault", "Feeder", "Mark", "ScalarStyle", "Token", "TokenType", "scan"]

def scan(data: Input, encoding: Encoding = ..., key_limit: SupportsIndex = ...) -> Iterator[Token]: ...

class Feeder:
    def __init__(self, encoding: Encoding = ..., key_limit: SupportsIndex = ...) -> None: ...
    def feed(self, data: Content) -> Iterator[Token]: ...
    def close(self) -> Iterator[Token]: ...
