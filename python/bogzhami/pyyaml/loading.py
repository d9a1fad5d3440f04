"""`load` and `safe_load` as PyYAML has them, by the loaders of this package."""

from typing import Any, Iterator, Type

import yaml

from .loaders import SafeLoader, Scanning, Stream


def checked(kind: Type[Any]) -> Type[Any]:
    """The class, if its loaders scan as those of this package do; TypeError if not."""
    if not (isinstance(kind, type) and issubclass(kind, Scanning)):
        raise TypeError(f"{kind!r} is no loader of bogzhami.pyyaml; loader_like makes one of yaml.SafeLoader and such classes")
    return kind


def load(stream: Stream, Loader: Type[Any]) -> Any:
    """The one document of a stream, as `yaml.load` gives it, or None if there is none."""
    return yaml.load(stream, Loader=checked(Loader))


def load_all(stream: Stream, Loader: Type[Any]) -> Iterator[Any]:
    """The documents of a stream, one after the other, as `yaml.load_all` gives them."""
    documents: Iterator[Any] = yaml.load_all(stream, Loader=checked(Loader))
    return documents


def safe_load(stream: Stream) -> Any:
    """The one document of a stream, of YAML's own types, as `yaml.safe_load` gives it, or None if there is none."""
    return load(stream, SafeLoader)


def safe_load_all(stream: Stream) -> Iterator[Any]:
    """The documents of a stream, of YAML's own types, as `yaml.safe_load_all` gives them."""
    return load_all(stream, SafeLoader)
