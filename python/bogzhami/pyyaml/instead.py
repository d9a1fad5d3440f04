"""Loaders of this package in the place of PyYAML's, for a program that can not be changed."""

import types
from typing import Any, Dict, Type

import yaml
import yaml.loader

from . import loaders
from .loaders import Scanning, loader_like

NAMES = ("BaseLoader", "SafeLoader", "FullLoader", "UnsafeLoader", "Loader")
TABLES = ("yaml_constructors", "yaml_multi_constructors", "yaml_implicit_resolvers", "yaml_path_resolvers")

Kinds = Dict[Type[Any], Type[Any]]


def replace_loaders() -> None:
    """Puts loaders that scan as those of this package do in the place of PyYAML's, also of those in C, in this process.

    They stand in `yaml`, `yaml.loader` and `yaml.cyaml`, and in what these give to functions that are not told a loader. They
    know the constructors and resolvers that were added to the classes before. Who has taken a class of PyYAML before, or has
    derived one from it, keeps that, so this is called first.
    """
    kinds = {kind: like(name, kind) for name, kind in loaders_of(yaml).items() if not issubclass(kind, Scanning)}
    for module in (yaml, yaml.loader, getattr(yaml, "cyaml", None)):
        for name, kind in loaders_of(module).items():
            setattr(module, name, kinds.get(kind, kind))
    for function in filter(is_function, vars(yaml).values()):
        if function.__defaults__:
            function.__defaults__ = tuple(instead_of(default, kinds) for default in function.__defaults__)
    yaml.YAMLObject.yaml_loader = [instead_of(kind, kinds) for kind in yaml.YAMLObject.yaml_loader]


def loaders_of(module: Any) -> Dict[str, Type[Any]]:
    """PyYAML's loaders that a module names."""
    named = {c + name: getattr(module, c + name, None) for c in ("", "C") for name in NAMES}
    return {name: kind for name, kind in named.items() if isinstance(kind, type)}


def like(name: str, kind: Type[Any]) -> Type[Any]:
    """What stands for a loader. For one in C that is a loader of this package, with the tables that are the class's own."""
    if not name.startswith("C"):
        return loader_like(kind)
    own = {table: vars(kind)[table] for table in TABLES if table in vars(kind)}
    return type(name, (getattr(loaders, name[1:]),), {"__doc__": kind.__doc__, **own})


def is_function(one: Any) -> bool:
    return isinstance(one, types.FunctionType)


def instead_of(one: Any, kinds: Kinds) -> Any:
    """What stands for a loader, or else the thing itself."""
    return kinds.get(one, one) if isinstance(one, type) else one
