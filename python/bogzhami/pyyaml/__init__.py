"""Loaders for PyYAML whose scanner is that of libbogzhami.

    bogzhami.pyyaml.safe_load(text)
    yaml.load(text, Loader=bogzhami.pyyaml.SafeLoader)

Parser, composer, constructors and resolvers are PyYAML's own, and so are the classes of tokens and exceptions. `shortcuts` has
what is quicker than that. As with PyYAML's C loaders, constructors and resolvers of one's own are added to these classes; a
class that already has some, `yaml.SafeLoader` or one's own, gets this scanner by `loader_like`. `replace_loaders` puts such
loaders in the place of PyYAML's, and `python3 -m bogzhami.pyyaml SCRIPT` runs a program over them that can not be changed.
"""

from .instead import replace_loaders
from .loaders import BaseLoader, FullLoader, Loader, SafeLoader, Scanning, UnsafeLoader, loader_like
from .loading import load, load_all, safe_load, safe_load_all

__all__ = [
    "BaseLoader",
    "FullLoader",
    "Loader",
    "SafeLoader",
    "Scanning",
    "UnsafeLoader",
    "load",
    "load_all",
    "loader_like",
    "replace_loaders",
    "safe_load",
    "safe_load_all",
]
