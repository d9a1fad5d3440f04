"""Makes the wheel of the package: what pip calls for `pip install ./python`, as PEP 517 and PEP 660 name it.

The library goes into the wheel. It is the file that `BOGZHAMI_LIBRARY` names; without that, the one beside the package's files,
and then that of `ffi/out` in a checkout. Only Python's standard library is used.
"""

import base64
import hashlib
import os
import re
import time
import zipfile
from typing import Any, Dict, Iterator, List, Optional, Tuple

HERE = os.path.dirname(os.path.abspath(__file__))
FOLDER = os.path.dirname(HERE)
PACKAGE = os.path.join(FOLDER, "bogzhami")
MADE = os.path.join(os.path.dirname(FOLDER), "ffi", "out")
# The library is made for this system alone, whichever Python loads it.
TAG = "py3-none-linux_x86_64"
LIBRARY = re.compile(r"libbogzhami\.so(\.[0-9]+)*")
NO_LIBRARY = f"""There is no library to put into the wheel: ffi/build makes {MADE}.
BOGZHAMI_LIBRARY may name the file of another one."""
FIRST_TIME = 315532800  # 1980-01-01: a zip archive knows no earlier time

Settings = Optional[Dict[str, Any]]


class UnsupportedOperation(Exception):
    """What this backend does not do."""


def read(*path: str) -> bytes:
    with open(os.path.join(FOLDER, *path), "rb") as file:
        return file.read()


def version() -> str:
    """The version that the package says it has."""
    found = re.search(rb'^__version__ = "(.*)"$', read("bogzhami", "__init__.py"), re.M)
    if found is None:
        raise ValueError("bogzhami/__init__.py says no version")
    return found[1].decode()


def library() -> str:
    """The file of the library."""
    named = os.environ.get("BOGZHAMI_LIBRARY")
    soname = "libbogzhami.so." + version().split(".")[0]
    for path in [named] if named else [os.path.join(folder, soname) for folder in (PACKAGE, MADE)]:
        if os.path.isfile(path):
            return path
    raise FileNotFoundError(NO_LIBRARY)


# WHAT IS IN A WHEEL: names and contents

Files = List[Tuple[str, bytes]]


def module_files() -> Iterator[Tuple[str, bytes]]:
    """The files of the package, without libraries and what Python has compiled."""
    for folder, folders, names in os.walk(PACKAGE):
        folders[:] = sorted(name for name in folders if name != "__pycache__")
        for name in sorted(names):
            path = os.path.relpath(os.path.join(folder, name), FOLDER)
            if not LIBRARY.fullmatch(name):
                yield path, read(path)


def with_library() -> Files:
    """The package, with the library beside its files, which is where it looks for that first."""
    path = library()
    with open(path, "rb") as file:
        name = "libbogzhami.so." + version().split(".")[0]
        return [*module_files(), (f"bogzhami/{name}", file.read())]


def link_only() -> Files:
    """A file that names this folder, in which Python then finds the package."""
    return [("bogzhami.pth", os.fsencode(FOLDER) + b"\n")]


def about() -> Files:
    """What an installed package says of itself."""
    folder = f"bogzhami-{version()}.dist-info"
    wheel = f"Wheel-Version: 1.0\nGenerator: bogzhami\nRoot-Is-Purelib: false\nTag: {TAG}\n"
    metadata = read("packing", "METADATA").replace(b"{version}", version().encode())
    return [
        (f"{folder}/METADATA", metadata + read("README.md")),
        (f"{folder}/WHEEL", wheel.encode()),
        (f"{folder}/LICENSE", read("LICENSE")),
    ]


def record(files: Files) -> Tuple[str, bytes]:
    """The list of all files, with their digests."""
    name = f"bogzhami-{version()}.dist-info/RECORD"
    lines = []
    for path, data in files:
        digest = base64.urlsafe_b64encode(hashlib.sha256(data).digest()).rstrip(b"=").decode()
        lines.append(f"{path},sha256={digest},{len(data)}\n")
    return name, "".join([*lines, f"{name},,\n"]).encode()


# WHEELS

def make_wheel(folder: str, files: Files) -> str:
    """Makes a wheel in a folder, and returns its name. The same files and the same time make the same bytes."""
    files = [*files, *about()]
    name = f"bogzhami-{version()}-{TAG}.whl"
    when = time.gmtime(max(FIRST_TIME, int(os.environ.get("SOURCE_DATE_EPOCH", FIRST_TIME))))[:6]
    with zipfile.ZipFile(os.path.join(folder, name), "w", zipfile.ZIP_DEFLATED) as wheel:
        for path, data in [*files, record(files)]:
            entry = zipfile.ZipInfo(path, when)
            entry.compress_type, entry.external_attr = zipfile.ZIP_DEFLATED, 0o100644 << 16
            wheel.writestr(entry, data)
    return name


def build_wheel(wheel_directory: str, config_settings: Settings = None, metadata_directory: Optional[str] = None) -> str:
    return make_wheel(wheel_directory, with_library())


def build_editable(wheel_directory: str, config_settings: Settings = None, metadata_directory: Optional[str] = None) -> str:
    return make_wheel(wheel_directory, link_only())


def build_sdist(sdist_directory: str, config_settings: Settings = None) -> str:
    raise UnsupportedOperation("there is no package of sources: the library is made by ffi/build of the whole repository")
