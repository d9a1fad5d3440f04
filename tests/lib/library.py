"""The library for C, which ffi/build makes."""

import os
import subprocess

from repository import TOP, read

VERSION = read("VERSION").strip()


def build_library():
    """Makes ffi/out, unless LIBRARY_IS_BUILT says that it was made of these sources."""
    if not os.environ.get("LIBRARY_IS_BUILT"):
        subprocess.run([os.path.join(TOP, "ffi", "build")], check=True, stdout=subprocess.DEVNULL)
