"""Runs yamllint over this scanner: python3 -m bogzhami.yamllint WORDS, with the words of yamllint.

yamllint asks `yaml.BaseLoader` for tokens and events, so it is that class that is replaced, in this process. How it reads its
own configuration stays as it is. A file that is not in the encoding of the locale is told as one that can not be read. The
exit status is that of yamllint, but 3 if its configuration can not be read or its messages can not be written, of which nothing
is said if who reads them has closed the pipe, and 130 if the keyboard interrupts it.
"""

import os
import sys
from typing import Any, Callable


def told(run: Callable[..., Any]) -> Callable[..., Any]:
    """The function of yamllint that reads a file. What is no text there is an OSError, which yamllint shows."""

    def run_or_tell(given: Any, settings: Any, path: Any = None) -> Any:
        try:
            return run(given, settings, path)
        except UnicodeDecodeError as reason:
            raise OSError(f"{path or 'stdin'}: {reason}") from None

    return run_or_tell


def status_of(run: Callable[[], Any]) -> Any:
    """Runs a program that ends by `sys.exit`, and returns its status when all is written that it writes."""
    try:
        run()
    except SystemExit as end:
        if sys.stdout is not None:
            sys.stdout.flush()
        return end.code
    return None


def drop_output() -> None:
    """Drops what is still to be written, so that Python does not try again at its end."""
    os.dup2(os.open(os.devnull, os.O_WRONLY), 1)


def main() -> Any:
    """Runs yamllint, and returns its exit status, or what is said on standard error if there is nothing to run."""
    try:
        import yaml
        from yamllint import cli, linter
    except ImportError as reason:
        return f"bogzhami.yamllint: {reason}: yamllint and PyYAML are needed (Debian: yamllint, which brings both)"
    from .pyyaml.placed import PlacedLoader

    yaml.BaseLoader = PlacedLoader
    linter.run = told(linter.run)
    sys.argv[0] = "yamllint"
    try:
        return status_of(cli.run)
    except ImportError as reason:  # there is no library
        return f"bogzhami.yamllint: {reason}"
    except BrokenPipeError:
        drop_output()
        return 3
    except OSError as reason:
        drop_output()
        print(f"bogzhami.yamllint: {reason}", file=sys.stderr)
        return 3
    except KeyboardInterrupt:
        drop_output()
        return 130


if __name__ == "__main__":
    sys.exit(main())
