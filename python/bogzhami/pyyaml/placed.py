"""The loader for yamllint, whose errors all have a place."""

from yaml.error import YAMLError
from yaml.reader import ReaderError
from yaml.scanner import ScannerError

from ..held import Refusal
from ..text import place_in_front
from .loaders import ANY, BaseLoader
from .marks import Mark


class PlacedLoader(BaseLoader):
    """As `BaseLoader`, but for what is no text, such as a control character, there is a `ScannerError` too.

    yamllint shows that among its messages. A `ReaderError`, which has neither line nor column, ends it with a traceback.
    """

    def _error_of(self, refusal: Refusal) -> YAMLError:
        error = super()._error_of(refusal)
        if not isinstance(error, ReaderError):
            return error
        source = self._source
        line, column = place_in_front(source.data, ANY, refusal.offset)
        problem = f"unacceptable character #x{error.character:04x}: {error.reason}"
        return ScannerError(None, None, problem, Mark(source, refusal.offset - source.skipped, line, column))
