"""The tokens of a batch as PyYAML's objects."""

from typing import Any, List

from yaml import tokens
from yaml.scanner import ScannerError

from ..held import Batch
from .marks import Mark, Source

STREAM_START, STREAM_END, VERSION_DIRECTIVE, BLOCK_END = 1, 2, 3, 9
ALIAS, ANCHOR, TAG, SCALAR = 18, 19, 20, 21

# The classes of the tokens that have nothing but marks.
CLASSES = {
    STREAM_END: tokens.StreamEndToken,
    5: tokens.DocumentStartToken,
    6: tokens.DocumentEndToken,
    7: tokens.BlockSequenceStartToken,
    8: tokens.BlockMappingStartToken,
    BLOCK_END: tokens.BlockEndToken,
    10: tokens.FlowSequenceStartToken,
    11: tokens.FlowSequenceEndToken,
    12: tokens.FlowMappingStartToken,
    13: tokens.FlowMappingEndToken,
    14: tokens.BlockEntryToken,
    15: tokens.FlowEntryToken,
    16: tokens.KeyToken,
    17: tokens.ValueToken,
}
STYLES = (None, None, "'", '"', "|", ">")
ENCODINGS = (None, "utf-8", "utf-16-le", "utf-16-be")


class Maker:
    """Makes the tokens of a source, batch after batch."""

    __slots__ = ("source", "last_mark")

    def __init__(self, source: Source) -> None:
        self.source = source
        self.last_mark = Mark(source, 0, 0, 0)

    def tokens_of(self, batch: Batch, made: List[tokens.Token]) -> None:
        """Appends the tokens of a batch. ScannerError, after those before it, says that what a tag writes is not UTF-8.

        A place has one mark, which the tokens that end and begin there share. At the end of a text whose last line has no
        break, it is in that line, as PyYAML's scanner has it. The library has it in the next line, as libyaml does.
        """
        # objects are made without a call of __init__, and their parts set one by one: this is most of what a scan takes
        new, source, before, put = object.__new__, self.source, len(made), made.append
        is_ascii = batch.texts.isascii()
        texts: Any = batch.texts.decode() if is_ascii else batch.texts
        end_mark, last, open_end = self.last_mark, self.last_mark.place, source.open_end
        for number, detail, at, size, start, line, column, end, end_line, end_column in batch.fields():
            if start == last:
                mark = end_mark
            elif start == open_end:
                mark = end_mark = source.end_of_last_line()
            else:
                mark = end_mark = new(Mark)
                mark.source = source
                mark.place = start
                mark.line, mark.column = line, column
            if end != start:
                end_mark = new(Mark)
                end_mark.source = source
                end_mark.place = end
                end_mark.line, end_mark.column = end_line, end_column
            last = end
            if number == SCALAR:
                token = new(tokens.ScalarToken)
                token.value = texts[at : at + size] if is_ascii else texts[at : at + size].decode()
                token.plain, token.style = detail == 1, STYLES[detail]
                token.start_mark, token.end_mark = mark, end_mark
            elif number in CLASSES:
                token = new(CLASSES[number])
                token.start_mark, token.end_mark = mark, end_mark
            else:
                token = self._other(batch, len(made) - before, number, detail, mark, end_mark)
            put(token)
        self.last_mark = end_mark

    def _other(self, batch: Batch, record: int, number: int, detail: int, start: Mark, end: Mark) -> tokens.Token:
        """A token that is neither a scalar nor one that has nothing but marks."""
        if number == STREAM_START:
            return tokens.StreamStartToken(start, end, None if self.source.is_text else ENCODINGS[detail])
        if number == VERSION_DIRECTIVE:
            return tokens.DirectiveToken("YAML", batch.version_of(record), start, end)
        first, second = batch.texts_of(record)
        text = first.decode()
        if number == ALIAS:
            return tokens.AliasToken(text, start, end)
        if number == ANCHOR:
            return tokens.AnchorToken(text, start, end)
        if number == TAG:
            return tokens.TagToken((text or None, written(second, "tag", start)), start, end)
        return tokens.DirectiveToken("TAG", (text, written(second, "directive", start)), start, end)


def written(text: bytes, name: str, start: Mark) -> str:
    """What a tag or a directive writes, or PyYAML's error if it is not UTF-8."""
    try:
        return text.decode()
    except UnicodeDecodeError as reason:
        raise ScannerError(f"while scanning a {name}", start, str(reason), start) from None
