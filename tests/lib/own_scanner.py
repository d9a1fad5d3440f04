"""What PyYAML's own scanner does otherwise, as changes of its source, by the rows of a list in python/README.md.

Each change asks `on(ROW)` whether its row is one of those that are wanted. With none of them it is PyYAML's scanner.
With all of them it gives the tokens of this scanner, and its errors at the same places, for every text that both read.
"""

import codecs
import inspect
import re
import types

import loading
import yaml
import yaml.reader
import yaml.scanner
from repository import read

# The rows by names of our own, each with the words that its row in python/README.md begins with.
ROWS = {
    "mark": "a byte order mark at the start",
    "U+FEFF": "U+FEFF anywhere else",
    "tabs": "a tab between tokens",
    "tab as indentation": "a tab where a line of a scalar could be indented",
    "comment": "a comment with no blank before it",
    "bracket": "a `]` or `}` that closes nothing",
    "open key": "the end of the text within brackets that have to be a key",
    "limit": "a key of more than 1,024 bytes and no more characters",
    "question mark": "a `?` in a plain scalar in flow",
    "colon": "a `:` in a plain scalar in flow before one of",
    "end of a tag": "a `,`, `[` or `]` in a tag",
    "handle": "a `!` in a tag after a character that is no letter, digit, `-` or `_`",
    "octets": "octets that `%` writes in a tag",
    "directive": "a directive that is neither `%YAML` nor `%TAG`",
    "version": "a version number of more than nine digits",
    "escape": "an escape that gives no character",
    "places": "the place of two errors",
}
READER = "a byte, unit or character that no text has"
LONG_KEY = "é" * 600 + ": a"  # it is too long for a table
SIGNS = {"\\n": "\n", "\\t": "\t", "\\ufeff": "\ufeff", "\\x01": "\x01", "\\|": "|"}

MARKS = {codecs.BOM_UTF16_LE: "utf-16-le", codecs.BOM_UTF16_BE: "utf-16-be", codecs.BOM_UTF8: "utf-8"}

# What is changed: pieces of the source, and what stands there instead.
CHANGES = [
    ("self.check_printable(stream)\n", "stream = without_mark(stream)\n            self.check_printable(stream)\n"),
    ("self.encoding = 'utf-16-le'\n", "self.encoding, self.raw_buffer = 'utf-16-le', without_mark(self.raw_buffer)\n"),
    ("self.encoding = 'utf-16-be'\n", "self.encoding, self.raw_buffer = 'utf-16-be', without_mark(self.raw_buffer)\n"),
    ("self.encoding = 'utf-8'\n", "self.encoding, self.raw_buffer = 'utf-8', without_mark(self.raw_buffer)\n"),
    ("elif ch != '\\uFEFF':", "elif ch != '\\uFEFF' or on('U+FEFF'):"),
    ("if self.index == 0 and", "if not on('U+FEFF') and self.index == 0 and"),
    (
        "        while not found:\n            while self.peek() == ' ':\n",
        "        while not found:\n            if on('U+FEFF') and self.column == 0 and self.peek() == '\\uFEFF':\n"
        "                self.forward()\n            while self.peek() == ' ' or on('tabs') and self.peek() == '\\t' \\\n"
        "                    and (self.flow_level or not self.allow_simple_key):\n",
    ),
    ("        while self.peek() == ' ':\n", "        while self.peek() in blanks():\n"),
    ("while self.peek(length) in ' ':", "while self.peek(length) in blanks():"),
    ("if ch != ' ':", "if ch not in blanks():"),
    ("'\\0 \\r\\n\\x85\\u2028\\u2029'", "ends()"),
    (
        "while self.peek() in ' \\r\\n\\x85\\u2028\\u2029':\n                if self.peek() == ' ':\n",
        "while self.peek() in blanks() + '\\r\\n\\x85\\u2028\\u2029':\n                self.refuse_tab(start_mark, indent)\n"
        "                if self.peek() in blanks():\n",
    ),
    (
        "        return chunks, max_indent, end_mark\n",
        "        self.refuse_tab(self.block_start)\n        return chunks, max_indent, end_mark\n",
    ),
    (
        "            self.forward()\n        while self.peek() in '\\r\\n",
        "            self.forward()\n        self.refuse_tab(self.block_start, indent)\n        while self.peek() in '\\r\\n",
    ),
    (
        "                self.forward()\n        return chunks, end_mark\n",
        "                self.forward()\n            self.refuse_tab(self.block_start, indent)\n"
        "        return chunks, end_mark\n",
    ),
    ("        # Scan the header.\n", "        self.block_start = start_mark\n"),
    (
        "ends():\n            raise ScannerError(\"while scanning a block scalar\"",
        "ends(comment=True):\n            raise ScannerError(\"while scanning a block scalar\"",
    ),
    ("if self.peek() not in ends():", "if self.peek() not in ends(comment=True):"),
    ("self.index-key.index > 1024", "self.size_since(key) > 1024"),
    (
        "        self.allow_simple_key = False\n        self.possible_simple_keys = {}\n",
        "        self.refuse_open_key()\n        self.allow_simple_key = False\n        self.possible_simple_keys = {}\n",
    ),
    ("self.flow_level -= 1", "self.flow_level -= 1 if self.flow_level or not on('bracket') else 0"),
    ("ch in ',?[]{}'", "ch in (',[]{}' if on('question mark') else ',?[]{}')"),
    (
        "                if ch in '\\0 \\t",
        "                self.refuse_colon(start_mark, ch, length)\n                if ch in '\\0 \\t",
    ),
    (
        "        ch = self.peek(1)\n        if ch == '<':",
        "        ch = self.peek(1)\n        self.is_word = ch != '<'\n        if ch == '<':",
    ),
    (
        "ch in '-;/?:@&=+$,_.!~*\\'()[]%':",
        "ch in '-;/?:@&=+$_.!~*\\'()%' or ch in ',[]' \\\n"
        "                and not (on('end of a tag') and name == 'tag' and self.is_word):",
    ),
    (
        "                    break\n                length += 1\n                ch = self.peek(length)\n"
        "            handle = '!'",
        "                    break\n                if on('handle') and not is_alphabetic(ch):\n                    break\n"
        "                length += 1\n                ch = self.peek(length)\n            handle = '!'",
    ),
    (
        "            suffix = self.scan_tag_uri('tag', start_mark)\n        ch = self.peek()\n        if ch not in ends():",
        "            if on('end of a tag') and not use_handle and not is_in_tag(self.peek()):\n"
        "                handle, suffix = None, '!'\n"
        "            else:\n                suffix = self.scan_tag_uri('tag', start_mark)\n        ch = self.peek()\n"
        "        if ch not in ends() and not (on('end of a tag') and self.flow_level and ch == ','):",
    ),
    ("        codes = []\n", "        if on('octets'):\n            return octets(self, start_mark)\n        codes = []\n"),
    ("        value = (handle, suffix)\n", "        value = (handle, whole(suffix, start_mark))\n"),
    (
        "        return DirectiveToken(",
        "        if name == 'TAG':\n            whole(value[1], start_mark)\n        return DirectiveToken(",
    ),
    (
        "        else:\n            end_mark = self.get_mark()\n",
        "        else:\n            if on('directive'):\n"
        "                raise ScannerError('', start_mark, '', self.get_mark())\n"
        "            end_mark = self.get_mark()\n",
    ),
    (
        "        while '0' <= self.peek(length) <= '9':\n",
        "        while '0' <= self.peek(length) <= '9':\n            if on('version') and length == 9:\n"
        "                self.forward(length)\n                raise ScannerError('', start_mark, '', self.get_mark())\n",
    ),
    (
        "                    chunks.append(chr(code))\n",
        "                    if on('escape') and (code > 0x10FFFF or 0xD800 <= code < 0xE000):\n"
        "                        raise ScannerError('', start_mark, '', self.get_mark())\n"
        "                    chunks.append(chr(code))\n",
    ),
    (
        "                self.forward()\n                ch = self.peek()\n                if ch in self.ESCAPE_REPLACEMENTS",
        "                backslash = self.get_mark()\n                self.forward()\n                ch = self.peek()\n"
        "                if ch in self.ESCAPE_REPLACEMENTS",
    ),
    ("\"found unknown escape character %r\" % ch, self.get_mark())", "'', backslash if on('places') else self.get_mark())"),
    ("\"while scanning for the next token\", None,", "'', self.get_mark() if on('places') else None,"),
]


class Changed:
    """What the changes call besides `on`."""

    def size_since(self, key):
        """How much of the text there is since a key: in bytes of UTF-8, or in characters."""
        count = self.index - key.index
        return len(self.buffer[self.pointer - count : self.pointer].encode()) if self.on("limit") else count

    def refuse_open_key(self):
        """Refuses a text that ends within brackets that have to be a key."""
        for key in self.possible_simple_keys.values():
            if self.on("open key") and key.required:
                raise yaml.scanner.ScannerError("", key.mark, "", self.get_mark())

    def refuse_tab(self, start_mark, indent=None):
        """Refuses a tab where a space could be indentation."""
        if self.on("tab as indentation") and self.peek() == "\t" and (indent is None or self.column < indent):
            raise yaml.scanner.ScannerError("", start_mark, "", self.get_mark())

    def refuse_colon(self, start_mark, char, length):
        """Refuses a colon of a plain scalar in flow, before an indicator of flow."""
        if self.on("colon") and self.flow_level and char == ":" and self.peek(length + 1) in ",?[]{}":
            self.forward(length)
            raise yaml.scanner.ScannerError("", start_mark, "", self.get_mark())


def is_alphabetic(char):
    return char.isascii() and char.isalnum() or char in "-_"


def is_in_tag(char):
    return is_alphabetic(char) or char in ";/?:@&=+$.!~*'()%"


def octets(scanner, start_mark):
    """What the octets give that are written by `%` one after the other. Those that are no UTF-8 stay for `whole`."""
    codes, left = [], 0
    while left or scanner.peek() == "%":
        mark = scanner.get_mark()
        digits = scanner.prefix(3)[1:]
        if scanner.peek() != "%" or not re.fullmatch("[0-9A-Fa-f]{2}", digits):
            raise yaml.scanner.ScannerError("", start_mark, "", mark)
        code = int(digits, 16)
        if (code & 0xC0 != 0x80) if left else (0x80 <= code < 0xC0 or code >= 0xF8):
            raise yaml.scanner.ScannerError("", start_mark, "", mark)
        left = left - 1 if left else (code >= 0xC0) + (code >= 0xE0) + (code >= 0xF0)
        codes.append(code)
        scanner.forward(3)
    return bytes(codes).decode("utf-8", "surrogateescape")


def whole(text, start_mark):
    """A tag or a prefix, if it is UTF-8."""
    try:
        text.encode("utf-8")
    except UnicodeEncodeError:
        raise yaml.scanner.ScannerError("", start_mark, "", start_mark) from None
    return text


def with_rows(rows):
    """What the changed source calls, with some rows."""

    def on(row):
        assert row in ROWS, row
        return row in rows

    def without_mark(data):
        marks = ["\ufeff"] if isinstance(data, str) else MARKS
        return data[len(next((mark for mark in marks if data.startswith(mark)), data[:0])) :] if on("mark") else data

    def blanks():
        return " \t" if on("tabs") else " "

    def ends(comment=False):
        return blanks() + "\0\r\n\x85\u2028\u2029" + "#" * (comment and on("comment"))

    return {one.__name__: one for one in (on, without_mark, blanks, ends, is_alphabetic, is_in_tag, octets, whole)}


def changed_source():
    """The source of PyYAML's reader and scanner with all changes."""
    sources = [inspect.getsource(module) for module in (yaml.reader, yaml.scanner)]
    for old, new in CHANGES:
        if not any(old in source for source in sources):
            raise SystemExit(f"own_scanner.py: the source of PyYAML {yaml.__version__} has no {old!r}")
        sources = [source.replace(old, new) for source in sources]
    return sources


def loader_with(rows):
    """PyYAML's own loader of tokens, with the changes of some rows."""
    (reader, scanner), calls, parts = changed_source(), with_rows(rows), []
    for module, source in ((yaml.reader, reader), (yaml.scanner, scanner)):
        made = types.ModuleType(module.__name__)
        made.__package__ = "yaml"
        exec(compile(source, module.__name__, "exec"), vars(made))
        vars(made).update(calls)
        made.ReaderError, made.ScannerError = yaml.reader.ReaderError, yaml.scanner.ScannerError
        parts.append(made)

    class Own(parts[0].Reader, parts[1].Scanner, Changed):
        on = staticmethod(calls["on"])

        def __init__(self, stream):
            parts[0].Reader.__init__(self, stream)
            parts[1].Scanner.__init__(self)

        def dispose(self):
            pass

    return Own


# COMPARING


def without_words(lines):
    """The list, without the words of a scanner's error, which are libyaml's here."""
    return [one[:3] if one[0] == "ScannerError" else one for one in lines]


def front_of(given):
    """The text in front of what no text has."""
    text = given
    if not isinstance(given, str):
        codec, mark = next(((codec, mark) for mark, codec in MARKS.items() if given.startswith(mark)), ("utf-8", b""))
        data = given[len(mark) :]
        try:
            text = data.decode(codec)
        except UnicodeDecodeError as reason:
            text = data[: reason.start].decode(codec)
    found = yaml.reader.Reader.NON_PRINTABLE.search(text)
    return text[: found.start()] if found else text


def is_read_later(ours, own, given, changed):
    """Whether two lists differ since the reader's error, which is all of PyYAML's, comes here after the tokens before it."""
    in_front = without_words(loading.without_encoding(loading.tokens(front_of(given), changed)))
    tokens = without_words(loading.without_encoding(ours))
    if len(own) != 1:
        return False
    if ours[-1][0] != "ReaderError":
        return tokens == in_front and ours[-1][0] == "ScannerError"
    return tokens[:-1] == in_front[: len(tokens) - 1] and (not isinstance(given, str) or ours[-1][1] == own[0][1])


def is_explained(given, loader, changed):
    """Whether a loader's tokens are those of PyYAML's own loader with changes, or differ from them by the reader's error."""
    ours, own = loading.tokens(given, loader), loading.tokens(given, changed)
    if own[-1][0] == "ReaderError":
        return is_read_later(ours, loading.tokens(given, yaml.BaseLoader), given, changed)
    return without_words(ours) == without_words(own)


def examples():
    """The examples of each row of the list in python/README.md, by the row's name; what is no row of it has no name."""
    table = read("python/README.md").partition("### What PyYAML's own loader does otherwise\n")[2].partition("\n#")[0]
    for words in re.findall(r"^\| (.*?)(?<!\\) \| ", table, re.M)[1:]:
        name = next((name for name, begin in {**ROWS, "reader": READER}.items() if words.startswith(begin)), None)
        spans = re.findall(r"`([^`]*)`", words.partition(": ")[2])
        texts = [re.sub(r"\\(n|t|ufeff|x01|\|)", lambda sign: SIGNS[sign[0]], span) for span in spans]
        yield name, [*texts, LONG_KEY] if name == "limit" else texts
