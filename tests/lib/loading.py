"""What PyYAML's loaders make of an input, and how the loaders of python/ may differ from its C loaders."""

import yaml
from libyaml import Front

CODECS = {"utf-8": b"\xef\xbb\xbf", "utf-16-le": b"\xff\xfe", "utf-16-be": b"\xfe\xff"}
BREAKS = "\r\n\x85\u2028\u2029"
UNFINISHED = ("incomplete ", "invalid length ")
# The differences that python/README.md lists, by names of our own.
DIFFERENCES = ["open end", "reader", "late", "zero in a tag", "tag that is no text", "spelling", "limit"]


def place(mark):
    return mark and (mark.index, mark.line, mark.column)


def parts(one):
    """The name of a token's or an event's class, its marks, and what else it has. A plain scalar has no style."""
    more = {name: value for name, value in vars(one).items() if not name.endswith("_mark")}
    if more.get("style") == "":
        more["style"] = None
    return type(one).__name__, place(one.start_mark), place(one.end_mark), more


def error_parts(error):
    if isinstance(error, yaml.reader.ReaderError):
        return "ReaderError", error.position, error.character, error.reason
    if isinstance(error, yaml.MarkedYAMLError):
        return type(error).__name__, place(error.context_mark), place(error.problem_mark), error.context, error.problem
    return type(error).__name__, str(error)


def listed(call, given, loader):
    """The tokens of `yaml.scan` or the events of `yaml.parse`, and the error that ends them if there is one."""
    found = []
    try:
        for one in call(given, Loader=loader):
            found.append(parts(one))
    except (yaml.YAMLError, ValueError) as error:
        found.append(error_parts(error))
    return found


def tokens(given, loader):
    return listed(yaml.scan, given, loader)


def text_of(given):
    """The text of an input without a byte order mark, as far as it is one."""
    if isinstance(given, str):
        return given[given.startswith("\ufeff") :]
    codec, mark = next(((codec, mark) for codec, mark in CODECS.items() if given.startswith(mark)), ("utf-8", b""))
    return given[len(mark) :].decode(codec, "replace")


def last_place(text):
    """The mark of the end of a text."""
    lines = text.replace("\r\n", "\n").translate({ord(one): "\n" for one in BREAKS}).split("\n")
    return len(text), len(lines) - 1, len(lines[-1])


def with_one_end(lines, text):
    """The list, with one mark for the end of a text whose last line is open: there libyaml's may be in the line after it."""
    index, line, column = last_place(text)
    ends = {(index, line, column), (index, line + 1, 0)} if column else set()
    return [tuple("end" if isinstance(part, tuple) and part in ends else part for part in one) for one in lines]


def cut_at_zero(one):
    """A tag or a directive as PyYAML's C loader has it, which takes a 0 for the end."""
    if one[0] not in ("TagToken", "DirectiveToken") or "\0" not in str(one[3]["value"][1]):
        return one
    handle, text = one[3]["value"]
    text = text.partition("\0")[0]
    value = (None, handle) if handle == "!" and not text and one[0] == "TagToken" else (handle, text)
    return (*one[:3], {**one[3], "value": value})


def as_read(one, given):
    """A reader's error as PyYAML's C loader has it: at a number of bytes, also in a `str`, and -1 if a character is cut off."""
    if one[0] != "ReaderError":
        return one
    _, position, character, reason = one
    position = len(given[:position].encode()) if isinstance(given, str) else position
    return "ReaderError", position, -1 if reason.startswith(UNFINISHED) else character, reason


def as_spelled(one):
    spelled = isinstance(one[-1], str) and one[-1].replace("expected hexadecimal number", "expected hexdecimal number")
    return (*one[:-1], spelled) if spelled else one


def restated(own, their, given):
    """The list as it would be without the documented differences of single tokens and errors, and the names of these."""
    names, last = [], [cut_at_zero(one) for one in own]
    names += ["zero in a tag"] * (last != own)
    before, last = last, [as_read(one, given) for one in last]
    names += ["reader"] * (last != before)
    before, last = last, [as_spelled(one) for one in last]
    names += ["spelling"] * (last != before)
    if their[-1][0] == "UnicodeDecodeError" and last[-1][0] == "ScannerError" and last[-1][-1] == their[-1][1]:
        last[-1] = their[-1]
        names.append("tag that is no text")
    return names, last


def is_late(lines, in_front, fault):
    """Whether a list is right for an input with a reader's fault, by the list of the text in front of it."""
    if lines[-1] == fault:
        return lines[:-1] == in_front[: len(lines) - 1]
    return lines == in_front and lines[-1][0] == "ScannerError"


def reader_offset(*lists):
    """Where the reader's fault is of which one of the lists tells, or None."""
    return next((lines[-1][1] for lines in lists if lines[-1][0] == "ReaderError"), None)


def is_late_pair(own, their, given):
    """Whether two lists differ since they tell a reader's fault at another token."""
    data = given.encode("utf-8") if isinstance(given, str) else given
    offset = reader_offset(own, their)
    if offset is None:
        return False
    front = Front(0, data, offset)
    in_front = with_one_end(tokens(front.data, yaml.CBaseLoader), front.text)
    fault = tokens(front.probe, yaml.CBaseLoader)[-1]
    found = [with_one_end(lines, front.text) for lines in (own, their)]
    return all(is_late(without_encoding(lines), without_encoding(in_front), fault) for lines in found)


def without_encoding(lines):
    return [(*one[:3], {}) if one[0] == "StreamStartToken" else one for one in lines]


def outline(lines, text):
    """Of each token or error its name, how many bytes of the text come before its marks, and an error's words."""
    found = []
    for name, *more in lines:
        places = [len(text[: part[0]].encode()) for part in more[:2] if isinstance(part, tuple)]
        found.append((name, places, more[2:] if name == "ScannerError" else []))
    return found


def is_limited(own, text):
    """Whether a list is that of a text with as many letters in place of a character as it has bytes."""
    wide = "".join("x" * len(one.encode()) if ord(one) > 127 else one for one in text)
    return not text.isascii() and outline(own, text) == outline(tokens(wide, yaml.CBaseLoader), wide)


def difference(given, loader):
    """The names of the documented differences between a loader's tokens and those of PyYAML's C loader, or `wrong`."""
    own, their, text = tokens(given, loader), tokens(given, yaml.CBaseLoader), text_of(given)
    names, same = restated(own, their, given)
    if same == their:
        return names
    if not is_open_end_right(own, text):
        return ["wrong"]
    if with_one_end(same, text) == with_one_end(their, text):
        return [*names, "open end"]
    if is_late_pair(same, their, given):
        return ["late"]
    return ["limit"] if is_limited(same, text) else ["wrong"]


def is_open_end_right(own, text):
    """Whether all marks of the end of the text are in its last line, if this has no break."""
    index, line, column = last_place(text)
    marks = [part for one in own for part in one[1:3] if isinstance(part, tuple)]
    return not column or all(mark == (index, line, column) for mark in marks if mark[0] == index)
