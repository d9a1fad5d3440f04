"""Inputs that come to the package of python/ in pieces: by a Feeder, out of files, and out of pipes that are held open."""

import codecs
import io
import os
import queue
import random
import threading

import bogzhami
from bogzhami import held
from worked import OTHER_SCANS, rows

SIZES = (1, 2, 3, 7, 4096)
SETTINGS = {encoding.name.lower(): encoding for encoding in bogzhami.Encoding}
PATIENCE = 30  # seconds that a pipe is waited for
LONG = 20_000_000
# Two documents, and all tokens of the first one and of the `---` after it, by their names: eight more characters settle them.
DOCUMENTS = "- é\n- [b]\n--- |\n c\n"
SETTLED = "STREAM_START BLOCK_SEQUENCE_START BLOCK_ENTRY SCALAR BLOCK_ENTRY FLOW_SEQUENCE_START SCALAR FLOW_SEQUENCE_END".split()
SETTLED += ["BLOCK_END", "DOCUMENT_START"]
MORE = " d\n ééééééé\n"


class Pieces:
    """A file that gives the pieces that it is made of, whatever it is asked for, and raises those that are exceptions."""

    def __init__(self, pieces):
        self.left = list(pieces)
        self.empty = next((piece[:0] for piece in self.left if isinstance(piece, (str, bytes))), b"")

    def read(self, size):
        piece = self.left.pop(0) if self.left else self.empty
        if isinstance(piece, Exception):
            raise piece
        return piece


class Counted:
    """A file that counts what is read of it."""

    def __init__(self, data):
        self.file, self.reads, self.given = io.BytesIO(data), 0, 0

    def read(self, size):
        data = self.file.read(size)
        self.reads, self.given = self.reads + 1, self.given + len(data)
        return data


def cut(data, size, chance=None):
    """The pieces of an input: of one size, or each of 1 to 12 if the size is 0."""
    pieces, at = [], 0
    while at < len(data):
        length = size or chance.randrange(1, 13)
        pieces.append(data[at : at + length])
        at += length
    return pieces


def parts_of(fault):
    own = fault.kind, fault.problem, fault.context, fault.line, fault.column
    return (*own, fault.mark, fault.context_mark, fault.offset, fault.value, str(fault))


def outcome(tokens):
    """The tokens, and all parts of the fault that ends them if there is one."""
    found = []
    try:
        found.extend(tokens)
    except bogzhami.Fault as fault:
        found.append(parts_of(fault))
    return found


def fed(pieces, *settings):
    """What a Feeder gives."""
    feeder = bogzhami.Feeder(*settings)
    for piece in pieces:
        yield from feeder.feed(piece)
    yield from feeder.close()


def inputs(more):
    """Settings and input of each worked row, of each fault of tests/python.py, and of what these spell in other encodings."""
    every = [(words[1], words[2:3], data) for words, data, _ in rows() if words[0] == "scan"]
    every += [(encoding, [], data) for encoding, data, _ in OTHER_SCANS]
    for name, limit, data in every + [("any", [], data) for data, *_ in more]:
        settings = SETTINGS[name], *map(int, limit)
        yield settings, data
        try:
            text = data if isinstance(data, str) else data.decode("utf-8" if settings[0] < 2 else name.replace("utf16", "utf-16-"))
            yield settings, text
            yield (bogzhami.Encoding.ANY, *settings[1:]), text.encode("utf-16")
            yield (bogzhami.Encoding.UTF16BE, *settings[1:]), text.encode("utf-16-be")
        except UnicodeError:
            pass  # it is no text


def try_pieces(more):
    """All inputs in pieces of each size, and cut anywhere, to a Feeder and out of a file, beside the whole."""
    chance, wrong, count, faults = random.Random(5), [], 0, set()
    for settings, data in inputs(more):
        wanted = outcome(bogzhami.scan(data, *settings))
        faults.update(last[0] for last in wanted[-1:] if not isinstance(last, bogzhami.Token))
        for size in (*SIZES, 0, 0):
            pieces = cut(data, size, chance)
            found = [outcome(fed(pieces or [data], *settings)), outcome(bogzhami.scan(Pieces(pieces or [data]), *settings))]
            count += 1
            wrong += [(settings, data, size)] * (found != [wanted] * 2)
    print(f"python: {count} cuts of inputs to a Feeder and out of a file, {len(wrong)} wrong {wrong[:3] or ''}")
    return not wrong and count > 2000 and faults == {"scanner", "reader"}


def names_before(tokens, kind):
    """The names of the tokens before an exception of a kind, and what it says; nothing else may end them."""
    found = []
    try:
        for token in tokens:
            found.append(token.type.name)
    except kind as reason:
        return found, str(reason)
    return found, None


def long_document(size):
    """A document of one literal, longer than what is tried again at every piece, its end, and eight more characters."""
    return b"--- |\n" + b" text that goes on\n" * (size // 19) + b"...\n........\n"


def try_failures():
    """Reads that fail half-way: first the tokens that were settled by then, also in a text that is not tried at every piece."""
    failure, text = OSError("no more"), DOCUMENTS + MORE
    long = cut(long_document(2_000_000), 4096)
    found = {
        "bytes": names_before(bogzhami.scan(Pieces([text.encode(), failure])), OSError) == (SETTLED, "no more"),
        "str": names_before(bogzhami.scan(Pieces([*text, failure])), OSError) == (SETTLED, "no more"),
        "utf-16": names_before(bogzhami.scan(Pieces([text.encode("utf-16"), failure])), OSError) == ([], "no more"),
        "first": names_before(bogzhami.scan(Pieces([failure])), OSError) == ([], "no more"),
        "long": names_before(bogzhami.scan(Pieces([*long, failure])), OSError)
        == (["STREAM_START", "DOCUMENT_START", "SCALAR", "DOCUMENT_END"], "no more"),
        "bytes after str": names_before(bogzhami.scan(Pieces([text, b"a"])), TypeError) == (SETTLED, "bytes is given after str"),
        "str after bytes": names_before(bogzhami.scan(Pieces([text.encode(), "a"])), TypeError)
        == (SETTLED, "str is given after bytes"),
    }
    for name, piece in (("NoneType", None), ("int", 5)):
        words = f"{name} is given: str or bytes out of a file is wanted"
        found[words] = names_before(bogzhami.scan(Pieces([text, piece])), TypeError) == (SETTLED, words)
    tokens = bogzhami.scan(Pieces([text, failure]))
    names_before(tokens, OSError)
    found["ended"] = list(tokens) == []
    return told("reads that fail", found)


def told(what, found):
    wrong = [name for name, good in found.items() if good is not True]
    print(f"python: {len(found)} checks of {what}, {len(wrong)} wrong {wrong or ''}")
    return not wrong


def try_reads():
    """How much is read of a file before its first tokens and up to its end, and by which call of it."""
    data = b"- a\n" * 100_000
    file = Counted(data)
    tokens = bogzhami.scan(file)
    before = file.reads
    first = next(tokens), file.reads, file.given
    rest = sum(1 for _ in tokens)
    again = Counted(data)
    bogzhami.scan(again).close()
    opened = io.BytesIO(data)
    tokens = bogzhami.scan(opened)
    next(tokens)
    tokens.close()
    found = {
        "nothing before": before == 0 and again.reads == 0,
        "first": first[0].type.name == "STREAM_START" and first[1:] == (1, 4096),
        "all": rest == 200_003 and file.given == len(data),
        "few": file.reads < 15,
        "left open": not opened.closed and 0 < opened.tell() < len(data),
    }
    return told("what is read of a file", found) and try_calls()


class Upper(io.BytesIO):
    """A file whose `read` is not that of its class, while `read1` is."""

    def read(self, size=-1):
        return super().read(size).upper()


class Own(io.BufferedIOBase):
    """A file that has no `read1`."""

    def __init__(self, data):
        self.file = io.BytesIO(data)

    def read(self, size=-1):
        return self.file.read(size)


def values(tokens):
    return [token.value for token in tokens if token.value is not None]


def try_calls():
    """Files whose class has a `read` of its own, decoded files, and a pipe that does not wait."""
    reading, writing = os.pipe()
    os.set_blocking(reading, False)
    os.write(writing, (DOCUMENTS + MORE).encode())
    with os.fdopen(reading, "rb") as file:
        at_once = names_before(bogzhami.scan(file), TypeError)
    os.close(writing)
    latin, buffered = codecs.getreader("latin-1"), io.BufferedReader(io.BytesIO("- é\n".encode("latin-1")))
    found = {
        "its own read": values(bogzhami.scan(Upper(b"a"))) == ["A"],
        "no read1": values(bogzhami.scan(Own(b"a"))) == ["a"],
        "codecs": values(bogzhami.scan(latin(buffered))) == ["é"],
        "a pipe that does not wait": at_once == (SETTLED, "NoneType is given: str or bytes out of a file is wanted"),
    }
    return told("calls that read", found)


def collect(things, found):
    """Puts all things into a queue, the exception that ends them if there is one, and then None."""
    try:
        for thing in things:
            found.put(thing)
    except Exception as reason:
        found.put(reason)
    found.put(None)


def held_open(make, count, first, rest):
    """So many of the things that are made of a pipe while only its first bytes were written, and those after the rest came."""
    reading, writing = os.pipe()
    found = queue.Queue()
    thread = threading.Thread(target=collect, args=(make(reading), found), daemon=True)
    thread.start()
    os.write(writing, first)
    try:
        before = [found.get(timeout=PATIENCE) for _ in range(count)]
    except queue.Empty:
        before = []
    os.write(writing, rest)
    os.close(writing)
    thread.join(PATIENCE)
    return before, list(iter(lambda: found.get(timeout=PATIENCE), None))


def opened(call, **words):
    """What a call makes of a pipe that is opened as a file; this is closed after the last."""

    def made(number):
        with os.fdopen(number, **words) as file:
            yield from call(file)

    return made


def try_pipes():
    """Pipes that are held open: the tokens that are settled come at once, and then the others."""
    first, rest = (DOCUMENTS + MORE).encode(), "...\n# ü\ne: [f\r".encode()
    wanted = list(bogzhami.scan(first + rest))
    found = {}
    kinds = {"buffered": {"mode": "rb"}, "raw": {"mode": "rb", "buffering": 0}}
    kinds["text"] = {"mode": "r", "encoding": "utf-8", "newline": ""}
    for name, words in kinds.items():
        before, after = held_open(opened(bogzhami.scan, **words), len(SETTLED), first, rest)
        found[name] = [token.type.name for token in before] == SETTLED and before + after == wanted
    return told("pipes that are held open", found)


class Measured:
    """The library, with a sum of the bytes that calls for pieces were given."""

    def __init__(self, library):
        self.library, self.calls, self.bytes = library, 0, 0

    def __getattr__(self, name):
        return getattr(self.library, name)

    def bogzhami_next_piece(self, *words):
        self.calls, self.bytes = self.calls + 1, self.bytes + words[3]
        return self.library.bogzhami_next_piece(*words)


def try_long():
    """A literal of 20 megabytes in pieces of 4,096: what the library is given in all calls grows with the input, and no faster."""
    line, count, usual, looked_at, found = " 0123456789abcdef\n", LONG // 18, held.LIBRARY, [], {}
    for name, lines in (("half", count // 2), ("Feeder", count), ("file", count)):
        held.LIBRARY = Measured(usual)
        pieces = cut(b"|\n" + line.encode() * lines, 4096)
        tokens = list(bogzhami.scan(Pieces(pieces)) if name == "file" else fed(pieces))
        looked_at.append(held.LIBRARY.bytes)
        found[name] = [token.type.name for token in tokens] == ["STREAM_START", "SCALAR", "STREAM_END"]
        found[name + " text"] = tokens[1].value == line[1:] * lines
        held.LIBRARY = usual
    found["in proportion"] = max(looked_at) < 15 * LONG and looked_at[1] < 3 * looked_at[0]
    return told(f"a literal of {LONG} bytes in pieces", found)


def says(kind, words, call, *arguments):
    try:
        call(*arguments)
    except kind as reason:
        return str(reason) == words
    return False


def try_feeder():
    """How a Feeder is used and misused: what is not taken, what is wrong, faults, ends, and settings."""
    left = bogzhami.Feeder()
    first = next(left.feed("- a\n- b\n- c\n- d\n"))
    left.feed("- e\n")
    mixed, ended, faulty, copied = bogzhami.Feeder(), bogzhami.Feeder(), bogzhami.Feeder(), bogzhami.Feeder()
    before = list(mixed.feed(b"- a\n- b\n- c\n"))
    ended.feed("a")
    rest = list(ended.close())
    faults = [outcome(faulty.feed("a: b: c\n........\n")), outcome(faulty.feed("d\n")), outcome(faulty.close())]
    changing = bytearray(b"- a\n")
    copied.feed(changing)
    changing[:] = b"@@@@"
    both = "str, bytes, or what has a buffer"
    limits = "key limit 0: a whole number from 1 to 65536 is wanted"
    encodings = "one of Encoding.ANY, Encoding.UTF8, Encoding.UTF16LE, Encoding.UTF16BE is wanted"
    found = {
        "not taken": [first, *left.close()] == list(bogzhami.scan("- a\n- b\n- c\n- d\n- e\n")),
        "mixed": says(TypeError, "str is given after bytes", mixed.feed, "- d"),
        "no piece": says(TypeError, f"NoneType is given: {both} is wanted", mixed.feed, None),
        "a number": says(TypeError, f"int is given: {both} is wanted", mixed.feed, 5),
        "goes on": before + list(mixed.feed(b"- d")) + list(mixed.close()) == list(bogzhami.scan("- a\n- b\n- c\n- d")),
        "closed": says(ValueError, "feed after close", ended.feed, "b") and says(ValueError, "feed after close", ended.feed, None),
        "closed again": rest == list(bogzhami.scan("a")) and list(ended.close()) == [],
        "fault": faults[0] == outcome(bogzhami.scan("a: b: c\n")) and len(faults[0]) == 7,
        "again": faults[1] == faults[2] == faults[0][-1:],
        "copied": list(copied.close()) == list(bogzhami.scan("- a\n")),
        "nothing": list(bogzhami.Feeder().close()) == list(bogzhami.scan(b"")),
        "encoding": list(bogzhami.Feeder(bogzhami.Encoding.UTF16LE).close()) == list(bogzhami.scan(b"", bogzhami.Encoding.UTF16LE)),
        "text": list(fed(["\ufeff", "", "é"], bogzhami.Encoding.UTF16LE)) == list(bogzhami.scan("\ufeffé")),
        "surrogates": outcome(fed(["\ud800", "\udc00"])) == outcome(bogzhami.scan("\ud800\udc00")),
        "no encoding": says(ValueError, f"encoding 9: {encodings}", bogzhami.Feeder, 9),
        "no limit": says(ValueError, limits, bogzhami.Feeder, bogzhami.Encoding.ANY, 0),
    }
    return told("a Feeder", found)


class Refusing:
    """The library, that is refused memory when it opens a scanner, or at its second call for tokens."""

    def __init__(self, library, in_open):
        self.library, self.in_open, self.count = library, in_open, 0

    def __getattr__(self, name):
        return getattr(self.library, name)

    def bogzhami_open_pieces(self, *words):
        return 3 if self.in_open else self.library.bogzhami_open_pieces(*words)

    def bogzhami_next_piece(self, *words):
        self.count += 1
        if self.count != 2:
            return self.library.bogzhami_next_piece(*words)
        answer = words[-2]._obj
        answer.token_count = answer.text_len = answer.problem_len = answer.context_len = 0
        answer.error = 1
        return 1


def try_refused():
    """Memory that is refused, as the library tells it: after the tokens before it, and by a Feeder at each iterator."""
    usual, found = held.LIBRARY, {}
    words = "the scanner was refused memory"
    for name, in_open, count in (("in open", True, 0), ("later", False, held.BATCH)):
        held.LIBRARY = Refusing(usual, in_open)
        names, reason = names_before(bogzhami.scan(io.BytesIO(b"- a\n" * 1000)), MemoryError)
        found[f"file, {name}"] = (len(names), reason) == (count, words)
    held.LIBRARY = Refusing(usual, True)
    found["Feeder, in open"] = says(MemoryError, words, bogzhami.Feeder().feed, "a")
    held.LIBRARY = Refusing(usual, False)
    feeder = bogzhami.Feeder()
    names, reason = names_before(feeder.feed("- a\n" * 1000), MemoryError)
    found["Feeder, later"] = (len(names), reason) == (held.BATCH, words)
    found["Feeder, again"] = names_before(feeder.close(), MemoryError) == ([], words)
    held.LIBRARY = usual
    return told("memory that is refused to pieces", found)


def try_feeding(more):
    good = [try_pieces(more), try_failures(), try_reads(), try_pipes(), try_long(), try_feeder(), try_refused()]
    return all(good)
