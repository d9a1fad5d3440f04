"""Small archives, whole and damaged at every byte, and the lines that uses/many should write of them (many.py).

They are read in this process, as check.py hands them out and a worker reads them: no cluster is begun.
"""

import bz2
import collections
import gzip
import io
import lzma
import math
import os
import random
import re
import shutil
import struct
import subprocess
import tarfile
import tempfile
import zipfile

from archives import read_tar
from count import archive_entries, scan_part

BLOCK = 512
ZEROS = bytes(BLOCK)
CHECKSUM = range(148, 156)  # of a tar header
NOISE = random.Random(17).randbytes(150).hex().encode()
# The members: name, bytes, and the cells of its line. The tokens are counted by hand.
FILES = [
    ("a.yaml", b"a: 1", "8\t4\t-"),
    ("b/" + "long" * 40, b"a: b: c", "6\t7\t1:5: mapping values are not allowed in this context"),
    ("noise.yaml", b"# " + NOISE, "2\t302\t-"),
    ("é.yaml", b"- x\n" * 100, "204\t400\t-"),
    ("empty.yaml", b"", "2\t0\t-"),
]
LINES = [f"{name}\t{cells}" for name, _, cells in FILES]
UNREAD = "\t-\t-\tnot read: "

# A small archive. `may_end` has the lengths at which a cut leaves a whole one. A bit that is flipped at one of the bytes `checked`
# has to be told, and one at a byte of `unchecked` may change a line, since no checksum is over it.
Small = collections.namedtuple("Small", "name data may_end checked unchecked")


def tar_of(files, format=tarfile.GNU_FORMAT):
    """A tar archive of files, with a folder and a link, in records of 10,240 bytes."""
    made = io.BytesIO()
    with tarfile.open(fileobj=made, mode="w", format=format) as archive:
        for name, kind in (("b", tarfile.DIRTYPE), ("link", tarfile.SYMTYPE)):
            one = tarfile.TarInfo(name)
            one.type, one.linkname = kind, "a.yaml"
            archive.addfile(one)
        for name, data, _ in files:
            one = tarfile.TarInfo(name)
            one.size = len(data)
            archive.addfile(one, io.BytesIO(data))
    return made.getvalue()


def zip_of(files, method=zipfile.ZIP_DEFLATED, comment=b""):
    """A zip archive of files, with a folder and a link."""
    made = io.BytesIO()
    with zipfile.ZipFile(made, "w", method) as archive:
        archive.comment = comment
        for name, data, mode in [("b/", b"", 0o40755), ("link", b"a: [", 0o120777), *((name, data, 0o100644) for name, data, _ in files)]:
            one = zipfile.ZipInfo(name)
            one.external_attr, one.create_system = mode << 16, 3
            archive.writestr(one, data, method)
    return made.getvalue()


def contents(data):
    """The bytes of each member of a tar archive that is not compressed, as ranges, and where its last member ends."""
    with tarfile.open(fileobj=io.BytesIO(data)) as archive:
        members = [one for one in archive if one.isreg()]
        return [range(one.offset_data, one.offset_data + one.size) for one in members], archive.offset


def small_tar(name, format):
    """A tar archive. A checksum is over its headers; no other byte than a zero may stand after its last member."""
    data = tar_of(FILES, format)
    end = contents(data)[1]
    starts = [at for at in range(0, end, BLOCK) if data[at + 257 : at + 262] == b"ustar"]
    headers = {at + one for at in starts for one in range(BLOCK)}
    checked = {at for at in headers if at % BLOCK not in CHECKSUM} | set(range(end, len(data)))
    return Small(name, data, range(end + 2 * BLOCK, len(data), BLOCK), checked, set(range(end)) - headers)


def two(compress, data):
    """Two compressed streams, one after the other, of the two halves of an archive."""
    return compress(data[:3000]) + compress(data[3000:])


def zip_modes(data):
    """Where the directory of a zip archive has the mode of each member, that no checksum is over."""
    found = [one.start() for one in re.finditer(b"PK\x01\x02", data)]
    return [at + 41 for at in found]


def small_archives():
    """Archives of the same members, of each kind."""
    yield small_tar("gnu.tar", tarfile.GNU_FORMAT)
    yield small_tar("pax.tar", tarfile.PAX_FORMAT)
    tar = tar_of(FILES)
    for kind, compress in (("gz", gzip.compress), ("bz2", bz2.compress), ("xz", lzma.compress)):
        whole, halves = compress(tar), two(compress, tar)
        checked = {"gz": range(len(whole) - 8, len(whole)), "bz2": range(4, 14), "xz": range(len(whole))}[kind]
        yield Small(f"whole.tar.{kind}", whole, [], checked, [])
        padding = 4 if kind == "xz" else 1
        yield Small(f"halves.tar.{kind}", halves + bytes(8), range(len(halves), len(halves) + 8, padding), [], [])
    yield Small("pax.tgz", gzip.compress(tar_of(FILES, tarfile.PAX_FORMAT)), [], [], [])
    for name, method in (("deflated.zip", zipfile.ZIP_DEFLATED), ("stored.ZIP", zipfile.ZIP_STORED)):
        data = zip_of(FILES, method, b"a comment")
        checked = range(data.index(NOISE), data.index(NOISE) + len(NOISE)) if method == zipfile.ZIP_STORED else []
        yield Small(name, data, [], checked, zip_modes(data))


def scan(library, path):
    """The lines of an archive without its name, and how many of them say that something was not read."""
    entries = [entry for entry, _ in archive_entries(path)]
    part, _ = scan_part(library, b"", entries, math.inf)
    lines = part.lines.decode("utf-8", "surrogateescape").split("\n")[:-1]
    return [line.removeprefix(os.fsdecode(path)).removeprefix(":") for line in lines], part.unread


def is_told(lines, unread):
    """Whether the last line says what was not read, and those before it are the first lines of the archive."""
    return unread == 1 and lines[-1].startswith(UNREAD) and lines[:-1] == LINES[: len(lines) - 1]


def wrong_cuts(library, path, small):
    """At which lengths a cut is not told, or loses members before it."""
    ranges = contents(small.data)[0] if small.name.endswith(".tar") else []
    for length in reversed(range(len(small.data))):
        os.truncate(path, length)
        lines, unread = scan(library, path)
        if length in small.may_end:
            good = (lines, unread) == (LINES, 0)
        else:
            good = is_told(lines, unread) and len(lines) > sum(one.stop <= length for one in ranges)
        if not good:
            yield f"cut after {length} bytes"


def wrong_flips(library, path, small):
    """At which bytes a flipped bit changes the lines and is not told, or loses members before it."""
    is_tar = small.name.endswith(".tar")
    ranges = contents(small.data)[0] if is_tar else []
    with open(path, "r+b", buffering=0) as file:
        for at, byte in enumerate(small.data):
            before = sum(one.stop <= at for one in ranges)  # so many members
            for bit in [at % 8] if is_tar else range(8):
                os.pwrite(file.fileno(), bytes([byte ^ 1 << bit]), at)
                lines, unread = scan(library, path)
                is_silent = not unread and (at in small.checked or lines != LINES and at not in small.unchecked)
                if is_silent or lines[:before] != LINES[:before]:
                    yield f"bit {bit} of byte {at} flipped"
            os.pwrite(file.fileno(), bytes([byte]), at)


def wrong_damages(library, name, what):
    """What is wrong with the lines of the small archive of a name, damaged at each byte in one of two ways; and how often it was."""
    small = next(one for one in small_archives() if one.name == name)
    with tempfile.TemporaryDirectory() as room:
        path = os.fsencode(os.path.join(room, name))
        with open(path, "wb") as file:
            file.write(small.data)
        found = scan(library, path)
        wrong = [] if found == (LINES, 0) else [f"whole: {found}"]
        return [f"{name}: {one}" for one in wrong + list(what(library, path, small))], len(small.data)


# Single archives


def header(name, size=0, kind=tarfile.REGTYPE, put=()):
    """A header of a tar archive, with some bytes put into it before its checksum is made."""
    one = tarfile.TarInfo(name)
    one.type, one.size = kind, abs(size)
    block = bytearray(one.tobuf(tarfile.GNU_FORMAT))
    if size < 0:
        block[124:136] = (256**12 + size).to_bytes(12, "big")
    for at, data in put:
        block[at : at + len(data)] = data
    block[148:156] = b" " * 8
    block[148:156] = b"%06o\0 " % sum(block)
    return bytes(block)


def member(name, data):
    return header(name, len(data)) + data + bytes(-len(data) % BLOCK)


A, B = member("a", b"a: 1"), member("b", b"a: b: c")
LINE_A, LINE_B = "a\t8\t4\t-", "b\t6\t7\t1:5: mapping values are not allowed in this context"
END = 2 * ZEROS


def flagged(data, flag):
    """A zip archive in which the last member has one more flag, in its header and in the directory."""
    data = bytearray(data)
    for signature, at in ((b"PK\3\4", 6), (b"PK\1\2", 8)):
        data[data.rindex(signature) + at] |= flag
    return bytes(data)


def tar_cases():
    """Tar archives: what it is, its name, its bytes and its lines; of a line that says what was not read, a pattern."""
    not_zero, short = "other bytes follow the zeros at byte 1025, .*", "it ends after {} bytes, before the end .*"
    yield "no padding", "x.tar", A + B + END, [LINE_A, LINE_B]
    yield "no end", "x.tar", A + B, [LINE_A, LINE_B, short.format(2048)]
    yield "one block of zeros", "x.tar", A + B + ZEROS, [LINE_A, LINE_B, short.format(2560)]
    yield "a part of the second", "x.tar", A + B + END[:-1], [LINE_A, LINE_B, short.format(3071)]
    yield "a part of the padding", "x.tar", A + END + b"\0", [LINE_A, short.format(2049)]
    yield "other bytes after the end", "x.tar", A + END + b"\n", [LINE_A, not_zero]
    yield "an archive after the end", "x.tar", A + END + B + END, [LINE_A, not_zero]
    yield "a block after the first zeros", "x.tar", A + ZEROS + B + END, [LINE_A, not_zero]
    yield "a bad header in the middle", "x.tar", A + b"x" + B[1:] + A + END, [LINE_A, "the header at byte 1025 is damaged"]
    yield "a bad pax header", "x.tar", A + header("p", 9, tarfile.XHDTYPE) + b"0 path=b\n".ljust(BLOCK, b"\0") + B + END, [LINE_A, ".*is damaged"]
    yield "an empty archive", "x.tar", END, []
    yield "an empty archive", "x.tgz", gzip.compress(END), []
    yield "no archive", "x.tar", b"a: 1", ["the tar archive is damaged before byte 5: .*"]
    yield "no bytes", "x.tar", b"", ["the tar archive is damaged before byte 1: .*"]
    yield "no bytes", "x.tgz", gzip.compress(b""), [".+"]
    yield "no bytes", "x.tbz2", bz2.compress(b""), [".+"]
    yield "other bytes after a stream", "x.tgz", gzip.compress(A + END) + b"x", [LINE_A, ".*incorrect header check|the file ends within .*"]
    yield "other bytes after a stream", "x.tbz2", bz2.compress(A + END) + b"xxxx", [LINE_A, "its compressed data is damaged .*"]
    yield "other bytes after a stream", "x.txz", lzma.compress(A + END) + b"x" * 20, [LINE_A, "its compressed data is damaged .*"]
    yield "streams of nothing", "x.tgz", gzip.compress(b"") * 3 + gzip.compress(A + END) + gzip.compress(b""), [LINE_A]
    yield "a compressed archive of another name", "x.tar", lzma.compress(A + END), [LINE_A]
    yield "a member that ends before it begins", "x.tar", A + header("n", -1024) + END, [LINE_A, ".* is damaged: .*"]
    yield "a longer name, 2,000 times", "x.tar", A + (header("l", 4, tarfile.GNUTYPE_LONGNAME) + member("", b"")) * 2000 + B + END, [LINE_A, "the tar archive is damaged before byte .*"]
    yield "no map of holes", "x.tar", A + header("s", 0, tarfile.GNUTYPE_SPARSE, put=[(482, b"\1")]), [LINE_A, "the tar archive is damaged before byte 1537: .*"]


def zip_cases():
    """Zip archives, likewise."""
    files = FILES[:1] + FILES[3:4]
    data = zip_of(files, zipfile.ZIP_STORED)
    one, other = LINES[0], LINES[3]
    at = data.index(b"- x\n")
    yield "a wrong checksum", "x.zip", data[:at] + b"+" + data[at + 1 :], [one, "é.yaml:Bad CRC-32 .*"]
    yield "an encrypted member", "x.zip", flagged(data, 1), [one, "é.yaml:it is encrypted"]
    yield "an empty archive", "x.zip", struct.pack("<4s4H2LH", b"PK\5\6", 0, 0, 0, 0, 0, 0, 0), []
    yield "no bytes", "x.zip", b"", [".+"]
    yield "a damaged directory", "x.zip", data.replace(b"PK\1\2", b"PK\1\3", 1), [".+"]
    yield "fewer members in the end", "x.zip", data[:-12] + b"\3" + data[-11:], ["its directory has 4 members, and its end says 3"]
    yield "other bytes after the end", "x.zip", data + b"\n", [".*does not end where .*"]
    yield "other bytes before it", "x.zip", b"\n" + data, ["its directory is at byte .*"]
    inner = zip_of(FILES[:1])
    outer = zip_of([("inner.zip", inner, ""), ("é.yaml", b"a: 1", "")], zipfile.ZIP_STORED)
    yield "cut behind an archive in it", "x.zip", outer[: outer.index(inner) + len(inner)], [".+"]


def fits(found, wanted):
    """Whether a line is the one that is wanted, or says that something was not read in the words of a pattern."""
    if UNREAD not in found:
        return found == wanted
    name, why = found.split(UNREAD)
    return re.fullmatch(wanted, f"{name}:{why}" if name else why) is not None


def wrong_cases(library, room):
    """Which single archives have other lines than they should, and how many there are."""
    wrong, count = [], 0
    for what, name, data, wanted in [*tar_cases(), *zip_cases()]:
        path = os.fsencode(os.path.join(room, name))
        with open(path, "wb") as file:
            file.write(data)
        lines, _ = scan(library, path)
        count += 1
        if len(lines) != len(wanted) or not all(map(fits, lines, wanted)):
            wrong.append(f"{name}: {what}: {lines}")
    return wrong, count


def wrong_holes(room):
    """Of a file with holes that GNU tar stores without them: in which formats it is not read as it is. None if there is no tar."""
    if shutil.which("tar") is None:
        return None
    path, wrong = os.path.join(room, "holes"), []
    with open(path, "wb") as file:
        for at in (100_000, 700_000):
            file.seek(at)
            file.write(b"a: 1")
        file.truncate(900_000)
    with open(path, "rb") as file:
        data = file.read()
    for format in ("gnu", "posix"):
        archive = os.path.join(room, format + ".tar")
        subprocess.run(["tar", "-C", room, f"--format={format}", "--sparse", "-cf", archive, "holes"], check=True)
        [(entry, _)] = archive_entries(os.fsencode(archive))
        if os.path.getsize(archive) > len(data) or entry.size is not None or list(read_tar(archive)) != [(b"holes", data)]:
            wrong.append(format)
    return wrong
