"""Reads tar and zip archives, and tells of each that is damaged: what a worker of check.py runs. Standard library only.

tar_members goes through a tar archive once, from its beginning on, and read_tar has the bytes of its members too; the archive may
be compressed by gzip, bzip2 or xz. read_zip reads a zip archive by its directory. What is whole before the damage comes first.
"""

import collections
import os
import stat
import struct
import tarfile
import zipfile
import zlib

BLOCK = 512  # bytes: a header of a tar archive, and what the length of a member is rounded up to
SLICE = 1024  # compressed bytes that are unpacked at a time: if they are damaged, nothing that they unpack to is read
PIECE = 1_000_000  # bytes that they unpack to at a time, at most
ZIP_END = struct.Struct("<4s4H2LH")  # the record at the end of a zip archive, before the comment
ZIP_END_SIGNATURE = b"PK\x05\x06"
IN_ZIP64 = 0xFFFF, 0xFFFFFFFF  # a count and a place that stand in another record
ENCRYPTED = 1  # a flag of a zip member


class Damaged(Exception):
    """What is wrong with an archive, and where."""


# A way to compress: what makes its decompressor, and how many zeros may follow a stream: as many times so many as one likes.
Compression = collections.namedtuple("Compression", "begin padding")


def open_file(path):
    """Opens a regular file. It does not wait for a pipe."""
    number = os.open(path, os.O_RDONLY | os.O_NONBLOCK | os.O_CLOEXEC)
    try:
        mode = os.fstat(number).st_mode
        if not stat.S_ISREG(mode) and not stat.S_ISDIR(mode):
            raise OSError("it is no regular file")
        return os.fdopen(number, "rb")  # which says what a folder is
    except BaseException:
        os.close(number)
        raise


# Compressed files


class Gunzip:
    """A decompressor for gzip with the calls of those for bzip2 and xz. zlib compares the checksum and the length."""

    def __init__(self):
        self.stream = zlib.decompressobj(16 + zlib.MAX_WBITS)

    def decompress(self, data, most):
        return self.stream.decompress(self.stream.unconsumed_tail + data, most)

    @property
    def needs_input(self):
        return not self.stream.unconsumed_tail

    @property
    def eof(self):
        return self.stream.eof

    @property
    def unused_data(self):
        return self.stream.unused_data


def compression_of(file):
    """How a file is compressed, by its first bytes; None if it is not. Its Python may lack bz2 or lzma."""
    head = file.read(10)
    file.seek(0)
    if head.startswith(b"\x1f\x8b"):
        return Compression(Gunzip, 1)
    if head.startswith(b"BZh") and head[4:] in (b"1AY&SY", b"\x17rE8P\x90"):
        from bz2 import BZ2Decompressor

        return Compression(BZ2Decompressor, 1)
    if head.startswith((b"\xfd7zXZ\0", b"\x5d\0\0\x80")):
        from lzma import LZMADecompressor

        return Compression(LZMADecompressor, 4)
    return None


def unpacked_slice(stream, data, file):
    """What a stream unpacks to next, with more of the file."""
    try:
        return stream.decompress(data, PIECE)
    except Exception as wrong:  # each decompressor has its own
        raise Damaged(f"its compressed data is damaged before byte {file.tell() + 1} of the file: {wrong}") from None


def after_stream(file, data, padding):
    """What follows a compressed stream and the zeros after it, of which `data` is read; nothing at the end of the file."""
    zeros = 0
    while True:
        data = data or file.read(SLICE)
        rest = data.lstrip(b"\0")
        zeros += len(data) - len(rest)
        if rest or not data:
            break
        data = b""
    if zeros % padding:
        raise Damaged("the file ends within the zeros after its compressed data")
    return rest


def unpack(file, compression):
    """What a compressed file unpacks to, in pieces: one stream or several, to the last byte of the file."""
    data = file.read(SLICE)
    while data:
        stream = compression.begin()
        while not stream.eof:
            piece = unpacked_slice(stream, data, file)
            data = file.read(SLICE) if stream.needs_input and not stream.eof else b""
            if not (piece or data or stream.eof or not stream.needs_input):
                raise Damaged("the file ends within its compressed data")
            yield piece
        data = after_stream(file, stream.unused_data, compression.padding)


class Unpacked:
    """What a compressed file unpacks to, read from its beginning on."""

    def __init__(self, file, compression):
        self.pieces, self.piece, self.at, self.place = unpack(file, compression), b"", 0, 0

    def take(self, most):
        """The next bytes, at least one and no more than `most`; none at the end."""
        while self.at == len(self.piece):
            self.piece, self.at = next(self.pieces, None), 0
            if self.piece is None:
                self.piece = b""
                return b""
        found = self.piece[self.at : self.at + most]
        self.at += len(found)
        self.place += len(found)
        return found

    def read(self, size):
        found = self.take(size)
        if len(found) == size or not found:
            return found
        parts, left = [found], size - len(found)
        while left and found:
            found = self.take(left)
            parts.append(found)
            left -= len(found)
        return b"".join(parts)

    def seek(self, place):
        while self.place < place and self.take(place - self.place):
            pass
        return self.place


# Tar archives


class Tape:
    """A file for tarfile that is read forwards only. `last` is what was read of it last."""

    def __init__(self, file):
        self.file, self.place, self.last = file, 0, b""

    def tell(self):
        return self.place

    def read(self, size):
        if size < 0:
            raise Damaged(f"the header before byte {self.place + 1} is damaged: a size is less than 0")
        self.last = self.file.read(size)
        self.place += len(self.last)
        return self.last

    def seek(self, place):
        if place < self.place:
            raise Damaged(f"the header before byte {self.place + 1} is damaged: a member begins before it")
        self.place = self.file.seek(place)
        return self.place


def check_end(tape):
    """Raises unless what ended an archive for tarfile is its end marker, two blocks of zeros, and only zeros follow it, whole
    blocks. For tarfile a header that is cut or damaged, or no block at all, ends it as well."""
    block, at = tape.last, tape.tell() - len(tape.last)
    if len(block) == BLOCK and any(block):
        raise Damaged(f"the header at byte {at + 1} is damaged")
    while block:
        if block != bytes(len(block)):
            raise Damaged(f"other bytes follow the zeros at byte {at + 1}, at which the archive ends")
        block = tape.read(PIECE)
    if tape.tell() < at + 2 * BLOCK or tape.tell() % BLOCK:
        raise Damaged(f"it ends after {tape.tell()} bytes, before the end of an archive, which is two blocks of zeros")


def tar_members(tape):
    """Each member of a tar archive as tarfile has it, and the archive, of which its bytes can be read before the next one."""
    with tarfile.TarFile(fileobj=tape) as archive:
        for member in archive:
            if member.size < 0:
                raise Damaged(f"the header before byte {tape.tell() + 1} is damaged: a size is less than 0")
            yield archive, member
            archive.members.clear()  # it would keep them all
    check_end(tape)


def read_tar(path):
    """The name and the bytes of each regular member of a tar archive, compressed or not. Raises where it is damaged."""
    with open_file(path) as file:
        compression = compression_of(file)
        tape = Tape(Unpacked(file, compression) if compression else file)
        try:
            for archive, member in tar_members(tape):
                if member.isreg():
                    yield os.fsencode(member.name), archive.extractfile(member).read()
        except (Damaged, OSError, MemoryError):
            raise
        except Exception as wrong:  # tarfile has no list of what it raises
            raise Damaged(f"the tar archive is damaged before byte {tape.tell() + 1}: {wrong}") from None


# Zip archives


def check_directory(file, archive):
    """Raises unless a zip archive, of which zipfile has read the directory, is all of the file and all that its end says."""
    ends_at = file.seek(0, os.SEEK_END) - ZIP_END.size - len(archive.comment)
    file.seek(ends_at)
    signature, _, _, _, count, _, at, comment_len = ZIP_END.unpack(file.read(ZIP_END.size))
    if signature != ZIP_END_SIGNATURE or comment_len != len(archive.comment):
        raise Damaged("the file does not end where the archive in it does")
    if count not in (len(archive.infolist()), IN_ZIP64[0]):
        raise Damaged(f"its directory has {len(archive.infolist())} members, and its end says {count}")
    if at not in (archive.start_dir, IN_ZIP64[1]):
        raise Damaged(f"its directory is at byte {archive.start_dir + 1} of the file, and its end says {at + 1}")


def zip_data(archive, member):
    if member.flag_bits & ENCRYPTED:
        raise Damaged("it is encrypted")
    data = archive.read(member)  # which compares the checksum
    if len(data) != member.file_size:
        raise Damaged(f"it has {len(data)} bytes, and the directory says {member.file_size}")
    return data


def read_zip(path):
    """The name of each regular member of a zip archive with its bytes, and of any member that can't be read with what is wrong.
    Raises if there is no whole directory."""
    with open_file(path) as file, zipfile.ZipFile(file) as archive:
        check_directory(file, archive)
        for member in archive.infolist():
            try:
                data = zip_data(archive, member)
            except Exception as wrong:  # zipfile has no list of what it raises
                data = wrong
            is_regular = not member.is_dir() and not stat.S_ISLNK(member.external_attr >> 16)
            if is_regular or isinstance(data, Exception):
                yield member.filename.encode("utf-8", "surrogateescape"), data
