"""Opens the inputs of the capture tools: plain or compressed files, and standard input as `-`."""
import bz2
import contextlib
import gzip
import lzma
import os
import stat
import sys
import zlib

from .tool_run import Fault

try:
    from compression import zstd  # in Python's own library from 3.14 on
except ImportError:
    zstd = None

FIRST_BYTES = 65_536  # bytes that are looked at before a file is read
STANDARD_INPUT = "-"
ZSTANDARD, XZ = b"\x28\xb5\x2f\xfd", b"\xfd7zXZ\x00"
XZ_MIB = 128  # of memory that reading an xz file may take; one of `xz -9` takes 65
XZ_PIECE = 8_192  # bytes of one that are read at a time
XZ_TAKES_MORE = "Memory usage limit exceeded"  # the library's words
DAMAGES = (EOFError, zlib.error, lzma.LZMAError, gzip.BadGzipFile)
if zstd:
    DAMAGES += (zstd.ZstdError,)
PACKETS = (b"\xd4\xc3\xb2\xa1", b"\xa1\xb2\xc3\xd4", b"\x4d\x3c\xb2\xa1", b"\xa1\xb2\x3c\x4d", b"\x0a\x0d\x0d\x0a")
CAPTURE, TRAFFIC = b"haboob-capture ", b"haboob-traffic "
RECORDINGS = (CAPTURE, TRAFFIC)


class XzFile:
    """The bytes that an xz file stands for: what lzma.open gives, which has no limit of memory.

    What follows a stream and is no other one is read over.
    """

    def __init__(self, raw):
        self.raw = raw
        self.stream = self._next_stream()

    @staticmethod
    def _next_stream():
        return lzma.LZMADecompressor(lzma.FORMAT_XZ, XZ_MIB << 20)

    def read1(self, count):
        """Some of the next bytes, at most so many; none at the end."""
        data = b""
        while self.stream and not data:
            packed = b""
            if self.stream.eof:
                packed = self._after_stream()
                self.stream = self._next_stream() if packed.startswith(XZ) else None
            elif self.stream.needs_input:
                packed = self.raw.read(XZ_PIECE)
                if not packed:
                    raise EOFError("Compressed file ended before the end-of-stream marker was reached")
            data = self.stream.decompress(packed, count) if self.stream else b""
        return data

    def _after_stream(self):
        """What follows a stream and its padding of zeros, or the begin of it."""
        packed = self.stream.unused_data.lstrip(b"\0")
        while len(packed) < len(XZ) and (more := self.raw.read(XZ_PIECE)):
            packed = (packed + more).lstrip(b"\0")
        return packed


OPENERS = {b"\x1f\x8b": gzip.open, b"BZh": bz2.open, XZ: XzFile}
if zstd:
    OPENERS[ZSTANDARD] = zstd.open


class Input:
    """A file that is read from its begin, with its name for faults."""

    def __init__(self, name, raw, count_on):
        """Looks at the first bytes of an open file; `count_on` is told how many of its bytes were read each time."""
        self.name, self.raw, self.count_on = name, raw, count_on
        self.counted = 0
        self.file = _uncompressed(name, raw)
        self.ahead = b""  # what was looked at, and is still to be read
        self.first = self.read(FIRST_BYTES)
        self.ahead = self.first

    def read(self, count):
        """The next bytes: so many, or fewer where the file ends; raises Fault where it is damaged."""
        taken, self.ahead = self.ahead[:count], self.ahead[count:]
        return taken if len(taken) == count else taken + self._read(count - len(taken))

    def _read(self, count):
        """Bytes after those that were looked at, by many short reads: between two of them Ctrl-C is seen."""
        parts, missing = [], count
        while missing:
            parts.append(self._read_once(missing))
            missing = missing - len(parts[-1]) if parts[-1] else 0
        return b"".join(parts)

    def _read_once(self, count):
        """Some of the next bytes; none at the end."""
        try:
            data = self.file.read1(count)
        except DAMAGES as error:
            if str(error) == XZ_TAKES_MORE:
                raise Fault("%s: takes more than %d MiB of memory to be read; give `-` as the input, and pipe from "
                            "xz -dc" % (self.name, XZ_MIB)) from None
            raise Fault("%s: the compressed file is cut or damaged: %s" % (self.name, error)) from None
        except OSError as error:
            raise Fault("%s: %s" % (self.name, error.strerror or error)) from None
        place = self.raw.tell() if self.raw.seekable() else self.counted + len(data)
        self.count_on(place - self.counted)
        self.counted = place
        return data


def _uncompressed(name, raw):
    """What the bytes of an open file stand for."""
    begin = raw.peek(6)
    if begin.startswith(ZSTANDARD) and not zstd:
        raise Fault("%s: this Python reads no Zstandard; give `-` as the input, and pipe from zstd -dc" % name)
    return next((opener(raw) for magic, opener in OPENERS.items() if begin.startswith(magic)), raw)


def kind_of(first):
    """What the first bytes of a file are, and which tool reads it, where that can be told; else None."""
    if first.startswith(PACKETS):
        return "recorded packets, which tools/capture_from_pcap.py reads"
    if first.startswith(RECORDINGS):
        return "a capture already" if first.startswith(CAPTURE) else "a traffic text already"
    if first and b"\0" not in first and b"\n" in first:
        return "text; if it is an access log, tools/capture_from_log.py reads it"
    return None


def size_of(paths):
    """The bytes of all inputs together, as they lie on the disk; None where one has no size, as a pipe."""
    total = 0
    for path in paths:
        status = os.fstat(0) if path == STANDARD_INPUT else os.stat(path)
        if not stat.S_ISREG(status.st_mode):
            return None
        total += status.st_size
    return total


def descriptors(paths):
    """The inputs as output_file.refuse_same takes them."""
    return [0 if path == STANDARD_INPUT else path for path in paths]


def _opened(path):
    """A file of bytes, in a `with`; standard input stays open."""
    if path != STANDARD_INPUT:
        return open(path, "rb")
    if sys.stdin is None:
        raise Fault("standard input is closed")
    return contextlib.nullcontext(sys.stdin.buffer)


@contextlib.contextmanager
def opened(paths, count_on):
    """The inputs of some paths, none of them empty, each with its first bytes."""
    with contextlib.ExitStack() as files:
        inputs = [Input(path, files.enter_context(_opened(path)), count_on) for path in paths]
        for one in inputs:
            if not one.first:
                raise Fault("%s: empty" % one.name)
        yield inputs
