"""Writes the outputs of the tools: each to a new file beside it, which takes its place when all is written.

So a fault, a full disk, Ctrl-C or a kill leaves the older output as it was. A kill that can't be caught leaves the new
file behind, `.haboob-<digits>.part`.
"""
import contextlib
import io
import os
import secrets
import stat


class SameFile(Exception):
    """An output that is an input, or another output."""


class _Named(io.FileIO):
    """A file whose failures carry the name of the output that it is written for."""

    def __init__(self, path, mode, output):
        super().__init__(path, mode)
        self.output = output

    def write(self, data):
        with _named(self.output):
            return super().write(data)


def refuse_same(outputs, inputs=()):
    """Raises SameFile where an output is an input, or another output, by whatever name or link.

    Outputs are paths; inputs are paths, open files, or numbers of descriptors (0 is standard input).
    """
    taken = [(file, "is the input") for file in inputs]
    for output in outputs:
        for other, role in taken:
            if _is_same(output, other):
                raise SameFile("%s: the output %s; give it another name" % (output, role))
        taken.append((output, "is given twice"))


def _is_same(output, other):
    """Whether an output's path stands for the same file as a path, an open file or a descriptor.

    A path at which nothing is yet is compared by its text without links. Devices may be given twice, as /dev/null.
    """
    is_path = isinstance(other, (str, os.PathLike))
    try:
        found = os.stat(output)
        place = os.stat(other) if is_path else os.fstat(other if isinstance(other, int) else other.fileno())
    except OSError:
        return is_path and os.path.realpath(output) == os.path.realpath(other)
    return os.path.samestat(found, place) and not stat.S_ISCHR(found.st_mode)


def _is_replaced(path):
    """Whether what an output's path names is replaced at the end; else it is written at once.

    That is so of a device, of a pipe, and of the file that is standard output.
    """
    try:
        found = os.stat(path)
        if not stat.S_ISREG(found.st_mode) and not stat.S_ISDIR(found.st_mode):
            return False
        return not os.path.samestat(found, os.fstat(1))
    except OSError:
        return True


@contextlib.contextmanager
def replacing(path):
    """A file of bytes to write, which takes the place of an output's path where the body ends without an exception.

    A link is followed. Owner and permissions of an older file stay. Raises OSError, whose `filename` is the path, where
    the file can't be made or written, and where the older one may not be written.
    """
    if not _is_replaced(path):
        with io.BufferedWriter(_Named(path, "w", path)) as file:
            yield file
        return
    target = os.path.realpath(path)
    part = os.path.join(os.path.dirname(target), ".haboob-%s.part" % secrets.token_hex(8))
    try:
        with _named(path):
            older = _status_of(target)
            raw = _Named(part, "x", path)
        with io.BufferedWriter(raw) as file:
            yield file
            with _named(path):
                _finish(file, older)
        with _named(path):
            os.replace(part, target)
    except BaseException:
        with contextlib.suppress(OSError):
            os.unlink(part)
        raise


@contextlib.contextmanager
def replacing_text(path):
    """The same for text: it is written as UTF-8, with its ends of lines as they are."""
    with replacing(path) as file:
        text = io.TextIOWrapper(file, encoding="utf-8", newline="")
        yield text
        text.detach()  # which writes what is held


def replace_all(outputs):
    """Writes several outputs of text, each a path and a function that writes to a file: all take their places, or none.

    Each is whole on the disk before the first takes its place.
    """
    with contextlib.ExitStack() as files:
        for path, write in outputs:
            file = files.enter_context(replacing_text(path))
            write(file)
            with _named(path):
                _bring_to_disk(file)


def _bring_to_disk(file):
    """Writes what is held of a file; where it is on a disk, it is there then."""
    file.flush()
    if stat.S_ISREG(os.fstat(file.fileno()).st_mode):
        os.fsync(file.fileno())


@contextlib.contextmanager
def _named(path):
    """Gives failures the name of an output."""
    try:
        yield
    except OSError as error:
        error.filename, error.filename2 = path, None
        raise


def _status_of(target):
    """The status of an older output, None where there is none; raises OSError where it may not be written."""
    try:
        with open(target, "r+b") as older:
            return os.fstat(older.fileno())
    except FileNotFoundError:
        return None


def _finish(file, older):
    """Brings a file's bytes to the disk, and gives it the owner and the permissions of an older one."""
    _bring_to_disk(file)
    if older is not None:
        with contextlib.suppress(PermissionError):
            os.fchown(file.fileno(), older.st_uid, older.st_gid)
        os.fchmod(file.fileno(), stat.S_IMODE(older.st_mode))
