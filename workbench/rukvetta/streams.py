"""Standard input and output, and files: bounded, and with a sentence where they cannot be used."""

from __future__ import annotations

import contextlib
import errno
import io
import os
import sys
import tempfile
from collections.abc import Iterator

INPUT, OUTPUT = "standard input", "standard output"
MOST_READ = 262145  # bytes of a file: one more than a source may have, and far more than a store


class Closed(io.TextIOBase):
    """Stands for standard output where it is closed: writing fails, so that no answer is lost without a word."""

    def write(self, text: str) -> int:
        raise OSError(errno.EBADF, "it is closed", OUTPUT)


class Written(io.TextIOWrapper):
    """Standard output; what cannot be written is told with its name."""

    def write(self, text: str) -> int:
        with naming(OUTPUT):
            return super().write(text)

    def flush(self) -> None:
        with naming(OUTPUT):
            super().flush()


@contextlib.contextmanager
def naming(name: str) -> Iterator[None]:
    """An error that does not say which file it is about gets a name."""
    try:
        yield
    except BrokenPipeError:
        raise
    except OSError as error:
        raise OSError(error.errno, error.strerror, error.filename or name) from None


closed: set[int] = set()  # the standard descriptors that were closed at the start


def prepare() -> None:
    """Put the null device where a standard descriptor is closed: a file that is opened later must not become one."""
    for descriptor in 0, 1, 2:
        try:
            os.fstat(descriptor)
        except OSError:
            closed.add(descriptor)
            os.open(os.devnull, os.O_RDWR)
    if sys.stderr is None:
        sys.stderr = open(os.devnull, "w", encoding="utf-8")  # open to the end
    if sys.stdout is None:
        sys.stdout = Closed()
    elif isinstance(sys.stdout, io.TextIOWrapper):  # a name or a locale may not be UTF-8
        encoding, terminal = sys.stdout.encoding, sys.stdout.isatty()
        sys.stdout = Written(sys.stdout.detach(), encoding=encoding, errors="backslashreplace", line_buffering=terminal)


def read_input() -> bytes:
    """Standard input to its end, or until it is too long for anything here. On a terminal it is said that it is read."""
    if 0 in closed or sys.stdin is None:
        raise OSError(errno.EBADF, "it is closed", INPUT)
    if sys.stdin.isatty():
        print("reading standard input, a terminal; Ctrl-D ends it", file=sys.stderr)
    with naming(INPUT):
        return sys.stdin.buffer.read(MOST_READ)


def read_file(path: str) -> bytes:
    """A file's bytes, as many as anything here can use; - for standard input."""
    if path == "-":
        return read_input()
    with open(path, "rb") as file:
        return file.read(MOST_READ)


def write_output(data: bytes) -> None:
    """Bytes to standard output."""
    sys.stdout.write("")
    with naming(OUTPUT):
        sys.stdout.flush()
        sys.stdout.buffer.write(data)
        sys.stdout.buffer.flush()


def write_file(path: str, data: bytes) -> None:
    """Write a file whole or not at all; - for standard output. What is there already, and is no plain file, is written to as it is."""
    if path == "-":
        write_output(data)
    elif os.path.exists(path) and not os.path.isfile(path):
        with open(path, "wb") as file:
            file.write(data)
    else:
        replace_file(os.path.realpath(path), data)


def replace_file(path: str, data: bytes) -> None:
    """Write beside a file and put it in its place."""
    folder = os.path.dirname(path) or "."
    if not os.path.isdir(folder):
        raise FileNotFoundError(errno.ENOENT, os.strerror(errno.ENOENT), path)
    descriptor, beside = tempfile.mkstemp(dir=folder, prefix=".rukvetta-")
    try:
        with naming(path), os.fdopen(descriptor, "wb") as file:
            file.write(data)
        os.chmod(beside, mode_of(path))
        os.replace(beside, path)
    except BaseException:
        os.unlink(beside)
        raise


def mode_of(path: str) -> int:
    """The mode of a file that is there, or that of a new one."""
    try:
        return os.stat(path).st_mode & 0o777
    except OSError:
        mask = os.umask(0)
        os.umask(mask)
        return 0o666 & ~mask
