"""Files that are there whole or not at all."""
from __future__ import annotations

import errno
import os
import secrets
import sys
from contextlib import contextmanager, suppress
from typing import IO, Iterator, Set


STANDARD_OUTPUT = ("-", "/dev/stdout")
_begun: Set[str] = set()  # files that have not taken their names yet


def abandon() -> None:
    """Takes away what is half written, for a process that is about to end."""
    for name in list(_begun):
        with suppress(OSError):
            os.unlink(name)


@contextmanager
def replacing(path: str, text: bool = False) -> Iterator[IO]:
    """A file to write to; it takes its name when all is written, and is taken away if something fails.

    A link stays a link, and a file that may not be written stays as it is. A pipe or a device can't be replaced: it is written to as it is.
    ``-`` is standard output.
    """
    if path in STANDARD_OUTPUT:
        yield sys.stdout if text else sys.stdout.buffer
        sys.stdout.flush()
        return
    mode, options = ("w", {"newline": ""}) if text else ("wb", {})
    name = ""
    try:
        if os.path.isdir(path):
            raise OSError(errno.EISDIR, os.strerror(errno.EISDIR), path)
        if os.path.exists(path) and not os.access(path, os.W_OK):
            raise OSError(errno.EACCES, os.strerror(errno.EACCES), path)
        if os.path.exists(path) and not os.path.isfile(path):
            with open(path, mode, **options) as file:
                yield file
            return
        end = os.path.realpath(path)
        name = os.path.join(os.path.dirname(end), ".yasgulet-%d-%s" % (os.getpid(), secrets.token_hex(6)))
        _begun.add(name)
        with open(name, mode.replace("w", "x"), **options) as file:
            yield file
        if os.path.exists(end):
            os.chmod(name, os.stat(end).st_mode & 0o7777)
        os.replace(name, end)
    except BaseException as error:
        if name:
            with suppress(OSError):
                os.unlink(name)
        if isinstance(error, OSError):  # whatever failed, it is the file that was asked for
            raise OSError(error.errno, error.strerror or str(error), path) from None
        raise
    finally:
        _begun.discard(name)


def write_whole(path: str, data: bytes) -> None:
    """Writes a file at once."""
    with replacing(path) as file:
        file.write(data)
