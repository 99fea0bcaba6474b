"""Files that are written as a whole or not at all."""
from __future__ import annotations

import os
import secrets
import stat
from typing import BinaryIO, Union

AnyPath = Union[str, "os.PathLike[str]"]


def save(path: AnyPath, content: bytes) -> None:
    """Writes a file beside `path` and renames it to `path`, so that no reader sees a part of it.

    A link stays, and the file that it names is replaced. The mode of a file that is replaced stays. A device or a pipe
    cannot be replaced, and is written to. Raises OSError with the name `path`.
    """
    try:
        # (the link /dev/stdout names no file if standard output is a pipe)
        mode = os.stat(path).st_mode if os.path.exists(path) else None
        if mode is None or stat.S_ISREG(mode):
            _replace(os.path.realpath(path), content, mode)
        else:
            with _open(path) as file:
                file.write(content)
    except OSError as error:
        raise type(error)(error.errno, error.strerror, os.fspath(path)) from None


def _open(path: AnyPath) -> BinaryIO:
    """A device or a pipe to write to. Standard output is not opened again: without a reader that would wait for one."""
    try:
        if os.path.samestat(os.stat(path), os.fstat(1)):
            return open(os.dup(1), "wb")
    except OSError:
        pass
    return open(path, "wb")


def _replace(target: str, content: bytes, mode: int | None) -> None:
    beside = os.path.join(os.path.dirname(target), f".darkroom-{secrets.token_hex(8)}")
    # (a failure before this creates nothing that must be removed)
    handle = os.open(beside, os.O_WRONLY | os.O_CREAT | os.O_EXCL | os.O_CLOEXEC, 0o666)
    try:
        with open(handle, "wb") as file:
            if mode is not None:
                os.fchmod(handle, stat.S_IMODE(mode))
            file.write(content)
        os.replace(beside, target)
    except BaseException:
        os.unlink(beside)
        raise
