"""Files that an option, a map or debug information names. Only regular files are opened: who opens
a pipe or a device, or reads it to its end, may wait without end."""

import errno
import os
import stat

from lib import tool


def may_wait(path, most):
    """Whether a command that opens something and reads it may wait for it: it is a pipe or a
    device, or has more than so many bytes."""
    try:
        found = os.stat(path)
    except OSError:
        return False
    kind = stat.S_IFMT(found.st_mode)
    return found.st_size > most or kind not in (stat.S_IFREG, stat.S_IFDIR, stat.S_IFSOCK)


def no_wait(path, flags):
    return os.open(path, flags | os.O_NONBLOCK, 0o666)


def opened(path):
    """A regular file, for reading bytes. Some of /proc are regular, and wait as pipes do if they
    are not asked not to."""
    if not stat.S_ISREG(os.stat(path).st_mode):
        raise OSError(errno.EINVAL, "no regular file")
    return open(path, "rb", opener=no_wait)


def read(path, most):
    """The bytes of a regular file, of which there may be so many. Some of /proc have no end, and
    say that they are empty."""
    with opened(path) as file:
        text = file.read(most + 1) or b""
    if len(text) > most:
        raise OSError(errno.EFBIG, f"more than {tool.size_text(most)} bytes")
    return text
