"""The private folder of a tool: how it is made, what is copied there, whether there is room in it,
and how it goes, whatever a student's program has left in it."""

import contextlib
import errno
import itertools
import os
import sys
import tempfile

from lib import processes
from lib.runs import state_of
from lib.signals import heed_stops, put_off_stops, stop_at_signals
from parts import tool

FULL = errno.ENOSPC, errno.EDQUOT
PAGE = 4096
PIECE = 1 << 20


def no_room(folder):
    """Why no more can be written to a folder, in words; nothing where it can. This is asked after
    each run: a program that is wrong may have had no room for what it wrote."""
    try:
        with tempfile.TemporaryFile(dir=folder, buffering=0) as file:
            tool.write_all(file.fileno(), bytes(PAGE))
    except OSError as fault:
        return no_room_text(fault)
    return ""


def no_room_text(fault):
    return f"the private folder can't be written: {fault.strerror}"


def copy(trace, place):
    """Copies a trace, so that all is judged by the same. It is a fault where it changes then."""
    state, left = state_of(trace), os.path.getsize(trace)
    with open(trace, "rb") as source, open(place, "wb") as file:
        while left > 0 and (piece := source.read(min(left, PIECE))):  # one that grows has an end
            left -= file.write(piece)
    if state_of(trace) != state:
        tool.fail(f"{trace} has changed while it was copied")


def folders_among(paths):
    """Removes these files. What is left are folders, which get their rights back."""
    for path in paths:
        with contextlib.suppress(OSError):
            try:
                os.unlink(path)
            except IsADirectoryError:  # and no link to one
                os.chmod(path, 0o700)
                yield path


def remove(folder):
    """Removes a folder, as far as that can be done. Folders in it are moved to its top first, so
    that no depth is too much, and few descriptors are enough."""
    waiting, numbers = [*folders_among([folder])], itertools.count()
    token = os.urandom(8).hex()  # which no name there has
    while waiting:
        place, paths = waiting.pop(), []
        with contextlib.suppress(OSError):
            paths = [os.path.join(place, name) for name in os.listdir(place)]
        for path in folders_among(paths):
            above = os.path.join(folder, f"{token}.{next(numbers)}")
            with contextlib.suppress(OSError):
                if place != folder:
                    os.rename(path, above)
                    path = above
                waiting.append(path)
        with contextlib.suppress(OSError):
            os.rmdir(place)
    with contextlib.suppress(OSError):
        os.rmdir(folder)


@contextlib.contextmanager
def temporary(folder):
    """The path of a folder within another, which is removed at the end."""
    inner = tempfile.mkdtemp(dir=folder)
    try:
        yield inner
    finally:
        remove(inner)


def in_private_folder(work):
    """What some work returns in a folder that is removed at its end, also by a signal. What it
    writes to standard output may have any letters."""
    if sys.stdout:  # it may be closed
        sys.stdout.reconfigure(errors="backslashreplace")
    stop_at_signals()
    put_off_stops()
    try:
        spare = os.open(os.devnull, os.O_RDONLY)  # at the end there may be no other descriptor
        folder = tempfile.mkdtemp(prefix=f"cachesim-{tool.NAME}.")
        try:
            try:
                heed_stops()
                return work(folder)
            finally:
                put_off_stops()  # which raises where the first one comes just now
        finally:
            os.close(spare)
            processes.end_orphans()  # a signal may have come as a run's were ended
            remove(folder)
            heed_stops()
    except OSError as fault:
        place = f"{fault.filename}: " if fault.filename else ""
        return tool.fail(f"{place}{fault.strerror}")
