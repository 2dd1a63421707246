"""Runs of the program over one trace, for tools that make a table of them. All runs count the same
references: a pipe is read once and handed to all, and a file must not change meanwhile."""

import contextlib
import os
import select
import stat
import tempfile

from lib import files, tool
from lib.processes import Fault, Group, Process, is_packed, widen
from lib.signals import look_each_second, uninterrupted

PIECE = 1 << 18  # the bytes that are read at once
ROOM = 1 << 20  # the bytes that may wait for a run, so that it may fall behind for a while


class Run(Process):
    """A run of the program over a trace: a file that it opens by name, an open one, or a pipe,
    through which it gets as many lines as are wanted."""

    def __init__(self, place, command, lines=None, name=None, file=None):
        self.lines, self.pipe = lines, None
        if name is not None:
            super().__init__([*command, "-t", name])
        else:
            read = file
            if file is None:
                read, self.pipe = os.pipe()
                widen(read, ROOM)
            super().__init__(command, stdin=read)
            os.close(read)
        self.name = place

    def give(self, piece):
        if self.lines is not None:
            *whole, rest = piece.split(b"\n", self.lines)
            piece = piece if len(whole) < self.lines else piece[:len(piece) - len(rest)]
            self.lines -= len(whole)
        # where it has ended, who looks after the pipes sees that with its cause
        with contextlib.suppress(BrokenPipeError):
            tool.write_all(self.pipe, piece)

    def bytes_read(self):
        with open(f"/proc/{self.number}/io", encoding="ascii") as lines:
            return int(lines.readline().split()[1])


class Runs:
    """The runs over a trace, at most so many of them at once. What can be read only once is kept in
    a file without a name where there are more of them: the first runs read along, so that a bad
    line ends all at once, and the others read that file."""

    def __init__(self, group, trace, commands, jobs, is_read_once=False):
        self.group, self.trace, self.commands, self.jobs = group, trace, commands, jobs
        self.runs, self.spool, self.handed = [], None, 0
        # where there is no such file, each run tells it
        is_special = os.path.exists(trace) and not (os.path.isfile(trace) or os.path.isdir(trace))
        # the program takes no word that isn't UTF-8
        is_special |= trace.encode(errors="replace") != os.fsencode(trace)
        self.is_read_once = is_read_once or trace == "-" or is_packed(trace) or is_special

    def start_next(self):
        """Starts the next run, where there is one, and returns those that it has started."""
        if len(self.runs) == len(self.commands):
            return []
        place, command, *lines = self.commands[len(self.runs)]
        name = file = None
        if not self.is_read_once:
            name = f"./{self.trace}" if self.trace.startswith("-") else self.trace
        elif len(self.runs) >= self.jobs:
            # with a place in the file of its own
            file = os.open(f"/proc/self/fd/{self.spool.fileno()}", os.O_RDONLY)
        self.runs.append(
            self.group.start(Run, place, command, *(lines or [None]), name, file))
        return self.runs[-1:]

    def read_once(self):
        """Hands out the trace, and keeps it if there are runs to come."""
        try:
            self.hand_out(*self.group.start_source(self.trace))
        except OSError as fault:
            name = "standard input" if self.trace == "-" else tool.visible(self.trace)
            raise Fault(f"{tool.NAME}: {name} can't be read: {fault.strerror}") from None

    def keep(self, piece):
        if len(self.commands) <= self.jobs:
            return
        try:
            with uninterrupted():
                self.spool = self.spool or tempfile.TemporaryFile(buffering=0)
            tool.write_all(self.spool.fileno(), piece)
        except OSError as fault:
            folder = tool.visible(tempfile.gettempdir())
            text = f"the trace can't be kept in {folder}: {fault.strerror}"
            raise Fault(f"{tool.NAME}: {text}") from None

    def hand_out(self, source, unpacker):
        """Gives each run all that is read. None sees an end before the trace is known as whole."""
        watch = select.poll()
        watch.register(source, select.POLLIN)
        for run in self.runs:
            watch.register(run.pipe, 0)  # tells where its reader has gone
        piece = None
        while piece != b"":
            ready = [descriptor for descriptor, _ in watch.poll()]
            for run in self.runs:
                if run.pipe in ready:
                    run.wait()
                    watch.unregister(run.pipe)
            if source in ready:
                piece = os.read(source, PIECE)
                self.handed += len(piece)
                self.keep(piece)
                for run in self.runs:
                    run.give(piece)
        if unpacker:
            unpacker.wait()
        for run in self.runs:
            os.close(run.pipe)

    def finish(self):
        """Waits for all runs. Where one ends, the next one begins."""
        running = {run.number: run for run in self.runs if run.is_running}
        while running:
            number, status = os.wait()
            if run := running.pop(number, None):
                run.ended(status)
                running.update((new.number, new) for new in self.start_next())

    def progress(self):
        """How far the runs are: how many are done, or what that has read which has read least."""
        if self.is_read_once and any(run.pipe is not None and run.is_running for run in self.runs):
            return f"{self.handed // 1000000} MB of the trace read"
        if len(self.commands) > self.jobs:
            done = sum(not run.is_running for run in self.runs)
            return f"{done} of {len(self.commands)} runs done"
        least = min(run.bytes_read() for run in self.runs if run.is_running)
        return f"{100 * least // os.path.getsize(self.trace)} % of the trace read"

    def tell(self, *_):
        """Shows that on the terminal's line."""
        # a run may just have ended, or there may be nothing to read
        with contextlib.suppress(OSError, ValueError, ZeroDivisionError):
            show(f"{tool.NAME}: {self.progress()}")


def show(text):
    """Replaces the text in the terminal's line."""
    with contextlib.suppress(OSError):  # the terminal has gone
        os.write(2, f"\r{text}\033[K".encode())


def state_of(trace):
    """What changes with a file that is written to or replaced; None of what is no regular file."""
    try:
        found = os.stat(trace)
    except OSError:
        return None
    state = found.st_dev, found.st_ino, found.st_size, found.st_mtime_ns
    return state if stat.S_ISREG(found.st_mode) else None


def over(trace, commands, jobs, is_read_once=False):
    """Runs commands over a trace, at most so many at once, and returns what each has written. Each
    is a text that names it, and words to which the trace is added; and how many lines it gets, if
    not all. Where one fails, the others are ended, and the tool ends with its message and status;
    so it does where several read a file that is no longer as it was at the beginning."""
    files.spare(trace)
    state = state_of(trace)
    with Group() as group:
        runs, is_shown = Runs(group, trace, commands, jobs, is_read_once), os.isatty(2)
        if is_shown:
            look_each_second(runs.tell)
        try:
            for _ in range(min(jobs, len(commands))):
                runs.start_next()
            if runs.is_read_once:
                runs.read_once()
            runs.finish()
        finally:
            if is_shown:
                look_each_second()
                show("")
        if not runs.is_read_once and state_of(trace) != state:
            raise Fault(f"{tool.NAME}: {changed(trace)}")
    return [run.text for run in runs.runs]


def changed(trace):
    return (f"{tool.visible(trace)} has changed while it was read: not all runs have counted the "
            "same references")
