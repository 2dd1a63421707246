"""Processes that a tool starts and joins by pipes: each ends with the tool, and its fault names
it."""

import contextlib
import ctypes
import fcntl
import os
import signal
import time

from lib import STOPS, files, tool
from lib.signals import stop_at_signals, uninterrupted

TOLD = 1 << 18  # the bytes of its messages that are looked at
UNPACKERS = {".gz": ("gzip", "gzip"), ".xz": ("xz", "xz-utils"), ".zst": ("zstd", "zstd")}
PR_SET_CHILD_SUBREAPER = 36
F_SETPIPE_SZ = 1031  # in fcntl from Python 3.10 on
inherited = None  # the children that this process did not start itself


class Fault(Exception):
    """What ends the tool: its message, its status and the kind of its end."""

    def __init__(self, text, status=1, kind=SystemExit):
        super().__init__(text)
        self.text, self.status, self.kind = text, status, kind


def widen(pipe, size):
    """Gives a pipe room for so many bytes; less will do."""
    with contextlib.suppress(OSError):
        fcntl.fcntl(pipe, F_SETPIPE_SZ, size)


def end_text(code):
    return f"status {code}" if code > 0 else f"signal {-code}"


def is_packed(trace):
    return trace.endswith(tuple(UNPACKERS))


class Process:
    """A process over the trace: of a command, or the program at a path. What it tells, and writes
    to no other place, is kept in memory."""

    # what a terminal sends to all processes is for the tool alone, which ends the others
    BLOCKED = (signal.SIGHUP, signal.SIGINT, signal.SIGQUIT)

    def __init__(self, command, stdin=0, stdout=None, stderr=None, path=None, env=None, **given):
        self.kept, self.messages = os.memfd_create("kept"), os.memfd_create("messages")
        self.name, self.text = os.path.basename(path or command[0]), b""
        # where it is ignored, the end of a process can't be waited for
        if signal.getsignal(signal.SIGCHLD) == signal.SIG_IGN:
            signal.signal(signal.SIGCHLD, signal.SIG_DFL)
        ends = (stdin, self.kept if stdout is None else stdout,
                self.messages if stderr is None else stderr)
        self.number = os.posix_spawnp(
            path or command[0], command, env or os.environ, setsigmask=self.BLOCKED,
            file_actions=[(os.POSIX_SPAWN_DUP2, *end) for end in zip(ends, range(3))],
            setsigdef=[signal.SIGPIPE], **given)  # which Python ignores
        self.is_running = True

    def fault(self, code):
        """What is told where it failed: its own message, if it could write one."""
        if code in (1, 2) and self.message():
            return Fault(self.message(), code)
        return Fault(f"{tool.NAME}: {self.name} ended with {end_text(code)}")

    def message(self):
        return os.pread(self.messages, TOLD, 0).decode(errors="replace").strip()

    def ended(self, status):
        """Takes note of its end, and of what it has written. It is a fault where it failed."""
        self.is_running = False
        code = os.waitstatus_to_exitcode(status)
        if code:
            raise self.fault(code)
        self.close()

    def close(self):
        """Keeps what it has written."""
        os.close(self.messages)
        with open(self.kept, "rb") as file:
            file.seek(0)
            self.text = file.read()

    def wait(self):
        if self.is_running:
            self.ended(os.waitpid(self.number, 0)[1])

    def strike(self):
        os.kill(self.number, signal.SIGKILL)

    def kill(self):
        if self.is_running:
            with contextlib.suppress(ProcessLookupError, ChildProcessError):  # not noted its end
                self.strike()
                os.waitpid(self.number, 0)
            self.is_running = False


class Filter(Process):
    """A C part with lib/filter.h, which writes the tool's output. The tool ends like it where its
    reader goes away, and has it end its line before that."""

    BLOCKED = STOPS - {signal.SIGXCPU}  # its time is its own
    FULL = 74  # its status where it has ended a file that has no more room (EX_IOERR)

    def fault(self, code):
        if code == tool.READER_GONE:
            raise SystemExit(tool.READER_GONE)
        if code == self.FULL:
            return Fault(self.message(), 1, tool.Spared)
        return super().fault(code)

    def strike(self):
        for _ in range(50):  # half a second, where its reader waits; a signal may come too early
            os.kill(self.number, signal.SIGURG)
            if os.waitid(os.P_PID, self.number, os.WEXITED | os.WNOHANG | os.WNOWAIT):
                return
            time.sleep(0.01)
        super().strike()


class Unpacker(Process):
    """What writes the text of a compressed trace to a pipe."""

    def __init__(self, trace):
        self.trace = trace
        self.pipe, write = os.pipe()
        command, package = next(UNPACKERS[end] for end in UNPACKERS if trace.endswith(end))
        tool.needs(command, package)
        super().__init__([command, "-dcq" if command == "zstd" else "-dc", "--", trace],
                         stdout=write)
        os.close(write)

    def fault(self, code):
        text = self.message().split("\n")[-1] or f"{self.name} ended with {end_text(code)}"
        return Fault(f"{tool.NAME}: {tool.visible(self.trace)} can't be read: {text}")

    def own_fault(self):
        """That with which it ends now that its reader has failed, or None."""
        for _ in range(100):  # a second, where it waits for its own source
            number, status = os.waitpid(self.number, os.WNOHANG)
            if number:
                self.is_running = False
                code = os.waitstatus_to_exitcode(status)
                return self.fault(code) if code not in (0, -signal.SIGPIPE) else None
            time.sleep(0.01)
        return None


class Group:
    """Processes that a tool starts, all of which are ended with it. A fault of one ends the tool
    with its message, and so does one that can't be started."""

    def __init__(self):
        self.processes = []

    def __enter__(self):
        tool.keep_places()  # else a pipe could be what a process gets as another stream
        stop_at_signals()
        return self

    def start(self, kind, *given, ends=(), **more):
        """Starts a process of some kind, and closes these ends of pipes, which it now has."""
        with uninterrupted():
            running = [process for process in self.processes if process.is_running]
            self.processes = [*running, kind(*given, **more)]
        for end in ends:
            if end > 2:
                os.close(end)
        return self.processes[-1]

    def start_source(self, trace, kind=Unpacker):
        """The descriptor that a trace is read from, and the process that unpacks it, if any does,
        which is ended with the others. Where its reader has read to the end, any end of it but a
        good one is a fault."""
        files.spare(trace)
        if not is_packed(trace):
            return 0 if trace == "-" else os.open(trace, os.O_RDONLY), None
        unpacker = self.start(kind, trace)
        return unpacker.pipe, unpacker

    def __exit__(self, _, fault, __):
        with uninterrupted():
            unpackers = [process for process in self.processes if isinstance(process, Unpacker)]
            for process in self.processes:
                if process not in unpackers:
                    process.kill()
            for process in unpackers:
                if process.is_running and isinstance(fault, Fault):
                    fault = process.own_fault() or fault  # a line that was cut is its fault
                process.kill()
        if isinstance(fault, Fault):
            tool.end(fault.text, fault.status, fault.kind)
        if isinstance(fault, OSError):
            name = os.path.basename(fault.filename or "")
            what = f"{name} can't be run" if name else "no more processes can be started"
            tool.fail(f"{what}: {fault.strerror}")
        if isinstance(fault, MemoryError):
            tool.fail("out of memory")


class Helper(Process):
    """A program that tells the tool something. How it ended is for who asked it."""

    def ended(self, status):
        self.is_running, self.code = False, os.waitstatus_to_exitcode(status)
        self.told = self.message()
        self.close()


def given(text):
    """A descriptor of a file without a name that has this text."""
    file = os.memfd_create("text")
    with open(file, "wb", closefd=False) as into:
        into.write(text)
    os.lseek(file, 0, os.SEEK_SET)
    return file


def ran(words, text=None, env=None):
    """How a program ended that is given this text, as a status or below 0 a signal; what it wrote;
    and what it told. It ends with the tool, which fails where the program can't be run."""
    with Group() as group:
        stdin = os.open(os.devnull, os.O_RDONLY) if text is None else given(text)
        read, write = os.pipe()  # which no limit of a file's size is for
        try:
            helper = group.start(Helper, words, stdin, write, env=env, ends=(stdin, write))
        except OSError as fault:
            tool.fail(f"{words[0]} can't be run: {fault.strerror}")
        with open(read, "rb") as file:
            output = file.read()
        helper.wait()
    return helper.code, output, helper.told


def output_of(words, package, text=None, of="", env=None):
    """What a command of Debian's package writes, with a text as its input. Where it is missing or
    fails, the tool does so, and names it and the file that it is asked `of`."""
    tool.needs(words[0], package)
    code, output, told = ran(words, text, env)
    if code:
        last = told.rpartition("\n")[2]
        place = f"{of}: " if of else ""
        tool.fail(f"{place}{words[0]} ended with {end_text(code)}{': ' * bool(last)}{last}")
    return output


def children():
    """The processes that are this one's now."""
    with open(f"/proc/self/task/{os.getpid()}/children", encoding="ascii") as file:
        return set(map(int, file.read().split()))


def adopt_orphans():
    """Has what a process leaves behind become this one's child. Those that it has as it begins are
    another's: a shell that became this tool had started them."""
    global inherited
    if inherited is None:
        inherited = children()
        ctypes.CDLL(None).prctl(PR_SET_CHILD_SUBREAPER, 1, 0, 0, 0)


def strike_orphans():
    """Kills all children of this process, which has adopted theirs. Returns their numbers."""
    own = children() - inherited
    for child in own:
        try:
            os.kill(child, signal.SIGKILL)
        except PermissionError:  # it has become another user's
            inherited.add(child)
    return own - inherited


def end_orphans():
    """Ends all children of this process, and theirs, if it has adopted any."""
    while inherited is not None and (own := strike_orphans()):
        for child in own:
            os.waitpid(child, 0)
