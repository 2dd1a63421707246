"""What a tool reads and what it writes. It changes no byte that it did not write itself: what it is
to write is no file that it reads, what ends a trace that was cut goes no further back than where
this run began, and a file of its own is replaced as a whole."""

import contextlib
import fcntl
import os
import select
import stat
from tempfile import TemporaryDirectory, mkstemp

from lib import is_output_read, tool
from lib.signals import uninterrupted

KINDS = {stat.S_IFLNK: "a link", stat.S_IFDIR: "a folder", stat.S_IFIFO: "a pipe",
         stat.S_IFSOCK: "a socket", stat.S_IFCHR: "a device", stat.S_IFBLK: "a device"}
TAIL = 256  # the bytes of its end that an output remembers
PIPE_BUF = select.PIPE_BUF  # a write to a pipe may be done in part if it has more


# ---- What is read, and what is written

def is_regular(file):
    """Whether a name or descriptor is of a file that keeps what is written."""
    try:
        return stat.S_ISREG(os.stat(file).st_mode)
    except OSError:
        return False


def identity(file):
    """What names and descriptors of one file have in common, whose contents could be lost; also
    names of one that is not there yet. None of a device, a pipe or a folder."""
    try:
        found = os.stat(file)
    except OSError:
        return os.path.realpath(file) if isinstance(file, str) else None
    return (found.st_dev, found.st_ino) if stat.S_ISREG(found.st_mode) else None


def readable(trace):
    """Ends the tool where a trace is neither '-' nor something that can be read, or is the file
    that standard output goes to."""
    if trace != "-" and (os.path.isdir(trace) or not os.access(trace, os.R_OK)):
        tool.fail(f"{trace}: no file that can be read")
    spare(trace)


def spare(file):
    """Ends the tool where the file that it is about to read, or '-', is the one that standard
    output goes to: it would be lost, or grow as it is read. What opens a trace or a table asks
    this."""
    own = identity(0 if file == "-" else file)
    if own and own == identity(1):
        name = "standard input" if file == "-" else file
        tool.fail(f"{name} is standard output too", kind=tool.Spared)


def apart(outputs, inputs=()):
    """Ends the tool where a file that it is to write is read too, or is another such file. Each has
    what it is called by its name or descriptor, which may be empty; '-' is read from standard
    input."""
    names = {identity(0 if file == "-" else file): name for name, file in inputs
             if file not in (None, "")}
    for name, file in outputs:
        if file not in (None, "") and (own := identity(file)):
            if own in names:
                tool.misused(f"{name} and {names[own]} are one file", tool.Spared)
            names[own] = name


# ---- Whole files

def judge_kind(place):
    """Ends the tool where the name of a file of its own is something else's."""
    try:
        kind = stat.S_IFMT(os.lstat(place).st_mode)
    except FileNotFoundError:
        return
    if kind != stat.S_IFREG:
        tool.fail(f"{place} is no file of its own: it is {KINDS.get(kind, 'something else')}")


def claim(places, inputs):
    """Ends the tool, before its work, where it couldn't keep files of its own in some places, or
    where one is read, or standard output goes there."""
    apart([("standard output", 1), *zip(places, places)], inputs)
    for place in places:
        judge_kind(place)


def keep(place, data, mode=0o644):
    """Writes a file of the tool's own as a whole, never through a link. Ends the tool where its
    name is something else's."""
    with tool.faults_of(place):
        judge_kind(place)
        replace(place, data, mode)


def replace(place, data, mode):
    """Writes a file beside a place and moves it there, so that a failure leaves what was there, and
    a link is not followed."""
    handle, fresh = mkstemp(prefix=f".{tool.NAME}.", dir=os.path.dirname(place))
    try:
        with open(handle, "wb") as file:
            file.write(data)
            os.fchmod(handle, mode)
        os.replace(fresh, place)
    except BaseException:
        with contextlib.suppress(FileNotFoundError):  # it has just been moved
            os.unlink(fresh)
        raise


def taken(name):
    """A descriptor of a file that is to be written, with what it has. A tool empties it when all is
    known that can be known without it."""
    try:
        return os.open(name, os.O_WRONLY | os.O_CREAT, 0o666)
    except OSError:
        tool.fail(f"{name} can't be written")


def emptied(descriptor):
    if is_regular(descriptor):
        os.ftruncate(descriptor, 0)
    return descriptor


@contextlib.contextmanager
def private_folder():
    """A folder of the tool's own, which is removed with all that is in it. For that it keeps some
    descriptors, since there may be no others."""
    kept = [os.open(os.devnull, os.O_RDONLY) for _ in range(3)]
    with TemporaryDirectory(prefix="cachesim-") as folder:
        try:
            yield folder
        finally:
            for each in kept:
                os.close(each)


# ---- Traces

class Output:
    """Where a trace goes that a tool writes itself, by the rules of lib/output.h: a write ends
    behind the label of a line, and the mark takes the place of this run's own lines alone."""

    LABEL = 3

    def __init__(self, descriptor=1):
        self.descriptor, self.text, self.at, self.tail = descriptor, b"", 0, b""
        self.begin, self.is_within, self.is_at_end = None, False, False
        if is_regular(descriptor):
            appends = fcntl.fcntl(descriptor, fcntl.F_GETFL) & os.O_APPEND
            size = os.fstat(descriptor).st_size
            self.begin = size if appends else self.place()
            self.is_at_end = not appends and self.begin == size

    def place(self):
        return os.lseek(self.descriptor, 0, os.SEEK_CUR)

    def write(self, lines):
        """Writes whole lines, except for the last ones."""
        self.text, self.at = self.text[self.at:] + lines, 0
        while len(self.text) - self.at > PIPE_BUF:
            feed = self.text.rfind(b"\n", self.at, self.at + PIPE_BUF - self.LABEL) + 1
            self.put(feed + self.LABEL if feed else self.at + PIPE_BUF)

    def put(self, end):
        """Writes up to a place in the text. What a signal ends knows how far that came."""
        while self.at < end:
            select.select((), (self.descriptor,), ())  # then a write has no need to wait
            with uninterrupted():
                count = self.write_piece(self.text[self.at:end])
                wrote = self.text[self.at:self.at + count]
                self.at, self.tail = self.at + count, (self.tail + wrote)[-TAIL:]
                self.is_within = not wrote.endswith(b"\n")

    def write_piece(self, piece):
        try:
            return self.write_at_end(piece) if self.is_at_end else os.write(self.descriptor, piece)
        except BrokenPipeError:
            tool.fail("the trace can't be written")
        except OSError:
            tool.fail(f"the trace can't be written{self.settle()}", kind=tool.Spared)

    def write_at_end(self, piece):
        """The last byte comes first: where a kill cuts the write, zeros lie between."""
        behind, wrote = self.place() + len(piece), 0
        with contextlib.suppress(OSError):
            os.pwrite(self.descriptor, piece[-1:], behind - 1)
        try:
            wrote = os.write(self.descriptor, piece)
        finally:
            if wrote < len(piece) and os.fstat(self.descriptor).st_size == behind:
                os.ftruncate(self.descriptor, self.place())
        return wrote

    def finish(self):
        self.put(len(self.text))

    def end(self, line):
        """Ends it in a line, behind the one that has been begun."""
        if self.is_within:
            self.put(self.text.index(b"\n", self.at) + 1)
        os.write(self.descriptor, line)

    def settle(self):
        """Ends a file that has no more room, and returns what a message says of it."""
        if self.begin is None:
            return ""
        if not self.tail:
            return "; none of it is kept"
        end, mark = self.place(), mark_line()
        start = end - len(self.tail)
        with contextlib.suppress(OSError), \
                open(f"/proc/self/fd/{self.descriptor}", "r+b", buffering=0) as file:
            is_own = os.pread(file.fileno(), len(self.tail), start) == self.tail
            at = self.tail.rfind(b"\n", 0, max(0, len(self.tail) - len(mark))) + 1
            if is_own and (at or start == self.begin) and len(self.tail) - at >= len(mark):
                line = mark[:-1].ljust(len(self.tail) - at - 1) + b"\n"
                os.pwrite(file.fileno(), line, start + at)
                return ""
            if is_own and start == self.begin and end == os.fstat(self.descriptor).st_size:
                os.ftruncate(self.descriptor, start)
                return "; none of it is kept"
        return "; its end can't be marked"


def mark_line():
    return f"{tool.NAME} failed: what stands above is not all\n".encode()


class WholeTrace:
    """Within this a trace goes to `output`; or to a file of this name, when that is taken. If the
    tool fails, the trace ends in a line that no simulator takes, so that nobody takes a part for
    the whole. A file that was not taken is left as it is, and who reads a pipe learns it."""

    name = None

    def __init__(self):
        self.output = Output()

    def take(self, descriptor):
        self.output, self.name = Output(descriptor), None

    def __enter__(self):
        return self

    def __exit__(self, _, fault, __):
        if fault is None or isinstance(fault, SystemExit) and not fault.code:
            return
        with contextlib.suppress(OSError):
            if isinstance(fault, tool.Spared):
                return
            if self.name is None and not os.isatty(self.output.descriptor):
                if self.output.descriptor != 1 or not is_output_read():
                    self.output.end(mark_line())
            elif self.name and stat.S_ISFIFO(os.stat(self.name).st_mode):
                with open(os.open(self.name, os.O_RDWR), "wb") as file:  # waits for no reader
                    file.write(mark_line())
