"""What the tools share: their name, faults and arguments, sizes, files, the program, and how they
write. A tool in a folder below tools/ finds it so:

    sys.path.insert(1, os.path.realpath(f"{os.path.realpath(__file__)}/../.."))
    from lib import tool  # noqa: E402
"""

import contextlib
import os
import re
import shutil
import signal
import sys
from argparse import ArgumentTypeError

from lib import signals

HERE = os.path.dirname(os.path.dirname(os.path.realpath(__file__)))  # the tools
NAME = os.path.basename(sys.argv[0])
# exit statuses beside 0; a tool with another for faults and wrong arguments sets `failure` to it
FAILED, MISUSED, READER_GONE = 1, 2, 141
failure = None
UNITS = {"": 0, "k": 10, "m": 20, "g": 30}
MOST = (1 << 64) - 1
UNSEEN = re.compile("[\0-\x1f\x7f-\x9f\ud800-\udfff]")  # control letters, lone surrogates


class Spared(SystemExit):
    """The end of a tool that leaves its output as it is: it is read too, or has no more room."""


def visible(text):
    """What a message or a table shows of a name, or of another program's words: as escapes such as
    \\x1b what would steer a terminal or end a line, and bytes of no UTF-8."""
    return UNSEEN.sub(lambda found: repr(found[0])[1:-1], text)


def tell(text):
    """Writes lines to standard error, which may be closed."""
    with contextlib.suppress(OSError, AttributeError):
        print(*map(visible, text.split("\n")), sep="\n", file=sys.stderr, flush=True)


def end(text, status, kind=SystemExit):
    """Ends the tool with a message, perhaps of several lines."""
    tell(text)
    raise kind(status)


def fail(text, status=FAILED, kind=SystemExit):
    """Ends the tool with one line on standard error, also where a name has several."""
    end(f"{NAME}: {visible(text)}", failure or status, kind)


def warn(text):
    """A line on standard error."""
    tell(f"{NAME}: {visible(text)}")


def misused(text, kind=SystemExit):
    """The same for wrong arguments."""
    fail(f"{text}; '{NAME} --help' explains the arguments", MISUSED, kind)


def run(main):
    """Runs a tool. If a signal ends it, it is seen to have ended by it."""
    try:
        main()
    except (signals.Stopped, RuntimeError) as fault:
        # as a class is made, Python before 3.12 tells of it by another fault
        stopped = fault if isinstance(fault, signals.Stopped) else fault.__cause__
        if not isinstance(stopped, signals.Stopped):
            raise
        signals.heed_stops()  # it may have come as they were put off
        signal.signal(stopped.code - 128, signal.SIG_DFL)
        os.kill(os.getpid(), stopped.code - 128)
        sys.exit(stopped.code)


@contextlib.contextmanager
def faults_of(name):
    """Within this, what the system refuses ends the tool with a line that begins with this name."""
    try:
        yield
    except OSError as fault:
        fail(f"{name}: {fault.strerror}")


def needs(command, package):
    """Ends the tool where a command is missing, naming Debian's package."""
    if not shutil.which(command):
        fail(f"{command} is missing: apt-get install {package}")


def number_of(text):
    """The number that some digits say, or None where others stand among them, or where it has more
    than 64 bits, as no address, size or count has. Python itself refuses to read long ones."""
    if not (text.isascii() and text.isdigit()):
        return None
    number = int(text.lstrip("0")[:21] or "0")  # which is too large as well with 21 digits
    return number if number <= MOST else None


def bytes_of(text):
    """The number of bytes that a scaled number as 512, 32k or 1m says, or None."""
    digits = text[:-1] if text[-1:].lower() in ("k", "m", "g") else text
    number = number_of(digits)
    return None if number is None else number << UNITS[text[len(digits):].lower()]


def size_of(text):
    """The same for an argument's parser."""
    size = bytes_of(text)
    if size is None:
        raise ArgumentTypeError(no_size(text))
    return size


def no_size(text):
    return f"{text!r} is no size such as 512, 32k or 1m"


def matching(pattern, what, made=str):
    """What reads an argument that matches a pattern, for the parser, and makes something of it."""
    def number(text):
        if not re.fullmatch(pattern, text):
            raise ArgumentTypeError(f"{text!r} is no {what}")
        return made(text)
    return number


def size_text(size):
    """A number of bytes in short, as 32k."""
    for unit in ("g", "m", "k"):
        if size and size % (1 << UNITS[unit]) == 0:
            return f"{size >> UNITS[unit]}{unit}"
    return str(size)


def find_cachesim():
    """The path of the program: $CACHESIM's, else this checkout's, the tools' own, or the path's."""
    named = os.environ.get("CACHESIM")
    near = [os.path.join(HERE, folder) for folder in ("../crates/cachesim/out", "../../bin")]
    paths = [os.path.join(folder, "cachesim") for folder in
             [*near, *os.environ.get("PATH", "").split(":")]]
    for path in [named] if named else paths:
        if os.path.isfile(path) and os.access(path, os.X_OK):
            path = os.path.join(".", path)
            fault = f"{path} is not cachesim: it doesn't write a sweep's table"
            return path if is_cachesim(path) else fail(fault)
    if named:
        fail(f"{named} is no program that can be run")
    fail("no program cachesim: build it by 'make', or set CACHESIM to its path")


def is_cachesim(path):
    """Whether a program writes an empty trace's table, with any counts. Others may end well too."""
    from lib import processes
    words = [path, *"sweep --bsize 1 --sets 1 --assoc 1 --size 1 -t /dev/null".split()]
    _, table, _ = processes.ran(words)
    return re.fullmatch(rb"bsize,sets,assoc,size,.*\n1,1,1,1,.*\n", table) is not None


def write_all(descriptor, data):
    """Writes some bytes, of which one write may take a part."""
    left = memoryview(data)
    while left:
        left = left[os.write(descriptor, left):]


def keep_places():
    """Opens what fails as well for closed standard descriptors, lest a file take their place."""
    for number in range(3):
        try:
            os.fstat(number)
        except OSError:
            os.open("/dev/null", os.O_RDONLY if number else os.O_WRONLY)


def write_out(texts, place=""):
    """Writes texts of bytes to standard output. Where that fails, the tool ends, without a word if
    a reader has gone away."""
    try:
        for text in texts:
            write_all(1, text)
    except BrokenPipeError:
        sys.exit(READER_GONE)
    except OSError:
        fail(f"{place}write failed")


def write_lines(lines):
    """Writes lines to standard output. A fault ends the tool; without a word if a reader left. By
    sys.stdout, text that is held would fail again as Python ends, and without a buffer Python does
    not tell that it wrote only a part."""
    if sys.stdout is None:
        fail("standard output: Bad file descriptor")
    text = "".join(f"{line}\n" for line in lines)
    try:
        # as a name's bytes are
        write_all(1, text.encode(sys.stdout.encoding, "surrogateescape"))
    except BrokenPipeError:
        sys.exit(READER_GONE)
    except OSError as fault:
        fail(f"standard output: {fault.strerror}")
