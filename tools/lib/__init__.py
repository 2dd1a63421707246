"""What the tools share, and the parts of those that have several. Each tool reads something of it
first, in words that older Pythons know: these end with one line, and so does a fault that no tool
has foreseen, such as too little memory.

All tools begin with '#!/usr/bin/python3 -BES'. With -E no variable such as PYTHONUNBUFFERED or
PYTHONPATH decides what a tool does. With -S Python does not look for Debian's packages, which only
plot needs. With -B it writes no file beside a tool; only 'make tools' does."""

import _signal  # which is in Python itself: an interrupt while 'signal' is read needs no traceback

if _signal.getsignal(_signal.SIGINT) == _signal.default_int_handler:
    _signal.signal(_signal.SIGINT, _signal.SIG_DFL)

import os  # noqa: E402
import stat  # noqa: E402
import sys  # noqa: E402

NAME = os.path.basename(sys.argv[0])
# what ends a tool without a word that its reader waits for ends its trace in no line of one
WRITES_A_TRACE = NAME.replace("cachesim-", "") in ("lab-trace", "second-level", "to-din", "trace")
# the status of a fault: of those that end with the status of a program 125
OWN_FAULT = 125 if NAME.endswith(("trace", "profile")) else 1
# the signals that end a process, except for faults of its own, those that Python ignores, and what
# no process can heed
STOPS = set(range(1, _signal.NSIG)) - {
    getattr(_signal, "SIG" + name) for name in
    "KILL STOP TSTP TTIN TTOU CONT CHLD URG WINCH PIPE XFSZ SEGV BUS FPE ILL ABRT TRAP SYS".split()}
STOPS &= set(_signal.valid_signals())  # the threads of the C library have two for themselves


def is_output_read():
    """Whether standard output goes to a file that the tool may read: to standard input, or to one
    that an argument names. That gets no line about a fault."""
    for file in [0] + sys.argv[1:]:
        try:
            found = os.fstat(1)
            if stat.S_ISREG(found.st_mode) and os.path.samestat(os.stat(file), found):
                return True
        except OSError:  # there is no such file
            pass
    return False


def end_early(text, status):
    """Ends the tool with a line, where it can't even begin."""
    line = "%s: %s\n" % (NAME, text)
    is_told = WRITES_A_TRACE and not os.isatty(1) and not is_output_read()
    streams = [sys.stderr] + [sys.stdout] * is_told
    for stream in streams:
        try:
            stream.write(line)
            stream.flush()
        except (AttributeError, OSError):  # it is closed, or full
            pass
    os._exit(status)


def last_fault(kind, fault, trace):
    """What ends a tool instead of a traceback where the system refuses something."""
    if issubclass(kind, MemoryError):
        text = "out of memory"
    elif issubclass(kind, (OSError, ImportError)):
        text = getattr(fault, "strerror", None) or str(fault)
    else:
        sys.__excepthook__(kind, fault, trace)
        return
    end_early(text, OWN_FAULT)


def stop_early(number, _):
    """Ends a trace in a line that no simulator takes, also where the tool has only begun."""
    _signal.signal(number, _signal.SIG_DFL)
    is_output = not any(word.startswith(("-o", "--output")) for word in sys.argv)
    if is_output and not os.isatty(1) and not is_output_read():
        os.write(1, ("%s failed: what stands above is not all\n" % NAME).encode())
    os.kill(os.getpid(), number)


if sys.version_info < (3, 9):
    end_early("Python 3.9 or later is needed, and /usr/bin/python3 is %d.%d"
              % sys.version_info[:2], OWN_FAULT)
sys.excepthook = last_fault
if "LC_CTYPE" in os.environ:
    # in the locale C Python sets it for itself, but what it starts must have the user's own
    with open("/proc/self/environ", "rb") as given:
        if not any(word.startswith(b"LC_CTYPE=") for word in given.read().split(b"\0")):
            del os.environ["LC_CTYPE"]
# a signal while Python reads what else the tool needs ends its trace too
for each in STOPS if WRITES_A_TRACE else ():
    if _signal.getsignal(each) != _signal.SIG_IGN:
        _signal.signal(each, stop_early)
