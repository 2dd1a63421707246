"""What the tools that read `cachesim log` share: their arguments, and what reads and counts it."""

import os
import re

from lib import files, processes, tool
from lib.arguments import Explained
from lib.compiled import compiled

ROOM = 1 << 20  # the bytes that the log may be ahead
CACHES = "l1-i", "l1-d", "l1-u", "l2-u"
# what the texts of several tools say, instead of these words
TEXTS = {"{caches}": """\
TRACE is a file, which may end in .gz, .xz or .zst, or - for standard input.
It is read once. The OPTIONs are those of
`cachesim din`, except -t: the caches, -informat and --seed.
--format is another name for -informat.""", "{cache}": """\
  --cache CACHE     counts what comes to l1-i, l1-d, l1-u or l2-u; without it, all that the first
                    level takes. --at is another name for it, as in by-line"""}


class Arguments(Explained):
    """Those of such a tool: the trace, options of its own, and those of `cachesim din`."""

    def __init__(self, text, *parts):
        for words, told in TEXTS.items():
            text = text.replace(words, told)
        super().__init__(text, *parts)
        self.add_trace()
        self.add_argument("--format", action="append", default=[])

    def add_cache(self):
        self.add_argument("--cache", "--at", choices=CACHES)

    def read(self):
        """What is asked for, with the `options` of cachesim. The cache that counts must be there:
        the first level has all those whose names begin with l1-."""
        asked, others = self.handed_on("a trace and the options of 'cachesim din' are needed")
        asked.options = [*(f"--informat={format}" for format in asked.format), *others]
        cache = getattr(asked, "cache", None)
        if cache and not any(re.match(f"--?{cache}", word) for word in others):
            tool.misused(f"no option is of {cache}")
        asked.cache = cache or "l1-"
        files.readable(asked.trace)
        return asked


class Logging(processes.Process):
    """The run of `cachesim log`, whose log goes to a pipe. It tells of its end alone where it is
    not the reader that has ended."""

    def __init__(self, program, options, stdin):
        self.pipe, write = os.pipe()
        processes.widen(write, ROOM)
        super().__init__([program, "log", *options], stdin=stdin, stdout=write)
        os.close(write)

    def message(self):
        lines = super().message().split("\n")
        return "\n".join(line for line in lines if not line.endswith(": write failed"))


class Counter(processes.Process):
    """What reads the log and counts. Its faults are the tool's own."""

    def fault(self, code):
        if code != 1 or not self.message():
            return super().fault(code)
        return processes.Fault(f"{tool.NAME}: {self.message().rpartition(': ')[2]}")


def over(trace, options, take):
    """What `take` returns, which is called with the log's descriptor. A fault ends the tool."""
    tool.keep_places()
    program = tool.find_cachesim()
    with processes.Group() as group:
        source, unpacker = group.start_source(trace)
        logging = group.start(Logging, program, options, source, ends=(source,))
        answer = take(logging.pipe)
        logging.wait()
        if unpacker:
            unpacker.wait()
    return answer


def pieces(source):
    """What is read from a descriptor, in pieces of whole lines."""
    held = b""
    while piece := os.read(source, 1 << 18):
        whole, feed, held = (held + piece).rpartition(b"\n")
        if feed:
            yield whole + feed
    if held:
        yield held


def counts(asked, what, each):
    """What the log of a trace has, as out/log-counts counts it: rows of words."""
    binary = compiled("log-counts")

    def take(source):
        with processes.Group() as group:
            words = ["log-counts", what, asked.cache, str(each)]
            counter = group.start(Counter, words, source, path=binary)
            counter.wait()
        return [row.split() for row in counter.text.decode("ascii").splitlines()]

    return over(asked.trace, asked.options, take)
