"""The steps of a trace, as `cachesim log` tells them, and compared with what `replay` draws."""

import itertools
import os
import re
import shutil
import tempfile

from lib import files, processes
from parts import tool
from parts.picture import ACCESSES, Picture

MOST_STEPS = 1000
# what lines of a trace are by their first word, as steps
ENTRIES = {
    "d": {"0": ["read"], "1": ["write"], "2": ["fetch"], "4": ["flush"]},
    "l": {"L": ["L"], "S": ["S"], "M": ["M load", "M store"], "I": ["I"]},
}
FORMATS = {"d": "din format, as '0 10'", "l": "lackey format, as ' L 10,4'"}
# the label that the log has for such a step
LABELS = {"read": "0", "L": "0", "M load": "0", "write": "1", "S": "1", "M store": "1",
          "fetch": "2", "I": "2"}


def entries(path, format):
    """What each line of a trace is: its number and its steps, as the trace names them."""
    with open(path, encoding="ascii", errors="replace") as lines:
        for number, line in enumerate(lines, 1):
            for access in ENTRIES[format].get((line.split() or [""])[0], []):
                yield number, access


def follow(picture, lines, entries, is_cut):
    """Takes the lines of the log into the picture, all or those of one set, and compares each with
    what is drawn. Of many, the last are kept if the trace is cut."""
    is_shown = True
    for line in map(str.rstrip, lines):
        place, label, address = line.split()[:3]
        label = None if label == "flush" else label
        if place != "memory":
            number, access = next(entries, (0, "no such line"))
            if LABELS.get(access) != label:
                tool.fail(f"line {number} of the trace: the log says '{line}', but it is {access}")
        if place == picture.cache.place and picture.only is not None:
            is_shown = not label or picture.cache.set_of(int(address, 16)) == picture.only
        if not is_shown:  # what a reference sends to memory comes after it
            continue
        if place == "memory" and picture.steps:
            picture.steps[-1].sent.append(f"{ACCESSES[int(label)]} {address}")
        if place != picture.cache.place:
            continue
        if len(picture.steps) == MOST_STEPS:
            if not is_cut:
                tool.fail(f"the trace has more than {MOST_STEPS:,} steps, which is the limit; show "
                          "a part, for example by --until 500, or one set by --set")
            picture.drop_first()
        drawn = (picture.access(number, access, int(label), int(address, 16)) if label
                 else picture.flush(number))
        if drawn != line and (label or picture.only is None):  # a flush counts those of all sets
            tool.fail(f"line {number} of the trace: the log says '{line}', but by this tool's sets "
                      f"it is '{drawn}'")


def from_decimal(line):
    """A line with its decimal address in hexadecimal; with no address, where that is not one."""
    label, *rest = line.split(None, 1)
    number, comma, size = rest[0].partition(b",") if rest else (b"", b"", b"")
    is_number = re.fullmatch(rb"[0-9]{1,20}\s*", number)
    return b"%b %b%b%b\n" % (label, b"%x" % int(number) if is_number else b"?", comma, size.strip())


def copied(trace, copy, until, is_decimal):
    """Copies a trace, or its first lines."""
    files.spare("-" if trace is None else trace)
    try:
        with open(0 if trace is None else trace, "rb", closefd=trace is not None) as lines:
            if until is None and not is_decimal:
                shutil.copyfileobj(lines, copy)
            else:
                kept = itertools.islice(lines, until)
                copy.writelines(from_decimal(line) if is_decimal and line.split() else line
                                for line in kept)
    except OSError as fault:
        is_there = trace is None or os.path.exists(trace)
        tool.fail(f"{trace}: {fault.strerror}" if is_there else f"cannot open {trace}")
    copy.flush()


def replayed(cache, format, given):
    """The picture of a trace by what the program says of it."""
    command = [tool.find_cachesim(), "log", *cache.options, "-informat", format]
    picture = Picture(cache, given.set)
    with processes.Group() as group, tool.faults_of("the trace can't be replayed"), \
            tempfile.TemporaryFile() as copy:
        copied(given.t, copy, given.until, given.decimal)
        place = f"/proc/self/fd/{copy.fileno()}"  # it has no name that could stay
        own, (read, write) = os.open(place, os.O_RDONLY), os.pipe()
        running = group.start(processes.Helper, command, own, write, ends=(own, write))
        with open(read, errors="replace") as log:
            follow(picture, log, entries(place, format), given.until is not None)
        running.wait()
    if running.code:
        fail = tool.misused if running.code == tool.MISUSED else tool.fail
        message = running.told.removeprefix("cachesim: ")
        if message.endswith("bad label"):
            message += f"; the trace is read in the {FORMATS[format]}"
        fail(message or f"cachesim ended with status {running.code}")
    if not picture.steps:
        of = f"the cache {cache.place}" if given.set is None else f"set {cache.text(given.set)}"
        tool.fail(f"the trace has no reference for {of}")
    return picture
