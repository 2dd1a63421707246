"""The functions that a stack lacks: one that ends by a call of another leaves no frame, if the
compiler makes that a jump. The debug information tells of each call which function it is of."""

import re
import shutil
from collections import namedtuple

from lib.by_line.binutils import output_of

# an entry as llvm-dwarfdump writes it, and what is used of it
ENTRY = re.compile(r"^0x(\w+):( +)DW_TAG_(\w+)\n((?:[ \t]+\S.*\n)*)", re.M)
NUMBER = r"DW_AT_(?:GNU_)?(?:{})\t\(0x(\w+)"
NAME = re.compile(r"DW_AT_(?:(?:linkage_)?name\t\(|(?:specification|abstract_origin)\t\(0x\w+ )"
                  r"\"(.*)\"\)")
SYMBOL = re.compile(r"([0-9a-f]+) [tTwWi] (\S+)")
ROUNDS = 8  # functions that end by calls of one another, at most
# a call: where it returns to, the entry of the function that it is of, and whether that returns for
# the one that calls
Call = namedtuple("Call", "back origin is_tail")
# the code of a function: where it begins, the entries that stand for it, its names, and its calls
Body = namedtuple("Body", "start entries names calls")


def number(kind, text):
    found = re.search(NUMBER.format(kind), text)
    return int(found[1], 16) if found else None


class Calls:
    """The calls of a program, of which so much is read as is asked for."""

    def __init__(self, path):
        self.path, self.bodies, self.asked = path, {}, set()
        is_read = shutil.which("llvm-dwarfdump")
        symbols = output_of("nm", path, "--defined-only", "--") if is_read else ""
        self.names = {int(at, 16): name.partition(".")[0] for at, name in SYMBOL.findall(symbols)}

    def read(self, names):
        """Reads all bodies of functions with these names."""
        fresh = {name for name in names if name} - self.asked
        self.asked |= fresh
        if fresh:
            self.take(output_of("llvm-dwarfdump", self.path, "-c",
                                *(f"--name={name}" for name in sorted(fresh))))

    def take(self, text):
        body = None
        for at, indent, kind, rest in ENTRY.findall(text):
            if len(indent) == 1:
                start = number("low_pc", rest) if kind == "subprogram" else None
                entries = {int(at, 16), number("abstract_origin|specification", rest)}
                names = set(NAME.findall(rest))
                body = start and self.bodies.setdefault(start, Body(start, entries, names, []))
            elif body and kind in ("call_site", "GNU_call_site"):
                call = Call(number("call_return_pc|call_pc|low_pc", rest),
                            number("call_origin|abstract_origin", rest), "tail_call" in rest)
                body.calls.extend([call] * (None not in call))

    def bodies_of(self, entry):
        """Those of the function for which an entry stands, which is read if it was not."""
        found = [body for body in self.bodies.values() if entry in body.entries]
        if not found and entry not in self.asked:
            self.asked.add(entry)
            text = output_of("llvm-dwarfdump", self.path, f"--debug-info=0x{entry:x}")
            self.read(NAME.findall(text))
            found = [body for body in self.bodies.values() if entry in body.entries]
        return found

    def missing(self, caller, back, inner):
        """Where the functions go on that a call which returns to a place led through, the innermost
        first: it stands in the function that begins at `caller`, and the one that begins at `inner`
        has the next frame."""
        body, found = self.bodies.get(caller), []
        calls = [call for call in body.calls if call.back == back] if body else []
        for _ in range(ROUNDS):
            called = self.bodies_of(calls[0].origin) if len(calls) == 1 else []
            is_there = inner in {each.start for each in called} or (
                inner is not None and self.names.get(inner) in {
                    name for each in called for name in each.names})
            if len(called) != 1 or is_there:
                break
            calls = [call for call in called[0].calls if call.is_tail]
            found.insert(0, calls[0].back if len(calls) == 1 else called[0].start + 1)
        return found


def completed(files, stacks):
    """The stacks, each a list of places where functions go on, with those that are missing which
    these programs have."""
    starts, known = {}, {}
    for file in files:
        own = {back for stack in stacks for back in stack if file.has(back - 1)}
        symbols = {back: file.symbol_at(back - 1) for back in own - starts.keys()}
        starts.update((back, (file, symbol.place.start - file.base))
                      for back, symbol in symbols.items() if symbol)
    for file in {file for file, _ in starts.values()}:
        known[file] = Calls(file.paths[0])
        known[file].read({known[file].names.get(start) for other, start in starts.values()
                          if other is file})
    return [[place for at, back in enumerate(stack)
             for place in (*between(known, starts, stack, at), back)] for stack in stacks]


def between(known, starts, stack, at):
    """What is missing in a stack before its frame at a place."""
    if stack[at] not in starts:
        return ()
    file, caller = starts[stack[at]]
    inner_file, inner = starts.get(stack[at - 1], (None, None)) if at else (None, None)
    inner = inner if inner_file is file else None
    found = known[file].missing(caller, stack[at] - file.base, inner)
    return [place + file.base for place in found]
