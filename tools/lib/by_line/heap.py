"""What `trace --heap` wrote of a program's heap: which site has what at each moment. A site is a
place of the program that allocates, or memory of a kind."""

import array
import fnmatch
import re

from lib import regular, tool
from lib.by_line import elf, tail_calls

# trace-heap-run.h explains them
LINE = re.compile(
    rb"([0-9a-f]{1,16}) (?:end|([-+<>mstu]) ([0-9a-f]{1,12})((?: [0-9a-f]{1,16})*))\n")
LONGEST_LINE = 1024  # an address has up to 17 letters, and there are 32 frames
# by the letter of their lines; a block that is freed is the allocator's, as that of 'm'
KINDS = {b"u": "(other)", b"m": "(malloc)", b"s": "(thread stacks)", b"t": "(thread-local)"}
OTHER, MALLOC, TOP = 0, 1, 1 << 48
# libraries, sources and functions that are no places of the program's own: those of the system, of
# compilers, and of what package managers fetch (Cargo, Conan, vcpkg)
SYSTEM = re.compile("(/usr)?/lib")
FOREIGN = re.compile(r"/(usr/(include|lib|src)|rustc|rust/deps)/|library/|"
                     r".*/(include/c\+\+|rustlib|\.cargo|\.conan2?|vcpkg|vcpkg_installed)/")
WRAPPER = re.compile(r"\w*(malloc|calloc|realloc|zalloc|memalign|strdup|memdup)\w*($|\()|"
                     r"operator new|__(rust|rdl)_|<?(\w+ )?(std|__gnu_cxx|alloc|core|hashbrown)::")


class Heap:
    """The file: its events as by-line.c has them, and the callers of each site."""

    def __init__(self, path):
        self.events, self.callers, self.blocks, end = array.array("Q"), {}, {}, None
        self.moving = set()  # those that realloc copies from
        self.kinds = {kind: number for number, kind in enumerate(KINDS)}
        with tool.faults_of(path), regular.opened(path) as file:
            for number, line in enumerate(iter(lambda: file.readline(LONGEST_LINE), b""), 1):
                found = LINE.fullmatch(line)
                if end is not None or not found:
                    tool.fail(f"{path}: line {number} is none of `trace --heap`")
                at, kind, address, rest = found.groups()
                if kind is None:
                    end = int(at, 16)
                else:
                    self.take(int(at, 16), kind, int(address, 16), *rest.split(None, 1))
        if end is None:
            tool.fail(f"{path} has no end: `trace --heap` has not, or not yet, written all of it")
        self.events.extend((end, 0, 0, 0))

    def take(self, at, kind, start, size=b"0", callers=b""):
        end = min(start + int(size, 16), TOP)
        # what is allocated where realloc copies from shows that it has freed that
        for old in [old for old in self.moving if start < self.blocks[old] and old < end]:
            self.free(at, old)
        if kind == b"<" and start in self.blocks:
            self.moving.add(start)
        elif kind in b"+-" or kind == b">" and start in self.moving:
            self.free(at, start)
        if kind == b"+":
            self.blocks[start] = end
            site = len(KINDS) + self.callers.setdefault(callers, len(self.callers))
            self.events.extend((at, start, end, site))
        elif kind in self.kinds:
            self.events.extend((at, start, end, self.kinds[kind]))

    def free(self, at, start):
        self.moving.discard(start)
        if start in self.blocks:
            self.events.extend((at, start, self.blocks.pop(start), MALLOC))

    def sites(self, layout, asked):
        """The code of each site, and then of those that called it."""
        own = layout.files[0].path if layout.files else None
        of_program = [file for file in layout.files if is_of_program(file.path, own)]
        stacks = [[int(word, 16) for word in words.split()] for words in self.callers]
        # where a caller goes on may be in the next line
        stacks = [[back - 1 for back in stack]
                  for stack in tail_calls.completed(of_program, stacks)]
        codes = functions(layout, {address for stack in stacks for address in stack})
        # what has no line and is no function
        return [*([elf.Code(elf.Function(name, is_one=False), [elf.Line()])]
                  for name in KINDS.values()),
                *(site([code for at in stack for code in codes.get(at, ())], own, asked)
                  for stack in stacks)]


def functions(layout, addresses):
    """Of each address the functions that have it, also those that are inlined there, the innermost
    first, each with its line."""
    found = {}
    for file in layout.files:
        own = {address for address in addresses if file.has(address)} - found.keys()
        outer, lines = (file.code(own), file.lines_of(own)) if own else ({}, {})
        for address, code in outer.items():
            inlined = [elf.Code(elf.Function(name, file.path, line.file), [line])
                       for name, line in reversed(lines[address][1:])]
            found[address] = [*inlined, code._replace(lines=code.lines[:1])]
    return found


def is_of_program(path, own):
    """Whether a file is the program itself, or a library that is none of the system."""
    return path == own or not SYSTEM.match(path)


def is_skipped(name, asked):
    return any(fnmatch.fnmatchcase(name, pattern) for pattern in asked.skipped)


def site(codes, own, asked):
    """Of the functions that led to a block, the innermost one in the program's sources, and if none
    is there, in the program; and then as many of its callers there as are asked for."""
    of_program = [code for code in codes if is_of_program(code.function.program, own)]
    callers = [code for code in of_program if not WRAPPER.match(code.function.name)
               and not is_skipped(code.function.name.partition("(")[0], asked)]
    with_lines = [code for code in callers
                  if code.lines[0].file and not FOREIGN.match(code.lines[0].file)
                  and not is_skipped(code.lines[0].file, asked)]
    found = with_lines or callers or of_program or codes or [elf.NOWHERE]
    # one that calls itself is there once
    different = [code for at, code in enumerate(found) if at == 0 or code != found[at - 1]]
    return different[:1 + asked.callers]
