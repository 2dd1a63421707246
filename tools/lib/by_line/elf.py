"""The programs and libraries of a traced process: what was loaded where, and the names and lines
in it, as binutils and llvm-addr2line tell them."""

import bisect
import collections
import functools
import io
import os
import re
from collections import namedtuple

from lib import regular, tool
from lib.by_line.binutils import (debug_file, line_finder, links_of, mended, output_of,
                                  sources_of)

PAGE = 4096
LARGEST_MAP = 64 << 20  # a process of Linux has up to 65,530 mappings, each with a path
ANY_TEXT = {"encoding": "utf-8", "errors": "surrogateescape"}
MAPPING = re.compile(r"([0-9a-f]+)-([0-9a-f]+) \S+ ([0-9a-f]+) \S+ \d+\s*(.*)")
SEGMENT = re.compile(r"\s*LOAD\s+0x(\w+) 0x(\w+) 0x\w+ 0x\w+ 0x(\w+)")
SYMBOL = re.compile(r"([0-9a-f]+) ([0-9a-f]+) (\w) (.+)")
SOURCE = re.compile(r"0+ a (.*)")
THREAD_LOCAL = re.compile(r" *\d+: ([0-9a-f]+) +(\w+) TLS ")
# what compilers add to the name of a function of which they make parts or special versions
PART = re.compile(r"( ?\(?\.(cold|constprop|isra|llvm|lto_priv|part)[.\d]*\)?| \[clone [^]]*\])+$")
# what an optimization at link time adds to the name of a variable
LINK_TIME = re.compile(r"\.lto_priv\.\d+$| \[clone \.lto_priv\.\d+\]$")
# the unit of a crate's code that rustc has for a source file
UNIT = re.compile(r"\.\w+-cgu\.\d+$")
# where Valgrind and Linux put the stack on x86-64, for a trace without a map
STACKS = [(0x1FFE000000, 0x2000000000), (0x7FF000000000, 0x800000000000)]


# addresses from `start` to before `end`, and what is there
Range = namedtuple("Range", "start end name")
# what has a name in a program; the letter of nm for its kind; and the source file of what only this
# file knows, else nothing
Symbol = namedtuple("Symbol", "place kind source")
# A function. Its file is None where there are no lines; then `source` is the name of the file, if
# the symbols of the program have it. Code without a function has a name in brackets; outside of all
# programs, the program is None.
Function = namedtuple("Function", "name program file source is_one",
                      defaults=(None, None, "", True))
# a line of a source file, which is None where it isn't known
Line = namedtuple("Line", "file number", defaults=(None, 0))
# the function that has an instruction; the line in it, and then those of functions that are inlined
# there
Code = namedtuple("Code", "function lines")
NOWHERE = Code(Function("?"), [Line()])


@functools.cache
def segments_of(path):
    """Of each loaded segment of an ELF file its offset, its address and its size in memory."""
    found = map(SEGMENT.match, output_of("readelf", path, "-lW", "--").splitlines())
    return [tuple(int(number, 16) for number in each.groups()) for each in found if each]


class Loaded:
    """An ELF file that was loaded at its own addresses and `base`."""

    def __init__(self, path, base):
        self.path, self.base = path, base
        self.name = " ".join(os.path.basename(path).splitlines())
        self.regions = [Range(at + base, at + size + base, f"({self.name})")
                        for _, at, size in segments_of(path)]

    def has(self, address):
        return any(region.start <= address < region.end for region in self.regions)

    @functools.cached_property
    def paths(self):
        """The files that have its names: its own, and that of its debug information."""
        apart = debug_file(self.path)
        return [apart, self.path] if apart else [self.path]

    @functools.cached_property
    def thread_local(self):
        """Where nm has threads' variables, which are elsewhere: the address and size it tells."""
        lines = [line for path in self.paths
                 for line in output_of("readelf", path, "-sW", "--").splitlines()]
        rows = map(THREAD_LOCAL.match, lines)
        return {(int(one[1], 16) + self.base, int(one[2], 0)) for one in rows if one}

    def read_symbols(self, path, which):
        """What nm tells of all that has a name and a size."""
        source = ""
        for line in output_of("nm", path, which, "--defined-only", "--").splitlines():
            if (symbol := SYMBOL.match(line)) and int(symbol[2], 16):
                start, size = int(symbol[1], 16) + self.base, int(symbol[2], 16)
                place = Range(start, start + size, symbol[4].partition("@")[0])
                yield Symbol(place, symbol[3], source if symbol[3].islower() else "")
            elif begins := SOURCE.match(line):
                source = UNIT.sub("", begins[1])

    @functools.cached_property
    def symbols(self):
        """All that has a name and a size, by address; where it has several names, those of other
        files come last."""
        named = [(path, "-apSC") for path in self.paths] + [(self.path, "-DSC")]
        found = {}
        for symbol in (symbol for words in named for symbol in self.read_symbols(*words)):
            found.setdefault((symbol.place, symbol.kind), symbol)
        ordered = sorted(found.values(), key=lambda one: (
            one.place.start, one.place.end, one.kind.isupper(), one.place.name))
        names = mended([symbol.place.name for symbol in ordered], self.path)
        return [symbol._replace(place=symbol.place._replace(name=name))
                for symbol, name in zip(ordered, names)]

    def objects(self):
        """The global and static variables, and the source file of each static one."""
        found = [(place, source) for place, kind, source in self.symbols if kind in "bBdDrRuVvgGsS"
                 and (place.start, place.end - place.start) not in self.thread_local]
        changed = {place.start - self.base: LINK_TIME.sub("", place.name)
                   for place, _ in found if LINK_TIME.search(place.name)}
        sources = sources_of(self.paths[0], {name.rpartition("::")[2] for name in changed.values()})
        for place, source in found:
            at = place.start - self.base
            if at in changed and at in sources:
                place, source = place._replace(name=changed[at]), sources[at]
            yield place, source

    @functools.cached_property
    def functions(self):
        return [symbol._replace(place=symbol.place._replace(name=PART.sub("", symbol.place.name)))
                for symbol in self.symbols if symbol.kind in "tTwWi"]

    @functools.cached_property
    def places(self):
        return [symbol.place for symbol in self.functions]

    def symbol_at(self, address):
        """The symbol of the function that has an address, or None."""
        at = bisect.bisect(self.places, (address, float("inf"))) - 1
        return self.functions[at] if at >= 0 and address < self.places[at].end else None

    def lines_of(self, addresses):
        """Of each address its lines, the outermost first, each with the name of its function."""
        links_of(self.paths[0])  # ends the tool where the command would wait for one
        asked = "".join(f"{address - self.base:x}\n" for address in sorted(addresses))
        output = output_of(line_finder(), self.paths[0], "-a", "-i", "-f", "-C", "-e", text=asked)
        lines = output.splitlines()
        found, current = {}, None
        for at, line in enumerate(lines):
            if line.startswith("0x"):
                current, begins = found.setdefault(int(line, 16) + self.base, []), at + 1
            elif current is not None and (at - begins) % 2:
                current.insert(0, (lines[at - 1], self.line_of(line)))
        return {address: found.get(address) or [("??", Line())] for address in addresses}

    def code(self, addresses):
        """Of each address its function and lines."""
        symbols = {address: self.symbol_at(address) for address in addresses}
        starts = {symbol.place.start for symbol in symbols.values() if symbol}
        lines = self.lines_of({*addresses, *starts})
        found = {}
        for address, symbol in symbols.items():
            # where something is inlined, the command has another name for the function
            name, line = lines[symbol.place.start if symbol else address][0]
            if symbol:
                source = "" if line.file else symbol.source
                function = Function(symbol.place.name, self.path, line.file, source)
            elif name != "??" and line.file:
                function = Function(name, self.path, line.file)
            else:
                function = Function(f"({self.name})", self.path, is_one=False)
            found[address] = Code(function, [line for _, line in lines[address]])
        return found

    @staticmethod
    def line_of(place):
        file, _, line = re.sub(r" \(discriminator.*", "", place).rpartition(":")
        if line.isdigit() and int(line) > 0 and file != "??":
            return Line(os.path.normpath(file), int(line))
        return Line()


class Layout:
    """What was loaded where: from a map, or of one program."""

    def __init__(self, program=None, base=0, map_file=None):
        self.stacks = [Range(start, end, "(stack)") for start, end in ([] if map_file else STACKS)]
        # a path, and no option, where its name begins with a dash
        self.files = [Loaded(os.path.join(".", program), base)] if program else []
        self.others = []  # mapped files that are not ELF, or can't be read
        self.unread = set()  # the paths of the latter
        if program and not self.files[0].regions:
            tool.fail(f"{program}: no ELF program that can be read")
        if map_file:
            self.read_map(map_file)

    def read_map(self, map_file):
        with tool.faults_of(map_file):
            text = io.BytesIO(regular.read(map_file, LARGEST_MAP))
        found = [MAPPING.fullmatch(line.rstrip("\n"))
                 for line in io.TextIOWrapper(text, **ANY_TEXT)]
        if not found:  # as `trace` leaves it while the program runs
            tool.fail(f"{map_file}: an empty map; it is whole when the run that writes it has"
                      " ended")
        for number, mapping in enumerate(found, 1):
            if not mapping:
                tool.fail(f"{map_file}: line {number} is none of a map")
            self.take_mapping(*(int(text, 16) for text in mapping.groups()[:3]), mapping[4])

    def paths(self):
        """All files that have names or lines."""
        return {path for file in self.files for path in file.paths}

    def newer_than(self, map_file):
        """The paths of the programs and libraries that were written after a map."""
        since = os.stat(map_file).st_mtime_ns
        return [file.path for file in self.files if os.stat(file.path).st_mtime_ns > since]

    def take_mapping(self, start, end, offset, path):
        if path.startswith("[stack"):
            self.stacks.append(Range(start, end, "(stack)"))
        if not path.startswith("/") or any(file.path == path for file in self.files):
            return
        for at, address, _ in segments_of(path):
            if at // PAGE == offset // PAGE:
                self.files.append(Loaded(path, start - address // PAGE * PAGE))
                return
        if not segments_of(path):
            self.others.append(Range(start, end, f"({os.path.basename(path)})"))
            if not os.access(path, os.R_OK):
                self.unread.add(path)

    def variables(self):
        """The variables by address. Where several have a name, static ones have that of their
        source file behind it, and their address where it is the same too."""
        found = [one for file in self.files for one in file.objects()]
        for tell_apart in (lambda one, source: f"{one.name} ({source})",
                           lambda one, _: f"{one.name[:-1]} at {one.start:x})"):
            places = {(one.name, one.start) for one, _ in found}
            names = collections.Counter(name for name, _ in places)
            found = [(one._replace(name=tell_apart(one, source))
                      if source and names[one.name] > 1 else one, source) for one, source in found]
        return sorted(one for one, _ in found)

    def objects(self):
        """What is where, by rising addresses and without overlaps: a variable before its file."""
        loaded = (region for file in self.files for region in file.regions)
        regions = sorted([*loaded, *self.stacks, *self.others])
        variables = self.variables()
        at, answer = 0, []
        for region in regions:
            at = max(at, region.start)
            for variable in variables[bisect.bisect(variables, (at,)):]:
                if variable.start >= region.end:
                    break
                if variable.start < at:  # another name of the same, or a part of it
                    continue
                answer += [Range(at, variable.start, region.name), variable]
                at = variable.end
            answer.append(Range(at, region.end, region.name))
            at = max(at, region.end)
        return [one for one in answer if one.start < one.end]

    def code(self, addresses):
        """Of each address its function and lines."""
        found = {}
        for file in self.files:
            own = [address for address in addresses if address not in found and file.has(address)]
            if own:
                found.update(file.code(own))
        return {address: found.get(address, NOWHERE) for address in addresses}
