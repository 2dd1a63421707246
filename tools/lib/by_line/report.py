"""The tables of by-line, with the names of what was counted."""

from lib import regular, tool
from lib.by_line import binutils, elf
from lib.text_table import csv_lines

import collections
import functools
import os

COUNTS = ("references", "misses", "compulsory", "capacity", "conflict")
HEADERS = {"line": ["line", "inlined"], "site": ["site", "site-function"]}
SHARING = "first-byte", "last-byte", "reads", "writes", "true-sharing", "false-sharing"
MOST_INLINED = 8
LARGEST_SOURCE = 64 << 20
NO_FETCH = elf.Code(elf.Function("(no fetch before it)", is_one=False), [elf.Line()])
# what was counted for an instruction and an object, or for a site of the heap, which is the code
# that allocates, and then that of its callers
Cell = collections.namedtuple("Cell", "code object counts site", defaults=((),))


class Names:
    """How lines and functions are called: by the file's name, and as much of its path as tells it
    from others; of functions of one name each has that of its file behind it, or of its program."""

    def __init__(self, cells):
        codes = [code for cell in cells for code in (cell.code, *cell.site)]
        functions = {code.function for code in codes}
        paths = {line.file for code in codes for line in code.lines if line.file}
        paths |= {function.file for function in functions if function.file}
        self.names, parts = {}, 0
        while paths:
            parts += 1
            names = {path: "/".join(path.split("/")[-parts:]) for path in paths}
            often = collections.Counter(names.values())
            self.names.update((path, name) for path, name in names.items() if often[name] == 1)
            paths = {path for path in paths if path not in self.names}
        self.functions = {function: function.name for function in functions}
        for has_program in (False, True):
            often = collections.Counter(self.functions.values())
            self.functions.update((function, self.told_apart(function, has_program))
                                  for function, name in self.functions.items()
                                  if often[name] > 1 and function.is_one)

    def told_apart(self, function, has_program):
        file = self.names[function.file] if function.file else function.source
        program = os.path.basename(function.program)
        place = program if not file else f"{file} of {program}" if has_program else file
        return f"{function.name} ({place})"

    def line(self, line):
        return f"{self.names[line.file]}:{line.number}"

    def place(self, code):
        """The line of an instruction, those of what is inlined there, without the middle ones of
        many, and the function."""
        outer, *others = code.lines
        function = self.functions[code.function]
        line = f"({function})" if code.function.is_one else function
        line = self.line(outer) if outer.file else line
        inlined = [self.line(line) if line.file else "?" for line in others]
        half = MOST_INLINED // 2
        if len(inlined) > MOST_INLINED:
            inlined[half:-half] = [".."]
        return line, " ".join(inlined), function

    def columns(self, cell, by):
        """What tells a row from others, in its columns."""
        line, inlined, function = self.place(cell.code)
        texts = {"line": [line, inlined], "function": [function], "object": [cell.object]}
        if "site" in by:
            places = [self.place(code) for code in cell.site] or [(cell.object, "", "")]
            is_one = cell.site and cell.site[0].function.is_one
            texts["site"] = [" < ".join(line for line, _, _ in places),
                             " < ".join(name for _, _, name in places) if is_one else ""]
        return tuple(text for key in by for text in texts[key])


def header(by):
    return [text for key in by for text in HEADERS.get(key, [key])]


def read_counts(asked, text, objects, layout, heap):
    """The cells, and for each two their misses of blocks that the second had evicted."""
    sites = heap.sites(layout, asked) if heap else []
    sites = [()] * len(objects) + sites + [()]
    objects = [place.name for place in objects] + ["(heap)"] * (len(sites) - len(objects))
    rows = [line.split() for line in text.splitlines()]
    if not rows or rows.pop() != ["end"]:
        tool.fail("the references can't be counted")
    counted = [row for row in rows if row[0] == "cell"]
    codes = layout.code(sorted({int(row[1], 16) for row in counted if row[1] != "-"}))
    cells = []
    for _, address, number, *numbers in counted:
        references, misses, compulsory, capacity = map(int, numbers)
        own = NO_FETCH if address == "-" else codes[int(address, 16)]
        counts = [references, misses, compulsory, capacity, misses - compulsory - capacity]
        cells.append(Cell(own, objects[int(number)], counts, sites[int(number)]))
    pairs = [(cells[int(row[1])], cells[int(row[2])], int(row[3]))
             for row in rows if row[0] == "evicted"]
    return cells, pairs


def shares(cells):
    """A function that tells which share of all misses some are."""
    total = sum(cell.counts[1] for cell in cells)
    return lambda misses: f"{100 * misses / max(1, total):.3f}"


def sums(pairs):
    """Of pairs of a key and a list of numbers the sum for each key."""
    found = {}
    for key, numbers in pairs:
        found[key] = list(map(sum, zip(found.get(key, [0] * len(numbers)), numbers)))
    return found


@functools.cache
def source_lines(path):
    try:
        text = regular.read(path, LARGEST_SOURCE)
    except OSError:
        return []
    return text.decode(errors="replace").split("\n")


def source_of(cell, by):
    """The text of a row's line, or else of its site's."""
    codes = [cell.code] if "line" in by else cell.site
    line = codes[0].lines[0] if codes else elf.Line()
    lines = source_lines(line.file) if line.file else []
    is_there = 0 < line.number <= len(lines)
    return tool.visible(lines[line.number - 1].strip()) if is_there else ""


def table(asked, cells):
    """The rows of the table, the most misses first."""
    names, share = Names(cells), shares(cells)
    sources = {names.columns(cell, asked.by): source_of(cell, asked.by)
               for cell in cells} if asked.source else {}
    rows = sums((names.columns(cell, asked.by), cell.counts) for cell in cells)
    yield [*header(asked.by), *COUNTS, "share", *["source"] * asked.source]
    for key, counts in sorted(rows.items(), key=lambda row: (-row[1][1], row[0])):
        shown = counts[:3] + ["", ""] if asked.only_compulsory else counts
        yield [*key, *shown, share(counts[1]), *[sources.get(key)] * asked.source]


def table_of_evictions(asked, cells, pairs):
    names, share, columns = Names(cells), shares(cells), header(asked.by)
    rows = sums((names.columns(cell, asked.by) + names.columns(by, asked.by), [misses])
                for cell, by, misses in pairs)
    yield [*columns, *(f"evicted-by-{column}" for column in columns), "misses", "share"]
    for key, (misses,) in sorted(rows.items(), key=lambda row: (-row[1][0], row[0])):
        yield [*key, misses, share(misses)]


def table_of_sharing(asked, cells, text):
    """A row for what each thread does with each shared block, the blocks with the most misses by
    sharing first."""
    names, rows, totals = Names(cells), {}, collections.Counter()
    for line in text.splitlines():
        word, *numbers = line.split()
        if word != "shared":
            continue
        block, (thread, number, *counted) = int(numbers[0], 16), map(int, numbers[1:])
        cell = cells[number]
        source = [source_of(cell, asked.by)] if asked.source else []
        key = block, thread, names.columns(cell, asked.by), *source
        first, last, *counts = counted
        old = rows.get(key, (first, last, 0, 0, 0, 0))
        rows[key] = (min(first, old[0]), max(last, old[1]), *map(sum, zip(counts, old[2:])))
        totals[block] += counts[2] + counts[3]
    yield ["block", "thread", *header(asked.by), *SHARING, *["source"] * asked.source]
    for key, counts in sorted(rows.items(), key=lambda row: (
            -totals[row[0][0]], row[0][0], -row[1][4] - row[1][5], row[0])):
        block, thread, columns, *source = key
        yield [f"{block:x}", thread, *columns, *counts, *source]


def in_callgrind_format(asked, cells):
    """The counts by function and innermost line, without conflict misses, which may be below 0."""
    used = COUNTS[:3 if asked.only_compulsory else 4]
    names, rows = Names(cells), []
    often = collections.Counter((function.file, function.name) for function in names.functions)
    for cell in cells:
        function, inner = cell.code.function, [line for line in cell.code.lines if line.file]
        is_alone = often[function.file, function.name] == 1
        name = function.name if is_alone else names.functions[function]
        line = inner[-1] if inner else elf.Line()
        program = os.path.abspath(function.program) if function.program else "???"
        key = program, function.file or "???", name, line.file or "???", line.number
        rows.append((key, cell.counts[:len(used)]))
    totals = " ".join(str(sum(counts[at] for _, counts in rows)) for at in range(len(used)))
    yield from ("# callgrind format", "version: 1", "creator: by-line of cachesim",
                "positions: line", f"events: {' '.join(map(str.capitalize, used))}",
                f"summary: {totals}")
    last, present = None, None
    for (program, file, function, inner, line), counts in sorted(sums(rows).items()):
        if (program, file, function) != last:
            yield from ("", f"ob={program}", f"fl={file}", f"fn={function}")
            last, present = (program, file, function), file
        if inner != present:
            yield f"{'fe' if inner == file else 'fi'}={inner}"
            present = inner
        yield " ".join(map(str, (line, *counts)))
    yield from ("", f"totals: {totals}")


def length_of(path):
    """How many lines a source file has; more than any where it can't be read, or is larger than
    what somebody has written."""
    try:
        text = regular.read(path, LARGEST_SOURCE)
    except OSError:
        return float("inf")
    return text.count(b"\n") + (not text.endswith(b"\n"))


def warn_of_lines(cells):
    """Warns of lines that may be wrong: behind the end of their file, and of another finder."""
    files = collections.defaultdict(collections.Counter)
    for cell in cells:
        for file, line in {line for line in cell.code.lines if line.file}:
            files[file][line] += cell.counts[0]
    if files and binutils.line_finder() != binutils.LLVM:
        tool.warn("llvm-addr2line is missing: apt-get install llvm; addr2line may name a wrong file"
                  " for code of headers")
    for path, lines in sorted(files.items()):
        length = length_of(path)
        behind = sum(count for line, count in lines.items() if line > length)
        if behind:
            tool.warn(f"{path}: {behind} references are at lines behind its end, {length}: is it"
                      " the file that was compiled?")


def warn_of_unknown(cells):
    """Warns where nothing is known of any instruction, though a program was named."""
    functions = {cell.code.function for cell in cells}
    if functions == {NO_FETCH.function}:
        tool.warn("the trace has no fetches, so that no function is known: trace without --kind d")
    elif functions == {elf.NOWHERE.function}:
        tool.warn("no fetch is in a program that was named: a position-independent one needs --map "
                  "or --base")


def report(asked, text, objects, layout, heap):
    cells, pairs = read_counts(asked, text, objects, layout, heap)
    asked.spare({line.file for cell in cells for line in cell.code.lines if line.file})
    if asked.callgrind:
        # a pipe that nobody reads is a fault, so that the tool doesn't wait
        with tool.faults_of(asked.callgrind), open(asked.callgrind, "w", **elf.ANY_TEXT,
                                                   opener=regular.no_wait) as file:
            os.set_blocking(file.fileno(), True)
            file.writelines(f"{line}\n" for line in in_callgrind_format(asked, cells))
    is_named = (asked.program or asked.map) and not layout.unread  # of which a warning came
    if is_named and (asked.callgrind or {"line", "function"} & {*asked.by}):
        warn_of_unknown(cells)
    if asked.callgrind or "line" in asked.by:
        warn_of_lines(cells)
    if asked.shared:
        rows = table_of_sharing(asked, cells, text)
    elif asked.evicted_by:
        rows = table_of_evictions(asked, cells, pairs)
    else:
        rows = table(asked, cells)
    text = "".join(f"{line}\n" for line in csv_lines(rows))
    tool.write_out([text.encode(*elf.ANY_TEXT.values())], "standard output: ")
