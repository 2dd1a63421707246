"""The table that `cachesim sweep` writes, for the tools of this folder that read one."""

import gc
import re
from collections import namedtuple
from fractions import Fraction

from lib.files import spare
from lib.tool import faults_of, warn

HEADER = "bsize,sets,assoc,size,hits,misses,evictions"
# what `cachesim sweep --full` adds
OF_FULL = ("fetch-misses", "read-misses", "write-misses", "copybacks")
FULL_HEADER = ",".join([HEADER, *OF_FULL])
COLUMNS = len(HEADER.split(","))
# columns that count references, those of `three-c` too: they are shown in per cent of all
# references, and any other column, such as one of cycles, in its own unit
COUNTS = ("hits", "misses", "evictions", "compulsory", "capacity", "conflict", *OF_FULL)
# which `three-c` leaves empty for a cache of too many lines
MAY_BE_EMPTY = ("capacity", "conflict")
# no longer than a picture's axis can bear; a field that may be empty; any field
WHOLE, PERHAPS, ANY = "[0-9]{1,64}", "[0-9]{0,64}", "[^,]*"
# conflict misses may be below 0
NUMBER = re.compile("-?[0-9]{1,64}([.][0-9]{1,64})?")
PAGE_OF_FULL = re.compile(",".join([WHOLE] * len(FULL_HEADER.split(","))))
# an option of a cache, as a column of a table of din-table has it
OPTION = re.compile("(l[12]-[diu])(size|sets|bsize|assoc|repl|walloc|wback)")


class Row(namedtuple("Row", f"{HEADER},value,is_count,more", defaults=(None, True, ()))):
    """A cache, and what a sweep counted for it. `value` is that of the measure, where this is not
    its misses, and `is_count` whether it counts references. `more` are the counts of a full table:
    misses by kind, and copybacks."""

    __slots__ = ()

    @property
    def references(self):
        return self.hits + self.misses

    @property
    def measured(self):
        """What caches are compared by."""
        return self.misses if self.value is None else self.value

    @property
    def hundred(self):
        """What is shown as 100: all references, if the measure counts some, or 100 of its unit."""
        return self.references if self.is_count else 100

    @property
    def share(self):
        """What is shown of the measure, exactly: per cent of the references, 0 where there are
        none, or its value where it counts none."""
        return Fraction(100 * self.measured, self.hundred) if self.hundred else Fraction()

    @property
    def shown(self):
        """The same, correctly rounded, as Python's quotient of whole numbers is, too."""
        return float(100 * self.measured / self.hundred) if self.hundred else 0.0

    @property
    def cache(self):
        """The triple that names the cache in a table."""
        return self.bsize, self.sets, self.assoc

    @property
    def ties(self):
        """Of caches that are alike in size and measure the one where this is less comes first."""
        return self.assoc, self.bsize, self.sets


def own_columns(lines):
    """The columns that a sweep wrote, plain or full; those behind them were added. Of a page, which
    has no header, how many numbers there are tells which it is."""
    first = "".join(lines[:1]).rstrip("\r\n")
    is_full = f"{first},".startswith(f"{FULL_HEADER},") or PAGE_OF_FULL.fullmatch(first)
    return (FULL_HEADER if is_full else HEADER).split(",")


class BadTable(Exception):
    """A text that is no table."""


def number_of(text, column, place):
    """The exact number that a field of a measure says."""
    if not NUMBER.fullmatch(text):
        is_long = re.fullmatch("-?[0-9.]{65,}", text)
        raise BadTable(f"{place}: {column} is {'too long a' if is_long else 'no'} number")
    if "." not in text:
        return int(text)
    return Fraction(text)


def column_of(columns, measure, name):
    """Where the measure stands in a row."""
    if measure == "percent":
        raise BadTable(f"{name}: percent is no count: name the column that it is of")
    if measure not in columns:
        only = ", which is for a table of a sweep" * (measure == "traffic")
        raise BadTable(f"{name}: no column {measure}{only}; there are {', '.join(columns)}")
    return columns.index(measure)


def judge_end(lines, name):
    """Refuses a table of which the last row may be cut, even inside a number."""
    if lines and not lines[-1].endswith("\n"):
        raise BadTable(f"{name}: line {len(lines)} has no end: the table was cut off there")


def rows_of(lines, name, columns, forms, what):
    """The fields of each row but the header, and its number. Each column has its form."""
    row, header = re.compile(",".join(f"({form})" for form in forms)), ",".join(columns)
    for number, line in enumerate(lines, 1):
        text = line.rstrip("\r\n")
        if number == 1 and text == header:
            continue
        found = row.fullmatch(text)
        if not found:
            raise BadTable(f"{name}: line {number}: no row of {what}")
        yield number, found.groups()


def read_table(lines, name, measure="misses"):
    """The rows of a table, given its lines. A page without a header will do; `name` is for the
    fault. A header may name more columns after those of a sweep, which some tools add: of these
    only the measure is read."""
    judge_end(lines, name)
    rows, seen, empty = [], set(), 0
    own, first = own_columns(lines), "".join(lines[:1]).rstrip("\r\n").split(",")
    columns = first if first[:len(own)] == own else own
    forms = [WHOLE] * len(own) + [ANY] * (len(columns) - len(own))
    for number, fields in rows_of(lines, name, columns, forms, "a sweep's table"):
        numbers, value = [*map(int, fields[:len(own)])], None
        bsize, sets, assoc, size = numbers[:4]
        more = tuple(numbers[COLUMNS:])
        if more and sum(more[:-1]) != numbers[5]:
            raise BadTable(f"{name}: line {number}: misses are not the sum of those by kind")
        if size != bsize * sets * assoc:
            raise BadTable(f"{name}: line {number}: size is not bsize * sets * assoc")
        if (bsize, sets, assoc) in seen:
            raise BadTable(f"{name}: two rows for the cache {bsize},{sets},{assoc}")
        seen.add((bsize, sets, assoc))
        if measure != "misses":
            field = fields[column_of(columns, measure, name)]
            if not field and measure in MAY_BE_EMPTY:
                empty += 1
                continue
            value = number_of(field, measure, f"{name}: line {number}")
        rows.append(Row(*numbers[:COLUMNS], value, measure in COUNTS, more))
    if not rows:
        what = f"any {measure}" if empty else "a row"
        raise BadTable(f"{name}: a table without {what}")
    if empty:
        warn(f"{name}: {empty} of {len(seen)} caches have no {measure}, and are left out")
    return rows


def lines_of(name):
    """The lines of a table, and its name for faults; '-' is standard input. Ends the tool with one
    line where that fails. A spreadsheet may have put a byte order mark in front."""
    spare(name)
    shown = "standard input" if name == "-" else name
    text = {"encoding": "utf-8-sig", "errors": "replace"}
    gc.disable()  # it would look at all rows again and again: half of the time for a million
    with faults_of(shown), open(0 if name == "-" else name, closefd=name != "-", **text) as file:
        return list(file), shown


def is_din(lines):
    """Whether a text is a table of `din-table`, by its header."""
    return bool(lines) and (bool(OPTION.fullmatch(lines[0].split(",")[0]))
                            or lines[0].startswith("seed,"))


def pareto(rows):
    """The smallest caches that miss least, by size: each misses less often than every other cache
    that is not larger. Of caches that are alike in both, the one of the fewest ways stands here,
    and of these the one of the smallest blocks."""
    best, front = {}, []
    for row in rows:
        before = best.setdefault(row.size, row)
        if (row.measured, row.ties) < (before.measured, before.ties):
            best[row.size] = row
    for _, row in sorted(best.items()):
        if not front or row.measured < front[-1].measured:
            front.append(row)
    return front
