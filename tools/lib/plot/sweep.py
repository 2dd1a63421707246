"""The pictures of tables of sweeps: of one, or of several with a line for each. Beside lines these
are the three C's, stacked by cache size as Hennessy and Patterson draw them, of a table of
`three-c`, and bars of the misses of fetches, reads and writes."""

import functools
from collections import Counter, namedtuple

from lib import costs, table
from lib.plot import pictures
from lib.plot.pictures import (SIZE, STACK, Line, Measure, Picture, Point, bytes_text, counted,
                               handful, is_broad, short, ways_text)
from lib.tool import MOST, fail

# measures that are no column
MADE_OF = {"misses": Measure(), costs.TRAFFIC: Measure("traffic in bytes", "Traffic", False),
           costs.ACCESS_TIME: Measure("access time in cycles (AMAT)", "Access time", False)}
AXES = {"size": "cache size", "bsize": "block size"}
# what a picture may fix, as titles have it: how it is called, the usual value, and its text
FIXED = {"sets": ("number of sets", 1,
                  lambda sets: "fully associative" if sets == 1 else f"{sets} sets"),
         "bsize": ("block size", 64, lambda bsize: f"blocks of {bytes_text(bsize)}"),
         "assoc": ("associativity", 4, ways_text)}
MANY = 32  # from so many points on a curve has no marks
MOST_CHOICES = 64  # of a menu of a page

# what a picture draws beside any other measure, its columns, and its measure
Own = namedtuple("Own", "what columns measure")
OWN = {
    "three-c": Own("misses by their kinds", ("capacity", "compulsory"), Measure(is_linear=True)),
    "kinds": Own("misses by their kinds", ("fetch-misses", "read-misses", "write-misses"),
                 Measure("misses in per cent of references", "Misses", is_linear=True)),
    "traffic": Own("traffic", ("copybacks",), Measure(
        "traffic in bytes, with copy-backs", "Traffic with copy-backs", False))}


class Sweeps(namedtuple("Sweeps", "asked tables measure fixed", defaults=({},))):
    """The tables that are drawn, of which each has a file, a name and rows, their measure, and the
    columns that have one value in all rows, with it."""

    @property
    def rows(self):
        return self.tables[0].rows

    @property
    def is_one(self):
        return len(self.tables) == 1

    @property
    def title(self):
        return ", ".join(text(self.fixed[column]) for column, (_, _, text) in FIXED.items()
                         if column in self.fixed)

    def values(self, column):
        """Those of a column in each table."""
        return [{getattr(row, column) for row in given.rows} for given in self.tables]

    def wanted(self, column):
        """The block size, associativity or number of sets of a picture: the one that is asked for,
        or of those that are in all tables the usual one or the nearest to it."""
        what, usual, _ = FIXED[column]
        wanted = {"bsize": self.asked.bsize, "assoc": self.asked.ways}.get(column)
        if wanted is None:
            common = set.intersection(*self.values(column))
            return (pictures.nearest(common, usual) if common
                    else fail(f"the tables have no {what} in common"))
        for own, given in zip(self.values(column), self.tables):
            if wanted not in own:
                some = handful(own, 12)
                there = ", ".join(map(str, some)) + " and others" * (len(some) < len(own))
                fail(f"{given.file}: no cache has the {what} {wanted}; there are {there}")
        return wanted

    def fix(self, column, value=None):
        """Those with the rows of one value of a column: of this one, or the wanted one."""
        value = value or self.wanted(column)
        tables = [given._replace(rows=[row for row in given.rows if getattr(row, column) == value])
                  for given in self.tables]
        return self._replace(tables=tables, fixed={**self.fixed, column: value})

    def groups(self, column, text, least):
        """Names and rows of lines: of a handful of values of a column, those that have so many rows
        if any has; all rows if there is no column; or those of each table."""
        if not self.is_one or not column:
            return [(given.name, given.rows) for given in self.tables]
        counts = Counter(getattr(row, column) for row in self.rows)
        least = min(least, max(counts.values()))
        return [(text(value), [row for row in self.rows if getattr(row, column) == value])
                for value in handful(each for each in counts if counts[each] >= least)]

    def picture(self, name, fixed, column, text, across="size", legend="", step=None, least=1):
        """A picture with a line for each value of a column, or at one value for each table. It is
        cut where the next row skips a step that another line has: a value of a column."""
        shown = self if self.is_one else self.fix(column)
        steps = set().union(*self.values(step)) if step else ()
        lines = [Line(name, points(rows, across, step, steps))
                 for name, rows in shown.groups(column, text, least)]
        return Picture(name, self.fixed.get(fixed, 0),
                       f"{self.measure.name} by {AXES[across]}: {shown.title}",
                       f"{AXES[across]} in bytes", legend, lines)


def rows_of(given, columns):
    """The caches of a table that have numbers in some columns, which are their values."""
    found = {}
    for name in columns:
        for row in table.read_table(given.lines, given.shown, name):
            found.setdefault(row.cache, []).append(row)
    return [rows[0]._replace(value=[row.value for row in rows]) for rows in found.values()
            if len(rows) == len(columns)]


def with_rows(asked, given):
    """A table with its rows, which are of one sweep, or the tool's end."""
    rows = (rows_of(given, OWN[asked.only].columns) if asked.only in OWN
            else costs.rows_of(asked, given.lines, given.shown))
    if asked.only == "traffic":
        rows = [row._replace(value=row.bsize * (row.misses + row.value[0]), is_count=False)
                for row in rows]
    for row in rows:
        references = row.references
        if not 0 < row.size <= MOST or references > MOST:
            fail(f"{given.file}: {cache_text(row)} is no cache of a sweep")
        if references != rows[0].references:
            fail(f"{given.file}: the rows are not of one trace: {rows[0].references} references in"
                 f" the first row, {references} in that of {cache_text(row)}")
    return given._replace(rows=rows)


def measure_of(asked):
    """How the measure is called. It is drawn in per cent of the references where it counts some."""
    column = costs.column_of(asked)
    if asked.only in OWN:
        return OWN[asked.only].measure
    is_count = column in table.COUNTS
    return MADE_OF.get(column) or Measure(f"{column} in per cent of references" if is_count
                                          else column, column[:1].upper() + column[1:], is_count)


def cache_text(row):
    return ",".join(map(str, row.cache))


def told(row):
    bsize, sets, ways, size, hits, misses, evictions = map("{:,}".format, row[:7])
    return (f"{size} bytes: block {bsize}, sets {sets}, ways {ways}\n"
            f"hits {hits}, misses {misses}, evictions {evictions}", cache_text(row))


def points(rows, across="size", step=None, steps=()):
    """Some rows by one of their columns, with None where a step is skipped."""
    found, last = [], None
    for row in sorted(rows, key=lambda row: getattr(row, across)):
        if last and any(getattr(last, step) < other < getattr(row, step) for other in steps):
            found.append(None)
        found.append(Point(getattr(row, across), row.shown, functools.partial(told, row)))
        last = row
    return found


def by_size(sweeps, bsize=None):
    """At one block size, with a line for each associativity."""
    return sweeps.fix("bsize", bsize).picture("size", "bsize", "assoc", ways_text, step="sets")


def by_block(sweeps, ways=None):
    """At one associativity, with a line for each size (of several blocks, if any)."""
    return sweeps.fix("assoc", ways).picture("block", "assoc", "size", short, across="bsize",
                                             legend="cache size", step="bsize", least=2)


def by_traffic(sweeps, ways=None):
    """At one associativity, with a line for each block size."""
    return sweeps.fix("assoc", ways).picture("traffic", "assoc", "bsize", short,
                                             legend="block size", step="size")


def by_ways(sweeps, bsize=None):
    """The curves over all ways: one for each table at a block size and a number of sets; of one
    table for each number of sets at a block size, or for each block size."""
    if not sweeps.is_one or len(*sweeps.values("sets")) > 1:
        sweeps = sweeps.fix("bsize", bsize)
    for column in "sets", "bsize":
        values = sweeps.values(column)[0]
        if sweeps.is_one and len(values) == 1:
            sweeps = sweeps.fix(column, *values)
    lines = next((column for column in ("sets", "bsize") if column not in sweeps.fixed), None)
    text = bytes_text if lines == "bsize" else lambda count: counted(count, "set")
    picture = sweeps.picture("curve", "bsize", lines, text,
                             legend="block size" * (lines == "bsize"))
    if max(len(line.points) for line in picture.lines) < MANY:
        return picture
    return picture._replace(lines=[line._replace(style="curve") for line in picture.lines])


def by_front(sweeps, _=None):
    """The smallest caches that miss least: before all others, or for each table."""
    given = "pareto", 0, sweeps.measure.least, SIZE, ""
    if not sweeps.is_one:
        return Picture(*given, [Line(one.name, points(table.pareto(one.rows)), "steps")
                                for one in sweeps.tables])
    named = f"{'fewest misses' if sweeps.measure == Measure() else 'least'} up to this size"
    return Picture(*given, pictures.front_of(
        points(sweeps.rows), points(table.pareto(sweeps.rows)), named), "block size, sets, ways")


def by_kind(name, rows, misses, text, style="area"):
    """Some caches by size, given how many misses of each are drawn, and what is said of it."""
    return Line(name, [Point(row.size, float(100 * misses(row) / max(1, row.references)),
                             lambda row=row: (f"{row.size:,} bytes\n{text(row)}", ""))
                       for row in sorted(rows, key=lambda row: row.size)], style)


def unshared(row):
    """The misses of a fully associative cache."""
    return int(sum(row.value))


def three_c(sweeps, bsize=None):
    """The picture at one block size: from the top the misses of 1 way, of 2 ways and so on, and
    those of a fully associative cache, which are capacity and compulsory ones."""
    shown = sweeps.fix("bsize", bsize)
    # associativities that are powers of two have sizes in common, if any have
    ways, = shown.values("assoc")
    ways = handful({count for count in ways if count & (count - 1) == 0} or ways, len(STACK) - 2)
    rows = sorted(row for row in shown.rows if row.assoc in ways)
    sizes = {row.size: row for row in rows}.values()
    lines = [by_kind(ways_text(count), [row for row in rows if row.assoc == count],
                     lambda row: row.misses,
                     lambda row: f"{ways_text(row.assoc)}: misses {row.misses:,}, of these "
                                 f"conflict {row.misses - unshared(row):,}") for count in ways]
    lines += [by_kind("capacity", sizes, unshared,
                      lambda row: f"fully associative: misses {unshared(row):,}, of these "
                                  f"capacity {int(row.value[0]):,}"),
              by_kind("compulsory", sizes, lambda row: row.value[1],
                      lambda row: f"compulsory misses {int(row.value[1]):,}")]
    least = f"{min(ways)} to " * (len(ways) > 1)
    title = (f"The three C's by cache size: conflict misses of {least}{ways_text(max(ways))}, "
             f"{shown.title}")
    picture = Picture("three-c", shown.fixed["bsize"], title, SIZE, "", lines)
    if not bsize and not is_broad(picture):
        fail(f"{sweeps.tables[0].file}: a picture of the three C's is of caches of several sizes")
    return picture


def of_references(sweeps, bsize=None):
    """Bars of the misses of fetches, reads and writes, at one block size and associativity. In a
    page the sizes of all block sizes have a place."""
    every = sweeps.fix("assoc", sweeps.fix("bsize").wanted("assoc"))
    shown = every.fix("bsize", bsize)
    placed = every if sweeps.asked.ending == ".html" else shown
    sizes = sorted({row.size for row in placed.rows})
    lines = [by_kind(name, shown.rows, lambda row, at=at: row.value[at],
                     lambda row, at=at, name=name: f"{name} misses {int(row.value[at]):,} of "
                                                   f"{row.misses:,}", "bar")
             for at, name in enumerate(("fetch", "read", "write"))]
    lines = [each._replace(points=[point._replace(x=sizes.index(point.x))
                                   for point in each.points]) for each in lines]
    return Picture("kinds", shown.fixed["bsize"], f"Misses by cache size: {shown.title}", SIZE, "",
                   lines, names=[*map(short, sizes)])


# in the order in which the help names them
MADE = {"size": by_size, "block": by_block, "pareto": by_front, "curve": by_ways,
        "three-c": three_c, "traffic": by_traffic, "kinds": of_references}


def offered(sweeps, name):
    """A picture of this name, in a page with those that may be chosen instead: by what they fix."""
    picture = MADE[name](sweeps)
    if sweeps.asked.ending != ".html" or not sweeps.is_one or not picture.fixed:
        return picture
    values, = sweeps.values("assoc" if name in pictures.BY_WAYS else "bsize")
    made = [MADE[name](sweeps, value)
            for value in sorted({*handful(values, MOST_CHOICES), picture.fixed})]
    return picture._replace(choices={each.fixed: each for each in made if each.points})


def drawn(asked, tables):
    """The pictures that are asked for, one of several tables, with their measure, and what a page
    says of a single table. Without a wish those of one table are three, the first a curve if there
    is one number of sets, except those that are a column whatever is chosen in a page."""
    if asked.across:
        fail(f"{asked.tables[0]}: --across is for a table of din")
    if len(tables) > 1 and asked.only not in (None, "size", "curve", "pareto"):
        fail(f"several tables have the pictures size, curve, pareto, and not {asked.only}")
    if asked.only in OWN and costs.column_of(asked) != "misses":
        fail(f"--only {asked.only} draws {OWN[asked.only].what}, and no other measure")
    sweeps = Sweeps(asked, [with_rows(asked, given) for given in tables], measure_of(asked))
    references = sweeps.rows[0].references
    if sweeps.is_one and not references:
        asked.title = f"{asked.title} (no references)".strip()
    counts = f"{counted(len(sweeps.rows), 'cache', '{:,}'.format)}, {references:,} references"
    is_curve = all(len(sets) == 1 < len(ways) for sets, ways in zip(
        sweeps.values("sets"), sweeps.values("assoc")))
    first = asked.only or ("curve" if is_curve else "size")
    made = [offered(sweeps, first)]
    if sweeps.is_one and not asked.only:
        made += [offered(sweeps, name) for name in ("block", "pareto")]
        made = [each for each in made if any(map(is_broad, each.offered.values()))] or made[:1]
    return made, sweeps.measure, counts
