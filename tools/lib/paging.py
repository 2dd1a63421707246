"""The pages of a sweep's table: `sweep-parallel --pages` lists them, else it runs them."""

import math
import os
import sys

from lib import processes, tool


# The number of ways from which on a search costs about the same
DEEPEST = 256


def number_of_jobs(word):
    if word == "auto":
        return len(os.sched_getaffinity(0))
    return tool.number_of(word) or tool.misused(f"{word} is no number of jobs")


class Pair:
    """A block size and a number of sets: how many rows they have, the greatest associativity."""

    def __init__(self, bsize, sets):
        self.bsize, self.sets, self.rows, self.assoc = bsize, sets, 0, "0"

    @property
    def last(self):
        return f"{self.bsize},{self.sets},{self.assoc}"

    @property
    def size(self):
        """The bytes of one block in each set."""
        return int(self.bsize) * int(self.sets)

    def cost(self, before):
        """What a pair adds to a page behind another pair, or None: the part of the references that
        it looks at, and its searches for those that it does not find in front. What the pair before
        it finds in front it need not look at. A search costs about the same from some depth on."""
        looks = min(1, 7 / before.size**0.4) if before and before.bsize == self.bsize else 1
        depth = math.log2(1 + min(int(self.assoc), DEEPEST))
        return looks + 4 * depth / (int(self.bsize) * int(self.sets) ** 0.3)


def rows_of(program, options):
    """The lines of a table, for an empty trace. Options that the program refuses end this tool."""
    code, table, told = processes.ran([program, "sweep", "-t", "/dev/null", *options])
    if told:
        tool.tell(told)
    if code < 0 or code and not told:
        tool.fail(f"{os.path.basename(program)} ended with {processes.end_text(code)}, and no list "
                  "of the rows")
    if code:
        sys.exit(code)
    return table.splitlines(keepends=True)


def pairs_of(program, options):
    """The pairs of a table, in its order."""
    pairs = {}
    for line in rows_of(program, options):
        bsize, sets, assoc, _ = line.decode("ascii").split(",", 3)
        if bsize != "bsize":
            pair = pairs.setdefault((bsize, sets), Pair(bsize, sets))
            pair.rows += 1
            pair.assoc = assoc
    return list(pairs.values())


def within(pairs, bound):
    """Pages of which none costs more than the bound, but a pair alone; and what the last costs."""
    pages, cost = [], 0
    for before, pair in zip([None, *pairs], pairs):
        cost += pair.cost(before)
        if not pages or cost > bound:
            pages.append([])
            cost = pair.cost(None)
        pages[-1].append(pair)
    return pages, cost


def cut(pairs, most):
    """The pairs of at most so many pages, the dearest of which costs as little as it can."""
    least, (_, enough) = 0, within(pairs, math.inf)
    for _ in range(60):
        bound = (least + enough) / 2
        if len(within(pairs, bound)[0]) > most:
            least = bound
        else:
            enough = bound
    return within(pairs, enough)[0]


def split(options):
    """The arguments that each page has, and the value of --after. The program found them good."""
    arguments, after, left = [], None, list(options)
    while left:
        name, equals, value = left.pop(0).partition("=")
        if name == "--":
            continue
        if not equals and (not left or left[0].startswith("-")):  # as --pow2
            arguments.append(name)
            continue
        value = value if equals else left.pop(0)
        if name == "--after":
            after = value
        elif name != "--rows":
            arguments += [name, value]
    return arguments, after


def pages_of(program, most, options):
    """For each page of a table, the arguments of a sweep that write it."""
    if any(word.startswith("-t") for word in options):
        tool.misused("leave out -t: each page reads the same trace")
    pairs = pairs_of(program, options)
    arguments, after = split(options)
    pages = []
    for page in cut(pairs, most) if pairs else [[]]:
        count = str(sum(pair.rows for pair in page))
        pages.append([*arguments, *(["--after", after] if after else []), "--rows", count])
        after = page[-1].last if page else None
    return pages
