"""The best caches of a table, of those that `best` is asked for."""

import heapq
import statistics

from lib import costs, table, table_din, tool


def by_measure(row):
    return row.measured, row.size, row.ties


def smallest(rows):
    """Of some rows those of the least size."""
    least = min(row.size for row in rows)
    return sorted((row for row in rows if row.size == least), key=by_measure)


def smallest_below(asked, rows, is_count):
    """The smallest of the rows with at most so many per cent of misses; there must be one."""
    good = [row for row in rows if row.share <= asked.below]
    if not good:
        size = "" if asked.up_to is None else f" of at most {asked.up_to} bytes"
        unit, least = " per cent" * is_count, float(min(row.share for row in rows))
        most = f"at most {float(asked.below):.6g}{unit} {costs.column_of(asked)}"
        tool.fail(f"{asked.table}: no cache{size} has {most}; the least is {least:.6g}")
    return smallest(good)


def chosen(asked, rows, is_count):
    """The rows that are asked for."""
    if asked.up_to is not None:
        rows = [row for row in rows if row.size <= asked.up_to]
    if not rows:
        tool.fail(f"{asked.table}: no cache of at most {asked.up_to} bytes")
    if asked.front:
        return table.pareto(rows)
    if asked.rows:
        return heapq.nsmallest(asked.rows, rows, key=by_measure)
    if asked.below is not None:
        return smallest_below(asked, rows, is_count)
    least = min(row.measured for row in rows)
    most = 100 * least + abs(least) * asked.within
    return smallest([row for row in rows if 100 * row.measured <= most])


def number_text(value):
    """A number of a table: a whole one as it is, another to three digits."""
    return str(value) if value.denominator == 1 else f"{float(value):.3f}"


def of_sweep(asked, lines, name):
    """The lines of the answer for a table of a sweep."""
    measure, rows = costs.name_of(asked, lines), costs.rows_of(asked, lines, name)
    if len({row.references for row in rows}) > 1:
        raise table.BadTable(f"{asked.table}: rows of several traces: they count different numbers"
                             " of references")
    own = table.own_columns(lines)
    added = [] if measure in own else [measure]
    is_count = rows[0].is_count
    yield ",".join([*own, *added, *["percent"] * is_count])
    for row in chosen(asked, rows, is_count):
        values = [number_text(row.value) for _ in added]
        counts = [*row[:table.COLUMNS], *row.more]
        yield ",".join([*map(str, counts), *values, *[f"{row.shown:.3f}"] * is_count])


def of_din(asked, lines, name):
    """The same for a table of din."""
    costs.refuse_din(asked)
    given = table_din.read_table(lines, name, asked.measure)
    if given.left_out:
        tool.warn(given.left_out)
    has_seeds = any(len(case.values) > 1 for case in given.cases)
    spread = ["runs", "deviation", "least", "greatest"] if has_seeds else []
    percents = ["percent"] * (asked.below is not None and given.is_count)
    yield ",".join([*given.options, "size", given.measure, *spread, *percents])
    for case in chosen(asked, given.cases, given.is_count):
        means, ends = ["", ""], map(number_text, (min(case.values), max(case.values)))
        if len(case.values) > 1:
            deviation = statistics.stdev(map(float, case.values))  # of a sample
            means = [str(len(case.values)), f"{deviation:.3f}"]
        spread_texts = [*means, *ends]
        shares = [f"{float(case.share):.3f}" for _ in percents]
        yield ",".join([*case.given, str(case.size), number_text(case.measured),
                        *spread_texts[:len(spread)], *shares])
