"""Tables in CSV, and those of by-line for reading: columns one below the other, and few rows."""

import csv
import io

KINDS = "compulsory", "capacity", "conflict"
# of those with misses by kind; and which of all are numbers, at the right
SHOWN = "share", "misses", "references", "mostly"
NUMBERS = {"share", "misses", "references", "first-byte", "last-byte", "reads", "writes",
           "true-sharing", "false-sharing", "thread"}
LAST = "source"
WIDEST = 44  # letters of a cell, except for the last column


def csv_lines(rows):
    """Rows as lines of CSV."""
    text = io.StringIO()
    csv.writer(text, lineterminator="\n").writerows(rows)
    return text.getvalue().split("\n")[:-1]


def mostly(row):
    """The kind that most of a row's misses are of, if they are told apart."""
    counts = {kind: int(row[kind]) for kind in KINDS if row[kind]}
    return max(counts, key=counts.get) if len(counts) == 3 and int(row["misses"]) else ""


def columns_of(rows, names):
    """The names of the columns that are shown, and the rows' cells."""
    if "compulsory" in names:
        keys = names[:names.index("references")]
        names = [*SHOWN, *keys, *(name for name in names if name == LAST)]
        rows = [{**row, "mostly": mostly(row)} for row in rows]
    # what no row has is not shown
    names = [name for name in names if any(row[name] for row in rows)] or names
    return names, [[row[name] if name == LAST else cut(row[name]) for name in names]
                   for row in rows]


def cut(cell):
    return cell if len(cell) <= WIDEST else f"{cell[:WIDEST - 2]}.."


def line(cells, widths, names, width):
    parts = (cell.rjust(size) if name in NUMBERS else cell.ljust(size)
             for cell, size, name in zip(cells, widths, names))
    return "  ".join(parts).rstrip()[:width]


def rest_of(rows):
    """A line for the rows that are not shown."""
    text = f"and {len(rows)} more row{'s' * (len(rows) > 1)}"
    if rows and "share" in rows[0]:
        text += f", with {sum(float(row['share']) for row in rows):.1f} % of the misses"
    return f"({text}: --rows 0 shows all)"


def text_table(text, most, width):
    """The text of a table in CSV: at most so many rows, if that is not 0, in lines of at most a
    width, if there is one."""
    reader = csv.DictReader(text.split("\n"))
    rows, names = list(reader), list(reader.fieldnames or [])
    shown = rows[:most or len(rows)]
    names, cells = columns_of(shown, names)
    widths = [max(map(len, column)) for column in zip(names, *cells)]
    lines = [line(each, widths, names, width) for each in (names, *cells)]
    left = [rest_of(rows[len(shown):])] if len(rows) > len(shown) else []
    return "\n".join([*lines, *left, ""])
