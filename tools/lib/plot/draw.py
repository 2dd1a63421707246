"""What tools/plot draws of the tables that it is given, and where that goes."""

import os
import stat
from collections import namedtuple

from lib import files, table, tool
from lib.plot import din, pictures, sweep, text

LONGEST = 24  # letters of a table's name in the legend

# a table: its file, its name in the legend, its lines, what faults call it, and its rows
Given = namedtuple("Given", "file name lines shown rows", defaults=((),))
# the pictures, their measure, and what a page says of a single table
Drawn = namedtuple("Drawn", "pictures measure counts")


def names_of(paths):
    """What the legend calls some tables: their files, without folder and ending if that will do. A
    single one has no name."""
    short = [os.path.splitext(os.path.basename(path))[0] for path in paths]
    names = short if len(set(short)) == len(short) else paths
    names = [pictures.printable("standard input" if name == "-" else name) for name in names]
    names = [name if len(name) <= LONGEST else f"{name[:LONGEST - 1]}…" for name in names]
    return names if len(paths) > 1 else [""]


def write_file(out, data):
    """Writes OUT; a pipe or a device stays what it is, and other files are replaced. The new file
    may be read by those who may read the old one."""
    mask = os.umask(0)
    os.umask(mask)
    with tool.faults_of(out):
        place = os.path.realpath(out)  # there may be no working folder
        mode = os.stat(out).st_mode if os.path.exists(out) else stat.S_IFREG | 0o666 & ~mask
        if stat.S_ISREG(mode):
            files.replace(place, data, mode & 0o777)
        else:
            with open(out, "wb") as file:
                file.write(data)


def drawn_of(asked):
    """What is drawn of the tables that are asked for, or their fault."""
    tables = [Given(path, name, *table.lines_of(path))
              for path, name in zip(asked.tables, names_of(asked.tables))]
    are_din = {table.is_din(given.lines) for given in tables}
    if len(are_din) > 1:
        tool.fail("tables of sweeps and of din have no picture in common")
    try:
        return Drawn(*(din if are_din.pop() else sweep).drawn(asked, tables))
    except table.BadTable as fault:
        tool.fail(str(fault))


def draw(asked):
    """Draws some tables, and writes what is asked for."""
    asked.title = pictures.printable(asked.title)
    drawn = drawn_of(asked)
    if asked.out == "-":
        tool.write_lines(text.lines(drawn, asked.title))
    elif asked.ending == ".html":
        from lib.plot import page  # which needs plotly, as a figure needs matplotlib
        counts = f"{len(asked.tables)} tables" if len(asked.tables) > 1 else drawn.counts
        write_file(asked.out, page.page(drawn, counts, asked).encode())
    else:
        from lib.plot import figure
        write_file(asked.out, figure.bytes_of(drawn, asked))
