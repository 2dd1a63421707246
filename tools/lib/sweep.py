"""What the tools share that make a table of their own from those of sweeps."""

import functools

from lib import files, paging, runs, tool


def asked_of(parser, needed):
    """What is asked for of a trace and the options of a sweep: all of these, and those, `shared`,
    that say which references and which rows count."""
    parser.add_argument("--format", action="append")
    parser.add_argument("--kind", action="append")
    parser.add_argument("--pow2", action="store_true")
    asked, others = parser.handed_on(needed)
    asked.format, asked.kind = asked.format or ["d"], asked.kind or ["u"]
    asked.shared = [*(f"--format={format}" for format in asked.format),
                    *(f"--kind={kind}" for kind in asked.kind), *["--pow2"] * asked.pow2]
    asked.options = [*asked.shared, *others]
    if not others:
        parser.error(needed)
    files.readable(asked.trace)
    return asked


def numbers(fields):
    found = [(tool.number_of(field), field) for field in fields]
    return [field if number is None else number for number, field in found]


class Table:
    """A table or several: the names of its columns, and rows of numbers. A page has no header."""

    def __init__(self, lines):
        self.header = lines[0] if lines and not lines[0][:1].isdigit() else None
        self.lines = [line for line in lines if line[:1].isdigit()]

    @functools.cached_property
    def rows(self):
        return [numbers(line.split(",")) for line in self.lines]

    def rows_of(self, wanted):
        """Those of some block sizes and sizes: of a long table the others are not looked at."""
        wanted = {f"{bsize},{size}" for bsize, size in wanted}
        for line in self.lines:
            bsize, _, _, size, _ = line.split(",", 4)
            if f"{bsize},{size}" in wanted:
                yield numbers(line.split(","))

    @classmethod
    def caches(cls, program, options):
        """The table of an empty trace. Options that the program refuses end the tool."""
        return cls([line.decode().rstrip("\n") for line in paging.rows_of(program, options)])


def over(trace, program, sweeps):
    """The tables of sweeps over one reading of a trace. Each is a list of options, and how many
    lines it gets, if not all."""
    name = program.rpartition("/")[2]
    commands = [(name, [program, "sweep", *words], *more) for words, *more in sweeps]
    texts = runs.over(trace, commands, len(commands), is_read_once=True)
    return [Table(text.decode().splitlines()) for text in texts]


def deliver(lines):
    tool.write_out(["".join(f"{line}\n" for line in lines).encode()], "standard output: ")
