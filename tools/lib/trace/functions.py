"""Where the functions of a program are, by which `trace` begins and stops."""

import re

from lib import processes, tool
from lib.by_line.binutils import debug_file

SYMBOL = re.compile(r"([0-9a-f]*) ([tTwWi]) (.*)")
CODE = re.compile(r" *LOAD +0x\w+ 0x(\w+) 0x\w+ 0x\w+ 0x\w+ ..E ", re.M)


def output_of(path, *command):
    """What a command of binutils writes of a file."""
    said = processes.output_of([*command, "--", path], "binutils", of=path)
    return said.decode(errors="surrogateescape")


def symbols(path, *options):
    """The functions of a file: each as its address, the letter of nm, and its name."""
    lines = output_of(path, "nm", "--defined-only", *options).split("\n")
    return [match.groups() for match in map(SYMBOL.fullmatch, lines) if match]


def start_of_code(path):
    starts = CODE.findall(output_of(path, "readelf", "-lW"))
    return int(starts[0], 16) if starts else 0  # none is no program, which QEMU refuses


def own_name(symbol):
    """That of a C++ function, without its classes and parameters."""
    return symbol.partition("(")[0].rpartition("::")[2]


def address_of(path, name):
    """The address of a function in the program's own file, by its names or those of a file with its
    debug information."""
    missing = "those of shared libraries can't be named, nor those that were inlined"
    named, table = path, []
    if not symbols(path):
        named = debug_file(path)
        if not named:
            named, table, missing = path, ["-D"], "it is stripped"
    for style in ("--no-demangle", "--demangle"):
        known = symbols(named, *table, style)
        found = {at: letter for at, letter, symbol in known
                 if name in (symbol.partition("@")[0], symbol.partition("(")[0])}
        if found:
            break
    if not found:
        near = [symbol for *_, symbol in known if name.lower() in symbol.lower()]
        if not near:  # one with template arguments, say
            near = [symbol for *_, symbol in known if own_name(symbol) == own_name(name)]
        near = f"; there is {', '.join(near[:3])}" if near else ""
        tool.fail(f"{path} has no function {name}: {missing}{near}")
    if len(found) > 1:
        tool.fail(f"{path} has {len(found)} functions {name}")
    (address, letter), = found.items()
    if letter == "i":
        tool.fail(f"{path} has several functions {name}, of which one is chosen when it is loaded")
    return int(address, 16)


def places(program, names):
    """The distances of functions from the code's start."""
    tool.needs("nm", "binutils")
    start = start_of_code(program.path)
    for name in names:
        address = address_of(program.path, name)
        if program.machine == "arm":
            address &= ~1  # which says that it is in Thumb
        yield address - start
