"""The traces by which a student's program is judged: copies of those that are named, or six that
are the same each time. Each of these finds mistakes that others miss; `grade --help` says which.
The random ones come from Python's generator with fixed seeds. No access to data crosses a block of
8 bytes."""

import os
import random

from parts import private

# Each letter is a block. They share one set in every cache of grade; the first has tag 0 in most.
ORDER = "La Lb Sa Lc La Mc Ld Lc La Le Sb Lf Lg Lh Li La Sd Lj Lb Mk Lc Le Lh Lj"
APART = 1 << 16
SIZES = (1, 2, 4, 8)


def line(kind, address, size):
    """An access as lackey writes it."""
    return f"I  {address:08x},{size}\n" if kind == "I" else f" {kind} {address:08x},{size}\n"


def at_random(seed, count, bases):
    """Loads, stores and modifies, half of them at a recent address, and a fetch before every tenth
    or so. Of Python's generator only random() is used, which it promises never to change."""
    draw = random.Random(seed).random
    recent = []

    def one_of(choices):
        return choices[int(draw() * len(choices))]

    for _ in range(count):
        if draw() < 0.1:
            yield line("I", 0x401000 + 16 * one_of(range(64)), 11)  # a size of two digits
        if recent and draw() < 0.55:
            address = one_of(recent[-6:])
        else:
            address = (one_of(bases)
                       + one_of((0, 0, 1, 2, 3, 5)) * one_of((8, 16, 32, 64, 1024, 4096)))
        recent.append(address)
        size = one_of(SIZES)
        yield line(one_of("LLLLLSSSMM"), address + size * one_of(range(8 // size)), size)


def transposed(edge, source=0x4A9000, target=0x4A8000, side=32):
    """A matrix of numbers of 4 bytes, transposed in blocks of so many rows and columns."""
    starts = range(0, side, edge)
    for row, column in ((row, column) for row in starts for column in starts):
        for i, j in ((i, j) for i in range(row, row + edge) for j in range(column, column + edge)):
            yield line("L", source + 4 * (side * i + j), 4)
            yield line("S", target + 4 * (side * j + i), 4)


def traces():
    yield "order", (line(kind, 0x10 + APART * (ord(block) - ord("a")), 4)
                    for kind, block in ORDER.split())
    yield "mixed", at_random(1, 600, (0x10000, 0x14000, 0x18000))
    yield "wide", at_random(2, 300, (0x10000, 0x7F0000010000, 0x7E0000010000, 0xFFFF7F0000010000))
    yield "rows", transposed(32)
    yield "blocks", transposed(8)
    yield "long", at_random(3, 70000, (0x10000, 0x14000, 0x18000, 0x1C000))


def write(folder):
    """Writes them to a folder, and returns their names."""
    names = []
    for name, lines in traces():
        names.append(f"{name}.trace")
        with open(os.path.join(folder, names[-1]), "w", encoding="ascii") as file:
            file.writelines(lines)
    return names


def in_folder(named, folder):
    """The traces that are judged by, each as its place in a private folder and its name: those that
    are named, or the six."""
    if not named:
        return [(os.path.join(folder, name), name) for name in write(folder)]
    places = []
    for number, trace in enumerate(named):
        own = os.path.join(folder, f"given.{number}")
        os.mkdir(own)
        places.append(os.path.join(own, os.path.basename(trace)))
        private.copy(trace, places[-1])
    return list(zip(places, named))
