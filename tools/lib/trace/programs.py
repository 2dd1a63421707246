"""The program that `trace` runs: its file, or that of a script's interpreter, and its machine."""

import os
import re
import shutil
from collections import namedtuple

from lib import regular, tool

ABSENT, CANNOT_RUN = 127, 126
# QEMU's names, by the class and the number of the machine in an ELF file
MACHINES = {(2, 62): "x86_64", (1, 3): "i386", (2, 183): "aarch64", (1, 40): "arm",
            (2, 243): "riscv64"}
# A file, its machine, and the words that it gets: its name and its arguments. Where it is an
# interpreter, the first of `files` is a script, and others may be.
Program = namedtuple("Program", "path files machine words")


def no_program(status, text):
    tool.end(f"{tool.NAME}: {tool.visible(text)}", status)


def found(name, script=""):
    """The file of a program, or of a script's interpreter."""
    called = f"{name}, the interpreter of {script}," if script else name
    path = name if "/" in name else shutil.which(name)
    if path is None or not os.path.exists(path):
        no_program(ABSENT, f"{called} is not found")
    path = f"./{path}" if path.startswith("-") else path
    if not os.path.isfile(path) or not os.access(path, os.X_OK | os.R_OK):
        no_program(CANNOT_RUN,
                   f"{called} can't be run: it must be a file that may be read and executed")
    return path


def beginning(path):
    """The first line of a file, as far as it can have an ELF file's kind or an interpreter."""
    with tool.faults_of(path), regular.opened(path) as file:
        return file.read(4096)


def machine_of(path, head):
    """QEMU's name for what an ELF program is for, None for a script."""
    if head[:2] == b"#!":
        return None
    if head[:4] != b"\x7fELF":
        no_program(CANNOT_RUN,
                   f"{path} can't be run: it is neither an ELF program nor a script with '#!'")
    little = head[5:6] == b"\1"
    kind = head[4:5], int.from_bytes(head[18:20], "little")
    machine = MACHINES.get((kind[0][0], kind[1])) if little and len(head) >= 20 else None
    return machine or no_program(
        CANNOT_RUN, f"{path} can't be run: it is for a machine that this tool doesn't know")


def interpreted(script, head, words):
    """The words with which a script's interpreter runs, as the kernel has them. But env is skipped,
    since it would only become the interpreter by exec."""
    line = os.fsdecode(head.partition(b"\n")[0])
    interpreter, *argument = line[2:].split(None, 1) or [""]
    argument = [word.rstrip() for word in argument]
    if interpreter.endswith("/env"):
        if not re.fullmatch(r"[^-=\s][^=\s]*", "".join(argument)):
            wanted = " ".join([interpreter, *argument])
            no_program(CANNOT_RUN, f"{script} can't be run: it wants '{wanted}'. "
                       "Name its interpreter yourself")
        return [*argument, script, *words[1:]]
    return [interpreter, *argument, script, *words[1:]]


def resolve(words):
    """The program that is to run for a name and arguments."""
    files, called = [found(words[0])], words[0]
    for _ in range(5):
        head = beginning(files[-1])
        if machine := machine_of(files[-1], head):
            return Program(files[-1], files, machine, words)
        words = interpreted(files[-1], head, words)
        files.append(found(words[0], files[-1]))
    no_program(CANNOT_RUN, f"{called} can't be run: its interpreter is a script, and so on")
