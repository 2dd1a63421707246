"""The code blocks of a document, and runs of the commands in them, for `run` and for the tests of
the documents.

A code block, indented or fenced, is one of these:

    a session          some lines begin with '$ '. Each is a command, with the lines that a
                       backslash, a pipe or << 'WORD' at a line's end joins to it; what follows up
                       to the next '$ ' is all that it writes. '...' alone on a line stands for any
                       lines.
    a script           its first word is a command
    anything else      a piece of a file, or of a table

A block behind a comment '<!-- not run: WHY -->' is not run.
"""

import difflib
import os
import re
import signal
import subprocess
from typing import NamedTuple

SECONDS = 120
NOT_RUN = re.compile(r"<!-- not run: (\S.*) -->")
COMMANDS = (
    "cachesim|tools/|tests/|examples/|make|rt|bash|python3|apt-get|git|valgrind|mlr|sbatch"
    "|export|set|for|time|sort|tail|head|printf"
)
SCRIPT = re.compile(rf"^(\w+=\S* )*({COMMANDS})")
HERE_DOCUMENT = re.compile(r"<< '(\w+)'$")


class Command(NamedTuple):
    """A command of a session, with its line's number and the lines that it must write."""

    number: int
    text: str
    wanted: list


class Block:
    """A code block: where it begins, its lines, and why it is not run."""

    def __init__(self, number, reason):
        self.number, self.reason, self.lines = number, reason, []

    @property
    def is_session(self):
        return any(line.startswith("$ ") for line in self.lines)

    @property
    def is_script(self):
        return not self.is_session and bool(SCRIPT.match(self.lines[0]))

    def commands(self):
        """The commands of a session."""
        found, is_open, word = [], False, None
        for number, line in enumerate(self.lines, self.number):
            if is_open or word:
                found[-1] = found[-1]._replace(text=f"{found[-1].text}\n{line}")
                word = None if line == word else word
            elif line.startswith("$ "):
                found.append(Command(number, line[2:], []))
                here = HERE_DOCUMENT.search(line)
                word = here.group(1) if here else None
            elif found:
                found[-1].wanted.append(line)
            may_go_on = bool(found) and not found[-1].wanted and not word
            is_open = may_go_on and line.endswith(("\\", "|"))
        return found


def blocks_of(text):
    """The code blocks of a document, without empty lines at their ends."""
    blocks, current, is_fenced, reason = [], None, False, None
    for number, line in enumerate(text.split("\n"), 1):
        if line.startswith("```"):
            is_fenced, current = not is_fenced, None
        elif is_fenced or line.startswith("    ") and line.strip():
            if current is None:
                current, reason = Block(number, reason), None
                blocks.append(current)
            current.lines.append(line if is_fenced else line[4:])
        elif line.strip():
            current = None
            said = NOT_RUN.fullmatch(line.strip())
            reason = said.group(1) if said else None
        elif current is not None:
            current.lines.append("")
    for block in blocks:
        while not block.lines[-1]:
            block.lines.pop()
    return blocks


def run(script, folder, **known):
    """What bash writes of a script, both streams, and its status. One that takes too long is ended
    with all that it started."""
    given = {"cwd": folder, "env": {**os.environ, **known}, "start_new_session": True}
    streams = {"stdin": subprocess.DEVNULL, "stdout": subprocess.PIPE, "stderr": subprocess.STDOUT}
    with subprocess.Popen(["bash", "-c", script], **given, **streams) as ran:
        try:
            wrote = ran.communicate(timeout=SECONDS)[0]
        except subprocess.TimeoutExpired:
            os.killpg(ran.pid, signal.SIGKILL)
            wrote = ran.communicate()[0].decode(errors="replace")
            return f"{wrote}not done after {SECONDS} seconds\n", 124
    return wrote.decode(errors="replace"), ran.returncode


def matches(wanted, got):
    """Whether lines are the wanted ones, where '...' stands for any."""
    pattern = "".join(r"(?:.*\n)*?" if line == "..." else re.escape(line + "\n") for line in wanted)
    return re.fullmatch(pattern, "".join(line + "\n" for line in got)) is not None


def differences(command, wrote):
    """The command of a session and how its text differs, in lines; none where it is as wanted."""
    lines = wrote.splitlines()
    if matches(command.wanted, lines):
        return []
    names = "document", "run"
    lines = difflib.unified_diff(command.wanted, lines, *names, lineterm="")
    return [f"$ {command.text}", *lines]
