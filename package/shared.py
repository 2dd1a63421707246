"""What the scripts here share: the tools, what all say with --help, and the versions."""

import datetime
import os
import pathlib
import re
import subprocess
import sys

TOP = pathlib.Path(__file__).resolve().parents[1]
sys.path.insert(1, str(TOP / "tools"))
from lib import tool  # noqa: E402

# the words that a first argument may be, in a help: the program's commands, or a tool's formats
FIRST = re.compile(r"^(?:Commands:\n|\w+ is one of those below.*?\n\n)(.*?)\n\n", re.M | re.S)
WORD = re.compile(r"^ {2}(\w+) {2,}(.*)", re.M)
ENTRY = re.compile(r"^## (\d+\.\d+\.\d+) \((\d{4}-\d\d-\d\d)\)\n", re.M)


def said(*command, text=""):
    """What a command writes, which must end well."""
    # argparse makes its lines as long as the terminal
    known = {**os.environ, "COLUMNS": "100", "LC_ALL": "C.UTF-8"}
    try:
        return subprocess.run(command, input=text, capture_output=True, encoding="utf-8",
                              timeout=60, check=True, env=known).stdout
    except (OSError, subprocess.SubprocessError) as fault:
        return tool.fail(str(fault))


def tools():
    """The tools that are commands where they are installed: of each name its path below tools/."""
    top = TOP / "tools"
    paths = [path for folder in (top, top / "lab") for path in folder.iterdir()
             if path.is_file() and os.access(path, os.X_OK)]
    return {path.name: path.relative_to(top) for path in sorted(paths, key=lambda path: path.name)}


def words_in(text):
    """The words that a command's first argument may be, each with its meaning, by its help."""
    found = FIRST.search(text)
    return WORD.findall(found[1]) if found else []


def changes():
    """The version, the day and the text of each entry of CHANGELOG.md, the latest first."""
    head, *parts = ENTRY.split((TOP / "CHANGELOG.md").read_text(encoding="utf-8"))
    if not parts or re.search("^## ", head, re.M):
        tool.fail("the top entry of CHANGELOG.md is not as '## 1.0.0 (2026-11-23)'")
    days = (datetime.datetime.fromisoformat(f"{day}T00:00:00+00:00") for day in parts[1::3])
    return list(zip(parts[::3], days, parts[2::3]))
