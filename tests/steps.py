"""Runs of commands whose last line is a sum, for all and check."""

import re
import subprocess

import common

SUM = re.compile(r"(\d+) passed, (\d+) failed")


def shown(command, folder=common.TOP):
    """Runs a command, showing what it writes, and answers its lines and its status."""
    lines = []
    try:
        text = {"text": True, "errors": "replace"}
        streams = {"stdin": subprocess.DEVNULL, "stdout": subprocess.PIPE}
        with subprocess.Popen(command, cwd=folder, **streams, **text) as ran:
            for line in ran.stdout:
                print(line, end="", flush=True)
                lines.append(line.strip())
        return lines, ran.returncode
    except OSError as fault:
        print(f"{command[0]}: {fault.strerror}")
        return lines, 2


def sum_of(command, lines, status):
    """The sum in which the lines of a command end. Without one, or with one that names no failure
    where the command failed, one failure is counted."""
    found = SUM.fullmatch(next(filter(None, reversed(lines)), ""))
    passed, failed = (int(found.group(1)), int(found.group(2))) if found else (0, 0)
    if not found or status and not failed:
        wrong = f"FAILED: {' '.join(command)} ended with status {status}"
        print(wrong if found else f"{wrong} and no sum")
        failed += 1
    return passed, failed


def judged(*command):
    """Runs a command that ends in a sum, and answers the sum."""
    return sum_of(command, *shown(command))
