"""The C parts of tools, which make compiles at their first use."""

import contextlib
import os
import signal
import sys

from lib import tool
from lib.processes import Group, Helper


class Make(Helper):
    """make with its compiler, which a signal to the tool ends."""

    def strike(self):
        os.killpg(self.number, signal.SIGTERM)


def compiled(name):
    """The path of a part, out/NAME, compiled where it may be older than its source."""
    binary = f"{tool.HERE}/out/{name}"
    times = [os.path.getmtime(os.path.join(folder, file))
             for folder, _, files in os.walk(f"{tool.HERE}/lib")
             for file in files if file.endswith((".c", ".h"))]
    # where the tools are installed, there is no source
    if not times or os.path.exists(binary) and os.path.getmtime(binary) > max(times):
        return binary
    try:
        os.makedirs(f"{tool.HERE}/out", exist_ok=True)
        can_write = os.access(f"{tool.HERE}/out", os.W_OK)
    except OSError:
        can_write = False
    if not can_write:
        tool.fail(f"{tool.HERE}/out can't be written: 'make tools' compiles the C parts, by "
                  "someone who may write there")
    make(f"out/{name}")
    with contextlib.suppress(OSError):  # it is another user's
        os.utime(binary)  # make leaves it where only sources of other parts are newer
    return binary


def make(target):
    """Has make do its work. What it says is shown where it fails."""
    tool.needs("make", "make")
    of_make = "MAKEFLAGS", "MFLAGS", "MAKELEVEL"  # of a make that runs the tool
    env = {name: os.environ[name] for name in os.environ if name not in of_make}
    with Group() as group:
        words = ["make", "-s", "-C", tool.HERE, target]
        maker = group.start(Make, words, env=env, setpgroup=0)
        maker.wait()
    if maker.code:
        told = [line for line in maker.told.split("\n") if not line.startswith("make: ")]
        is_missing = told and " is missing: apt-get install " in told[-1]
        if told and not is_missing:
            print("\n".join(told), file=sys.stderr)
        tool.fail(told[-1] if is_missing else f"{tool.HERE}/{target} can't be compiled")
