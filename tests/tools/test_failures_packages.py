"""The tests of test_failures.py for what needs Debian's packages: tools, options, packed traces."""

import os
import shutil
import subprocess

import test_ended
import test_failures
from base import CACHE, OVER_A_TRACE, TOOLS, ToolTest, needs
from lab_base import TRANS
from lib.trace.functions import start_of_code
from test_style import tools
from trace_base import TRACED, program_of, symbols_of

# as those of test_failures.py
RUNS = {
    "by-line": OVER_A_TRACE["by-line"],
    "by-line names": ["lines.din", *CACHE, "--program", "traced", "--callgrind", "counts"],
    "lab/lab-trace": ["./program"],
    "lab/lab-transpose": ["--size", "8x8", "trans.c"],
    "profile": [*CACHE, "--by", "object", "./program", "2:1", "many:100"],
    "plot png": ["table.csv", "a.png"],
    "plot page": ["table.csv", "a.html"],
    "trace from": ["--from", "main", "./traced", "2:1", "2:MAIN", "many:100"],
    "trace lackey": ["--with", "lackey", "--kind", "d", "./program"],
    "trace to": ["--to", "main", "./traced", "2:1", "many:100"],
}
of_packages = needs("binutils", "bubblewrap", "llvm", "python3-matplotlib", "python3-plotly",
                    "valgrind", "xz-utils", "zstd")


class Tools(ToolTest):
    def test_each_is_tried(self):
        """Here, and by signals, except for one that only has a cluster do something."""
        ended = {**test_ended.RUNS, **test_ended.OF_PACKAGES, "cluster/submit": []}
        there = {os.path.relpath(path, TOOLS) for path in tools() if path.startswith(f"{TOOLS}/")}
        for runs, places in (({**test_failures.RUNS, **RUNS}, "test_failures(_packages).py"),
                             (ended, "test_ended.py")):
            told = f"each tool has a run in RUNS of {places}"
            self.assertEqual({tool.split()[0] for tool in runs}, there, told)


class OfPackages(test_failures.FailureTest):
    """What tools need packages for, and what these read."""

    runs, packed = RUNS, ("trace.din.xz", "trace.din.zst")

    @classmethod
    def setUpClass(cls):
        super().setUpClass()
        given = cls.given
        for pack in (["xz", "-k"], ["zstd", "-q"]):
            subprocess.run([*pack, given / "trace.din"], check=True)
        traced = program_of(TRACED / "own_arrays.c", "-g")
        shutil.copy(traced, given / "traced")
        start, size = symbols_of(traced)["first"]
        lines = [f"2 {at:x}\n0 {symbols_of(traced)['first_array'][0]:x}\n"
                 for at in range(start, start + size)]
        (given / "lines.din").write_text("".join(lines))
        cls.main = f"{symbols_of(traced)['main'][0] - start_of_code(traced):x}"
        (given / "trans.c").write_text(TRANS)


@of_packages
class Commands(OfPackages, test_failures.Commands):
    pass


@of_packages
class Surroundings(OfPackages, test_failures.Surroundings):
    pass


@of_packages
class Limits(OfPackages, test_failures.Limits):
    pass
