"""What the scripts of this folder share: arguments, runs of the program, sums of what passed."""

import argparse
import collections
import contextlib
import hashlib
import os
import pathlib
import re
import resource
import shlex
import shutil
import subprocess
import sys
import tempfile

TOP = pathlib.Path(__file__).resolve().parent.parent
PROGRAM = TOP / "crates/cachesim/out/cachesim"
RT = os.environ.get("RT", "rt")
# how many cases each script of the gate runs, their names, and what its last run had
SUMS, NAMES, LEFT = TOP / "tests/sums", TOP / "tests/names", TOP / "out/sums"
# of what differs in one thing, so many lines are shown
SHOWN = 20
# a definition of a specification: a record or data type, or another name
DEFINITION = re.compile(r"^(?:(?:abbrev|unfoldable|pub) )*(?:(?:record|data) (\w+)|(\w+) :)", re.M)


class Arguments(argparse.ArgumentParser):
    """The arguments of a script, whose help is its own text: the second paragraph shows the call. A
    fault of them is one line."""

    def __init__(self, text):
        super().__init__()
        self.text = text

    def format_help(self):
        return self.text

    def error(self, message):
        self.exit(2, f"{self.prog}: {message}; '{self.prog} --help' explains the arguments\n")

    def of_program(self):
        """The arguments with --program, which gets the path of a program that can be run: without
        it the proved one."""
        self.add_argument("--program", type=pathlib.Path)
        asked = self.parse_args()
        path = asked.program or PROGRAM
        if not (path.is_file() and os.access(path, os.X_OK)):
            print(f"no program {path}: make builds it\n0 passed, 1 failed")
            sys.exit(1)
        if changed := not asked.program and changed_since(path):
            older, newer = path.relative_to(TOP), changed.relative_to(TOP)
            print(f"{older} is older than {newer}: make builds it anew", flush=True)
        asked.program = str(path.resolve())
        return asked


def is_worked(path):
    """Whether it is of a crate of which nothing is built: of tests alone, or the proved callers."""
    return any(part == "callers" or part.startswith("worked_") for part in path.parts)


def changed_since(program):
    """A file of the code or the definitions of the program that changed after it, or None."""
    built = program.stat().st_mtime
    files = (path for path in sorted(TOP.glob("crates/*/s*/**/*.*t")) if not is_worked(path))
    return next((path for path in files if path.stat().st_mtime > built), None)


def several_of(known):
    """Reads one or more of these words, joined by commas."""

    def read(text):
        if not set(text.split(",")) <= set(known):
            raise argparse.ArgumentTypeError(f"{text!r} is not one or more of {','.join(known)}")
        return text.split(",")

    return read


def needs(command, package):
    """Ends the script where a command is missing, naming Debian's package."""
    if not shutil.which(command):
        print(f"{command} is missing: apt-get install {package}\n0 passed, 1 failed")
        sys.exit(1)


class Sum:
    """Counts what passes and what fails."""

    def __init__(self):
        self.passed = self.failed = 0
        self.names = []

    def add(self, passed, failed):
        self.passed, self.failed = self.passed + passed, self.failed + failed

    def judge(self, name, good, seen="", measured="", is_shown=True):
        """Counts a test and shows it, with what was measured, and with what was seen where it
        failed. The name is the same in each run; a test that is not shown is, where it failed."""
        self.add(bool(good), not good)
        self.names.append(name)
        told = f"{name}: {measured}" if measured else name
        if is_shown or not good:
            print(f"ok {told}" if good else f"FAILED {told}: {seen}", flush=True)

    def equal(self, name, got, wanted, **given):
        self.judge(name, got == wanted, f"wanted {wanted}, got {got}", **given)

    def leave(self, script, count):
        """How many cases a script has run, and under which names, as tests/sums and tests/names
        have it. It is left in out/sums for tests/ledger --write."""
        names = sorted(collections.Counter(self.names).items())
        ran = [f"{count} cases", *(f"{name} ({n} times)" if n > 1 else name for name, n in names)]
        lines = [f"tests/{script}: {it}" for it in ran]
        with contextlib.suppress(OSError):
            LEFT.mkdir(parents=True, exist_ok=True)
            (LEFT / script).write_text("".join(f"{line}\n" for line in lines))
        return lines

    def keep(self, script, count):
        """Compares what a script has run with what is kept of it: a case that is lost fails."""
        kept = [*lines_of(SUMS), *lines_of(NAMES)]
        own = [line for line in kept if begin_of(line) == f"tests/{script}"]
        self.compare_kept(own, self.leave(script, count))

    def compare_kept(self, kept, lines):
        """Compares lines with those that are kept: for what begins in the same way, says what was
        and what is, and how it is renewed."""
        for begin, (was, now) in changes(kept, lines).items():
            told = [f"after a look, tests/ledger --write {shlex.quote(begin)} keeps what is"]
            for word, ones in ("was", was), ("is", now):
                said = [line.removeprefix(f"{begin}: ") for line in ones] or ["nothing"]
                more = [f"and {len(said) - SHOWN} more"] if len(said) > SHOWN else []
                told += [f"    {word}: {it}" for it in said[:SHOWN] + more]
            self.judge(begin, False, "\n".join(told))

    def end(self, script=None):
        """Prints the last line, and returns the exit status: 1 also where nothing was tested. A
        script that has run all its cases gives its name, and how many they were is compared."""
        if not self.passed + self.failed:
            print("FAILED: nothing was tested")
            self.failed = 1
        elif script and not self.failed:
            self.keep(script, self.passed)
        print(f"{self.passed} passed, {self.failed} failed")
        return 1 if self.failed else 0


def lines_of(path):
    return path.read_text().splitlines() if path.exists() else []


def begin_of(line):
    """What a kept line is about."""
    return line.partition(": ")[0]


def changes(kept, lines):
    """By how lines begin, those that are kept and are no more, and those that are new."""
    found, before, after = {}, set(kept), set(lines)
    for at, ones, others in ((0, kept, after), (1, lines, before)):
        for line in ones:
            if line not in others:
                found.setdefault(begin_of(line), ([], []))[at].append(line)
    return found


def sum_of(text):
    """A sum of a text that another text doesn't have."""
    return hashlib.sha256(text.encode()).hexdigest()[:16]


def run(program, arguments, **given):
    """What a run writes to standard output and to standard error, and its status: a number, which
    no run has that was ended by a signal, and none if it takes too long."""
    stdin = {} if "input" in given else {"stdin": subprocess.DEVNULL}
    streams = {"stdout": subprocess.PIPE, "stderr": subprocess.PIPE}
    given = {**streams, **stdin, "timeout": 120, **given}
    try:
        ran = subprocess.run([program, *arguments], **given)
    except subprocess.TimeoutExpired:
        return b"", b"not done after %d seconds" % given["timeout"], None
    ended = ran.returncode if ran.returncode >= 0 else f"signal {-ran.returncode}"
    return ran.stdout or b"", ran.stderr, ended


def timed(command, **given):
    """A run of a command that must end well, and the seconds of the processor that it took."""
    before = resource.getrusage(resource.RUSAGE_CHILDREN)
    ran = subprocess.run(command, check=True, **given)
    after = resource.getrusage(resource.RUSAGE_CHILDREN)
    return ran, after.ru_utime + after.ru_stime - before.ru_utime - before.ru_stime


@contextlib.contextmanager
def preloads():
    """Gives the variables that put preload.c into a program, given those that it reads."""
    needs("cc", "gcc")
    with tempfile.TemporaryDirectory(prefix="cachesim-preload-") as folder:
        library = pathlib.Path(folder, "preload.so")
        compiler = ["cc", "-O2", "-shared", "-fPIC", "-o", library]
        subprocess.run([*compiler, TOP / "tests/preload.c"], check=True)
        yield lambda **given: {"LD_PRELOAD": str(library)} | {key: f"{given[key]}" for key in given}
