"""What the tests of the tools share: folders, runs of a tool, and the packages that are needed."""

import collections
import contextlib
import ctypes
import importlib
import importlib.machinery
import importlib.util
import os
import pathlib
import shutil
import signal
import subprocess
import sys
import tempfile
import time
import unittest

TOP = pathlib.Path(__file__).resolve().parent.parent.parent
# tests/try-tests puts stand-ins in their place
TOOLS = pathlib.Path(os.environ.get("CACHESIM_TOOLS") or TOP / "tools")
PACKAGING = TOP / "package"
EXAMPLES = TOP / "examples"
PROGRAM = pathlib.Path(os.environ.get("CACHESIM") or TOP / "crates/cachesim/out/cachesim").resolve()

# Debian's packages, each with a file or command that shows that it is there
PACKAGES = {
    "bash-completion": "/usr/share/bash-completion/bash_completion",
    "binutils": "addr2line",
    "bubblewrap": "bwrap",
    "debhelper": "dh",
    "gcc-aarch64-linux-gnu": "aarch64-linux-gnu-gcc",
    "libc6-dev-arm64-cross": "/usr/aarch64-linux-gnu/include/stdio.h",
    "llvm": "llvm-addr2line",
    "man-db": "man",
    "miller": "mlr",
    "munge": "munged",
    "poppler-utils": "pdftotext",
    "python3-matplotlib": "/usr/lib/python3/dist-packages/matplotlib",
    "python3-pandas": "/usr/lib/python3/dist-packages/pandas",
    "python3-plotly": "/usr/lib/python3/dist-packages/plotly",
    "qemu-user": "qemu-x86_64",
    "slurm-client": "sbatch",
    "slurm-wlm": "slurmctld",
    "texlive-pictures": "/usr/share/texlive/texmf-dist/tex/latex/pgf/basiclayer/pgf.sty",
    "xz-utils": "xz",
    **{name: name for name in (
        "chromium fish flake8 g++ gcc lintian lowdown parallel pv rustc shellcheck valgrind "
        "zsh zstd").split()},
}
# a C compiler for another machine, and its library
CROSS = "gcc-aarch64-linux-gnu", "libc6-dev-arm64-cross"
# set by the runner where tests that need a package are left out
PLAIN = bool(os.environ.get("CACHESIM_PLAIN_TESTS"))


HANDOUT = TOP / "tests/cases/inputs/handout.lackey"  # yi.trace of the cache lab
SPACE = "--bsize 16 --sets 1-4 --assoc 1-2 --size 64".split()
CACHE = "-l1-dsize 128 -l1-dbsize 16 -l1-dassoc 2".split()
# the words of each tool that reads a din trace, which is INPUT
OVER_A_TRACE = {
    **{tool: ["INPUT", *CACHE] for tool in ("by-line", "by-page", "prefetch", "second-level")},
    **{tool: ["INPUT", *SPACE] for tool in ("optimal", "three-c")},
    "any-index": ["INPUT", *"--bsize 16 --sets 3 --assoc 1-2".split()],
    "din-table": ["2", "INPUT", *CACHE[:2], "-l1-dbsize", "16,32"],
    "over-time": ["INPUT", *CACHE, "--each", "50"],
    "sweep-parallel": ["2", "INPUT", *SPACE], "warm": ["9", "INPUT", *SPACE],
}
# those whose output is a trace: after a fault its last line is one that no simulator takes
WRITES_A_TRACE = "lab/lab-trace", "second-level", "to-din", "trace"

# the model of the program, which shares nothing with it
sys.path.append(str(TOP / "tests"))
model = importlib.import_module("model")


def script(name):
    """A script of tests/ as a module."""
    loader = importlib.machinery.SourceFileLoader(name.replace("-", "_"), str(TOP / "tests" / name))
    module = importlib.util.module_from_spec(importlib.util.spec_from_loader(loader.name, loader))
    loader.exec_module(module)
    return module


# stand-ins for the tools do nothing, and nothing comes of them later
SECONDS = 1 if os.environ.get("CACHESIM_TOOLS") else 60


def comes(condition, seconds=SECONDS):
    """Whether a condition comes true within some time, if only for a moment."""
    until = time.monotonic() + seconds
    while not (is_true := bool(condition())) and time.monotonic() < until:
        time.sleep(0.001)
    return is_true


PR_SET_CHILD_SUBREAPER = 36


def adopt_orphans():
    """Has what this process's children leave behind become its own, so that no test looks at any
    process but those that it started."""
    ctypes.CDLL(None).prctl(PR_SET_CHILD_SUBREAPER, 1, 0, 0, 0)


adopt_orphans()


def children(process):
    """The processes that one has started, if it is still there."""
    with contextlib.suppress(OSError):
        lists = pathlib.Path(f"/proc/{process}/task").glob("*/children")
        return [int(number) for path in lists for number in path.read_text().split()]
    return []


def all_processes(*names, by="self"):
    """Of each process that this one has started, and of theirs, its number, and some files of
    /proc/NUMBER; none of one that just ended."""
    for number in children(by):
        with contextlib.suppress(OSError):
            yield number, *(pathlib.Path(f"/proc/{number}/{name}").read_bytes() for name in names)
        yield from all_processes(*names, by=number)


def processes(group):
    """What runs in a group of processes."""
    parted = (stat.decode().rpartition(")") for _, stat in all_processes("stat"))
    states = ((name, *rest.split()[:3]) for name, _, rest in parted)
    return [name for name, state, _, its in states if its == str(group) and state != "Z"]


def catches(process, number):
    """Whether a process catches a signal."""
    with contextlib.suppress(OSError), open(f"/proc/{process}/status", encoding="ascii") as file:
        caught = next(line for line in file if line.startswith("SigCgt:"))
        return bool(int(caught.split()[1], 16) >> (number - 1) & 1)
    return False


@contextlib.contextmanager
def ended(process):
    """A process that is ended in any case at the end; nobody waits for what it started."""
    try:
        yield process
    finally:
        process.kill()
        process.wait()
        for stream in filter(None, (process.stdin, process.stdout, process.stderr)):
            with contextlib.suppress(BrokenPipeError):
                stream.close()


def references(text, format="d", kind="u"):
    """The references of a trace's text, with model.FLUSH for each flush, as the model reads it."""
    entries, fault = model.read(format, text)
    if fault:
        raise fault
    return model.events_of(entries, kind)


def rows_of(references, misses):
    """Rows of a table, for caches that are full at the end, by block size, sets and ways."""
    return "".join(
        f"{bsize},{sets},{ways},{bsize * sets * ways},{references - missed},{missed},"
        f"{missed - sets * ways}\n"
        for (bsize, sets, ways), missed in misses.items()
    )


class Lru:
    """A cache that replaces the least recently used block: a set is a list, the latest last."""

    def __init__(self, bsize, sets, assoc):
        self.bsize, self.assoc = bsize, assoc
        self.sets = [[] for _ in range(sets)]
        self.went = collections.Counter()

    def place(self, block):
        """The number of its set."""
        return block % len(self.sets)

    def access(self, address):
        block = address // self.bsize
        held = self.sets[self.place(block)]
        outcome = "hit" if block in held else "miss" if len(held) < self.assoc else "miss eviction"
        if outcome == "hit":
            held.remove(block)
        elif outcome == "miss eviction":
            held.pop(0)
        held.append(block)
        self.went[outcome] += 1
        return outcome

    def flush(self):
        self.sets = [[] for _ in self.sets]

    def take(self, event):
        """A reference or a flush of the model."""
        self.flush() if event is model.FLUSH else self.access(event.addr)

    @property
    def counts(self):
        """Hits, misses and evictions, as in a row of a table."""
        evictions = self.went["miss eviction"]
        return self.went["hit"], self.went["miss"] + evictions, evictions


def cache(size, bsize, *more, place="l1-d"):
    """Options of din for a cache."""
    return f"-{place}size", size, f"-{place}bsize", bsize, *more


def copy_tools(to, *tools):
    """Copies tools to another folder, with the parts of all tools, but nothing compiled."""
    shutil.copytree(TOOLS / "lib", to / "lib", ignore=shutil.ignore_patterns("__pycache__"))
    for tool in ("Makefile", *tools):
        shutil.copy(TOOLS / tool, to)


def copy_scripts(top, *names):
    """Copies scripts of tests/, and what they import, to the top of another repository."""
    (top / "tests").mkdir(parents=True, exist_ok=True)
    for name in names:
        shutil.copy(TOP / "tests" / name, top / "tests")


def is_there(package):
    shown_by = PACKAGES[package]
    if shown_by.startswith("/"):
        return os.path.exists(shown_by)
    return shutil.which(shown_by, path=os.environ["PATH"] + ":/usr/sbin") is not None


def needs(*packages):
    """Marks a test, or a class of tests, that needs Debian's packages: left out of the plain tests,
    and else a failure that names them."""

    def marked(test):
        missing = [package for package in packages if not is_there(package)]
        if PLAIN:
            return unittest.skip("needs " + " ".join(packages))(test)
        if not missing:
            return test

        def fails(self):
            self.fail("missing: apt-get install " + " ".join(missing))

        if isinstance(test, type):
            for name in [name for name in dir(test) if name.startswith("test")]:
                setattr(test, name, fails)
            test.setUpClass = test.tearDownClass = classmethod(lambda cls: None)
            return test
        return fails

    return marked


# lines of Python whose `stop`, in a thread, has it get a signal a little later
STOPPED_SOON = (
    "import signal, threading, time", "def stop():", "    time.sleep(0.3)",
    "    signal.pthread_kill(threading.get_ident(), signal.SIGTERM)")


class ToolTest(unittest.TestCase):
    """A test with a folder of its own, `self.folder`, in which the tools are run."""

    maxDiff = 4000

    def setUp(self):
        self.folder = pathlib.Path(tempfile.mkdtemp(prefix="cachesim-test-"))
        self.addCleanup(shutil.rmtree, self.folder, ignore_errors=True)

    def in_folder(self, **more):
        """Where a command runs and what it knows: the program is on its path."""
        path = f"{PROGRAM.parent}:{os.environ['PATH']}"
        env = {**os.environ, "CACHESIM": str(PROGRAM), "PATH": path, **more}
        return {"cwd": self.folder, "env": env}

    def run_command(self, *arguments, stdin=b"", env=None, seconds=120):
        """Runs a command with the program on its path. What it wrote comes as bytes."""
        arguments, given = [str(word) for word in arguments], self.in_folder(**(env or {}))
        return subprocess.run(arguments, input=stdin, capture_output=True, timeout=seconds, **given)

    def run_tool(self, tool, *arguments, **given):
        """Runs a tool of tools/."""
        return self.run_command(TOOLS / tool, *arguments, **given)

    def run_python(self, *lines, folder=TOOLS, **given):
        """Runs lines of Python for which the modules of a folder are there."""
        text = "\n".join(("import sys", f"sys.path.insert(0, {str(folder)!r})", *lines))
        return self.run_command(sys.executable, "-B", "-c", text, seconds=40, **given)

    def on_full_device(self, tool, *arguments, told="write failed"):
        """Runs a tool whose output has no room, which it must tell."""
        given = {"stderr": subprocess.PIPE, "timeout": 120, **self.in_folder()}
        with open("/dev/full", "wb") as full:
            ran = subprocess.run([TOOLS / tool, *arguments], stdout=full, **given)
        told = f"{tool}: standard output: {told}\n"
        self.assertEqual((ran.stderr.decode(), ran.returncode), (told, 1))

    def end_of(self, running):
        """What a process with its own group has written. One that goes on is ended with it."""
        try:
            return running.communicate(timeout=SECONDS)
        except subprocess.TimeoutExpired:
            os.killpg(running.pid, signal.SIGKILL)
            self.fail(f"{running.args}: it doesn't end")

    def write(self, name, text):
        """Writes a file, in the test's folder if it is not elsewhere."""
        path = self.folder / name
        path.write_bytes(text if isinstance(text, bytes) else text.encode())
        return path

    def executable(self, name, *lines):
        """The same of a script for bash, whose folder is made too."""
        (self.folder / name).parent.mkdir(exist_ok=True)
        path = self.write(name, "\n".join(["#!/bin/bash", *lines, ""]))
        path.chmod(0o755)
        return path

    def stand_in(self, command, *lines):
        """Puts a script for bash instead of a command. Returns the path to be searched."""
        folder = self.executable(f"stand-ins/{command}", *lines).parent
        return {"PATH": f"{folder}:{PROGRAM.parent}:{os.environ['PATH']}"}

    def few_commands(self, *names):
        """A folder with these commands alone, which may get more."""
        folder = self.folder / "few"
        folder.mkdir(exist_ok=True)
        for name in names:
            (folder / name).symlink_to(shutil.which(name))
        return folder

    def packed(self, trace):
        """Puts a trace into the folder, packed by xz and by zstd."""
        (self.folder / "t.xz").write_bytes(self.run_command("xz", "-c", trace).stdout)
        (self.folder / "t.zst").write_bytes(self.run_command("zstd", "-qc", trace).stdout)
        return "t.xz", "t.zst"

    def good(self, ran):
        """What a run wrote to standard output, as text; it ended well and without a message."""
        self.assertEqual((ran.stderr.decode(errors="replace"), ran.returncode), ("", 0))
        return ran.stdout.decode()

    def same(self, got, expected):
        """Compares long lists, and shows the first difference alone: all could take minutes."""
        if got != expected:
            pairs, least = enumerate(zip(got, expected)), min(len(got), len(expected))
            at = next((at for at, (one, other) in pairs if one != other), least)
            has, wanted, lines = got[at:at + 3], expected[at:at + 3], len(expected)
            self.fail(f"{len(got)} lines for {lines}; from {at + 1} on {has}, wanted {wanted}")

    def ends(self, ran, status, message, output=""):
        """A run that must end with this status, this message and this output."""
        got = ran.returncode, ran.stderr.decode(), ran.stdout.decode()
        self.assertEqual(got, (status, message, output))

    def refused(self, ran, status, *texts):
        """A run that must end with this status, one message that has these texts, and no output."""
        message = ran.stderr.decode(errors="replace")
        self.assertEqual((ran.returncode, ran.stdout), (status, b""), message)
        for text in texts:
            self.assertIn(text, message)

    def sweep(self, *arguments, stdin=b""):
        """The table of a sweep by the program itself."""
        return self.good(self.run_command(PROGRAM, "sweep", *arguments, stdin=stdin))
