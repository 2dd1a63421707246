"""A student's program and its runs: each has a private folder and limits, and on request bubblewrap
around it; and what is shown of its words."""

import contextlib
import os
import resource
import shutil
import signal
import subprocess
import time
from collections import namedtuple

from lib import processes
from lib.signals import heed_stops, look_each_second, put_off_stops
from parts import private, tool

LEAST_LIMIT = 64 << 20
TAIL = 1 << 20
# What a confined program sees beside its own folder: enough for any language that Debian packages.
SYSTEM = "/usr /bin /sbin /lib /lib32 /lib64 /libx32 /etc/alternatives /etc/ld.so.cache".split()
PATH = "/usr/local/bin:/usr/bin:/bin"
# has glibc fill memory of malloc, so that who takes it for zeros is found
FILLED = {"MALLOC_PERTURB_": "165"}
# what is changed in a run: memory of malloc comes as it is; or as zeros, and only what is freed is
# filled; or each piece of it has pages of its own, so that a write past its end harms no other
UNFILLED = ["env", "MALLOC_PERTURB_=0"]
ZEROED = ["env", "MALLOC_PERTURB_=255"]
APART = ["env", "GLIBC_TUNABLES=glibc.malloc.mmap_threshold=1"]
# What a run of a student's program left: a file of its output, and its results, or None. The fault
# is empty where it ended well. A run that was killed had no time to flush. Where there was no room
# for what it writes, words say so, and it can't be judged as wrong.
Run = namedtuple("Run", "fault is_slow is_killed output results no_room")


class Case(namedtuple("Case", "cache trace name is_turned", defaults=(False,))):
    """A cache, as '4,2,4', a trace, the name that is shown for the trace, and whether the options
    come in another order than the lab's own."""

    def arguments(self, trace):
        set_bits, lines, block_bits = self.cache.split(",")
        pairs = [("-s", set_bits), ("-E", lines), ("-b", block_bits), ("-t", trace)]
        return [word for pair in pairs[::-1 if self.is_turned else 1] for word in pair]

    def __str__(self):
        return " ".join(self.arguments(self.name))


class Student:
    """A student's program, the folder and time that its runs have, and what stands before it."""

    def __init__(self, program, folder, seconds, around=None):
        self.program, self.folder = without_links(program), folder
        self.around, self.seconds = around or (lambda room: []), seconds
        self.few_seconds, self.slow_runs = min(seconds, max(1, seconds / 10)), 0

    def run(self, case, *flags, by_line=False, changed=()):
        """Runs the program on a case; by line, so that a crash loses none; with what is changed,
        such as UNFILLED. After a run that was too slow there is less time, so that a program
        that hangs costs its time once; one that hangs only with flags keeps its time for runs
        without them."""
        seconds = self.few_seconds if flags and self.slow_runs else self.seconds
        before = [*changed, *["stdbuf", "-oL"] * by_line]
        try:
            with private.temporary(self.folder) as room:
                ran = self.run_in(room, case, [*before, self.program, *flags], seconds)
        except OSError as fault:
            if fault.errno not in private.FULL:
                raise
            return Run("", False, False, os.devnull, None, private.no_room_text(fault))
        if ran.is_slow:
            self.slow_runs += 1
            self.seconds = self.seconds if flags else self.few_seconds
        return ran

    def run_in(self, room, case, words, seconds):
        """Runs some words on a case, for some seconds, in a folder of its own."""
        output, messages = f"{self.folder}/output", f"{self.folder}/messages"
        trace = os.path.join("traces", os.path.basename(case.trace))
        os.mkdir(os.path.join(room, "traces"))
        private.copy(case.trace, os.path.join(room, trace))
        command = [*self.around(room), *words, *case.arguments(trace)]
        limit = max(LEAST_LIMIT, 16 * os.path.getsize(case.trace))
        given = {"cwd": room, "env": environment(room)}
        with open(output, "wb") as out, open(messages, "wb") as err:
            with Limited(command, limit, seconds, stdout=out, stderr=err, **given) as running:
                status = running.status()
        is_slow = status is None
        return Run(fault_of(status, messages, seconds), is_slow, is_slow or is_signal(status),
                   output, results_in(room), private.no_room(self.folder))


class Limited:
    """A run of a program, in a session of its own and with files up to a size. It is ended after
    some seconds, and with this, at a fault and at a signal too, with what it left behind."""

    def __init__(self, command, limit, seconds, **given):
        self.command, self.given = command, {"stdin": subprocess.DEVNULL, **given}
        self.limit, self.seconds, self.is_late = limit, seconds, False

    def bound(self):
        """Bounds the size of files, before the program begins; no core files."""
        heed_stops()
        most = resource.getrlimit(resource.RLIMIT_FSIZE)[1]
        limit = self.limit if most == resource.RLIM_INFINITY else min(self.limit, most)
        resource.setrlimit(resource.RLIMIT_FSIZE, (limit, most))
        resource.setrlimit(resource.RLIMIT_CORE, (0, 0))

    def kill(self):
        """Kills it, and what has left its session: that may hold a pipe which is read."""
        with contextlib.suppress(ProcessLookupError):
            os.killpg(self.process.pid, signal.SIGKILL)
        processes.strike_orphans()

    def look(self, *_):
        """Ends the run where its time is over."""
        if time.monotonic() >= self.until:
            self.is_late = True
            self.kill()

    def __enter__(self):
        processes.adopt_orphans()
        put_off_stops()  # else a signal could come before the process is known
        self.process = subprocess.Popen(self.command, **self.given, start_new_session=True,
                                        preexec_fn=self.bound)
        self.until = time.monotonic() + self.seconds
        look_each_second(self.look, self.seconds % 1 or 1)
        try:
            heed_stops()
        except BaseException:
            self.__exit__()
            raise
        return self

    def __exit__(self, *_):
        look_each_second()
        self.kill()
        self.process.wait()
        if self.process.stdout:
            self.process.stdout.close()
        processes.end_orphans()

    def status(self):
        """The status at its end, or None where its time ran out."""
        # process.wait can keep its lock at a signal
        end = os.waitid(os.P_PID, self.process.pid, os.WEXITED | os.WNOWAIT)
        if self.is_late:
            return None
        return end.si_status if end.si_code == os.CLD_EXITED else -end.si_status


def number_of(status):
    """The number of the signal in a status: bubblewrap and shells tell it by one above 128."""
    return -status if status < 0 else status - 128


def is_signal(status):
    return status < 0 or number_of(status) in list(signal.Signals)


def fault_of(status, messages, seconds):
    """A status in words, with the last message that came before."""
    if not status:
        return "" if status == 0 else f"no end within {seconds:g} s"
    text, last = status_in_words(status), last_line(messages)
    return f"{text}; its last message is '{shown(last)}'" if last else text


def status_in_words(status):
    if not is_signal(status):
        return f"ended with status {status}"
    return f"ended by signal {number_of(status)}: {signal.strsignal(number_of(status))}"


def environment(room):
    """That of a student's program: what it writes for a time goes to its room, and it leads to no
    cachesim but one among the system's programs."""
    folders = os.environ.get("PATH", PATH).split(":")
    kept = [folder for folder in folders if folder in PATH.split(":")
            or not os.access(f"{folder}/cachesim", os.X_OK)]
    own = {name: value for name, value in os.environ.items() if name != "CACHESIM"}
    return {**own, **FILLED, "PATH": ":".join(kept), "TMPDIR": room}


def without_links(program):
    """The absolute path of a program, whose folder is named without symbolic links."""
    folder, name = os.path.split(os.path.abspath(program))
    return os.path.join(os.path.realpath(folder), name)


def is_below(path, *folders):
    """Whether a path is one of the folders, or in one."""
    return any(os.path.commonpath([path, folder]) == folder for folder in folders)


def cachesims(found):
    """Where cachesim is: as found, and those on the path and among the system's programs."""
    folders = [*os.environ.get("PATH", "").split(":"), *PATH.split(":")]
    paths = [found, *(os.path.join(folder, "cachesim") for folder in folders)]
    return sorted({os.path.realpath(path) for path in paths if os.path.exists(path)})


def bubblewrap(program, cachesim):
    """What stands before a confined run, as a function of its room, the only folder that it can
    write to. It reads the system's folders and its own, and finds no cachesim there; it reaches no
    network and no other process, and leaves none behind."""
    own = os.path.dirname(without_links(program))
    begin = ["bwrap", "--unshare-all", "--die-with-parent", "--clearenv"]
    for name, value in {"PATH": PATH, "LANG": "C.UTF-8", **FILLED}.items():
        begin += ["--setenv", name, value]
    for path in filter(os.path.exists, SYSTEM):
        way = ["--symlink", os.readlink(path)] if os.path.islink(path) else ["--ro-bind", path]
        begin += [*way, path]
    begin += ["--dev", "/dev", "--proc", "/proc", "--ro-bind", own, own]
    for path in cachesims(cachesim):
        begin += ["--ro-bind", "/dev/null", path] if is_below(path, own, *SYSTEM) else []
    if is_below(tool.HERE, own, *SYSTEM) and not is_below(own, tool.HERE):
        begin += ["--tmpfs", tool.HERE]  # some tools simulate a cache too
    return lambda room: [*begin, "--bind", room, room, "--chdir", room, "--setenv", "TMPDIR", room,
                         "--remount-ro", "/", "--"]


def confinement(program, cachesim, folder):
    """The same, tried first: where bubblewrap is missing or not allowed, nobody is judged."""
    if not shutil.which("bwrap"):
        tool.fail("bwrap is missing: apt-get install bubblewrap")
    around = bubblewrap(program, cachesim)
    tried = subprocess.run([*around(folder), "true"], stdin=subprocess.DEVNULL,
                           capture_output=True, text=True, check=False)
    if tried.returncode:
        tool.fail(f"bubblewrap doesn't work here: {tried.stderr.strip()}")
    return around


def results_in(room):
    """What .csim_results begins with, or None. A program can leave anything there, a pipe too."""
    flags = os.O_RDONLY | os.O_NOFOLLOW | os.O_NONBLOCK
    with contextlib.suppress(OSError):
        with open(os.open(os.path.join(room, ".csim_results"), flags), "rb") as file:
            return file.read(200)
    return None


def shown(line, most=120):
    """A line of a student's program, in a form that does nothing to a terminal."""
    text = line[:most].decode("utf-8", "backslashreplace").rstrip()
    return tool.visible(text) + ".." * (len(line) > most)


def visible_name(path):
    """The name of a file, in such a form."""
    return tool.visible(os.fsencode(path).decode("utf-8", "backslashreplace"))


def tail_of(path):
    with open(path, "rb") as file:
        file.seek(max(0, os.path.getsize(path) - TAIL))
        return file.read()


def last_line(path):
    """The last line of a file that isn't blank, or nothing."""
    return tail_of(path).rstrip().rpartition(b"\n")[2]
