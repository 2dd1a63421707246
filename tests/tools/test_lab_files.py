"""What the tools for the cache lab read, write, start and leave, by the same rules in all."""

import contextlib
import importlib
import io
import os
import shutil
import signal
import subprocess
import sys
from unittest import mock

from base import catches, ended, needs
from lab_base import LAB, SHORT, STUDENTS, StudentTest, comes, running, traces

private = importlib.import_module("parts.private")
ONE = ["--geometry", "4,1,4"]
# a tool, its words, and a file that it is to write
KEEPS = (
    ("grade", [*ONE, "--keep", "kept", "right"], "kept/wide.trace"),
    ("lab-transpose", ["--size", "8x8", "--keep", "kept", "trans.c"], "kept/8x8-2.trace"),
    ("grade-class", [*ONE, "ann", "bob"], "bob/grade.txt"),
)
# the same, of a file that is read too: its name, and the words, for bash. Those that are only read
# are in test_inputs.py
READ_TOO = (
    ("grade", "kept/order.trace", "--keep kept kept/order.trace"),
    ("grade", "kept/order.trace", "--keep kept right >> kept/order.trace"),
    ("grade", "right", "right short.trace >> right"),
    ("lab-transpose", "kept/8x8-1.trace", "--size 8x8 --keep kept kept/8x8-1.trace"),
    ("lab-transpose", "kept/8x8-1.trace", "--size 8x8 --keep kept trans.c >> kept/8x8-1.trace"),
    ("grade-class", "ann/grade.txt", "--trace ann/grade.txt ann bob"),
    ("grade-class", "bob/grade.txt", "bob ann >> bob/grade.txt"),
    ("grade-class", "bob/grade.txt", "ann bob/ linked"),
)
# a tool that waits, and what it is given; each but replay has a private folder then
WAITING = (
    ("grade", [*ONE, "--seconds", "60", "waits", "short.trace"]),
    ("grade-class", [*ONE, "--seconds", "60", "--trace", "short.trace", "waiting", "ann"]),
    ("lab-transpose", ["--seconds", "60", "waits.c"]),
    ("replay", ["-s", "1", "-E", "1", "-b", "4"]),
)
SIGNALS = (signal.SIGHUP, signal.SIGINT, signal.SIGQUIT, signal.SIGTERM, signal.SIGUSR1,
           signal.SIGUSR2, signal.SIGXCPU, signal.SIGALRM)
PAGE = 4096
PAGES = 64
# runs a tool to which a signal comes as it does one thing, and tells how many threads there are as
# its folder goes
STOPPED = '''
import os, runpy, signal, sys, threading
del sys.argv[0]
sys.path.insert(0, os.path.dirname(sys.argv[0]))
from parts import private

def told(folder):
    print(threading.active_count(), file=sys.stderr)
    remove(folder)

def as_threads_begin(thread, start=threading.Thread.start):
    start(thread)
    os.kill(os.getpid(), signal.SIGTERM)

def at_the_end(put_off=private.put_off_stops, calls=[]):
    calls.append(1)
    if len(calls) == 2:
        os.kill(os.getpid(), signal.SIGTERM)
    put_off()

remove, private.remove = private.remove, told
MOMENT
runpy.run_path(sys.argv[0], run_name="__main__")
'''
MOMENTS = {"threading.Thread.start = as_threads_begin": ["waiting", "ann"],
           "private.put_off_stops = at_the_end": ["ann"]}


class FilesTest(StudentTest):
    def ended_at_last(self):
        """What still runs, and is ended now."""
        left = running()
        for number in left:
            os.kill(int(number), signal.SIGKILL)
        return left

    def with_pages(self, pages, line):
        """What a line of bash says, its status and what it leaves, where the private folder's
        device has room for so many pages."""
        room = self.folder / "room"
        room.mkdir(exist_ok=True)
        script = (f"head -c {(PAGES - pages) * PAGE} /dev/zero > {room}/filler; "
                  f"export TMPDIR={room}; {line} 2>&1; echo $?; rm {room}/filler; ls -A {room}")
        words = ["bwrap", "--dev-bind", "/", "/", "--size", PAGES * PAGE, "--tmpfs", room]
        return self.good(self.run_command(*words, "--", "bash", "-c", script))


class LabFiles(FilesTest):
    def setUp(self):
        super().setUp()
        self.write("short.trace", SHORT)
        shutil.copy(self.student(), self.folder / "right")
        shutil.copy(STUDENTS / "trans.c", self.folder)
        for name in ("ann", "bob"):
            (self.folder / name).mkdir()
            shutil.copy(self.student(), self.folder / name / "csim")

    def lab(self, tool, *words, **given):
        env = {"TMPDIR": str(self.private), **given.pop("env", {})}
        return self.run_tool(f"lab/{tool}", *words, env=env, **given)

    def by_bash(self, line, **env):
        env = {"TMPDIR": str(self.private), **env}
        return self.run_command("bash", "-c", line, env=env)

    def test_what_is_no_file_of_its_own(self):
        """It is refused before anything is judged, and so is what a link leads to."""
        mine = self.write("mine", "kept\n")
        ways = {"a link": lambda place: place.symlink_to(mine), "a pipe": os.mkfifo,
                "a folder": os.mkdir, "a link to nothing": lambda place: place.symlink_to("none")}
        for tool, words, name in KEEPS:
            for way, make in ways.items():
                with self.subTest(tool=tool, way=way):
                    place = self.folder / name
                    place.parent.mkdir(exist_ok=True)
                    make(place)
                    ran = self.lab(tool, *words)
                    kind = way.removesuffix(" to nothing")
                    self.refused(ran, 2, f"{name} is no file of its own: it is {kind}\n")
                    self.assertEqual(ran.stderr.count(b"\n"), 1)
                    (place.rmdir if way == "a folder" else place.unlink)()
        self.assertEqual(mine.read_text(), "kept\n")
        self.assertEqual(list(self.private.iterdir()), [])

    def test_a_file_that_is_read_too(self):
        """It is refused, and stays as it is."""
        (self.folder / "kept").mkdir()
        (self.folder / "linked").mkdir()
        (self.folder / "linked/csim").symlink_to("../bob/grade.txt")
        for tool, name, words in READ_TOO:
            with self.subTest(words):
                place = self.folder / name
                is_made = not place.exists()
                if is_made:
                    shutil.copy(self.folder / "right", place)
                before = place.read_bytes()
                ran = self.by_bash(f"{LAB}/{tool} {words}")
                self.refused(ran, 2, f"{tool}: ")
                self.assertEqual(ran.stderr.count(b"\n"), 1)
                self.assertEqual(place.read_bytes(), before)
                if is_made:
                    place.unlink()

    def test_ten_that_keep_at_once(self):
        """None disturbs another, and the traces are whole."""
        line = f'for i in {{1..10}}; do {LAB}/grade {" ".join(ONE)} --keep kept right & done; wait'
        self.assertEqual(self.good(self.by_bash(line)), 10 * "6 of 6 right\n")
        for name in traces.write(self.private):
            kept = (self.folder / "kept" / name).read_bytes()
            self.assertEqual(kept, (self.private / name).read_bytes())

    def test_what_is_kept_is_replaced(self):
        """Not written into: who has opened it, or linked to it, keeps the old one."""
        (self.folder / "kept").mkdir()
        for tool, words, name in (KEEPS[0], KEEPS[2]):
            self.write(name, "old\n")
            os.link(self.folder / name, self.folder / f"{tool}.old")
            self.good(self.lab(tool, *words))
            self.assertEqual((self.folder / f"{tool}.old").read_text(), "old\n")
            self.assertNotEqual((self.folder / name).read_text(), "old\n")

    def test_a_trace_that_changes(self):
        """As it grows, is cut or replaced while it is copied. One that grows has an end."""
        def cut(path):
            os.truncate(path, 1)

        def grow(path):
            with open(path, "a", encoding="ascii") as file:
                file.write(SHORT)

        def replace(path):
            shutil.copy(path, f"{path}.new")
            os.replace(f"{path}.new", path)

        for change in (cut, grow, replace):
            trace = self.write("changes.trace", SHORT)

            def opened(file, mode, change=change, trace=trace):
                stream = open(file, mode)
                if file == trace:
                    change(trace)
                return stream

            with mock.patch.object(private, "open", opened, create=True), \
                    self.assertRaises(SystemExit), \
                    contextlib.redirect_stderr(io.StringIO()) as told:
                private.copy(trace, self.folder / "copy")
            self.assertIn(f"{trace} has changed while it was copied\n", told.getvalue())
            self.assertLessEqual((self.folder / "copy").stat().st_size, len(SHORT))

    def test_traces_are_judged_as_they_were(self):
        """Each student of a class by the same, though one changes it."""
        for name in ("eve", "zoe"):
            shutil.copytree(self.folder / "ann", self.folder / name)
        self.executable("eve/csim", f"echo ' L 99,1' >> {self.folder}/short.trace",
                        f'exec {self.folder}/right "$@"')
        words = ["--jobs", 1, *ONE, "--trace", "short.trace", "ann", "eve", "zoe"]
        rows = self.good(self.lab("grade-class", *words)).splitlines()
        self.assertEqual(rows[0], "name,right,of,points,short.trace,reason")
        self.assertEqual(rows[1:], [f"{name},1,1,3,1," for name in ("ann", "eve", "zoe")])

    def test_names_in_the_table(self):
        """Of folders and traces: nothing steers a terminal."""
        name = "a\x1b[31m\x9b\x7f"
        shutil.copytree(self.folder / "ann", self.folder / name)
        shutil.copy(self.folder / "short.trace", self.folder / f"{name}.trace")
        ran = self.lab("grade-class", *ONE, "--trace", f"{name}.trace", name)
        seen = r"a\x1b[31m\x9b\x7f"
        rows = f"name,right,of,points,{seen}.trace,reason\n{seen},1,1,3,1,\n"
        self.assertEqual(self.good(ran), rows)

    def test_children_of_others(self):
        """What a shell had started that became the tool goes on."""
        for tool, words in (("grade", [*ONE, "right", "short.trace"]),
                            ("grade-class", [*ONE, "--trace", "short.trace", "ann"]),
                            ("lab-transpose", ["absent-in.c"])):
            self.write("absent-in.c", '#include "absent"\n')
            with self.subTest(tool):
                line = f"sleep 61 > sleep.out 2>&1 & exec {LAB}/{tool} {' '.join(words)}"
                self.by_bash(line)
                self.assertEqual(len(self.ended_at_last()), 1)

    def test_a_compiler_without_an_end(self):
        """It has the time of a student's function: it waits for a pipe among the includes."""
        self.write("waits.c", '#include "pipe.h"\n')
        os.mkfifo(self.folder / "pipe.h")
        ran = self.lab("lab-transpose", "--seconds", 2, "waits.c", seconds=60)
        self.refused(ran, 2, "waits.c can't be compiled: cc has no end within 2 s\n")
        self.assertEqual(list(self.private.iterdir()), [])

    def test_signals(self):
        """Each that can be caught ends a tool, which leaves nothing."""
        self.executable("waits", "exec sleep 1000")
        (self.folder / "waiting").mkdir()
        self.executable("waiting/csim", "exec sleep 1000")
        self.write("waits.c", '#include "pipe.h"\n')
        os.mkfifo(self.folder / "pipe.h")
        for tool, words in WAITING:
            for number in SIGNALS:
                with self.subTest(tool=tool, signal=number):
                    given = {**self.in_folder(TMPDIR=str(self.private)), "stdin": subprocess.PIPE,
                             "stdout": subprocess.DEVNULL, "stderr": subprocess.PIPE}
                    with ended(subprocess.Popen([LAB / tool, *words], **given)) as one:
                        self.assertTrue(comes(lambda: any(self.private.iterdir()) or tool ==
                                              "replay" and catches(one.pid, signal.SIGTERM), 60))
                        one.send_signal(number)
                        self.assertIn(one.wait(60), (128 + number, -number))
                        self.assertEqual(one.stderr.read(), b"")
                    self.assertTrue(comes(lambda: not running(), 60))
                    self.assertEqual(list(self.private.iterdir()), [])

    def test_signals_at_two_moments(self):
        """As a class begins, and just as its table is whole: nothing runs on while the folder goes,
        which always does."""
        (self.folder / "waiting").mkdir()
        self.executable("waiting/csim", "exec sleep 1000")
        for moment, names in MOMENTS.items():
            with self.subTest(moment):
                words = [LAB / "grade-class", *ONE, "--trace", "short.trace", *names]
                code = STOPPED.replace("MOMENT", moment)
                ran = self.run_command(sys.executable, "-BESc", code, *words,
                                       env={"TMPDIR": str(self.private)})
                self.assertIn(ran.returncode, (128 + signal.SIGTERM, -signal.SIGTERM))
                self.assertEqual(ran.stderr, b"1\n")
                self.assertEqual((running(), list(self.private.iterdir())), ([], []))

    @needs("bubblewrap")
    def test_no_room(self):
        """A right program is never wrong: it is right, or not judged."""
        line = f"{LAB}/grade {' '.join(ONE)} right short.trace"
        said = {self.with_pages(pages, line) for pages in range(6)}
        fault = "the private folder can't be written: No space left on device"
        unjudged = (f"not judged: -s 4 -E 1 -b 4 -t short.trace\n    {fault}\n"
                    f"1 of 1 cases are not judged: {fault}\n0 of 0 right\n2\n")
        self.assertEqual(said, {"1 of 1 right\n0\n", unjudged})

    @needs("bubblewrap")
    def test_no_room_for_a_part(self):
        """What fills the device is not judged then, and others are. The numbers are of what was
        judged, alone and in a class."""
        self.executable("fills", '[ "$2" = 4 ] && head -c 900000 /dev/zero > large',
                        f'exec {self.folder}/right "$@"')
        line = f"{LAB}/grade {' '.join(ONE)} --geometry 1,1,4 --points fills short.trace"
        said = self.with_pages(PAGES, line).splitlines()
        self.assertEqual(said[-2:], ["1 of 1 right, 3 of 3 points", "2"])
        self.assertIn("not judged: -s 4 -E 1 -b 4 -t short.trace", said)
        self.assertNotIn("why: ", "\n".join(said))
        line = f"{LAB}/grade-class --jobs 1 {' '.join(ONE)} --trace short.trace ann cat bob"
        (self.folder / "cat").mkdir()
        shutil.copy(self.folder / "fills", self.folder / "cat/csim")
        said = self.with_pages(PAGES, line).splitlines()
        fault = "the private folder can't be written: No space left on device"
        missed = f"1 of 1 cases are not judged: {fault}"
        self.assertEqual(said, [
            "name,right,of,points,short.trace,reason", "ann,1,1,3,1,", f"cat,0,0,0,0,{missed}",
            "bob,1,1,3,1,", f"grade-class: {self.folder}/cat/csim: {missed}", "1"])


class OfValgrind(FilesTest):
    @needs("valgrind")
    def test_children_of_others(self):
        """The same of lab-trace at a signal, which ends what the program has started."""
        script = "sleep 62 & echo begun >&2; sleep 63"
        line = f"sleep 61 > /dev/null 2>&1 & exec {LAB}/lab-trace sh -c '{script}' > /dev/null"
        given = {**self.in_folder(), "stderr": subprocess.PIPE}
        with ended(subprocess.Popen(["bash", "-c", line], **given)) as tool:
            self.assertEqual(tool.stderr.readline(), b"begun\n")
            tool.terminate()
            tool.wait(60)
            self.assertEqual(len(self.ended_at_last()), 1)

    @needs("bubblewrap", "valgrind")
    def test_no_room(self):
        """A function that can't report anything is not judged, and gets no false reason: here the
        compiler leaves no page, or only the one on which functions are registered."""
        shutil.copy(STUDENTS / "trans.c", self.folder)
        fault = "the private folder can't be written: No space left on device"
        line = f"CC={self.folder}/fills {LAB}/lab-transpose --size 32x32 trans.c"
        for pages, wanted in ((0, f"lab-transpose: {fault}\n2\n"),
                              (1, f"row by row\n    32x32  not judged: {fault}\nin blocks\n")):
            self.executable("fills", 'cc "$@"', 'head -c 9000000 /dev/zero > "$TMPDIR/large"',
                            f'truncate -s -{pages * PAGE} "$TMPDIR/large"')
            said = self.with_pages(PAGES, line)
            self.assertTrue(said.startswith(wanted), said)
            self.assertTrue(said.endswith("\n2\n"), said)
            self.assertNotIn("points", said)
