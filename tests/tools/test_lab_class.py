"""A class judged by grade-class."""

import csv
import os
import re
import shutil

from base import EXAMPLES, PROGRAM, TOOLS, copy_tools, needs
from lab_base import LAB, StudentTest, comes, is_running, running, traces

TRACES = "order mixed wide rows blocks long".split()
BLOCKS = EXAMPLES / "blocks.lackey"
FINE = "with -v the line of each access is right"
HEADER = "name,right,of,points,reason"
HARD = HEADER.replace("reason", ",".join(f"{name}.trace" for name in TRACES) + ",reason")


class ClassTest(StudentTest):
    """A test with folders of students."""

    def enrol(self, name, program):
        folder = self.folder / "students" / name
        folder.mkdir(parents=True)
        shutil.copy(program, folder / "csim")
        return folder

    def grade_class(self, *arguments, env=None, seconds=600):
        env = {"TMPDIR": str(self.private), **(env or {})}
        return self.run_tool("lab/grade-class", *arguments, env=env, seconds=seconds)

    def table(self, ran):
        """The rows of a table, by name."""
        text = self.good(ran)
        self.assertRegex(text, r"\Aname,right,of,points,[^\n]+,reason\n")
        self.assertEqual(list(self.private.iterdir()), [])
        return {row["name"]: row for row in csv.DictReader(text.splitlines())}

    def text_of(self, name):
        return (self.folder / "students" / name / "grade.txt").read_text()


class GradeClass(ClassTest):
    SHORT = ["--geometry", "4,1,4"]
    ONE = [*SHORT, "--trace", BLOCKS]

    def test_all_traces(self):
        """Right ones, a script too; and a mistake, which is in the caches with more ways than one,
        nine of fifteen."""
        right = {"stamps": self.student(), "script": self.executable(
            "script", f'exec {self.student()} "$@"')}
        folders = [self.enrol(*each) for each in {**right, "FIFO": self.student("FIFO")}.items()]
        rows = self.table(self.grade_class(*folders))
        wrong = rows.pop("FIFO")
        for name, row in rows.items():
            values = [name, "90", "90", "270", *["15"] * 6, ""]
            self.assertEqual(row, dict(zip(HARD.split(","), values)))
        self.assertEqual(list(rows), list(right))
        self.assertEqual(wrong["order.trace"], "8", "those of six of one way, of 6,8,6 and 1,65,3")
        self.assertGreaterEqual(int(wrong["right"]), 36)
        named = re.findall(r"^(?:wrong:|   ) .*-t (\w+)\.trace\b", self.text_of("FIFO"), re.M)
        self.assertEqual(set(named), set(TRACES))

    def test_names_order_and_texts(self):
        """Names are without what is common; the order is that of the folders; an earlier text is
        replaced."""
        zoe = self.enrol("zoe/lab", self.student())
        ann = self.enrol("ann/lab", self.student("COUNTS"))
        (zoe / "grade.txt").write_text("earlier\n" * 99)
        ran = self.grade_class(*self.ONE, zoe, ann, f"{zoe}/", "--jobs", 1)
        said = "wanted hits:720 misses:1328 evictions:1312; got hits:721 misses:1328 evictions:1312"
        why = ("why: the result is that of a program in which the last line of the trace counts "
               "twice (while !feof), or of one in which hits are one too many")
        row = f'ann/lab,0,1,2,0,"wrong: -s 4 -E 1 -b 4 -t {BLOCKS}; {said}; {FINE}; {why}"'
        header = f"name,right,of,points,{BLOCKS},reason"
        self.assertEqual(self.good(ran), f"{header}\nzoe/lab,1,1,3,1,\n{row}\n")
        self.assertEqual(self.text_of("zoe/lab"), "1 of 1 right, 3 of 3 points\n")
        self.assertIn("\n0 of 1 right, 2 of 3 points\n", self.text_of("ann/lab"))
        self.assertEqual(sorted(path.name for path in zoe.iterdir()), ["csim", "grade.txt"])

    def test_points(self):
        """One for each number that is right, in .csim_results too, where hits and evictions are
        exchanged; none where a run fails."""
        wanted = {"right": "3", "COUNTS": "2", "RESULTS": "1", "STATUS": "0", "CRASHES_LATE": "0",
                  "EVICTS_ALWAYS": "2"}
        folders = [self.enrol(name, self.student(*{name} - {"right"})) for name in wanted]
        rows = self.table(self.grade_class(*self.ONE, *folders))
        self.assertEqual({name: row["points"] for name, row in rows.items()}, wanted)

    def test_programs_that_cannot_be_run(self):
        said = {"none": "csim: no such file", "plain": "csim: Permission denied",
                "text": "csim: Exec format error"}
        folders = [self.folder / "students" / name for name in said]
        for folder in folders:
            folder.mkdir(parents=True)
        self.write("students/plain/csim", "#!/bin/sh\n").chmod(0o644)
        self.write("students/text/csim", "no program\n").chmod(0o755)
        rows = self.table(self.grade_class(*self.SHORT, *folders))
        for name, reason in said.items():
            self.assertEqual(list(rows[name].values()), [name, "0", "6", "0", *["0"] * 6, reason])
            self.assertEqual(self.text_of(name), f"{reason}\n")

    def test_a_folder_of_students(self):
        """It gets 0 points as one without a program, and a line tells what may be meant."""
        self.enrol("ann", self.student())
        ran = self.grade_class(*self.SHORT, "students")
        self.assertEqual(ran.returncode, 0)
        told = "grade-class: students has no program csim, but students/ann has: is it a student's?"
        self.assertEqual(ran.stderr.decode(), f"{told}\n")
        self.assertIn("\nstudents,0,6,0,", ran.stdout.decode())

    def test_a_program_that_hangs_costs_its_time_once(self):
        """And a second for each other trace, and for the line at which it hangs."""
        self.enrol("ann", self.student("LOOPS"))
        self.enrol("bob", self.student("COUNTS", "LOOPS_VERBOSE"))
        traces.write(self.folder)
        named = [word for name in TRACES[:3] for word in ("--trace", f"{name}.trace")]
        students = "students/ann", "students/bob"
        rows = self.table(self.grade_class("--seconds", 2.5, *named, *students))
        self.assertEqual(self.text_of("bob").count("with -v it writes no line for an access"), 1)
        text = self.text_of("ann")
        self.assertEqual((rows["ann"]["right"], rows["ann"]["points"]), ("0", "0"))
        said = [text.count(f"no end within {seconds} s") for seconds in ("2.5", "1")]
        self.assertEqual((said, text.count("not run: ")), ([1, 2], 1), "alike ones come once")
        at = "line 3 of the trace is ' S 00000010,4'"
        self.assertIn(f"line 3 with -v is the first that is wrong; {at}", text)

    def test_nobody_can_be_judged(self):
        self.enrol("ann", self.student())
        (self.folder / "bad.trace").write_text(" X 10,1\n")
        bare = self.few_commands("python3", "stdbuf")
        label = "-s 1 -E 1 -b 1 -t bad.trace: line 1: bad label\n"
        no_bwrap = "bwrap is missing: apt-get install bubblewrap\n"
        for arguments, env, message in (
            (["--trace", "bad.trace"], {}, f"grade-class: {label}"),
            (["--trace", "absent"], {}, "grade-class: absent: no such file\n"),
            (["absent"], {}, "grade-class: absent: no such folder\n"),
            (["bad.trace", "absent"], {}, "grade-class: absent: no such folder\n"),
            (["--geometry", "21,1,1"], {}, "bad geometry\n"),
            (["--jobs", "0"], {}, "grade-class: argument --jobs: invalid jobs value: '0'; "),
            ([], {"CACHESIM": "/absent"}, "grade-class: /absent is no program that can be run\n"),
            (["--confine"], {"PATH": str(bare)}, f"grade-class: {no_bwrap}"),
        ):
            self.refused(self.grade_class("students/ann", *arguments, env=env), 2, message)
        self.assertFalse((self.folder / "students/ann/grade.txt").exists())

    def test_files_among_the_folders(self):
        """They are named and left out; without a folder nobody is judged."""
        students = [self.enrol(name, self.student()) for name in ("ann", "zoe")]
        files = [self.folder / "students" / name for name in ("README.txt", "list")]
        for file in files:
            file.touch()
        ran = self.grade_class(*self.SHORT, *sorted([*students, *files]))
        message = "".join(f"grade-class: {file}: left out, as it is no folder\n" for file in files)
        rows = "ann,6,6,18,1,1,1,1,1,1,\nzoe,6,6,18,1,1,1,1,1,1,\n"
        self.ends(ran, 1, message, f"{HARD}\n{rows}")
        self.refused(self.grade_class(*files), 2, f"grade-class: {files[0]}: no folder\n")

    def test_an_interrupt(self):
        folders = [self.enrol(name, self.student("LOOPS")) for name in ("ann", "bob", "eve")]
        programs = [folder / "csim" for folder in folders]
        command = [LAB / "grade-class", "--seconds", "60", "--jobs", "2", *folders]
        self.interrupted(command, lambda: sum(map(is_running, programs)) == 2)


class Confined(ClassTest):
    def script(self, name, *lines):
        """A student whose program does something first, and then is right."""
        lines = 'here=$(dirname "$0")', *lines, 'exec "$here/right" "$@"'
        program = self.executable("program", *lines)
        shutil.copy(self.student(), self.enrol(name, program) / "right")

    def points(self, *arguments, env=None):
        folders = sorted((self.folder / "students").iterdir())
        rows = self.table(self.grade_class("--geometry", "4,1,4", *arguments, *folders, env=env))
        return {name: int(row["points"]) for name, row in rows.items()}

    @needs("bubblewrap")
    def test_what_cannot_be_done(self):
        """Programs that are not refused what they try are wrong, and those that try cachesim."""
        self.script("plain")
        self.script("writes", f"! echo > '{self.folder}/there' || exit 1",
                    "! echo > \"$here/new\" || exit 1", "echo > here")
        hidden = f"{self.folder}/students/plain", TOOLS, "/etc/passwd"
        self.script("reads", *(f"[ ! -e '{path}' ] || exit 1" for path in hidden))
        self.script("processes", f"[ ! -e /proc/{os.getpid()} ] || exit 1")
        self.script("network", "[ \"$(grep -o '[a-z0-9]*:' /proc/net/dev)\" = lo: ] || exit 1")
        self.script("inside", f"exec '{self.folder}/students/inside/cachesim' csim \"$@\"")
        shutil.copy(PROGRAM, self.folder / "students/inside/cachesim")
        self.script("path", f"exec '{PROGRAM}' csim \"$@\"")
        named = {"CACHESIM": str(self.folder / "students/inside/cachesim")}
        able = dict.fromkeys(("network", "plain", "processes", "reads", "writes"), 18)
        self.assertEqual(self.points("--confine", env=named), {"inside": 0, "path": 0, **able})

    @needs("bubblewrap")
    def test_tools_below_the_folder_of_the_program_are_hidden(self):
        """Some of them simulate caches too. The grader is a copy, so that it stands there."""
        shutil.copytree(LAB, self.folder / "students/ann/tools/lab")
        copy_tools(self.folder / "students/ann/tools")
        ann, options = self.folder / "students/ann", ("--geometry", "4,1,4", "--verbose-lines=no")
        hidden = f"[ -z \"$(ls '{ann}/tools')\" ]"
        program = self.executable(ann / "csim", f"{hidden} && exec '{ann}/right' \"$@\"")
        shutil.copy(self.student(), ann / "right")
        for confine, right in (([], 0), (["--confine"], 6)):
            ran = self.run_command(ann / "tools/lab/grade", *options, *confine, program)
            self.assertEqual(ran.stdout.decode().splitlines()[-1], f"{right} of 6 right")

    @needs("bubblewrap")
    def test_what_is_left_behind_is_ended(self):
        names = "LEAVES_CHILD", "LEAVES_DAEMON"
        for name in names:
            self.enrol(name, self.student(name))
        self.assertEqual(self.points("--trace", BLOCKS, "--confine"), dict.fromkeys(names, 3))
        self.assertTrue(comes(lambda: not running()))

    @needs("bubblewrap")
    def test_faults_are_told_as_without(self):
        """A crash, a status, a file that grows, and a hang."""
        for mistake in ("CRASHES_LATE", "STATUS", "FLOODS", "LOOPS"):
            seconds = 2 if mistake == "LOOPS" else 60
            self.enrol(mistake, self.student(mistake))
            texts = []
            for confine in ([], ["--confine"]):
                options = ["--trace", BLOCKS, "--geometry", "4,1,4", "--seconds", seconds, *confine]
                self.good(self.grade_class(*options, f"students/{mistake}"))
                texts.append(self.text_of(mistake))
            self.assertEqual(texts[0], texts[1])
            self.assertIn("\n0 of 1 right, 0 of 3 points\n", texts[0])

    def test_bubblewrap_that_does_not_work(self):
        self.enrol("ann", self.student())
        message = "bwrap: No permissions to create a new namespace"
        path = self.stand_in("bwrap", f"echo '{message}' >&2", "exit 1")
        ran = self.grade_class("--confine", "students/ann", env=path)
        self.refused(ran, 2, f"grade-class: bubblewrap doesn't work here: {message}\n")
