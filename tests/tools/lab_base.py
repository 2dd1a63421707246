"""What the tests of the tools for the cache lab share."""

import contextlib
import importlib
import os
import pathlib
import shutil
import signal
import subprocess
import sys
import tempfile

from base import TOOLS, TOP, ToolTest, all_processes, comes, ended

# a trans.c with a right function
TRANS = """\
void registerTransFunction(void (*)(int M, int N, int[N][M], int[M][N]), char *);
static void by_rows(int M, int N, int A[N][M], int B[M][N]) {
    for (int i = 0; i < N; i++) for (int j = 0; j < M; j++) B[j][i] = A[i][j];
}
void registerFunctions(void) { registerTransFunction(by_rows, "by rows"); }
"""
LAB = TOOLS / "lab"
STUDENTS = TOP / "tests/tools/lab"
sys.path.append(str(LAB))
traces = importlib.import_module("parts.traces")
SHORT = " L 10,1\n M 20,1\n L 22,1\n S 18,1\n L 110,1\n L 210,1\n M 12,1\n"  # a trace


def running():
    """The processes that this one has started, and theirs. One that has ended is none, though
    nobody waits for it."""
    return [number for number, stat in all_processes("stat")
            if stat.rpartition(b")")[2].split()[0] != b"Z"]


def is_running(program):
    """Whether one of these processes runs a program."""
    for number in running():
        with contextlib.suppress(OSError):
            if os.readlink(f"/proc/{number}/exe") == str(program):
                return True
    return False


class LabTest(ToolTest):
    """A test with a folder for a tool's private files."""

    def setUp(self):
        super().setUp()
        self.private = self.folder / "private"
        self.private.mkdir()

    def interrupted(self, command, has_begun, **env):
        """Ends a tool once it has begun. Nothing goes on, and no file is left."""
        env = {**os.environ, "TMPDIR": str(self.private), **env}
        for number in (signal.SIGINT, signal.SIGTERM):
            with ended(subprocess.Popen(command, env=env, stdout=subprocess.DEVNULL)) as tool:
                self.assertTrue(comes(has_begun, 60))
                tool.send_signal(number)
                self.assertEqual(tool.wait(60), 128 + number)
            self.assertTrue(comes(lambda: not running(), 60))
            self.assertEqual(list(self.private.iterdir()), [])


class StudentTest(LabTest):
    """A test with students' programs."""

    @classmethod
    def setUpClass(cls):
        super().setUpClass()
        cls.programs = pathlib.Path(tempfile.mkdtemp(prefix="cachesim-students-"))
        cls.addClassCleanup(shutil.rmtree, cls.programs)

    def student(self, *mistakes):
        """A student's program with these mistakes, compiled once."""
        program = self.programs / ("-".join(mistakes) or "right")
        if not program.exists():
            flags = ["-O1", "-Wall", "-Wextra", "-Werror", *(f"-D{name}" for name in mistakes)]
            subprocess.run(["cc", *flags, "-o", program, STUDENTS / "student.c"], check=True)
        return program
