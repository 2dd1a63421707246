"""make install and make uninstall, in a copy of the repository and into a folder of its own."""

import atexit
import functools
import os
import pathlib
import re
import shutil
import subprocess
import tempfile

from base import HANDOUT, PROGRAM, TOP, ToolTest, comes, ended, script
from lab_base import STUDENTS
from test_make import MakeTest, copy_repository, put_program
from trace_base import program_of


@functools.cache
def installed():
    """A folder with all that is installed, made once for the tests that leave it as it is."""
    folder = pathlib.Path(tempfile.mkdtemp(prefix="cachesim-installed-"))
    atexit.register(shutil.rmtree, folder, ignore_errors=True)
    copy_repository(folder / "a copy")
    put_program(folder / "a copy")
    install = [folder / "a copy/package/target", "install", folder / "usr"]
    subprocess.run(install, check=True, stdout=subprocess.DEVNULL)
    return folder / "usr"


class Installing(MakeTest):
    def setUp(self):
        super().setUp()
        put_program(self.top)
        self.to = self.folder / "to install"
        self.to.mkdir()
        self.path = {"PATH": self.path_without("rt", "lowdown", "cachesim")}

    def few_tools(self):
        """Leaves few tools in the copy, so that a test is quick."""
        for path in [*(self.top / "tools").iterdir(), *(self.top / "tools/lab").iterdir()]:
            if path.is_file() and path.name not in ("best", "Makefile"):
                path.unlink()

    def below(self):
        return sorted(str(path.relative_to(self.to)) for path in self.to.rglob("*"))

    def target(self, name, status):
        ran = self.make(name, f"DESTDIR={self.to}", "PREFIX=/usr", env=self.path)
        self.assertEqual(ran.returncode, status, ran.stderr)
        return ran

    def install(self, status=0):
        return self.target("install", status)

    def uninstall(self, status=0):
        return self.target("uninstall", status)

    def test_install_and_uninstall_leave_nothing(self):
        """A later version takes the place of an earlier one, which had another tool."""
        self.few_tools()
        lines = "# old    does what was once needed", "sed -n '2s/# //p' \"$0\""
        old = self.executable(self.top / "tools/old", *lines)
        self.install()
        self.assertTrue((self.to / "usr/bin/cachesim-old").exists())
        old.unlink()
        ran = self.install()
        self.assertIn("lowdown is missing (apt-get install lowdown)", ran.stderr)
        self.assertEqual([path for path in self.below() if "old" in path], [])
        program = self.to / "usr/bin/cachesim"
        got = program.read_bytes(), program.stat().st_mode & 0o777
        self.assertEqual(got, (PROGRAM.read_bytes(), 0o755))
        self.assertEqual(os.readlink(self.to / "usr/bin/cachesim-best"), "../lib/cachesim/best")
        for name in ("lib/cachesim/lib/tool.py", "share/bash-completion/completions/cachesim",
                     "share/doc/cachesim/docs/manual.md"):
            self.assertTrue((self.to / "usr" / name).is_file(), name)
        self.assertFalse((self.to / "usr/share/man/man1/cachesim.1.gz").exists())
        self.uninstall()
        self.assertEqual(self.below(), [])
        self.assertIn("nothing is installed below", self.uninstall(2).stderr)

    def test_all_may_read_what_is_installed(self):
        """Also where the files of who installs it are else private."""
        self.few_tools()
        for path in self.top.rglob("*"):
            path.chmod(path.stat().st_mode & 0o700)
        self.addCleanup(os.umask, os.umask(0o077))
        self.install()
        for path in (self.to / "usr").rglob("*"):
            wanted = 0o555 if path.is_dir() or path.parent.name == "bin" else 0o444
            self.assertEqual(path.stat().st_mode & wanted, wanted, path)

    def test_a_prefix_in_the_home_folder(self):
        self.few_tools()
        env = {**self.path, "HOME": str(self.to)}
        for target, told in ("install", f"installed: {self.to}/.local/bin/cachesim"), (
                "uninstall", f"removed from {self.to}/.local"):
            ran = self.make(target, "PREFIX=~/.local", env=env)
            self.assertEqual((ran.returncode, ran.stdout.splitlines()[-1]), (0, told), ran.stderr)
        self.assertEqual(self.below(), [])

    def test_a_prefix_that_is_relative(self):
        """It is below DESTDIR, or else where make is called. None is no prefix, and the repository
        is not one."""
        self.few_tools()
        for words, to in ((f"DESTDIR={self.to}", "PREFIX=usr"), self.to / "usr"), (
                ("PREFIX=some/place",), self.top / "some/place"):
            ran = self.make("install", *words, env=self.path)
            told = f"installed: {to}/bin/cachesim"
            self.assertEqual((ran.returncode, ran.stdout.splitlines()[-1]), (0, told), ran.stderr)
            self.assertEqual(self.make("uninstall", *words, env=self.path).returncode, 0)
            self.assertFalse(to.exists())
        before = sorted(self.top.rglob("*"))
        for target in "install", "uninstall":
            for prefix, told in ("", "and none is given"), (".", "not the repository"):
                ran = self.make(target, f"PREFIX={prefix}", env=self.path)
                said = f"target: {target} takes a folder, the PREFIX of make, {told}"
                self.assertEqual((ran.returncode, ran.stderr.split("; ")[0]), (2, said))
        self.assertEqual(sorted(self.top.rglob("*")), before)

    def test_what_was_there_stays(self):
        self.few_tools()
        for name in ("usr/bin/other", "usr/lib/cachesim/mine"):
            (self.to / name).parent.mkdir(parents=True, exist_ok=True)
            (self.to / name).touch()
        (self.to / "usr/share/man").mkdir(parents=True)
        before = self.below()
        self.install()
        (self.to / "usr/share/man/man1/other.1").touch()
        (self.to / "usr/bin/other").unlink()
        before.remove("usr/bin/other")
        self.uninstall()
        added = ["usr/share/man/man1", "usr/share/man/man1/other.1"]
        self.assertEqual(self.below(), sorted([*before, *added]))

    def test_a_fault_on_the_way_harms_nothing_else(self):
        """After it, as where files grow too large or one is in the way, both can be done again."""
        self.few_tools()
        (self.to / "usr/share").mkdir(parents=True)
        (self.to / "usr/share/man").touch()
        before = self.below()
        line = f'ulimit -f 9; make -C "{self.top}" install DESTDIR="{self.to}" PREFIX=/usr'
        ran = self.run_command("bash", "-c", line, env=self.known(self.path))
        self.assertIn("install: ", ran.stderr.decode())
        self.assertEqual((ran.returncode, self.below()), (2, before))
        self.assertIn("File exists", self.install(2).stderr)
        self.assertTrue((self.to / "usr/bin/cachesim").exists())
        self.uninstall()
        self.assertEqual(self.below(), before)
        (self.to / "usr/share/man").unlink()
        self.install()
        self.uninstall()
        self.assertEqual(self.below(), before[:2])

    def test_a_signal_leaves_no_temporary_file(self):
        for target in "install", "deb":
            temporary = self.folder / f"for {target}"
            temporary.mkdir()
            env = {**self.known(), "TMPDIR": str(temporary)}
            words = [self.top / "package/target", target, self.to]
            running = subprocess.Popen(words, env=env)
            with ended(running):
                self.assertTrue(comes(lambda: list(temporary.glob("*/*"))))
                running.terminate()
                self.assertEqual(running.wait(20), 143)
            self.assertEqual(list(temporary.iterdir()), [])

    def test_each_c_part_is_compiled(self):
        """And without a compiler the tools that have one are left out."""
        parts = set()
        for path in (TOP / "tools").rglob("*"):
            if path.is_file() and os.access(path, os.X_OK) and path.parent.name != "out":
                text = path.read_text(errors="replace")
                parts |= set(re.findall(r"\bcompiled\(\"([\w.-]+)\"", text))
        self.assertIn("to-din", parts)
        ran = self.make("tools")
        self.assertEqual((ran.returncode, ran.stderr), (0, ""))
        self.assertEqual(parts - {path.name for path in self.top.glob("tools/out/*")}, set())
        self.few_tools()
        shutil.rmtree(self.top / "tools/out")
        shutil.copy(TOP / "tools/to-din", self.top / "tools")
        self.path["CC"] = "absent-cc"
        ran = self.install()
        for told in ("absent-cc is missing: apt-get install absent-cc\n",
                     "install: left out, since their C parts are not compiled: to-din\n"):
            self.assertIn(told, ran.stderr)
        self.assertFalse([path for path in self.below() if "to-din" in path])

    def test_what_cannot_be_installed(self):
        """A place that can't be written; a program that is not built."""
        self.few_tools()
        ran = self.make("install", "PREFIX=/proc/cachesim", env=self.path)
        self.assertEqual(ran.returncode, 2)
        self.assertIn("install: /proc/cachesim: No such file or directory", ran.stderr)
        (self.top / "crates/cachesim/out/cachesim").unlink()
        ran = self.run_command(self.top / "package/target", "install", self.to)
        self.refused(ran, 1, "install: no program ", "crates/cachesim/out/cachesim: make builds it")


class Installed(ToolTest):
    """All tools, where they are installed."""

    def below(self):
        return sorted(path.relative_to(installed()) for path in (installed() / "lib").rglob("*"))

    def test_which_tools_are_installed(self):
        there = self.below()
        for path in there:
            self.assertNotRegex(str(path), r"\.[ch]$|/package(/|$)|\.md$|Makefile")
        for name in script("check").tools():
            link = installed() / "bin" / f"cachesim-{name}"
            self.assertTrue(link.resolve().is_file(), link)
            for completion in (f"bash-completion/completions/{link.name}",
                               f"fish/vendor_completions.d/{link.name}.fish"):
                self.assertIn(link.name, (installed() / "share" / completion).read_text())
        for link in (installed() / "bin").glob("cachesim-*"):
            env = {"PATH": f"{link.parent}:{os.environ['PATH']}", "PYTHONDONTWRITEBYTECODE": ""}
            ran = self.run_command(link, "--help", env=env)
            self.assertEqual(ran.returncode, 0, ran.stderr)
        # Python has compiled what they share, and leaves no other files there
        compiled = [*(installed() / "lib").rglob("*.pyc")]
        self.assertTrue(compiled)
        for path in compiled:
            self.assertNotIn(b"cachesim-install.", path.read_bytes())
        self.assertEqual(self.below(), there)

    def test_tools_find_the_program_beside_them(self):
        """Below a folder that is not on the path, before another program of its name that is."""
        space = ("--bsize", "16", "--sets", "1-4", "--assoc", "1-2", "--size", "0-1k")
        din, lackey = TOP / "examples/sort.din", TOP / "examples/blocks.lackey"
        self.executable("cachesim", "exit 9")
        env = {"CACHESIM": "", "PATH": f"{self.folder}:/usr/bin:/bin"}
        replayed = ("-s", 1, "-E", 2, "-b", 4, "-t", HANDOUT)
        one = "--pow2 --bsize 16 --sets 1 --assoc 1-4 --size 0-1k".split()
        shown = self.run_tool("lab/replay", *replayed).stdout.decode()
        csim, judged = program_of(STUDENTS / "student.c"), "15 of 15 right\n"
        for arguments, text in (
            (("bin/cachesim-sweep-parallel", 2, din, *space), self.sweep(*space, "-t", din)),
            (("bin/cachesim-sweep-parallel", "--pages", 1, *one), f"{' '.join(one)} --rows 3\n"),
            (("bin/cachesim-replay", *replayed), shown),
            (("bin/cachesim-grade", csim, lackey), judged),
            (("lib/cachesim/lab/grade", csim, lackey), judged),
        ):
            ran = self.run_command(installed() / arguments[0], *arguments[1:], env=env)
            self.ends(ran, 0, "", text)

    def test_tools_are_named_as_they_are_called(self):
        """In what grade says of a wrong program."""
        wrong = self.executable("wrong", "echo L 0,1 hit", "echo hits:0 misses:0 evictions:0")
        ran = self.run_command(installed() / "lib/cachesim/lab/grade", wrong)
        self.assertEqual((ran.returncode, ran.stderr), (1, b""))
        self.assertIn(b"\n    see cachesim-replay -s ", ran.stdout)
