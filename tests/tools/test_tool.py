"""What the tools share."""

import argparse
import itertools
import os
import shutil
import signal
import subprocess
import unittest

import common
from base import CACHE, TOOLS, ToolTest, comes, copy_tools, processes
from lib import tool
from lib.compiled import Make


class Sizes(unittest.TestCase):
    def test_sizes(self):
        for text, size in ("0", 0), ("512", 512), ("32k", 32768), ("1M", 1 << 20), ("3g", 3 << 30):
            self.assertEqual(tool.size_of(text), size)

    def test_what_is_no_size(self):
        for text in ("", "k", "1kk", "-1", "1.5k", "٣"):
            with self.assertRaises(argparse.ArgumentTypeError):
                tool.size_of(text)

    def test_texts(self):
        sizes = {0: "0", 100: "100", 1024: "1k", 1536: "1536", 1 << 20: "1m", 3 << 30: "3g"}
        self.assertEqual([tool.size_text(size) for size in sizes], list(sizes.values()))


class Visible(unittest.TestCase):
    """What would steer a terminal, end a line, or is no UTF-8 is shown as an escape."""

    def test_letters(self):
        for text, shown in {
            "\x1b[31m": "\\x1b[31m", "a\nb\tc": "a\\nb\\tc", "\x7f": "\\x7f", "\x9b2J": "\\x9b2J",
            "\x85": "\\x85", "\0": "\\x00", "\x1f\x20\x7e\x80": "\\x1f ~\\x80", "\xa0": "\xa0",
            os.fsdecode(b"\xff"): "\\udcff", "é, 字 \U0001f40e 'x' \\": "é, 字 \U0001f40e 'x' \\",
        }.items():
            self.assertEqual(tool.visible(text), shown)

    def test_messages(self):
        """One line of a tool's own; those of another program stay lines."""
        for call, shown in {
            "fail('a\\nb\\x9b')": "-c: a\\nb\\x9b\n", "warn('a\\n\\x7f')": "-c: a\\n\\x7f\n",
            "end('a\\nb\\x1b', 1)": "a\nb\\x1b\n",
        }.items():
            words = ["python3", "-c", f"from lib import tool\ntool.{call}"]
            ran = subprocess.run(words, cwd=TOOLS, capture_output=True, text=True, check=False)
            self.assertEqual(ran.stderr, shown)


class Several(unittest.TestCase):
    def test_words(self):
        read = common.several_of(("sweep", "din"))
        self.assertEqual((read("din"), read("din,sweep")), (["din"], ["din", "sweep"]))
        for text in ("", "swep", "din,", "sweep,x"):
            with self.assertRaises(argparse.ArgumentTypeError):
                read(text)


class Compiling(ToolTest):
    def test_a_source_that_changed(self):
        copy_tools(self.folder, "to-din")
        given = {"env": {"CFLAGS": "-O0"}}
        self.good(self.run_command(self.folder / "to-din", "--build", **given))
        made = self.folder / "out/to-din"
        before = made.stat().st_ino
        self.good(self.run_command(self.folder / "to-din", "--build", **given))
        self.assertEqual(made.stat().st_ino, before)
        self.later(self.folder / "lib/to-din.c", made)
        self.good(self.run_command(self.folder / "to-din", "--build", **given))
        self.assertNotEqual(made.stat().st_ino, before)
        # what is installed has no C file, and needs no compiler
        for path in (self.folder / "lib").rglob("*.[ch]"):
            path.unlink()
        ran = self.run_command(self.folder / "to-din", "addresses", env={"PATH": ""}, stdin=b"10\n")
        self.assertEqual(self.good(ran), "0 10\n")

    def test_a_header_that_changed(self):
        """What has it is compiled again, and what has not is left."""
        copy_tools(self.folder)
        words = ("make", "-s", "-C", self.folder, "out/to-din", "out/by-line")
        made = [self.folder / word for word in words[-2:]]
        self.good(self.run_command(*words))
        self.later(self.folder / "lib/by_line/by-line-trace.h", made[1])
        self.assertEqual(self.kept(made, *words), [True, False])
        # other words for the compiler
        self.assertEqual(self.kept(made, *words, "CFLAGS=-O0"), [False, False])

    def kept(self, made, *words):
        """Which parts a make leaves. A part that takes the place of another was there beside it, so
        it has another number; that of one before may have been given again."""
        before = [part.stat().st_ino for part in made]
        self.good(self.run_command(*words))
        return [part.stat().st_ino == number for part, number in zip(made, before)]

    @staticmethod
    def later(source, made):
        before = source.stat().st_mtime - 1
        os.utime(made, (before, before))

    def made(self):
        return [path.name for path in (self.folder / "out").glob("[!.]*")]

    def test_a_signal(self):
        """It leaves nothing of what was being compiled, also where the tool alone gets it."""
        copy_tools(self.folder, "to-din")
        begun = self.folder / "begun"
        path = self.stand_in("cc", f"touch \"${{@: -2:1}}\" '{begun}'", "exec sleep 60")
        given = {**self.in_folder(**path), "stderr": subprocess.PIPE, "start_new_session": True}
        for number in (signal.SIGTERM, signal.SIGINT, signal.SIGHUP):
            with subprocess.Popen([self.folder / "to-din", "--build"], **given) as running:
                self.assertTrue(comes(begun.exists))
                self.assertNotEqual(self.made(), [])
                running.send_signal(number)
                told = self.end_of(running)[1]
            self.assertEqual((told, running.returncode), (b"", -number))
            self.assertTrue(comes(lambda: not self.made()))
            begun.unlink()

    def test_a_second_signal(self):
        """make hands one to its shell, which may come while the shell removes the file."""
        copy_tools(self.folder)
        removing = self.folder / "removing"
        self.stand_in("rm", f"touch '{removing}'", "sleep 0.3", f'exec {shutil.which("rm")} "$@"')
        path = self.stand_in("cc", 'touch "${@: -2:1}"', "exec sleep 60")
        given = {**self.in_folder(**path), "stderr": subprocess.PIPE, "start_new_session": True}
        for number in (signal.SIGTERM, signal.SIGINT, signal.SIGHUP):
            with subprocess.Popen(["make", "-s", "-C", self.folder, "out/to-din"],
                                  **given) as running:
                # bash itself would go on after an interrupt that touch has not ended by
                self.assertTrue(comes(lambda: any(name.endswith("(sleep")
                                                  for name in processes(running.pid))))
                os.killpg(running.pid, number)
                self.assertTrue(comes(removing.exists))
                os.killpg(running.pid, number)
                self.end_of(running)
            self.assertTrue(comes(lambda: not self.made(), 3), self.made())
            removing.unlink()

    def test_a_make_that_has_just_ended(self):
        """A signal may come before its end is noted."""
        maker = Make(["true"], setpgroup=0)
        os.waitpid(maker.number, 0)
        maker.kill()
        self.assertFalse(maker.is_running)

    def test_a_compiler_that_fails(self):
        """Nothing of a part is left, which would be taken for the whole."""
        copy_tools(self.folder, "to-din", "second-level")
        into = 'echo "cc1: no memory" >&2; echo > "${@: -2:1}"'
        calls = ("to-din", "addresses"), ("second-level", "-", *CACHE)
        for (name, *words), end in itertools.product(calls, ("exit 1", "kill -KILL $$")):
            path = self.stand_in("cc", into, end)
            ran = self.run_command(self.folder / name, *words, env=path)
            told = f"{name}: {self.folder}/out/{name} can't be compiled\n"
            lines = ran.stderr.decode().splitlines(keepends=True)
            self.assertEqual((ran.returncode, lines[0], lines[-1]), (1, "cc1: no memory\n", told))
            self.assertEqual(ran.stdout.decode(), f"{name} failed: what stands above is not all\n")
            self.assertEqual(self.made(), [])

    def test_what_is_missing(self):
        """make and the compiler are named with their packages."""
        copy_tools(self.folder, "to-din")
        commands = self.few_commands()
        told = "to-din: {} is missing: apt-get install {}\n"
        for command, package in ("make", "make"), ("cc", "gcc"), ("clang", "clang"):
            env = {"PATH": str(commands), "CC": "" if command in ("make", "cc") else command}
            env = {name: value for name, value in env.items() if value}
            ran = self.run_command(self.folder / "to-din", "--build", env=env)
            self.assertEqual(ran.stderr.decode(), told.format(command, package))
            if command == "make":
                self.few_commands(*"make sh mkdir cat rm mv".split())

    def test_two_at_once(self):
        """Each compiles to a file of its own, which then takes its place: in a copy of the tool."""
        copy_tools(self.folder, "to-din")
        # the compiler ends when both have compiled
        waits = 'for ((i = 0; i < 300 && $(wc -l < "$0.done") < 2; i++)); do sleep 0.1; done'
        path = self.stand_in("cc", f'"{shutil.which("cc")}" "$@" && echo >> "$0.done" && {waits}')
        given = {**self.in_folder(**path), "stderr": subprocess.PIPE}
        both = [subprocess.Popen([self.folder / "to-din", "--build"], **given) for _ in range(2)]
        ends = [(each.communicate(timeout=60)[1], each.returncode) for each in both]
        self.assertEqual(ends, [(b"", 0)] * 2)
        self.assertEqual(self.made(), ["to-din"])
        ran = self.run_command(self.folder / "to-din", "addresses", stdin=b"10\n")
        self.assertEqual(self.good(ran), "0 10\n")
