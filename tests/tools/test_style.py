"""What is asked of every tool: help, lines that are not too long, and what the linters say."""

import ast
import os
import pathlib
import re
import subprocess
import unittest

import base

# they pass on the status of the program that they trace
WRONG_ARGUMENTS = {"profile": 125, "trace": 125, "lab/lab-trace": 125}


def scripts():
    """The tracked and new files of the repository that are no data, without what is built."""
    found = []
    for folder, folders, names in os.walk(base.TOP):
        folders[:] = sorted(set(folders) - {".git", "out", "__pycache__", "crates"})
        found += [os.path.join(folder, name) for name in sorted(names)]
    return found


def first_line(path):
    with open(path, "rb") as file:
        return file.readline(80)


def written_in(word):
    firsts = {path: first_line(path) for path in scripts()}
    return [path for path, first in firsts.items() if first.startswith(b"#!") and word in first]


def tools():
    """The executables under tools/ and package/, except debhelper's rules."""
    folders = (f"{base.TOOLS}/", f"{base.PACKAGING}/")
    found = [path for path in scripts() if path.startswith(folders) and os.access(path, os.X_OK)
             and not os.path.islink(path)]
    found.remove(str(base.PACKAGING / "debian/rules"))
    assert str(base.TOOLS / "best") in found, "files have lost their modes: no tool would be tested"
    return found


class Tools(base.ToolTest):
    def test_help(self):
        for tool in tools():
            with self.subTest(tool):
                for option in ("--help", "-h"):
                    text = self.good(self.run_command(tool, option))
                    self.assertIn(os.path.basename(tool), text)
                self.assertRegex(text, r"(?i)exit status", "the help names the exit statuses")

    def test_wrong_arguments(self):
        for tool in tools():
            with self.subTest(tool):
                ran = self.run_command(tool, "--no-such-option")
                name, path = os.path.basename(tool), os.path.relpath(tool, base.TOOLS)
                self.assertEqual(ran.returncode, WRONG_ARGUMENTS.get(path, 2))
                fault = rf"{name}: .*; '{name} --help' explains the arguments\n"
                self.assertRegex(ran.stderr.decode(), rf"\A{fault}\Z")
                # what writes a trace ends it in a line that no simulator takes
                self.assertRegex(ran.stdout.decode(), rf"\A({name}( failed)?: .*\n)?\Z")

    def test_each_tool_is_in_the_readme(self):
        """In that of its folder, which is named in tools/README.md."""
        text = (base.TOOLS / "README.md").read_text()
        for tool in map(pathlib.Path, tools()):
            with self.subTest(tool.name):
                own, folder = (tool.parent / "README.md").read_text(), tool.parent.name
                self.assertTrue(f"\n`{tool.name}" in own, f"{folder}/README.md has no row of it")
                if tool.parent not in (base.TOOLS, base.PACKAGING):
                    self.assertTrue(f"\n`{folder}/` | " in text, f"no row of {folder}/")


class Scripts(base.ToolTest):
    def test_help(self):
        """Each script of tests/ says how it is called, and has an example of it."""
        for path in map(pathlib.Path, scripts()):
            if path.parent == base.TOP / "tests" and os.access(path, os.X_OK) and not path.suffix:
                with self.subTest(path.name):
                    text = self.good(self.run_command(path, "--help"))
                    self.assertGreaterEqual(text.count(f"\n    tests/{path.name}"), 1)
                    self.assertRegex(text, r"[Ff]or\s+example")


class Pythons(base.ToolTest):
    """All tools begin in the same way. A Python older than 3.9 reads each, and ends with one
    line."""

    def tools(self):
        mine = [pathlib.Path(path) for path in tools() if path.startswith(f"{base.TOOLS}/")]
        return [path for path in mine if b"python3" in first_line(path)]

    def test_the_first_line(self):
        """It is that which lib/__init__.py gives a reason for; make tools compiles in this way."""
        firsts = {path: first_line(path).partition(b"\n")[0].decode() for path in tools()}
        first, = set(firsts.values())
        self.assertIn(f"'{first}'", (base.TOOLS / "lib/__init__.py").read_text())
        self.assertIn(f"PYTHON := {first[2:]}\n", (base.TOOLS / "Makefile").read_text())

    def test_what_it_reads(self):
        lib = [base.TOOLS / folder / "__init__.py" for folder in ("lib", "lab/parts")]
        for path in (*self.tools(), *lib):
            with self.subTest(path):
                ast.parse(path.read_text(), feature_version=(3, 6))

    def test_what_it_says(self):
        old = ("import runpy, sys; sys.argv = sys.argv[1:]; sys.version_info = (3, 8, 18); "
               "sys.path[0] = sys.argv[0].rpartition('/')[0]; "
               "runpy.run_path(sys.argv[0], run_name='__main__')")
        for path in self.tools():
            with self.subTest(path):
                ran = self.run_command("/usr/bin/python3", "-BES", "-c", old, path, "--help")
                told = ran.stderr.decode()
                line = rf"\A{path.name}: Python 3\.9 or later is needed, and .* is 3\.8\n\Z"
                self.assertRegex(told, line)
                is_trace = os.path.relpath(path, base.TOOLS) in base.WRITES_A_TRACE
                status = 125 if path.name in ("lab-trace", "profile", "trace") else 1
                self.ends(ran, status, told, told * is_trace)


class Widths(unittest.TestCase):
    """The longest lines: in characters, of code, contracts, texts and comments."""

    OF_SUFFIX = {**dict.fromkeys((".rt", ".antt", ".py", ".bash", ".c", ".h", ".html"), 100),
                 ".md": 140}

    def width(self, path):
        """The most characters of a line in a file; none for data."""
        is_code = path.name == "Makefile" or first_line(path).startswith(b"#!")
        return self.OF_SUFFIX.get(path.suffix, 100 if is_code else None)

    # What can't be broken: rows of tables; texts and the prover's names of goals
    WHOLE = {".md": r" \| ", ".antt": r'^ *(\+\+ codes )?"|\.Goals\.\{[^,]*\}$'}

    def is_whole(self, path, line):
        whole = self.WHOLE.get(path.suffix)
        return whole is not None and re.search(whole, line) is not None

    def judge(self, paths):
        """No line is too long, except those that can't be broken."""
        longer = []
        for path in paths:
            if most := self.width(path):
                for number, line in enumerate(path.read_text().split("\n"), 1):
                    if len(line) > most and not self.is_whole(path, line):
                        place = f"{path.relative_to(base.TOP)}:{number}"
                        longer.append(f"{place}: {len(line)} characters, and at most {most}")
        self.assertEqual(longer, [])

    def test_crates(self):
        paths = sorted((base.TOP / "crates").glob("*/[!o]*/**/*"))
        self.judge(path for path in paths if path.suffix in (".rt", ".antt"))

    def test_others(self):
        self.judge(path for path in map(pathlib.Path, scripts()) if path.suffix != ".edit")


class Linters(unittest.TestCase):
    def clean(self, *arguments):
        ran = subprocess.run(arguments, capture_output=True, text=True, cwd=base.TOP)
        self.assertEqual((ran.stdout + ran.stderr, ran.returncode), ("", 0))

    @base.needs("shellcheck")
    def test_shell(self):
        paths = written_in(b"bash") + written_in(b"/sh")
        self.assertGreater(len(paths), 2)
        self.clean("shellcheck", *paths)

    @base.needs("flake8")
    def test_python(self):
        paths = written_in(b"python") + [path for path in scripts() if path.endswith(".py")]
        self.assertGreater(len(paths), 20)
        options = ("--isolated", "--max-line-length", "100", "--extend-ignore", "E203")
        self.clean("flake8", *options, *sorted(set(paths)))
