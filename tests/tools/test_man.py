"""The manual pages of the program and of the tools."""

import gzip
import importlib
import os
import re
import sys
from unittest import mock

from base import PACKAGING, TOOLS, TOP, ToolTest, needs, script
from test_install import installed

sys.path.append(str(PACKAGING))
pages = importlib.import_module("pages")
# as a terminal of 80 columns shows a page
SHOWN = {"MANWIDTH": "80", "LC_ALL": "C.UTF-8", "MANROFFOPT": "", "MANPAGER": "cat"}
# a file of the repository
FILE = re.compile(r"\b(?:crates|docs|examples|package|tests|tools)/[\w.][\w./-]*\w")


def page_of(name):
    """A page that is installed."""
    page = installed() / f"share/man/man1/{name}.1.gz"
    return gzip.decompress(page.read_bytes()).decode()


class Page(ToolTest):
    """The page of the program."""

    def shown(self):
        """The name and what it does, as whatis finds them, and the lines of the page."""
        self.write("cachesim.1", page_of("cachesim"))
        named = self.good(self.run_command("lexgrog", "cachesim.1"))
        page = self.good(self.run_command("man", "--warnings", "-l", "cachesim.1", env=SHOWN))
        return named, re.sub(".\b", "", page).splitlines()

    @needs("lowdown", "man-db")
    def test_sections(self):
        named, lines = self.shown()
        does = "simulates processor caches over a trace of memory references"
        self.assertIn(f'"cachesim - {does}"', named)
        for heading in ("NAME", "SYNOPSIS", "DESCRIPTION", "TRACES", "SWEEP", "CSIM", "DIN", "LOG",
                        "FROM DINERO IV", "FAULTS", "EXIT STATUS", "LIMITS", "SEE ALSO"):
            self.assertIn(heading, lines)
        synopsis = "\n".join(lines[lines.index("SYNOPSIS"):lines.index("DESCRIPTION")])
        for command in ("sweep", "csim", "din", "log"):
            self.assertIn(f"       cachesim {command} [OPTIONS]", synopsis)
        self.assertIn("       cachesim csim [OPTIONS] -s N -E N -b N -t FILE", lines)
        for tool in ("best", "grade", "lab-trace"):
            self.assertIn(f"cachesim-{tool}(1)", "\n".join(lines[lines.index("SEE ALSO"):]))
        self.assertRegex((self.folder / "cachesim.1").read_text(), r"\ncachesim \\- simulates ")

    @needs("lowdown", "man-db")
    def test_text(self):
        lines = self.shown()[1]
        text = "\n".join(lines)
        for part in ("2^40", "2^20", "$ cachesim csim -v -s 4 -E 1 -b 4 -t", "--kind",
                     "-l1-uwback"):
            self.assertIn(part, text)
        for part in ("](", "<#", ".md>", "<!--", "**", "`", "\u2010", "\\|"):
            self.assertNotIn(part, text)
        # a tool has the name that it is installed with
        manual = (TOP / "docs/manual.md").read_text()
        for name in set(re.findall(r"\btools/([\w-]+)", manual)):
            if os.access(TOOLS / name, os.X_OK) and (TOOLS / name).is_file():
                self.assertNotRegex(text, rf"tools/{name}\b")
                self.assertIn(f"cachesim-{name}", text)
        # a column of short texts is as wide as they are
        self.assertRegex(text, "│--bsize RANGE {0,4}│ required: .{40,}│")
        # text and tables keep to the width, and code is as long as in the manual
        code = {line.strip() for line in manual.splitlines() if line.startswith("    ")}
        self.assertEqual({line.strip() for line in lines if len(line) > 80} - code, set())

    def test_a_manual_of_another_shape(self):
        self.write("docs.md", "# The manual\n\nIt begins otherwise.\n")
        (self.folder / "docs").mkdir()
        (self.folder / "docs.md").rename(self.folder / "docs/manual.md")
        with mock.patch.object(pages, "TOP", self.folder), \
                mock.patch.object(pages.tool, "fail", side_effect=SystemExit) as fail:
            self.assertRaises(SystemExit, pages.of_program, {}, "")
        self.assertIn("docs/manual.md doesn't begin with", fail.call_args[0][0])


# helps, with parts of their pages, in which roff has a backslash before each dash
HELPS = {
    # a list, a paragraph and code, in which each tool has the name that it is installed with
    "some-tool [--fast] FILE    does `this` and that\n\n"
    "A text in\ntwo lines.\n.5 is no request.\n\n"
    "  --fast   runs\n           away\n  --slow   walks\n\nAn example:\n\n"
    "    cachesim sweep -t x | best - --front\n      tools/best it \\\n        -- on\n": (
        ".SH NAME\ncachesim-some-tool - does this and that\n",
        ".SH SYNOPSIS\n\\fBcachesim-some-tool\\fR [--fast] FILE\n",
        ".PP\nA text in\ntwo lines.\n\\&.5 is no request.\n.TP\n\\fB--fast\\fR\nruns\naway\n",
        ".TP\n\\fB--slow\\fR\nwalks\n.PP\nAn example:\n",
        ".EX\ncachesim sweep -t x | cachesim-best - --front\n",
        "\n  cachesim-best it \\e\n    -- on\n.EE\n"),
    # argparse's usage, and its list of options
    "usage: some-tool [-h]\n                 TABLE\n\nChooses the best. Well.\n\n"
    "options:\n  -h, --help  shows this\n  --long NAME\n              a name\n": (
        ".SH NAME\ncachesim-some-tool - chooses the best\n",
        "\\fBcachesim-some-tool\\fR [-h] TABLE\n",
        ".PP\noptions:\n.TP\n\\fB-h, --help\\fR\nshows this\n.TP\n"
        "\\fB--long NAME\\fR\na name\n"),
    # that usage before the call
    "usage: some-tool [-h] TABLE\n\nsome-tool TABLE    chooses the best. Well.\n\n"
    "It writes a line.\n\n    plot it; trace --map x sort | tools/best - && (best x)\n": (
        ".SH NAME\ncachesim-some-tool - chooses the best\n",
        "\\fBcachesim-some-tool\\fR TABLE\n.SH DESCRIPTION\n.PP\nIt writes a line.\n",
        "\ncachesim-plot it; cachesim-trace --map x sort | cachesim-best - && (cachesim-best x)\n",
        ".EE\n.RE\n.SH SEE ALSO\n\\fBcachesim\\fR(1)\n"),
    # a sentence before the call; what has two blanks and is no list
    "Cuts a\ntable X.. well. Well.\n\n    some-tool [--even] JOBS\n              MORE\n\n"
    "It writes a line.\n\n    I  0400,8\n     L 04,8\n": (
        ".SH NAME\ncachesim-some-tool - cuts a table X.. well\n",
        "\\fBcachesim-some-tool\\fR [--even] JOBS MORE\n.SH DESCRIPTION\n.PP\nIt writes a line.\n",
        ".EX\nI  0400,8\n L 04,8\n.EE\n"),
    # where the examples are
    **{f"some-tool FILE    does it\n\n    some-tool {name}\n": (
        "\n.PP\nThe folders examples and tests are in share/doc/cachesim, beside the share/man of "
        "this page.\n",) for name in ("examples/sort.din", "tests/cases/inputs/handout.lackey")},
}


class ToolPages(ToolTest):
    """The pages of the tools."""

    def test_parts(self):
        for text, parts in HELPS.items():
            page = pages.of_tool("some-tool", text, "best|plot|trace")
            for part in parts:
                self.assertIn(part.replace("-", "\\-"), page)

    def test_a_help_that_tells_nothing(self):
        for text in ("", "another-tool    does it\n", "some-tool\n"):
            with mock.patch.object(pages.tool, "fail", side_effect=SystemExit) as fail:
                self.assertRaises(SystemExit, pages.of_tool, "some-tool", text, "best")
            self.assertIn("some-tool: the help begins with no call", fail.call_args[0][0])

    @needs("man-db")
    def test_each_tool_has_a_page(self):
        for tool in script("check").tools():
            with self.subTest(tool):
                self.write("page.1", page_of(f"cachesim-{tool}"))
                named = self.good(self.run_command("lexgrog", "page.1"))
                self.assertIn(f'"cachesim-{tool} - ', named)
                self.good(self.run_command("man", "--warnings", "-l", "page.1", env=SHOWN))

    def test_each_file_that_is_named_is_there(self):
        named, documents = 0, installed() / "share/doc/cachesim"
        for page in installed().glob("share/man/man1/*"):
            text = gzip.decompress(page.read_bytes()).decode().replace("\\-", "-")
            for name in FILE.findall(text):
                self.assertTrue((documents / name).exists(), (page.name, name))
                named += 1
        self.assertGreater(named, 20)
