"""Every command that a document shows, run as it is written.

The blocks of a document are run one after another in one folder, a copy of the top of the
repository, so that a later one can use what an earlier one wrote. A script is run by bash as a
whole, and must end with status 0. The program's folder is on the path.
"""

import os
import pathlib
import re
import shutil
import tempfile
import unittest
from unittest import mock

import base
import common
import contracts
import documents

DOCUMENTS = ["README.md", "examples/README.md", "tests/README.md"]
DOCUMENTS += [f"docs/{path.name}" for path in sorted((base.TOP / "docs").glob("*.md"))]
DOCUMENTS += [str(path.relative_to(base.TOP)) for path in sorted(base.TOOLS.glob("**/README.md"))]


def copied_top():
    """A copy of the top of the repository with the built program, where commands may write."""
    folder = pathlib.Path(tempfile.mkdtemp(prefix="cachesim-documents-")) / "top"
    ignored = shutil.ignore_patterns(".git", "out", "__pycache__")
    shutil.copytree(base.TOP, folder, symlinks=True, ignore=ignored)
    (folder / "crates/cachesim/out").mkdir()
    shutil.copy2(base.PROGRAM, folder / "crates/cachesim/out/cachesim")
    if (base.TOOLS / "out").is_dir():
        shutil.copytree(base.TOOLS / "out", folder / "tools/out")
    return folder


# Debian's packages that a command needs in which this stands, beside a C compiler
PACKAGES = {
    r"tools/trace ": ["qemu-user"],
    r"--from|--to\b|tools/by-line": ["binutils"],
    r"tools/plot": ["python3-matplotlib"],
    r"tools/plot .*\.html|\.html --": ["python3-plotly"],
    r"\bmlr\b": ["miller"],
    r"\bvalgrind\b|lab-trace": ["valgrind"],
    r"\bgcc\b|\bcc\b|tools/(trace|to-din|by-line|second-level|optimal) ": ["gcc"],
    r"\bg\+\+": ["g++"],
    r"\bxz": ["xz-utils"],
    r"\bzst": ["zstd"],
    r"--confine": ["bubblewrap"],
    r"\bsbatch\b|tools/cluster": ["slurm-client", "slurm-wlm", "munge"],
    r"\bparallel --": ["parallel"],
    r"make (man|install|deb)": ["lowdown"],
}


def packages_of(text):
    """The packages that the commands of a document need, those that are not run left out."""
    blocks = [block for block in documents.blocks_of(text) if not block.reason]
    commands = [command.text for block in blocks for command in block.commands()]
    commands += ["\n".join(block.lines) for block in blocks if block.is_script]
    said = "\n".join(commands).replace("\\\n", " ")
    found = (names for sign, names in PACKAGES.items() if re.search(sign, said))
    return sorted({name for names in found for name in names})


class Documents(unittest.TestCase):
    """One test for each document; made below."""

    def check(self, name):
        folder = copied_top()
        self.addCleanup(shutil.rmtree, folder.parent, ignore_errors=True)
        program = folder / "crates/cachesim/out/cachesim"
        path = f"{program.parent}:{os.environ['PATH']}"
        known = {"PATH": path, "CACHESIM": str(program), "COLUMNS": "100"}
        for block in documents.blocks_of((base.TOP / name).read_text()):
            if block.reason:
                continue
            for command in block.commands():
                with self.subTest(f"{name}:{command.number}"):
                    seen = documents.run(command.text, folder, **known)[0]
                    wrong = documents.differences(command, seen)
                    self.assertFalse(wrong, "\n".join([f"{name}:{command.number}:", *wrong]))
            if block.is_script:
                with self.subTest(f"{name}:{block.number}"):
                    script = "\n".join(["set -eo pipefail", *block.lines])
                    got, status = documents.run(script, folder, **known)
                    self.assertEqual(status, 0, f"{name}:{block.number}: status {status}\n{got}")


class Judged(unittest.TestCase):
    """What is wrong with a document's commands is seen: their status, or what they write."""

    def seen(self, text):
        """Whether the test of a document with this text fails."""
        folder = pathlib.Path(tempfile.mkdtemp(prefix="cachesim-documents-")) / "top"
        folder.mkdir()
        ran, blocks = unittest.TestResult(), documents.blocks_of(text)
        with mock.patch.object(documents, "blocks_of", lambda _: blocks), \
                mock.patch(f"{__name__}.copied_top", lambda: folder):
            test = Documents("test_tests_README")
            test.run(ran)
        self.assertEqual(ran.testsRun, 1)
        return not ran.wasSuccessful()

    def test_wrong_documents(self):
        for text, is_wrong in (("    printf 1 | grep 1\n", False),
                               ("    printf 1 | grep 2\n", True),
                               ("    $ echo 1\n    1\n", False),
                               ("    $ echo 1\n    2\n", True)):
            self.assertEqual(self.seen(text), is_wrong, text)


class Blocks(unittest.TestCase):
    """That blocks are told apart."""

    def test_blocks(self):
        text = "a\n\n    $ one \\\n        two\n    out\n\n    $ three\n\nb\n<!-- not run: no -->"
        text += "\n\n    make\n\n```\nmake\n```\n\n    0 10\n"
        blocks = documents.blocks_of(text)
        got = [(it.number, it.reason, it.is_session, it.is_script) for it in blocks]
        self.assertEqual(got, [(3, None, True, False), (12, "no", False, True),
                               (15, None, False, True), (18, None, False, False)])
        wanted = [(3, "one \\\n    two", ["out", ""]), (7, "three", [])]
        self.assertEqual(blocks[0].commands(), wanted)

    def test_packages(self):
        """Those of commands that are run, and no other."""
        text = "mlr\n\n    $ tools/plot t.csv \\\n        a.html\n\n<!-- not run: no -->\n\n"
        text += "    $ valgrind ls\n"
        self.assertEqual(packages_of(text), ["python3-matplotlib", "python3-plotly"])
        text += "\na script, and a piece of a file\n\n    make man\n\nb\n\n    xz 1\n"
        self.assertEqual(packages_of(text), ["lowdown", "python3-matplotlib", "python3-plotly"])
        self.assertLessEqual(set().union(*PACKAGES.values()), set(base.PACKAGES))

    def test_any_lines(self):
        self.assertTrue(documents.matches(["a", "...", "d"], ["a", "b", "c", "d"]))
        self.assertTrue(documents.matches(["...", "d"], ["d"]))
        self.assertFalse(documents.matches(["a", "..."], ["b"]))
        self.assertFalse(documents.matches(["a"], ["a", "b"]))


class Callers(unittest.TestCase):
    """The pages for callers: each printed caller is one that is proved, and each quoted clause is
    one of the code."""

    PAGES = sorted((base.TOP / "crates").glob("*/CALLING.md"))

    def blocks(self, page, language):
        """The blocks of a page that are in a language."""
        return re.findall(rf"^```{language}\n(.*?)^```$", page.read_text(), re.S | re.M)

    def rows(self, page):
        """The rows of a page's tables of calls: a call, with its parameters, and what it does."""
        table = re.search(r"^Call \| What it does\n---\|---\n((?:.+\n)*)", page.read_text(), re.M)
        return [row.split(" | ", 1) for row in table[1].splitlines()] if table else []

    def test_described_calls(self):
        """A call is described where it is defined: its row has the first sentences of the comment
        there, without the last full stop."""
        for page in self.PAGES:
            calls = {f"`{name}({', '.join(parameters)})`": said
                     for path in sorted((page.parent / "src").rglob("*.rt"))
                     for name, parameters, said in contracts.calls_of(path)}
            for call, does in self.rows(page):
                self.assertIn(call, calls, page)
                self.assertTrue(f"{calls[call]} ".startswith(f"{does}. "),
                                f"{page}: {call}: {does}: its comment is: {calls[call]}")
        self.assertGreater(sum(len(self.rows(page)) for page in self.PAGES), 80)

    def test_printed_callers(self):
        code = [path.read_text() for path in (base.TOP / "crates/callers/src").glob("*.rt")]
        printed = [(page, text) for page in self.PAGES for text in self.blocks(page, "rust")]
        self.assertGreaterEqual(len(printed), 6)
        for page, text in printed:
            self.assertTrue(any(text in file for file in code), f"{page} prints another caller")

    def test_printed_invariants(self):
        """A page prints the invariants of the loops of its callers, each as a whole file."""
        callers, printed = base.TOP / "crates/callers", 0
        for page in self.PAGES:
            wanted = []
            for name in re.findall(r"\bfn (\w+)", "".join(self.blocks(page, "rust"))):
                for path in callers.glob(f"proofs/*/{name}/Invariants.antt"):
                    wanted.append(f"-- {path.relative_to(callers)}\n{path.read_text()}")
            self.assertEqual(self.blocks(page, "antt"), wanted, page)
            printed += len(wanted)
        self.assertGreaterEqual(printed, 2)

    def test_quoted_clauses(self):
        """Each is one of the function that it stands under."""
        quoted, contracts = 0, base.script("ledger").Contracts().of
        for page in self.PAGES:
            code = [path.read_text() for path in sorted((page.parent / "src").glob("**/*.rt"))]
            code = squeezed("\n".join(code))
            for line in "".join(self.blocks(page, "text")).splitlines():
                if line.startswith("fn "):
                    called = re.match(r"fn ([\w:]+)", line)[1]
                    of = contracts[f"{page.parent.name}::{called}"]
                    of = {(it.is_condition, it.name, squeezed(it.text)) for it in of}
                    self.assertIn(squeezed(re.sub(r"^fn \w+::", "fn ", line)), code)
                else:
                    kind, name, text = re.match(r"  (\w+) ?(\w*): (.*)", line).groups()
                    wanted = kind == "requires", name, squeezed(text)
                    self.assertIn(wanted, of, f"{page}: {called} has no such clause: {line}")
                quoted += 1
        self.assertGreaterEqual(quoted, 40)


class Definitions(unittest.TestCase):
    """docs/definitions.md says in words what modules of definitions say in the prover's language:
    each entry ends with its modules, and each module is named."""

    MODULES = r"`(\w+)`: (`\w+`(?:, `\w+`)*)"
    END = re.compile(rf"[.*] ({MODULES}(?:; {MODULES})*)\.\Z")
    # crates whose definitions need not be judged, or are a caller's
    OTHERS = {"block_index", "callers", "deep_list"}

    def setUp(self):
        text = (base.TOP / "docs/definitions.md").read_text()
        entries, _, self.where = text.partition("\n## Where each is\n")
        parts = re.split(r"\n\n(?=\*\*|## )", entries.partition("\n## ")[2])
        self.entries = [part for part in parts if part.startswith("**")]
        self.modules = {
            (path.relative_to(base.TOP / "crates").parts[0], path.stem)
            for path in base.TOP.glob("crates/*/specs/**/*.antt")
            if "internal" not in path.parts and common.DEFINITION.search(path.read_text())}

    def named(self, text):
        """The modules that a text names, each with its crate."""
        return {(crate, name) for crate, names in re.findall(self.MODULES, " ".join(text.split()))
                for name in re.findall(r"\w+", names)}

    def test_each_entry_names_its_modules(self):
        self.assertGreater(len(self.entries), 28)
        for entry in self.entries:
            end = self.END.search(" ".join(entry.split()))
            self.assertTrue(end, entry)
            self.assertLessEqual(self.named(end[1]), self.modules, entry)

    def test_each_module_is_named(self):
        named = self.named("\n".join([*self.entries, self.where]))
        judged = {(crate, name) for crate, name in self.modules if crate not in self.OTHERS}
        self.assertEqual(judged - named, set())


def squeezed(code):
    """Code without its comments and white space, and without a comma after the last parameter."""
    code = re.sub(r"^\s*//.*$", "", code, flags=re.M)
    return re.sub(r"\s", "", code).replace(",)", ")")


def test_of(name):
    def test(self):
        self.check(name)

    needed = packages_of((base.TOP / name).read_text())
    return base.needs(*needed)(test) if needed else test


for document in DOCUMENTS:
    name = "test_" + re.sub(r"\W", "_", document.removesuffix(".md"))
    setattr(Documents, name, test_of(document))
