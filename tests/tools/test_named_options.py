"""Options that documents name: in their text, and in their commands, also in those that are not
run, or need a package that is not here."""

import importlib
import os
import re
import shlex
import sys
from unittest import mock

import base
from documents import blocks_of
from test_documents import DOCUMENTS

sys.path.append(str(base.PACKAGING))
completion, install, shared = map(importlib.import_module, ("completion", "install", "shared"))

CODE = re.compile(r"`([^`]+)`")
WORD = re.compile(r"(--[A-Za-z][\w-]*|-l\d-\w+|-[a-z]+|-[A-Z])(?:=(.*))?")
# what runs a program, whose options are its own
RUNS_ANOTHER = "trace", "profile", "lab-trace"
# an option of Dinero IV, in the first column of a table of the manual
OF_DINERO = re.compile(r"^`-.*?\| (?=.*\n)", re.M)
# alone in the text, and of no command here: of Dinero IV, compilers, Valgrind and GNU parallel, how
# those of a cache begin, and the name of a file
OTHERS = {"-h", "--help", "-skipcount", "-l1-usbsize", "-static", "-march", "--log-file",
          "--version", "--sshlogin", "-l1-d", "-name"}


def commands_in(code):
    """The words of each command in a piece of code."""
    for part in re.split(r"[|;&>\n]", code.replace("\\|", "|").replace("\\\n", " ")):
        try:
            words = shlex.split(part)
        except ValueError:  # a quote that is cut
            words = part.split()
        while words and (words[0] in ("$", "do", "time") or "=" in words[0] and words[0][0] != "-"):
            words.pop(0)
        if words:
            yield words


class NamedOptions(base.ToolTest):
    @classmethod
    def setUpClass(cls):
        texts = install.helps(shared.tools())
        commands = completion.commands_of(texts)
        cls.options = {name.removeprefix("cachesim-").removeprefix("cachesim "): takes.options
                       for name, takes in commands.items()}
        of_all = [it for takes in commands.values() for it in takes.options]
        cls.options |= {"": of_all, "all": of_all}
        cls.helps = {name.removeprefix("cachesim-").removeprefix("cachesim "): text
                     for name, text in texts.items()}
        cls.helps["submit"] = shared.said(base.TOOLS / "cluster/submit", "--help")
        cls.helps[""] = "\n".join(cls.helps.values())
        for path in base.TOP.glob("tests/*"):
            if path.is_file() and not path.suffix and os.access(path, os.X_OK):
                cls.helps[path.name] = shared.said(path, "--help")
        cls.helps["all"] = "\n".join(cls.helps.values())

    def has(self, name, option):
        """Whether the help of a command tells of an option, or says that it takes those of din."""
        text = self.helps[name]
        return re.search(rf"(?<![\w-]){option}(?![\w-])", text) is not None or (
            "`cachesim din`" in text and any(option in it.names for it in self.options["din"]))

    def wrong_in(self, words, alone):
        """The options of a command that it doesn't have, and values that they don't take; of those
        without a command, by what these are of. Another name is of another program."""
        name, *behind = words[words[0] == "cachesim" and len(words) > 1:]
        if name.startswith("-"):
            name, behind = alone, [name, *behind]
        name = name.rpartition("/")[2].removeprefix("cachesim-")
        while name in self.helps and behind:
            found = WORD.fullmatch(behind.pop(0))
            if not found and name in RUNS_ANOTHER:
                return
            if not found:
                continue
            named = [it for it in self.options.get(name, ()) if found[1] in it.names]
            if not (named or self.has(name, found[1]) or found[1] in OTHERS):
                yield f"{name or 'no command'}: {found[1]}"
            value = found[2] or ""
            if not value and behind and any(it.value for it in named):
                value = behind.pop(0)
            words_of = [dict(it.words) for it in named]
            if words_of and all(words_of) and re.fullmatch("[a-z,-]+", value):
                yield from (f"{name or 'no command'}: {found[1]} {one}" for one in value.split(",")
                            if not any(one in its for its in words_of))

    def judge(self, text, alone=""):
        """What is wrong in a text. In a row of a table of tools options are of the row's tool."""
        blocks = [it for it in blocks_of(text) if it.is_script or it.is_session]
        found = [(code, alone) for it in blocks for code in ["\n".join(it.lines)]]
        for part in re.sub(r"(?ms)^```.*?^```$|^    .*?$", "", text).split("\n\n"):
            rows = part.split("\n") if part.startswith("| ") else [part]
            for row in rows:
                tool = re.match(r"\| `([\w-]+)", row)
                name = tool[1] if tool and tool[1] in self.helps else alone
                found += [(code, name) for code in CODE.findall(row)]
        return [wrong for code, name in found for words in commands_in(code)
                for wrong in self.wrong_in(words, name)]

    def test_each_is_there(self):
        paths = [*base.TOP.glob("package/*.md"), *base.TOP.glob("*/*/README.md")]
        for page in [*DOCUMENTS, *(str(path.relative_to(base.TOP)) for path in paths)]:
            with self.subTest(page):
                text = (base.TOP / page).read_text()
                before, begin, rest = text.partition("\n## From Dinero IV\n")
                table, end, behind = rest.partition("\n## ")
                text = "".join([before, begin, OF_DINERO.sub("", table), end, behind])
                self.assertEqual(self.judge(text, "all" * page.startswith("tests/")), [])

    def test_what_is_wrong(self):
        text = """\
`best --with 2`, `best --within 2`, `--front`, `--fronts`, `-l1-dwback a,y`, `ls --fronts`

| `plot TABLE` | `--only size`, `--only sizes`, `--within` |

    cachesim sweep --kind d \\
        --kinds x | tools/trace --kind e ls --kinds
"""
        wrong = ["best: --with", "--fronts", "-l1-dwback y", "plot: --only sizes", "plot: --within",
                 "sweep: --kinds", "trace: --kind e"]
        self.assertEqual(sorted(it.removeprefix("no command: ") for it in self.judge(text)),
                         sorted(wrong))

    def test_calls_in_helps(self):
        calls = [words for text in self.helps.values() for line in
                 text.replace("\\\n", " ").replace("|\n", "| ").split("\n")
                 if line.startswith("  ") and not re.search(r"\[[-A-Z]|\.\.", line)
                 for words in commands_in(line) if words[0][0] != "-"]
        known = [words for words in calls if words[0].rpartition("/")[2] in self.helps]
        self.assertGreater(len(known), 50)
        # what a call has is not told by the call
        names = "|".join(filter(None, self.helps))
        named = rf"(?m)^  +(?:tools/|tests/)?(?:{names}) (?!.*\[-).*$"
        bare = {name: re.sub(named, "", text) for name, text in self.helps.items()}
        with mock.patch.object(type(self), "helps", bare):
            self.assertEqual([it for words in calls for it in self.wrong_in(words, "all")], [])

    def test_defaults_in_helps(self):
        """What holds without an option, as a tool's help tells it, is its default in the code."""
        told = r"^ +(--[\w-]+)(?:(?!^ +-).)*?(?:(\w+) without th|\[default: (\w+))"
        code = r'add_argument\("(--[\w-]+)"[^)]*?\bdefault="?(\w+)'
        count = 0
        for name, path in shared.tools().items():
            defaults = dict(re.findall(code, (base.TOOLS / path).read_text()))
            for option, *value in re.findall(told, self.helps[name], re.M | re.S):
                if option in defaults:
                    self.assertEqual("".join(value), defaults[option], (name, option))
                    count += 1
        self.assertGreater(count, 4)

    def test_each_option_is_told(self):
        """Each that the code of a tool or a script takes is in its help."""
        taken = r'add_argument\(\s*"(-[\w-]+)"(?:, "(-[\w-]+)")?'
        paths = {name: base.TOP / "tests" / name for name in self.helps}
        paths = {name: path for name, path in paths.items() if name and path.is_file()}
        paths |= {name: base.TOOLS / path for name, path in shared.tools().items()}
        told = {f"{name}: {option}": self.has(name, option) for name, path in paths.items()
                for pair in re.findall(taken, path.read_text()) for option in filter(None, pair)}
        self.assertGreater(len(told), 60)
        self.assertEqual([option for option, is_told in told.items() if not is_told], [])

    def unmade(self, text):
        """The columns that commands of a page compare, which neither the page has elsewhere, in a
        header or where it makes one, nor the help of a tool that reads tables."""
        known = f"{text}\n{self.helps['best']}\n{self.helps['plot']}"
        for column in sorted({*re.findall(r"--measure[ =]([a-z][\w-]*)", text)}):
            if not re.search(rf"(?<!--measure[ =])(?<![\w-]){column}(?![\w-])", known):
                yield column

    def test_columns_that_are_compared(self):
        for page in DOCUMENTS:
            self.assertEqual([*self.unmade((base.TOP / page).read_text())], [], page)
        text = "`--measure of-kind`, `best --measure=of-kinds`\n\n    a,b,of-kind,other-of-kinds\n"
        self.assertEqual([*self.unmade(text)], ["of-kinds"])

    def test_other_programs(self):
        """The columns of lscpu that the cookbook names, and the packages that pages install."""
        text = (base.TOP / "docs/cookbook.md").read_text()
        columns, = re.findall(r"`lscpu -C=([A-Z,-]+)`", text)
        known = self.good(self.run_command("lscpu", "--help"))
        self.assertEqual([it for it in columns.split(",")
                          if not re.search(rf"(?m)^ +{it} ", known)], [])
        texts = (path.read_text() for path in base.TOP.glob("[!c]*/**/*.md"))
        told = {name for text in [*texts, (base.TOP / "README.md").read_text()]
                for names in re.findall(r"apt-get install ((?:[a-z][\w.+-]*[ `]?)+)", text)
                for name in names.strip("`").split()}
        self.assertGreater(len(told), 5)
        self.assertEqual(told - {*base.PACKAGES}, set())
