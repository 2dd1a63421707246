"""What the manual says of each option of Dinero IV: the table of its section, line by line, and the
text by which `din` and `log` refuse an option that they do not have."""

import re

import base
from test_three_c import first_references, misses

MANUAL = (base.TOP / "docs/manual.md").read_text().partition("## From Dinero IV")[2]
ROWS = [line.split(" | ", 1) for line in MANUAL.partition("\n\n## ")[0].split("\n")
        if " | " in line][1:]
LINES = (base.EXAMPLES / "sort.din").read_text().splitlines(keepends=True)
# the line that first has the address of the triggers
TRIGGER = [line.endswith(" 1fff000558\n") for line in LINES].index(True)
CACHES = "-l1-isize 256 -l1-ibsize 16 -l1-dsize 256 -l1-dbsize 16 -l1-dassoc 2".split()
FIRST = "1 2 3 4 5".split()
OF_A_CACHE = "size bsize sbsize assoc repl fetch pfdist pfabort walloc wback ccc".split()
HERE = {f"-{cache}{name}" for cache in ("l1-i", "l1-d", "l1-u", "l2-u")
        for name in ("size", "bsize", "assoc", "repl", "walloc", "wback")}
# all of dineroIV -help, of caches of each level and kind, and the others except -help
OPTIONS = {f"-l{level}-{kind}{name}" for level in "12345" for kind in "uid" for name in OF_A_CACHE}
OTHERS = ("-skipcount -flushcount -maxcount -stat-interval -stat-idcombine -on-trigger "
          "-off-trigger -custom -copyright -contact -dineroIII -trname").split()
LAST = ('For options of Dinero IV see "From Dinero IV" in the manual: docs/manual.md, '
        'man cachesim.')


def command_of(option, at=0):
    """A command of the line that begins with an option."""
    answer, = (answer for options, answer in ROWS if options.startswith((option, f"`{option}")))
    commands = [span for span in re.findall("`([^`]*)`", answer.replace("\\|", "|"))
                if re.match("tools/|cachesim |sed |awk ", span)]
    return commands[at]


class FromDinero(base.ToolTest):
    def setUp(self):
        super().setUp()
        self.write("trace.din", "".join(LINES))
        (self.folder / "tools").symlink_to(base.TOOLS)

    def run_line(self, option, at=0):
        """What a command of the table writes for the example's trace."""
        line = command_of(option, at).replace(" ..", f" {' '.join(CACHES)}")
        return self.good(self.run_command("bash", "-c", f"set -o pipefail; {line}"))

    def report(self, lines, caches=CACHES):
        """What the model of the program reports of some lines."""
        text = "".join(lines).encode()
        return self.good(self.run_command(base.TOP / "tests/model.py", "din", *caches, stdin=text))

    def test_each_line_is_run(self):
        """Of the lines with a command each has a test below."""
        run = [options.split("`")[1] for options, answer in ROWS
               if re.search("`(tools/|cachesim din |sed |awk )", answer)]
        self.assertEqual(run, [
            "-informat D", "fetch", "-lN-Tccc", "-skipcount 1000", "-maxcount 1000",
            "-flushcount 1000", "-stat-interval 1000", "-stat-idcombine",
            "-on-trigger 1fff000558", "-off-trigger 1fff000558", "-l3-usize", "-l2-isize"])
        self.assertGreater(len(ROWS), len(run) + 5)

    def test_fetch(self):
        """Its counts have tests of their own."""
        header, *rows = self.run_line("other values").splitlines()
        self.assertEqual(header, "cache,prefetcher,misses,found,percent")
        misses = {row.split(",")[0]: int(row.split(",")[2]) for row in rows}
        self.assertEqual(sum(misses.values()), self.misses_of(LINES))

    def test_reports(self):
        """Of a trace in another form, and of a part of it."""
        self.write("trace.xdin", "".join(
            f"{'rwi'[int(line[0])]} 0x{line[2:-1]} 4\n" for line in LINES))
        flushed = [line + "4 0\n" * (number % 1000 == 0) for number, line in enumerate(LINES, 1)]
        for option, lines in (
            ("-informat D", LINES), ("-skipcount", LINES[1000:]), ("-maxcount", LINES[:1000]),
            ("-flushcount", flushed), ("-on-trigger", LINES[TRIGGER:]),
            ("-off-trigger", LINES[:TRIGGER + 1]),
        ):
            with self.subTest(option):
                self.assertEqual(self.run_line(option), self.report(lines))

    def test_ccc(self):
        header, row, *more = self.run_line("-lN-Tccc").splitlines()
        events = base.references("".join(LINES).encode())
        first, all_misses, full = (first_references(events, 16), misses(events, 16, 8, 2),
                                   misses(events, 16, 1, 16))
        self.assertEqual(header.split(",")[-3:], ["compulsory", "capacity", "conflict"])
        self.assertEqual((row.split(",")[5:6] + row.split(",")[-3:], more), (
            [str(count) for count in (all_misses, first, full - first, all_misses - full)], []))

    def misses_of(self, lines):
        report = self.report(lines).partition("memory")[0]
        return sum(map(int, re.findall("-misses=([0-9]+)", report)))

    def test_stat_interval(self):
        header, *rows = self.run_line("-stat-interval").splitlines()
        before, wanted = 0, []
        for end in (*range(1000, len(LINES), 1000), len(LINES)):
            wanted.append(self.misses_of(LINES[:end]) - before)
            before += wanted[-1]
        self.assertEqual(header, "first,last,misses,percent")
        self.assertEqual([int(row.split(",")[2]) for row in rows], wanted)

    def test_stat_idcombine(self):
        self.assertEqual(int(self.run_line("-stat-idcombine")), self.misses_of(LINES))

    def sent(self, caches):
        """What caches send on, by the model's log."""
        text = "".join(LINES).encode()
        log = self.good(self.run_command(base.TOP / "tests/model.py", "log", *caches, stdin=text))
        return [line[len("memory "):] + "\n" for line in log.splitlines()
                if line.startswith("memory ")]

    def test_usize(self):
        """Levels 3 and 4: with four levels in one model each is what the one before sends."""
        further = "-l1-usize 2k -l1-ubsize 32 -l2-usize 8k -l2-ubsize 32".split()
        self.assertEqual(self.run_line("-l3-usize"), self.report(self.sent(CACHES), further))

    def test_isize(self):
        side = "-l1-usize 1k -l1-ubsize 32".split()
        fetches = self.sent("-l1-isize 256 -l1-ibsize 16".split())
        self.assertEqual(self.run_line("-l2-isize"), self.report(fetches, side))

    def test_what_is_here_is_taken(self):
        values = {"repl": "l", "walloc": "a", "wback": "a", "size": "64", "bsize": "16",
                  "assoc": "1"}
        for option in sorted(HERE):
            name = option[5:]
            words = [word for each in {"size": 0, "bsize": 0, name: 0}
                     for word in (f"{option[:5]}{each}", values[each])]
            first = [] if "-l1-" in option else "-l1-usize 16 -l1-ubsize 16".split()
            ran = self.run_command(base.PROGRAM, "din", *first, *words, "-informat", "d")
            self.assertIn("memory", self.good(ran), option)

    def test_refused(self):
        """The first is named whole, with no tip, and the last line says where to look."""
        for command in "din", "log":
            usage = f"Usage: cachesim {command} [OPTIONS] [-t <FILE>]"
            for option in (*sorted(OPTIONS - HERE), *OTHERS):
                value = [] if option.endswith(("ccc", "idcombine", "copyright")) else ["16"]
                words = [*CACHES, option, *value]
                ran = self.run_command(base.PROGRAM, command, *words)
                told = (f"cachesim: error: unexpected argument '{option}' found\n\n{usage}\n\n"
                        f"For more information, try '--help'.\n{LAST}\n")
                self.ends(ran, 2, told)

    def test_others_are_refused_as_before(self):
        """A slip has its tip; what is no option of Dinero IV has no such line."""
        for words, told in (("-l1-usise 16", "'--l1-usize'"), ("-seed 1", "'-s'"),
                            ("-l6-usize 1", "'-l'"), ("-l1-xfetch d", "--l1-xfetch"),
                            ("-skipcounts 1", "'-s'"), ("trace.din", "'trace.din'")):
            ran = self.run_command(base.PROGRAM, "din", *CACHES, *words.split())
            self.refused(ran, 2, told, "unexpected argument")
            self.assertNotIn(b"Dinero", ran.stderr)
        ran = self.run_command(base.PROGRAM, "csim", "-skipcount", "1")
        self.assertNotIn(b"Dinero", ran.stderr)
        ran = self.run_command(base.PROGRAM, "din", *CACHES, "-informat", "D")
        self.ends(ran, 2, "cachesim: -informat: bad value\n")
