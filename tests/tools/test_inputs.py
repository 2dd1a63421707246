"""No tool writes to a file that it reads: it is left as it is, and a message says why."""

import gzip
import shutil
from pathlib import Path

import trace_base
from base import CACHE, EXAMPLES, HANDOUT, OVER_A_TRACE, SPACE, TOOLS, ToolTest, needs

TABLE = "bsize,sets,assoc,size,hits,misses,evictions\n16,1,1,16,5,5,4\n16,1,2,32,6,4,2\n"
# tools that read a file or standard input, and their words; INPUT stands for its name or '-'
READERS = {
    **{tool: ("d", words) for tool, words in OVER_A_TRACE.items()},
    "best": (TABLE, ["INPUT"]), "plot": (TABLE, ["INPUT", "-"]),
    "to-din": ("10\n20\n", ["addresses", "INPUT"]),
}
# those that read a file alone
OF_A_FILE = {
    "lab/grade": ("l", ["/bin/true", "INPUT"]),
    "lab/grade-class": ("l", ["--trace", "INPUT", "."]),
    "lab/lab-transpose": ("int x;\n", ["INPUT"]),
    "lab/replay": ("l", "-s 1 -E 2 -b 4 -t INPUT --text".split()),
}
TEXTS = {"d": "".join(f"0 {16 * number:x}\n" for number in range(200)),
         "l": HANDOUT.read_text()}


class InputTest(ToolTest):
    def text(self, form):
        return TEXTS.get(form, form)

    def kept(self, tool, line, told, status, place="input"):
        """A line of bash that would write to a file: the tool leaves it as it is, and says so."""
        before = (self.folder / place).read_bytes()
        # a tool that reads what it has written ends by this limit
        line = f'ulimit -f 1000; {line}'
        ran = self.run_command("bash", "-c", line, TOOLS / tool, seconds=20)
        name = tool.rpartition("/")[2]
        fault = f"{name}: {told}"
        if status == 2 and "are one file" in told:
            fault += f"; '{name} --help' explains the arguments"
        self.assertEqual((ran.stderr.decode(), ran.returncode), (f"{fault}\n", status))
        self.assertEqual((self.folder / place).read_bytes(), before, line)


class StandardOutput(InputTest):
    """In append mode, as by '>> input': with '>' the shell empties it before any tool begins."""

    def judge(self, tool, name, read="", place="input"):
        """A tool that reads a place by some name, and perhaps on standard input."""
        form, words = {**READERS, **OF_A_FILE}[tool]
        text = self.text(form).encode()
        self.write(place, gzip.compress(text) if place.endswith(".gz") else text)
        line = f'"$0" {" ".join(words).replace("INPUT", name)} {read} >> {place}'
        status = 2 if tool.startswith(("lab/grade", "lab/lab-transpose")) else 1  # of each fault
        told = "standard input" if name == "-" else name
        self.kept(tool, line, f"{told} is standard output too", status, place)

    def test_names(self):
        """Its own, a link, that of a descriptor, a packed file; and standard input."""
        (self.folder / "link").symlink_to("input")
        packed = "second-level", "sweep-parallel", "to-din", "three-c"
        for tool, *given in (
            *((tool, "input") for tool in {**READERS, **OF_A_FILE}),
            *((tool, "-", "< input") for tool in READERS),
            *((tool, name, "< input") for tool in ("lab/replay", "sweep-parallel")
              for name in ("link", "/dev/stdin")),
            *((tool, "input.gz", "", "input.gz") for tool in packed),
        ):
            with self.subTest(tool=tool, given=given):
                self.judge(tool, *given)
        self.write("input", self.text("l"))
        line = '"$0" -s 1 -E 2 -b 4 < input >> input'
        self.kept("lab/replay", line, "standard input is standard output too", 1)

    def test_another_fault_before(self):
        """The line that marks a trace that is not whole is not written to an input."""
        self.write("input", self.text("d"))
        for tool, words, told, status in (
            ("second-level", "input -t x", "the trace is the first argument", 2),
            ("to-din", "addresses input more", "a format and at most one file are wanted", 2),
        ):
            with self.subTest(tool):
                before = (self.folder / "input").read_bytes()
                ran = self.run_command("bash", "-c", f'"$0" {words} >> input', TOOLS / tool)
                self.assertEqual(ran.returncode, status)
                self.assertIn(f"{tool}: {told}", ran.stderr.decode())
                self.assertEqual((self.folder / "input").read_bytes(), before)
                # but in a file of its own it is
                self.run_command("bash", "-c", f'"$0" {words} > own', TOOLS / tool)
                own = (self.folder / "own").read_text()
                self.assertEqual(own, f"{tool} failed: what stands above is not all\n")

    def test_other_files_are_written(self):
        """Also where standard input and output are one terminal or device."""
        self.write("input", self.text("d"))
        line = f'"$0" 2 input {" ".join(SPACE)} >> output && "$0" 2 - {" ".join(SPACE)}'
        line += " < /dev/null > /dev/null"
        self.good(self.run_command("bash", "-c", line, TOOLS / "sweep-parallel"))
        table = self.sweep(*SPACE, "-t", self.folder / "input")
        self.assertEqual((self.folder / "output").read_text(), table)

    @needs("valgrind")
    def test_the_program_of_lab_trace(self):
        """By its path, and by its name on the path."""
        (self.folder / "on the path").mkdir()
        for place, word in ("input", "./input"), ("on the path/program", "program"):
            shutil.copy("/bin/true", self.folder / place)
            line = f'PATH="$PWD/on the path:$PATH"; "$0" {word} >> "{place}"'
            name = word if "/" in word else f"{self.folder}/on the path/program"
            self.kept("lab/lab-trace", line, f"{name} is standard output too", 125, place)


class OfFiles(InputTest):
    """Files that a tool writes by name, or reads beside the trace or table."""

    def test_each(self):
        d, maps = TEXTS["d"], "00400000-00401000 r-xp 00000000 08:01 1 /bin/sort\n"
        self.write("t.din", d)
        cache = " ".join(CACHE)
        for tool, text, line, told in (
            ("plot", TABLE, "- input.svg < input.svg", "OUT and a table"),
            ("plot", TABLE, "input.svg ./input.svg", "OUT and a table"),
            ("by-line", d, f"- {cache} --callgrind input.svg < input.svg",
             "--callgrind and the trace"),
            ("by-line", maps, f"t.din {cache} --map input.svg >> input.svg",
             "standard output and --map"),
            ("by-line", maps, f"t.din {cache} --map input.svg --callgrind ./input.svg",
             "--callgrind and --map"),
        ):
            with self.subTest(tool=tool, line=line):
                self.write("input.svg", text)
                self.kept(tool, f'"$0" {line}', f"{told} are one file", 2, "input.svg")


class OfTrace(InputTest):
    """The program, by its path and by its name on the path, a script, standard input, and a map,
    which it writes: each is `input`, of which None stands for a compiled program."""

    READ = {
        "./input": (None, "the program"), "input": (None, "the program"),
        "./input -x": ("#!/bin/sh\n", "the program"), "sort < input": ("0 10\n", "standard input"),
        "--map input sort": ("00400000-00401000 r-xp 00000000 08:01 1 /bin/sort\n", "--map"),
        "./outer": ("#!/bin/sh\n", "its interpreter"),
        "sh input": ("echo\n", "its argument input"),
        "sort --output=input": ("a\n", "its argument --output=input"),
    }

    def spared(self, options, told):
        """It is spared beside these options, whatever it is. NAME stands for what it is."""
        for words, (text, name) in self.READ.items():
            with self.subTest(options=options, words=words):
                self.write("input", Path("/bin/true").read_bytes() if text is None else text)
                (self.folder / "input").chmod(0o755)
                self.write("outer", "#!./input\n").chmod(0o755)
                line = f'PATH="$PWD:$PATH"; "$0" {options} {words}'
                explained = f"{told}; 'trace --help' explains the arguments"
                self.kept("trace", line, explained.replace("NAME", name), 125)

    def test_what_is_read(self):
        self.spared("-o input", "--output and NAME are one file")
        self.spared("-o t --program-output input", "--program-output and NAME are one file")

    def test_what_is_not_there_yet(self):
        """A script that would grow as it is read."""
        ran = self.run_tool("trace", "-o", "s.sh", "sh", "s.sh", seconds=20)
        self.refused(ran, 125, "--output and its argument s.sh are one file")
        self.assertFalse((self.folder / "s.sh").exists())

    def test_a_fault_before(self):
        """One that is found before it is known what is read."""
        self.spared("-o input --skip x", "argument --skip: 'x' is no number")
        self.spared("--output=input --bogus=1", "--bogus is no option")
        self.spared("-o input --with lackey --map m", "--from, --to, --during, --libraries, "
                    "--any-version, --map and --threads are for QEMU")


@needs("binutils", "llvm")
class OfByLine(InputTest):
    """The programs that its map names, the files of their debug information, and sources."""

    def setUp(self):
        super().setUp()
        self.source = shutil.copy(EXAMPLES / "sort.c", self.folder)
        words = "-g", "-no-pie", "-o", self.folder / "srt", self.source
        self.good(self.run_command("cc", *words))
        start, size = trace_base.symbols_of(self.folder / "srt")["main"]
        self.write("s.din", "".join(f"2 {at:x}\n0 10\n" for at in range(start, start + size)))
        self.trace = f"s.din {' '.join(CACHE)}"

    def write_map(self):
        """A map of the program where it lies by its own addresses."""
        lines = self.run_command("readelf", "-lW", "srt").stdout.decode().splitlines()
        loads = [line.split() for line in lines if line.split()[:1] == ["LOAD"]]
        self.write("s.map", "".join(
            f"{int(at, 16):x}-{int(at, 16) + int(size, 16):x} r-xp {int(offset, 16):08x} 08:01 1 "
            f"{self.folder}/srt\n" for _, offset, at, _, _, size, *_ in loads))

    def test_the_program(self):
        path = f"{self.folder}/srt"
        self.write_map()
        for words, name, told in (
            ("--map s.map --callgrind ./srt", "--callgrind", path),
            ("--map s.map >> srt", "standard output", path),
            ("--program srt >> srt", "standard output", "--program"),
            ("--map s.map --heap srt --by site >> srt", "standard output", "--heap"),
        ):
            with self.subTest(words):
                line = f'"$0" {self.trace} {words}'
                self.kept("by-line", line, f"{name} and {told} are one file", 2, "srt")

    def test_debug_information_of_its_own(self):
        self.good(self.run_command("objcopy", "--only-keep-debug", "srt", "srt.debug"))
        self.good(self.run_command("objcopy", "--strip-debug", "--add-gnu-debuglink=srt.debug",
                                   "srt"))
        line = f'"$0" {self.trace} --program srt --callgrind srt.debug'
        told = f"--callgrind and {self.folder}/srt.debug are one file"
        self.kept("by-line", line, told, 2, "srt.debug")

    def test_a_source(self):
        line = f'"$0" {self.trace} --program srt --callgrind sort.c'
        told = f"--callgrind and {self.source} are one file"
        self.kept("by-line", line, told, 2, "sort.c")
