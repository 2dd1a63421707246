"""Tracing the part of a run between two functions, by QEMU."""

import re
import shutil
import subprocess

from base import CROSS, needs
from trace_base import TRACED, TraceTest, program_of, symbols_of, traced


def cut(lines, begin=None, end=None):
    """The lines from each fetch of one instruction to before the next fetch of the other."""
    within, found = begin is None, []
    for line in lines:
        if line == ("2", end):
            within = False
        if line == ("2", begin):
            within = True
        if within:
            found.append(line)
    return found


@needs("qemu-user", "binutils")
class Parts(TraceTest):
    def place(self, program, function, base=0):
        return symbols_of(program)[function][0] + base if function else None

    def same_as_cut(self, *flags, compiler="cc", **given):
        """Parts of a run have the lines that are cut from its whole trace."""
        program = program_of(TRACED / "parts.c", *flags, compiler=compiler)
        base = self.base_of(program, **given) if "-fpie" in flags else 0
        whole, _ = self.traced_to_file(program, **given)
        for begin, end in (("main", None), ("enter", "leave"), (None, "leave"), ("leave", "enter"),
                           ("leave", "leave")):
            options = [f"--from={begin}"] * bool(begin) + [f"--to={end}"] * bool(end)
            lines, _ = self.traced_to_file(*options, program, **given)
            expected = cut(whole, self.place(program, begin, base), self.place(program, end, base))
            self.assertGreater(len(expected), 150)
            self.same(lines, expected)

    def base_of(self, program, **given):
        """Where QEMU loads a position-independent program."""
        self.traced_to_file("--map", "map", program, **given)
        first = rf"(?m)^(\w+)-\w+ \S+ 0+ .*{re.escape(str(program))}$"
        return int(re.search(first, (self.folder / "map").read_text())[1], 16)

    def test_programs(self):
        """Static and others, at places of their own or not, also where QEMU has moved all."""
        for flags in (["-static"], [], ["-fpie", "-pie"], ["-fpie", "-static-pie"]):
            self.same_as_cut(*flags)
        for flags in (["-static"], ["-fpie", "-pie"]):
            self.same_as_cut(*flags, env={"QEMU_GUEST_BASE": "0x100000000000"})

    @needs(*CROSS)
    def test_another_machine(self):
        for flags in (["-static"], ["-fpie", "-pie"]):
            self.same_as_cut(*flags, compiler="aarch64-linux-gnu-gcc")

    def test_the_calls_of_one_thread_count_for_all(self):
        program, part = traced("parts"), ("--from", "enter", "--to", "leave")
        lines, _ = self.traced_to_file("--kind", "d", *part, program, "threads")
        self.assertEqual(self.own_data(lines, program, "inside", "outside"),
                         [("1", "inside", 4 * at) for at in range(3 * 50)])

    def test_what_is_not_called(self):
        program = traced("parts")
        lines, _ = self.traced_to_file("--to", "not_called", program)
        self.same(lines, self.traced_to_file(program)[0])
        for name, *words in (("not_called", "--to", "main", program), ("enter", program, "fork")):
            ran = self.trace("--from", name, *words)
            self.fault(ran, 125, f"{name} was never called, or only inlined")

    def test_a_map(self):
        """It is that of the whole run, with the stack, and all that is loaded of the program."""
        program = program_of(TRACED / "parts.c", "-fpie", "-pie")
        self.traced_to_file("--map", "map", program)
        whole = (self.folder / "map").read_text()
        loaded = re.findall(rf"(?m)^(\w+)-(\w+) .* {re.escape(str(program))}$", whole)
        loaded = [(int(start, 16), int(end, 16)) for start, end in loaded]
        for name in ("main", "inside"):
            place = self.place(program, name, loaded[0][0])
            self.assertTrue(any(start <= place < end for start, end in loaded), whole)
        part = ("--from", "enter", "--to", "leave")
        for kind in "udi":
            lines, _ = self.traced_to_file("--map", "part", "--kind", kind, *part, program)
            self.assertGreater(len(lines), 150)
            self.assertEqual((self.folder / "part").read_text(), whole)
        self.assertEqual(whole.count("[stack]\n"), 1)

    def test_an_interpreter(self):
        script = self.write("script", f"#!{shutil.copy(traced('parts'), self.folder / 'parts')}\n")
        script.chmod(0o755)
        lines, _ = self.traced_to_file("--from", "main", "./script")
        self.assertEqual(lines[0], ("2", self.place(traced("parts"), "main")))

    @needs("g++")
    def test_names_of_cpp(self):
        source = self.folder / "names.cpp"
        walk = "__attribute__((noinline)) int walk(int step) { return step; }"
        source.write_text(f"struct Tree {{ {walk} }};\nint main() {{ return Tree().walk(0); }}\n")
        program = program_of(source, compiler="g++")
        for name in ("Tree::walk", "Tree::walk(int)", "_ZN4Tree4walkEi"):
            lines, _ = self.traced_to_file("--from", name, program)
            self.assertEqual(lines[0], ("2", self.place(program, "_ZN4Tree4walkEi")))
        ran = self.trace("--from", "walk", program)
        self.fault(ran, 125, f"{program} has no function walk: ", "; there is Tree::walk(int)\n")
        ran = self.trace("--from", "Tree<int>::walk", program)
        self.fault(ran, 125, ", nor those that were inlined; there is Tree::walk(int)\n")

    def test_stripped_programs(self):
        """They have those that libraries use, if any, or those of a file with debug information."""
        plain, program = (program_of(TRACED / "parts.c", "-fpie", "-pie", *more)
                          for more in ((), ("-rdynamic",)))
        subprocess.run(["strip", "-o", self.folder / "stripped", plain], check=True)
        ran = self.trace("--from", "main", "./stripped")
        self.fault(ran, 125, "./stripped has no function main: it is stripped")
        subprocess.run(["objcopy", "--only-keep-debug", plain, self.folder / "apart"], check=True)
        subprocess.run(["objcopy", "--add-gnu-debuglink=apart", "stripped"], check=True,
                       cwd=self.folder)
        lines, _ = self.traced_to_file("--from", "main", "--kind", "i", "--count", 1, "./stripped")
        self.assertEqual(lines, [("2", self.place(plain, "main", self.base_of(plain)))])
        subprocess.run(["strip", "-o", self.folder / "stripped", program], check=True)
        lines, _ = self.traced_to_file("--from", "enter", "--kind", "i", "--count", 1, "./stripped")
        self.assertEqual(lines, [("2", self.place(program, "enter", self.base_of(program)))])


@needs("qemu-user", "binutils")
class During(TraceTest):
    """Tracing the calls of one function."""

    CALLS = "-fno-optimize-sibling-calls"
    WRITTEN = [0, 10, 1, 0, 10, 11, 2, 1, 0, 10, 11, 12]

    def written(self, *arguments, program=None):
        """What the traced part writes, as places in `inside`, or with the name of `outside`."""
        program = program or traced("during")
        lines, _ = self.traced_to_file("--during", "f", program, *arguments)
        found = self.own_data(lines, program, "inside", "outside")
        return [at // 4 if name == "inside" else (name, at // 4)
                for label, name, at in found if label == "1"], lines

    def test_calls(self):
        """From several places, with what they call; one within another belongs to the outermost."""
        for flags in (["-static"], []):
            program = program_of(TRACED / "during.c", *flags, self.CALLS)
            found, lines = self.written(program=program)
            self.assertEqual(found, self.WRITTEN)
            whole, _ = self.traced_to_file(program)
            first = whole.index(("2", symbols_of(program)["f"][0]))
            # the first call does not go deeper: it is all up to its second return
            ends = [at for at, line in enumerate(lines) if line == lines[0]][1]
            self.assertEqual(lines[:ends], whole[first:first + ends])
            self.assertNotEqual(whole[first + ends], lines[ends])
            for kind, labels in ("d", "01"), ("i", "2"):
                other, _ = self.traced_to_file("--during", "f", "--kind", kind, program)
                self.assertEqual(other, [line for line in lines if line[0] in labels])

    @needs(*CROSS)
    def test_another_machine(self):
        given = {"compiler": "aarch64-linux-gnu-gcc"}
        program = program_of(TRACED / "during.c", "-static", self.CALLS, **given)
        self.assertEqual(self.written(program=program)[0], self.WRITTEN)

    def test_a_thread(self):
        self.assertEqual(self.written("thread")[0], [1, 0, 10, 11])

    def test_calls_that_do_not_return(self):
        self.assertEqual(self.written("exit")[0], [9])
        self.assertEqual(self.written("jump away")[0], [8, ("outside", 4)])

    def test_faults(self):
        jumping = program_of(TRACED / "during.c", "-static", "-foptimize-sibling-calls")
        without = "--during goes without --from and --to"
        for words, fault in (
            ([jumping], f"a jump led to f, not a call: {self.CALLS} makes them calls"),
            ([jumping, "never"], "f was never called, or only inlined"),
            (["--from", "main", jumping], without), (["--to", "main", jumping], without),
        ):
            self.fault(self.trace("--during", "f", *words), 125, fault)
