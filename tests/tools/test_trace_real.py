"""Tracing programs by QEMU and by lackey."""

import fcntl
import os
import pty
import shutil
import signal
import subprocess
import termios

from base import CROSS, EXAMPLES, TOOLS, copy_tools, needs
from trace_base import SPACE, TRACED, TraceTest, program_of, symbols_of, traced, within


ARRAYS = "first_array", "second_array", "third_array"  # those of own_arrays.c


def places(kind, name, count, size=4):
    """The accesses of one kind to the things of an array, one by one."""
    return [(kind, name, size * at) for at in range(count)]


class Both:
    """What is the same with each tracer."""

    def of_data(self, program, *names, arguments=(), **given):
        """The data references of a whole run to things of a program."""
        lines, _ = self.traced_to_file("--kind", "d", program, *arguments, **given)
        return self.own_data(lines, program, *names)

    def test_exactly_the_accesses_of_a_known_program(self):
        self.known(traced("known"))

    def known(self, program, *options):
        lines, _ = self.traced_to_file(*options, program)
        names = ("numbers", "longs", "bytes")
        expected = places("1", "numbers", 1000) + places("0", "numbers", 1000)[::-3]
        expected += [(label, "longs", 8 * at) for at in range(10) for label in "01"]
        expected += [("0", "bytes", 0), ("1", "bytes", 2)]
        self.assertEqual(self.own_data(lines, program, *names), expected)

        main = symbols_of(program)["main"]
        # each access follows the fetch of its instruction, or another access of the same
        before = None
        for label, at in lines:
            if label != "2" and any(within(symbols_of(program)[name], at) for name in names):
                self.assertTrue(within(main, before), f"{label} {at:x} behind {before:x}")
            before = at if label == "2" else before

        fetches = [at for label, at in lines if label == "2" and within(main, at)]
        data, _ = self.traced_to_file(*options, "--kind", "d", program)
        self.assertEqual({label for label, _ in data}, {"0", "1"})
        self.assertEqual(self.own_data(data, program, *names), expected)
        only_fetches, _ = self.traced_to_file(*options, "--kind", "i", program)
        self.assertEqual({label for label, _ in only_fetches}, {"2"})
        self.assertEqual([at for _, at in only_fetches if within(main, at)], fetches)

    def test_threads(self):
        """Each reads and writes an array of its own, round after round."""
        program = program_of(TRACED / "own_arrays.c", "-static", "-DROUNDS=20")
        found = self.of_data(program, *ARRAYS)
        for name in ARRAYS:
            turn = [(label, name, 4 * at) for at in range(1000) for label in "01"]
            self.same([reference for reference in found if reference[1] == name], turn * 20)

    def test_writes_in_their_order(self):
        """Of threads that take turns, and of one that closes all that it does not know."""
        for name, array, count in (("turns", "rows", 1000), ("closes", "numbers", 20000)):
            written = self.of_data(traced(name), array, arguments=["own file"])
            self.assertEqual(written, places("1", array, count))
        self.assertEqual((self.folder / "own file").read_text(), "own\n" * 37)

    def test_ways_to_end(self):
        program = traced("ends")
        killed = {"abort": 134, "segment": 139, "kill": 137}
        for way in ("exit", "_exit", "last", "thread", "beside", "exec", *killed):
            status = killed.get(way, 7)
            ran = self.trace("-o", "trace.din", "--kind", "d", program, way)
            self.assertEqual(ran.returncode, status, way)
            exec_is_told = b"trace: the program became another by exec" in ran.stderr
            self.assertEqual(exec_is_told, way == "exec" and self.with_ == "qemu")
            self.all_numbers_are_there(way)

    def test_children_are_left_out(self):
        program = traced("forks")
        message = "trace: the program forked, and what its children did is not in the trace\n"
        message *= self.with_ == "qemu"
        lines, out = self.traced_to_file("--kind", "d", program, status=5, message=message)
        self.assertEqual(out, "child\nanother\n")
        written = self.own_data(lines, program, "parents", "childs")
        self.assertEqual(written, places("1", "parents", 27003))

    def test_input_and_output(self):
        lines, out = self.traced_to_file("cat", stdin=b"some words\n")
        self.assertEqual(out, "some words\n")
        ran = self.trace("cat", "-", "nosuch", stdin=b"some words\n")
        told = b"some words\ncat: nosuch: No such file or directory\n"
        self.assertEqual((ran.returncode, ran.stderr), (1, told))
        self.assertGreater(len(self.lines(ran.stdout.decode())), 10000)

    def test_a_pipe_into_a_sweep(self):
        tracing = f'trace --kind d "{traced("known")}" | tee trace.din'
        ran = self.in_shell(f"{tracing} | cachesim sweep {' '.join(SPACE)}")
        wanted = self.sweep(*SPACE, stdin=(self.folder / "trace.din").read_bytes())
        self.assertEqual(self.good(ran), wanted + "0 0 0\n")

    def test_skip_and_count(self):
        program = traced("known")
        lines, _ = self.traced_to_file("--kind", "d", program)
        first = lines.index(("1", symbols_of(program)["numbers"][0]))
        part, _ = self.traced_to_file("--kind", "d", f"--skip={first}", "--count=1000", program)
        self.assertEqual(self.own_data(part, program, "numbers")[0], ("1", "numbers", 0))
        self.assertEqual(part, lines[first:first + 1000])

    def test_a_reader_that_goes_away(self):
        program = shutil.copy(traced("ends"), self.folder / "ends")
        ran = self.in_shell(f'trace --program-output /dev/null "{program}" spin | head -1')
        self.assertRegex(self.good(ran), r"^2 [0-9a-f]+\n141 0\n$")
        self.no_process_is_left()

    def test_a_signal_to_all_processes(self):
        started = self.begin(traced("ends"), "spin", stderr=subprocess.PIPE)
        os.killpg(started.pid, signal.SIGTERM)
        self.assertEqual((started.communicate(timeout=60)[1], started.returncode), (b"", 143))
        self.all_numbers_are_there()

    def test_an_interrupt_at_the_terminal(self):
        """It comes to the program once."""
        terminal, end = pty.openpty()
        given = {"stdin": end, "stdout": end, "stderr": end,
                 "preexec_fn": lambda: fcntl.ioctl(0, termios.TIOCSCTTY, 0)}
        started = self.begin(traced("ends"), "interrupt", **given)
        os.close(end)
        self.assertEqual(os.read(terminal, 100), b"spins\r\n")
        os.write(terminal, b"\x03")
        self.assertEqual(started.wait(60), 130)
        os.close(terminal)
        self.all_numbers_are_there()

    def all_numbers_are_there(self, way=""):
        """Those that the program `ends` writes."""
        lines = self.lines((self.folder / "trace.din").read_text())
        written = self.own_data(lines, traced("ends"), "numbers")
        self.assertEqual(written, places("1", "numbers", 10007), way)

    def test_scripts(self):
        (self.folder / "bin").mkdir()
        env = {"PATH": f"{self.folder}/bin:{os.environ['PATH']}"}
        for called, first in (("bin/plain", "#!/bin/sh"), ("-o ption", "#! /bin/sh -e "),
                              ("by env", "#!/usr/bin/env sh")):
            script = self.folder / "bin" / called.removeprefix("bin/")
            script.write_text(f'{first}\necho "$0" "$#" "$@"; false; exit 4\n')
            script.chmod(0o755)
            call = (called, "a b", "-c")
            natively = self.run_command("bash", "-c", '"$0" "$@"', *call, env=env)
            lines, out = self.traced_to_file("--", *call, status=natively.returncode, env=env)
            self.assertEqual(out, natively.stdout.decode())
            self.assertGreater(len(lines), 10000)

    def test_the_environment(self):
        """The program has that of the tool, without what Python sets for itself in the locale C."""
        given = {"PATH": os.environ["PATH"], "SOME": "words"}
        for more in {}, {"LC_CTYPE": "C.UTF-8"}, {"LC_ALL": "C"}:
            words = [TOOLS / "trace", "--with", self.with_, "-o", "t.din", "/usr/bin/env"]
            ran = subprocess.run(words, env={**given, **more}, cwd=self.folder, timeout=60,
                                 capture_output=True, check=True)
            lines = ran.stdout.decode().splitlines()
            self.assertLessEqual({"SOME=words"}, {*lines})
            locale = [line for line in lines if line.startswith("LC_")]
            self.assertEqual(locale, [f"{name}={more[name]}" for name in more])


@needs("qemu-user")
class ByQemu(Both, TraceTest):
    def test_a_map_that_cannot_be_written(self):
        """Half a map, or none, would give wrong names."""
        self.refused(self.trace("-o", "t.din", "--map", "/dev/full", "true"), 125,
                     "trace: the map can't be written: No space left on device\n")
        self.assertEqual((self.folder / "t.din").read_text().splitlines()[-1][:6], "trace:")

    def test_signals(self):
        program = traced("signals")
        lines, out = self.traced_to_file(program)
        rounds, ticks, faults = map(int, out.split())
        self.assertEqual(faults, -(-20000 * 4 // 4096))
        written = self.own_data(lines, program, "numbers")
        self.assertEqual(written, places("1", "numbers", 20000) * rounds)
        for name, count in ("ticks", ticks), ("faults", faults):
            self.assertEqual(self.own_data(lines, program, name).count(("1", name, 0)), count)
        storing = lines[lines.index(("1", symbols_of(program)["numbers"][0])) - 1]
        # what faults is fetched again
        self.assertEqual(lines.count(storing), rounds * 20000 + faults)

    def test_many_blocks(self):
        """A block for each system call, more than 16 bits count. An endless trace is cut."""
        program = traced("calls")
        lines, _ = self.traced_to_file("--kind", "d", "--count", 2_000_000, program)
        self.assertEqual(self.own_data(lines, program, "numbers"), places("1", "numbers", 70000, 1))

    def test_atomic_instructions(self):
        program = program_of(TRACED / "counters.c", "-static", "-DONE")
        added = [label for label, _, _ in self.of_data(program, "counters")]
        # main reads it once more, and three others
        self.assertEqual((added.count("0"), added.count("1")), (80004, 80000))

    @needs(*CROSS)
    def test_another_machine(self):
        compiler = "aarch64-linux-gnu-gcc"
        self.known(traced("known", compiler=compiler))
        dynamic = program_of(TRACED / "known.c", compiler=compiler)
        self.known(dynamic)
        self.known(dynamic, "--libraries", "/usr/aarch64-linux-gnu")
        ran = self.trace("--libraries", "/nosuch", dynamic)
        told = b"trace: the program can't be run: see the message of its tracer\n"
        self.assertEqual((ran.returncode, ran.stdout), (126, told))
        self.assertIn(b"ld-linux-aarch64", ran.stderr)
        ran = self.trace(dynamic, env={"QEMU_LD_PREFIX": "/nosuch"})
        self.assertEqual(ran.returncode, 126)


@needs("valgrind")
class ByLackey(Both, TraceTest):
    with_ = "lackey"

    def test_lines_that_cannot_be_converted(self):
        copy_tools(self.folder, "trace")
        words = ("--with", "lackey", "--program-output", "own", traced("ends"), "spin")
        for way in ("exit 1", "kill -9 $$"):
            self.executable("out/to-din", "head -n 1 > /dev/null", "echo 2 401000", way)
            ran = self.run_command(self.folder / "trace", *words)
            self.fault(ran, 125, "the tracer's lines can't be converted")
            self.assertTrue(ran.stdout.startswith(b"2 401000\n"))


@needs("qemu-user", "valgrind")
class SameTrace(TraceTest):
    def between_marks(self, tracer, program):
        self.with_ = tracer
        lines, _ = self.traced_to_file(program)
        mark = ("1", symbols_of(program)["mark"][0])
        first = lines.index(mark)
        return lines[first + 1:lines.index(mark, first + 1)]

    def test_a_sort(self):
        """All is the same, but that the stack lies elsewhere."""
        program = program_of(EXAMPLES / "sort.c", "-static")
        qemu, lackey = (self.between_marks(tracer, program) for tracer in ("qemu", "lackey"))
        self.assertEqual([label for label, _ in qemu], [label for label, _ in lackey])
        apart = {one[1] - other[1] for one, other in zip(qemu, lackey)}
        self.assertEqual(len(apart), 2)
        self.assertIn(0, apart)
