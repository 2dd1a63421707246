"""Tracing programs with a stand-in for QEMU that tells references of its own."""

import os
import pathlib
import pty
import random
import shlex
import shutil
import signal
import subprocess

from base import EXAMPLES, PROGRAM, TOOLS, comes, copy_tools
from trace_base import FAKE, QEMU, SPACE, TRACED, TraceTest, program_of


class StandIn(TraceTest):
    """With traced/fake_qemu.c for QEMU: what the plugin is called for stands behind the program."""

    def setUp(self):
        super().setUp()
        self.qemu = self.folder / "bin" / QEMU
        self.qemu.parent.mkdir()
        self.qemu.symlink_to(program_of(TRACED / "fake_qemu.c", "-rdynamic"))
        self.program = self.folder / "a program"
        shutil.copy(shutil.which("true"), self.program)
        path = f"{self.folder}/bin:{PROGRAM.parent}:{os.environ['PATH']}"
        self.told = {"PATH": path, "PROGRAM": str(self.program), **FAKE}

    def run_command(self, *arguments, env=None, **given):
        return super().run_command(*arguments, env={**self.told, **(env or {})}, **given)

    def begin(self, *steps):
        return super().begin(self.program, *steps, env={**os.environ, **self.told})

    def steps(self, *steps, options=(), **given):
        return self.trace(*options, self.program, *steps, **given)

    def writes(self, lines, *steps, **given):
        """These steps give these lines of a trace, and nothing else."""
        self.assertEqual(self.good(self.steps(*steps, **given)), lines)

    def fails(self, *faults, steps=("2:1",), **given):
        self.fault(self.steps(*steps, **given), 125, *faults)

    def test_addresses_of_all_lengths(self):
        chance = random.Random(1)
        pairs = [(chance.choice("012"), chance.getrandbits(64) >> chance.randrange(64))
                 for _ in range(3000)]
        powers = [1 << length for length in range(0, 64, 4)]
        pairs += [(label, at) for label in "012" for power in powers for at in (power - 1, power)]
        pairs += [("0", (1 << 64) - 1)]
        lines = [f"{label} {at:x}\n" for label, at in pairs]
        self.writes("".join(lines), *(f"{label}:{at:x}" for label, at in pairs))

    def has_symbols(self, *lines, start="401000"):
        """Has nm tell these lines of a program, and readelf where its code starts; in the run that
        is at 7000000000."""
        segments = ("  LOAD 0x000000 0x400000 0x400000 0x5e0 0x5e0 R   0x1000",
                    f"  LOAD 0x001000 0x{start} 0x{start} 0x1a5 0x1a5 R E 0x1000")
        for command, text in (("nm", lines), ("readelf", segments)):
            self.executable(f"bin/{command}", "cat << END", *text, "END")
        self.told["FAKE_START"] = "7000000000"

    def test_a_part_between_two_functions(self):
        self.has_symbols("401100 T first", "401200 t last", "401300 W never")
        first, inner, last = "2:7000000100", "2:7000000104", "2:7000000200"
        steps = ("2:10", "0:20", first, "0:1", inner, "3:2", last, "1:3", last, "2:401100",
                 first, "1:4", first, "0:5", last, "0:6")
        before, behind = "2 10\n0 20\n", "2 7000000200\n0 6\n"
        one = "2 7000000100\n0 1\n2 7000000104\n0 2\n1 2\n"
        between = "2 7000000200\n1 3\n2 7000000200\n2 401100\n"
        two = "2 7000000100\n1 4\n2 7000000100\n0 5\n"
        part = ("--from", "first", "--to", "last")
        for options, lines in (
            (part, one + two),
            (("--from=first", "--to=never"), one + between + two + behind),
            (("--from", "first"), one + between + two + behind),
            (("--to", "last"), before + one),
            (("--to", "last", "--from", "last"), between + two + behind),
            (("--from", "last", "--to", "first"), between + behind),
            ((*part, "--kind", "d"), "0 1\n0 2\n1 2\n1 4\n0 5\n"),
            ((*part, "--kind", "d", "--skip", "1", "--count", "3"), "0 2\n1 2\n1 4\n"),
        ):
            with self.subTest(options):
                self.writes(lines, *steps, options=options)

    def test_a_part_that_never_begins(self):
        self.has_symbols("401100 T first")
        for step in ("call", "exit:9", "kill", "exec:exit 3"):
            told = "trace: first was never called, or only inlined\n"
            ran = self.steps("2:10", "0:20", step, options=("--from", "first"))
            self.ends(ran, 125, told, told)

    def test_names_of_functions(self):
        self.has_symbols(
            "401100 T twice", "401200 t twice", "401300 T same@A", "401300 T same@@B",
            "401400 i chosen", "401500 W walk(int)", "401600 T a(int)", "401700 T a(char)",
            "402100 D numbers")
        steps = ("2:7000000300", "2:7000000500", "2:7000000600")
        for name, at in (("same", 300), ("walk", 500), ("walk(int)", 500), ("a(int)", 600)):
            self.writes(f"2 7000000{at}\n", *steps, options=("--from", name, "--count", "1"))
        for name, fault in (
            ("twice", "2 functions twice"), ("a", "2 functions a"),
            *((name, f"no function {name}: those of shared libraries can't be named")
              for name in ("none", "sam", "ame", "walk()", ".*", "numbers")),
            ("chosen", "several functions chosen, of which one is chosen when it is loaded"),
        ):
            self.fails(f"{self.program} has {fault}", steps=steps, options=("--from", name))
        self.has_symbols("402100 D numbers")
        fault = f"{self.program} has no function numbers: it is stripped"
        self.fails(fault, steps=steps, options=("--to", "numbers"))

    def test_a_function_in_thumb(self):
        self.program.write_bytes(b"\x7fELF\1\1".ljust(18, b"\0") + b"\x28\0")
        os.symlink(self.qemu, self.folder / "bin/qemu-arm")
        self.has_symbols("00010441 T main", start="00010000")
        steps = ("2:70000003c0", "2:7000000440", "0:8")
        self.writes("2 7000000440\n0 8\n", *steps, options=("--from", "main"))

    def test_more_than_all_blocks_hold(self):
        count = 64 * 4096 * 3 + 5
        for end, status in (((), 0), (("kill",), 137), (("exit:9",), 9)):
            lines = "".join(f"0 {at:x}\n" for at in range(count))
            self.ends(self.steps(f"many:{count}", *end), status, "", lines)

    def test_skip_and_count(self):
        """Also next to the ends of what QEMU hands over at once."""
        ended_by_count = (0, 1), (4095, 3), (4096, 3), (4097, 4096), (1, 19999), (0, 20000)
        for skip, count in ended_by_count + ((5, 20000), (19999, 7), (0, "00020001")):
            status = 0 if (skip, count) in ended_by_count else 9
            ran = self.steps("many:20000", "exit:9", options=("--skip", skip, "--count", count))
            lines = "".join(f"0 {at:x}\n" for at in range(20000)[skip:][:int(count)])
            self.ends(ran, status, "", lines)

    def test_nothing_is_left_by_skip(self):
        """A trace of nothing would give a table of zeros."""
        for skip, steps in (20000, "many:20000"), (999999, "many:20000 exit:9"), (1, "0:1 kill"):
            told = "trace: --skip omits all references of the program\n"
            self.ends(self.steps(*steps.split(), options=("--skip", skip)), 125, told, told)

    def test_count_ends_the_program(self):
        for steps in ("loop", "call wait", "call ignore wait"):
            ran = self.steps("many:5000", *steps.split(), options=("--count", "4000"))
            self.assertEqual(self.good(ran).count("\n"), 4000)
            self.no_process_is_left()

    def test_the_programs_own_output(self):
        steps = ("2:1", "say:own words")
        for options, out, err, files in (
            ((), "2 1\n", "own words\n", {}),
            (("-o", "-"), "2 1\n", "own words\n", {}),
            (("--output=a trace",), "own words\n", "", {"a trace": "2 1\n"}),
            (("-o", "-trace"), "own words\n", "", {"-trace": "2 1\n"}),
            (("--program-output", "-o ut"), "2 1\n", "", {"-o ut": "own words\n"}),
            (("--program-output=o", "--output", "t"), "", "", {"t": "2 1\n", "o": "own words\n"}),
        ):
            self.ends(self.steps(*steps, options=options), 0, err, out)
            for name, text in files.items():
                self.assertEqual((self.folder / name).read_text(), text)

    def test_no_descriptor_is_left_to_the_program(self):
        natively = self.run_command("sh", "-c", "ls /proc/self/fd").stdout
        options = ("-o", "trace", "--program-output", "out")
        ran = self.steps("2:1", "exec:ls /proc/self/fd", options=options)
        self.assertEqual(ran.returncode, 0)
        self.assertEqual((self.folder / "out").read_bytes(), natively)

    def test_a_reader_that_goes_away(self):
        for step in ("loop", "many:3000000 wait"):
            ran = self.in_shell(f'trace "$PROGRAM" {step} | head -2')
            self.assertEqual(self.good(ran), "0 0\n0 1\n141 0\n")
            self.no_process_is_left()

    def test_a_full_device(self):
        for arguments in ('-o /dev/full "$PROGRAM" loop', '"$PROGRAM" many:10 > /dev/full',
                          '-o /dev/full "$PROGRAM" many:10 kill'):
            ran = self.in_shell("trace " + arguments)
            self.assertEqual(ran.stdout, b"125\n")
            device = b"(/dev/full|standard output)"
            self.assertRegex(ran.stderr, b"^trace: " + device + b": No space left on device\n$")
            self.no_process_is_left()

    def test_a_terminal(self):
        """It would be flooded."""
        terminal, end = pty.openpty()
        given = {"stdout": end, "stderr": subprocess.PIPE, "timeout": 20, "cwd": self.folder,
                 "env": {**os.environ, **self.told}}
        for options in ([], ["--output", "-"], ["--program-output", "own"]):
            ran = subprocess.run([TOOLS / "trace", *options, self.program, "0:1"], **given)
            self.assertEqual(ran.returncode, 125)
            self.assertRegex(ran.stderr, rb"\Atrace: the trace would go to a terminal: .*\n\Z")
        os.close(end)
        self.assertRaises(OSError, os.read, terminal, 9)  # nothing was written
        os.close(terminal)

    def test_a_signal_gives_no_table_of_a_part(self):
        """Neither where the reader comes only after the tool has ended."""
        sweep, run = f"cachesim sweep {' '.join(SPACE)}", f'{TOOLS}/trace "$PROGRAM"'
        for number, wait in (("TERM", 0), ("INT", 0), ("HUP", 0), ("TERM", 5)):
            line = f"timeout -s {number} 2 {run} loop | {{ sleep {wait}; {sweep}; }}"
            ran = self.in_shell(line)
            self.assertEqual(ran.stdout, b"124 1\n")
            self.assertRegex(ran.stderr, rb"cachesim: line \d+: bad (label|address)\n")
            self.no_process_is_left()
        ran = self.in_shell(f"timeout -s USR1 1 {run} many:9 call wait | tail -n 1")
        last = b"trace: a signal ended it: what stands above is not all\n"
        self.assertEqual(ran.stdout, last + b"124 0\n")

    def test_signals_are_passed_on(self):
        for number in (signal.SIGTERM, signal.SIGINT, signal.SIGHUP, signal.SIGQUIT, signal.SIGUSR1,
                       signal.SIGUSR2):
            started = self.begin("many:9000", "call", "say:begun", "wait")
            started.send_signal(number)
            self.assertEqual(started.wait(60), 128 + number)
            self.assertEqual((self.folder / "trace.din").read_text().count("\n"), 9000)

    def test_the_program_ends_with_the_tool(self):
        started = self.begin("many:9000", "say:begun", "loop")
        started.kill()
        self.assertEqual(started.wait(60), -9)
        self.no_process_is_left()

    def test_a_signal_while_the_last_lines_wait_for_a_reader(self):
        given = {"stdout": subprocess.PIPE, "bufsize": 0, "env": {**os.environ, **self.told}}
        arguments = [TOOLS / "trace", self.program, "many:30000"]
        with subprocess.Popen(arguments, **given) as started:
            started.stdout.read(1)
            self.assertTrue(comes(lambda: self.processes() == [started.pid]))
            started.terminate()
            self.assertEqual(started.wait(60), 143)

    def test_a_signal_that_comes_with_the_programs_end(self):
        started = self.begin("many:5000", "say:begun", "loop")
        started.send_signal(signal.SIGSTOP)
        children = pathlib.Path(f"/proc/{started.pid}/task/{started.pid}/children")
        program, = map(int, children.read_text().split())
        stat = pathlib.Path(f"/proc/{program}/stat")
        self.assertTrue(comes(lambda: ") S " in stat.read_text()))  # for an empty block
        before = (self.folder / "trace.din").read_text().count("\n")
        started.send_signal(signal.SIGINT)
        os.kill(program, signal.SIGKILL)
        self.assertTrue(comes(lambda: ") Z " in stat.read_text()))
        started.send_signal(signal.SIGCONT)
        self.assertEqual(started.wait(60), 137)
        lines = self.lines((self.folder / "trace.din").read_text())
        self.assertGreaterEqual(len(lines), before + 63 * 4096)  # what the blocks held
        self.assertEqual(lines, [("0", at) for at in (*range(5000), *range(len(lines) - 5000))])

    def test_versions_and_plugins(self):
        for version, told in (("8.2.1", "8.2"), ("7.20.1", "7.20"), ("17.2", "17.2"),
                              ("7", "unknown"), ("", "unknown")):
            env, named = {"FAKE_VERSION": version}, f"version {told},"
            self.fails(QEMU, named, "7.2", "--any-version", "--with lackey", env=env)
            self.writes("2 1\n", "2:1", options=["--any-version"], env=env)
        self.fails(QEMU, "without plugins", "--with lackey", env={"FAKE_HELP": "-strace"})

    def test_a_plugin_that_is_not_taken(self):
        """By a QEMU that does not tell the start of the code, and by none."""
        self.qemu.unlink()
        self.qemu.symlink_to(program_of(TRACED / "fake_qemu.c", "-rdynamic", "-DWITHOUT_START"))
        self.has_symbols("401100 T main")
        self.writes("2 1\n", "2:1")
        told = "trace: QEMU didn't take the plugin: see its message\n"
        why = "trace-plugin.so: --from, --to and --during want QEMU 7.1 or later\n"
        self.ends(self.steps("2:1", options=("--from", "main")), 125, why + told, told)
        self.qemu.unlink()
        self.executable(self.qemu, "case $1 in --version) echo qemu version 7.2.0 ;; "
                        "-h) echo -plugin ;; *) exit 1 ;; esac")
        self.ends(self.steps(), 125, told, told)

    def test_a_folder_with_a_comma(self):
        tools = self.folder / "a,b c"
        copy_tools(tools, "trace")
        self.assertEqual(self.good(self.run_command(tools / "trace", self.program, "2:1")), "2 1\n")

    def test_what_is_missing(self):
        few = self.few_commands("bash", "cat", "make", "mkdir", "mv", "rm", "sh")
        env, missing = {"PATH": str(few)}, "is missing: apt-get install"
        self.fails(f"{QEMU} {missing} qemu-user", env=env)
        self.fails(f"valgrind {missing} valgrind", options=("--with", "lackey"), env=env)
        os.symlink(self.qemu, few / QEMU)
        self.writes("2 1\n", "2:1", env=env)
        self.fails(f"nm {missing} binutils", options=("--to", "main"), env=env)

    def test_programs_that_cannot_run(self):
        elf = self.program.read_bytes()
        s390 = elf[:18] + b"\x16\0" + elf[20:]
        for name, content, mode, status, text in (
            ("nosuch", None, 0, 127, "is not found"),
            ("./nosuch", None, 0, 127, "is not found"),
            ("./bin", None, 0, 126, "must be a file"),
            ("./not-executable", elf, 0o644, 126, "must be a file that may be read and executed"),
            ("./a-text", b"echo\n", 0o755, 126, "neither an ELF program nor a script"),
            ("./empty", b"", 0o755, 126, "neither an ELF program nor a script"),
            ("./cut", elf[:18], 0o755, 126, "a machine that this tool doesn't know"),
            ("./s390", s390, 0o755, 126, "a machine that this tool doesn't know"),
            ("./script", b"#!/nosuch/sh -e\n", 0o755, 127,
             "/nosuch/sh, the interpreter of ./script, is not found"),
            ("./env", b"#!/usr/bin/env -S sh -e\n", 0o755, 126, "wants '/usr/bin/env -S sh -e'"),
            ("./itself", b"#!./itself\n", 0o755, 126, "its interpreter is a script"),
        ):
            if content is not None:
                (self.folder / name).write_bytes(content)
                (self.folder / name).chmod(mode)
            self.fault(self.trace(name, "2:1"), status, name, text)
            self.refused(self.trace("-o", "kept", name, "2:1"), status, name, text)
            self.assertFalse((self.folder / "kept").exists())

    def test_an_earlier_trace_is_left(self):
        """Where no new one can be made. Who waits at a pipe learns it, and nobody is waited for."""
        fake = {"PATH": f"{self.folder}/none"}
        for arguments, env in (
            *(([*words, self.program], {}) for words in (
                ["--nosuch", "1"], ["--count", "0"], ["--map", "nosuch/file"],
                ["--program-output", "nosuch/file"], ["--from", "none"])),
            (["./none"], {}), ([], {}), (["/dev/null"], {}), ([EXAMPLES / "sort.c"], {}),
            ([self.program], fake), (["--with", "lackey", self.program], fake),
        ):
            (self.folder / "old").write_text("0 10\n")
            ran = self.trace("-o", "old", *arguments, env=env)
            self.refused(ran, ran.returncode, "trace: ")
            self.assertIn(ran.returncode, (125, 126, 127))
            self.assertEqual((self.folder / "old").read_text(), "0 10\n", arguments)
        space = "--bsize 16 --sets 1 --assoc 1 --size 16 -t"
        os.mkfifo(self.folder / "pipe")
        self.assertEqual(self.trace("-o", "pipe", "./none", seconds=20).returncode, 127)
        line = f"cachesim sweep {space} pipe & sleep 0.5; trace -o pipe ./none; wait $!"
        ran = self.in_shell(line, seconds=20)
        self.assertIn(b"cachesim: line 1: bad label", ran.stderr)

    def test_options(self):
        self.assertIn("trace [OPTIONS] PROGRAM", self.good(self.run_tool("trace", "--help")))
        for words, text in (
            ("", "a program is wanted"), ("-o", "-o"),
            ("--nosuch 1", "--nosuch is no option"),
            ("--kind x true", "--kind"), ("--output '' true", "--output"),
            ("--skip -1 true", "--skip"), ("--count 1k true", "--count"),
            ("--count= true", "--count"), ("--count=00 true", "--count: '00' is no number above 0"),
            ("--count 0 true", "--count: '0' is no number above 0"), ("--with pin true", "--with"),
            ("--with lackey --libraries / true", "for QEMU"),
            ("--with lackey --threads true", "--map and --threads are for QEMU"),
            *((f"--with lackey {part} main true", "for QEMU")
              for part in ("--from", "--to", "--during")),
            ("--from '' true", "--from: '' is no function's name"),
        ):
            self.fault(self.run_tool("trace", *shlex.split(words)), 125, text)
        told = "nosuch/file can't be written"
        self.refused(self.steps("2:1", options=("-o", "nosuch/file")), 125, told)
        for option in ("--program-output", "--map", "--heap"):
            self.fails(told, options=(option, "nosuch/file"))
        self.writes("2 1\n", "2:1", options=["--"])
