"""What tests of tools that read a trace share: files, pipes, packed ones, faults, a full device."""

import gzip
import os
import subprocess

import base

SORT = (base.EXAMPLES / "sort.din").read_bytes()


class Reading:
    """Tests of any of these tools: TOOL is called with words BEFORE the trace and OPTIONS behind
    it. After a fault MARK is the last that it writes, of a full device it tells FULL, and of a
    trace that is not there what NO_TRACE says."""

    BEFORE = OPTIONS = ()
    MARK = b""
    FULL = "write failed"
    NO_TRACE = dict.fromkeys(("none", "none.gz", "."), "{tool}: {trace}: no file that can be read")

    def words(self, trace):
        return [*map(str, self.BEFORE), trace, *map(str, self.OPTIONS)]

    def read(self, trace, **given):
        return self.run_tool(self.TOOL, *self.words(trace), **given)

    def test_traces(self):
        """A file, pipes and packed files, with any name."""
        expected = self.good(self.read("-", stdin=SORT))
        os.mkfifo(self.folder / "pipe")
        with subprocess.Popen(["cp", base.EXAMPLES / "sort.din", self.folder / "pipe"]):
            self.assertEqual(self.good(self.read("pipe")), expected)
        hard = "it's \"$HOME\" `x`\\n.din", "line\nfeed", "é", os.fsdecode(b"\xff\xfe"), "x=y", "%s"
        for name in ("a trace.din", "-a trace", *hard):
            (self.folder / name).write_bytes(SORT)
            (self.folder / f"{name}.gz").write_bytes(gzip.compress(SORT))
            for trace in (name, f"{name}.gz", f"./{name}", f"./{name}.gz"):
                self.assertEqual(self.good(self.read(trace)), expected, trace)

    @base.needs("xz-utils", "zstd")
    def test_packed(self):
        expected = self.good(self.read(base.EXAMPLES / "sort.din"))
        for name in self.packed(base.EXAMPLES / "sort.din"):
            self.assertEqual(self.good(self.read(name)), expected)

    def test_no_trace(self):
        for trace, told in self.NO_TRACE.items():
            ran, told = self.read(trace), told.format(tool=self.TOOL, trace=trace)
            got = ran.returncode, ran.stdout, ran.stderr.decode()
            self.assertEqual(got, (1, self.MARK, f"{told}\n"))

    def test_faults_of_the_trace(self):
        """After a bad line, or a packed trace that was cut off or has something behind it."""
        bad, whole = SORT + b"4 10\n0 10 \n7 10\n0 0", gzip.compress(SORT)
        line, cut = "cachesim: line 5849: bad label\n", "end of file\n"
        for name, text, fault in (
            ("bad", bad, line), ("bad.gz", gzip.compress(bad), line), ("-", bad, line),
            ("half.gz", whole[: len(whole) // 2], cut), ("begun.gz", whole[:4], cut),
            ("empty.gz", b"", cut), ("sums.gz", whole[:-8], cut), ("length.gz", whole[:-4], cut),
            ("wrong.gz", whole[:-8] + b"8 bytes!", "length error\n"),
            ("text.gz", SORT, "not in gzip format\n"), ("more.gz", whole + b"more", "ignored\n"),
        ):
            if name != "-":
                (self.folder / name).write_bytes(text)
            ran = self.read(name, stdin=text if name == "-" else b"")
            begins = fault if fault == line else f"{self.TOOL}: {name} can't be read: gzip: "
            told = ran.stderr.decode()
            is_told = told.startswith(begins) and told.endswith(fault)
            self.assertEqual((ran.returncode, is_told), (1, True), told)
            self.assertTrue(ran.stdout.endswith(self.MARK) if self.MARK else not ran.stdout)

    def test_a_line_that_is_cut(self):
        """Where what unpacks a trace fails, its fault is told, and none of the line."""
        env = self.stand_in("gzip", 'printf "0 10\\n7"; echo no such disk >&2; exit 1')
        (self.folder / "cut.gz").write_bytes(gzip.compress(SORT))
        ran = self.read("cut.gz", env=env)
        told = f"{self.TOOL}: cut.gz can't be read: no such disk\n"
        self.assertEqual((ran.returncode, ran.stderr.decode()), (1, told))

    def test_no_program(self):
        """A name without a slash is a path too, and no word that is looked up."""
        self.executable("cachesim", "exit 0")
        for program, fault in (
            ("/none", "/none is no program that can be run\n"),
            ("cachesim", "./cachesim is not cachesim: it doesn't write a sweep's table\n"),
        ):
            ran = self.read("-", env={"CACHESIM": program})
            self.assertEqual((ran.returncode, ran.stdout), (1, self.MARK))
            self.assertEqual(ran.stderr.decode(), f"{self.TOOL}: {fault}")

    def test_full_device(self):
        (self.folder / "long").write_bytes(SORT * 20)
        (self.folder / "short").write_bytes(b"0 10\n" * 10)
        for trace in ("long", "short"):
            self.on_full_device(self.TOOL, *self.words(trace), told=self.FULL)

    def test_a_reader_that_goes(self):
        """The tool ends without a word."""
        (self.folder / "long").write_bytes(SORT * 20)
        words = base.TOOLS / self.TOOL, *self.words("long")
        ran = self.run_command("bash", "-c", 'set -o pipefail; "$@" | true', "-", *words)
        self.ends(ran, 141, "")


class Many:
    """For tests of a tool that reads a trace for several runs of the program."""

    def program(self, body):
        """A program in place of cachesim that does what the body says for a run, and else is
        cachesim. In the body "$after" is the value of --after."""
        after = "after=$* after=${after#*--after } after=${after%% *}"
        script = f'[[ $* == *"-t /dev/null"* ]] || {{ {after}\n{body}\n}}\nexec {base.PROGRAM} "$@"'
        return {"CACHESIM": str(self.executable("the program", script))}


class ReadingForMany(Many, Reading):
    """Tests of such a tool: TOOL is called with a number of JOBS, the trace and OPTIONS. RUN is a
    pattern of the words of one of two runs that begin first, and what it is called."""

    BEFORE = (2,)
    NO_TRACE = {
        "none": "cachesim: cannot open none", ".": "cachesim: line 1: read failed",
        "none.gz": "{tool}: none.gz can't be read: gzip: none.gz: No such file or directory",
    }

    def test_a_link(self):
        """The tool by a link from elsewhere, with the program that lies beside it, and another."""
        link = self.folder / "another name"
        link.symlink_to(base.TOOLS / self.TOOL)
        arguments = (link, *self.words(base.EXAMPLES / "sort.din"))
        wanted = self.good(self.read(base.EXAMPLES / "sort.din"))
        self.assertEqual(self.good(self.run_command(*arguments, env={"CACHESIM": ""})), wanted)
        ran = self.run_command(*arguments, env={"CACHESIM": "./none"})
        self.refused(ran, 1, "another name: ./none is no program")

    def failed(self, ran, status, message):
        self.ends(ran, status, message)

    def script(self, trace):
        """A call of the tool as a line for bash."""
        return f'"{base.TOOLS / self.TOOL}" 2 {trace} {" ".join(self.OPTIONS)}'

    def test_bad_line_of_an_endless_trace(self):
        """The fault of a live trace ends the run, and so its writer."""
        writer = "while echo 0 20; do :; done 2> writer; echo ended >> writer"
        writer = f'printf "0 10\\n2 1g\\n"; {writer}'
        ran = self.run_command("bash", "-c", f"{{ {writer}; }} | {self.script('-')}", seconds=30)
        self.failed(ran, 1, "cachesim: line 2: bad address\n")

    def test_a_run_fails(self):
        """The other, which would run on, is ended, also where nothing comes from a live trace."""
        pattern, name = self.RUN
        for body, status, told in (
            ("kill -KILL $$", 1, f"{self.TOOL}: {name} ended with signal 9\n"),
            ("exit 7", 1, f"{self.TOOL}: {name} ended with status 7\n"),
            ("echo x: no >&2; exit 1", 1, "x: no\n"),
            ("echo 2 >&2; exit 2", 2, "2\n"),
        ):
            env = self.program(f"[[ $* = {pattern} ]] || exec sleep 60; {body}")
            given = {"capture_output": True, "timeout": 30, **self.in_folder(**env)}
            for trace in (base.EXAMPLES / "sort.din", "-"):
                read, write = os.pipe()
                words = [base.TOOLS / self.TOOL, *self.words(trace)]
                self.failed(subprocess.run(words, stdin=read, **given), status, told)
                os.close(read)
                os.close(write)

    def test_full_device(self):
        write, read = "write failed", "standard input can't be read: Bad file descriptor"
        for place, told in ("> /dev/full", write), (">&- < /dev/null", write), ("<&-", read):
            ran = self.run_command("bash", "-c", f"{self.script('-')} {place}")
            self.failed(ran, 1, f"{self.TOOL}: {told}\n")
