"""Tables of runs of din, compared with the model of the program and with sums by hand."""

import collections
import csv
import gzip
import itertools
import os

import base
import reading_base
from base import EXAMPLES, TOOLS

DIN = EXAMPLES / "sort.din"
SIX = "1 0\n0 10\n2 20\n0 0\n4 0\n1 24\n"
SMALL = "-l1-usize 64-256 -l1-ubsize 16 -l1-uassoc 1,2".split()
POLICIES = "-l1-usize 128,256 -l1-ubsize 16 -l1-uassoc 2 -l1-urepl l,f,r --seed 1-3".split()


def report_of(options, text):
    """The model's report for some options: counts by cache and name. None where it refuses them."""
    words = [word for name, value in options.items() for word in (f"--{name}", value)]
    out, err, status = base.model.run(["din", *words], lambda: text, None)
    if status:
        assert "geometry" in err or "block size smaller" in err, err
        return None
    found = {}
    for line in out.splitlines():
        cache, _, rest = line.rpartition(" ") if "=" in line.split()[0] else line.partition(" ")
        counts = (word.split("=") for word in rest.split())
        found.update({(cache, name): int(count) for name, count in counts})
    return found


class DinTableTest(reading_base.Many, base.ToolTest):
    def tool(self, *arguments, **given):
        return self.run_tool("din-table", *arguments, seconds=60, **given)

    def rows(self, *arguments, left_out="", **given):
        """The rows of a table. What is told of combinations that are left out begins as this."""
        ran = self.tool(*arguments, **given)
        told = f"din-table: {left_out} combinations are left out: no cache has such a geometry\n"
        got = ran.stderr.decode(), ran.returncode
        self.assertEqual(got, (told if left_out else "", 0))
        return list(csv.DictReader(ran.stdout.decode().splitlines()))


class Rows(DinTableTest):
    def test_by_hand(self):
        """A flush empties the cache. Two ways hold blocks 0 and 1; 2 evicts 0, which misses."""
        self.write("six", SIX)
        row, = self.rows(1, "six", *"-l1-usize 32 -l1-ubsize 16 -l1-uassoc 2".split())
        wanted = (
            "l1-usize=32 l1-ubsize=16 l1-uassoc=2 l1-u-fetches=1 l1-u-fetch-misses=1 l1-u-reads=2 "
            "l1-u-read-misses=2 l1-u-writes=2 l1-u-write-misses=2 l1-u-evictions=2 "
            "l1-u-copybacks=1 l1-u-references=5 l1-u-misses=5 l1-u-percent=100.000 "
            "memory-reads=5 memory-writes=1 bypassed=0")
        self.assertEqual(row, dict(word.split("=") for word in wanted.split()))

    def agree(self, trace, left_out, options):
        """Compares a table with the model: each row, the last option fastest; each count."""
        text, words = trace.read_bytes(), options.split()
        wanted = []
        for values in itertools.product(*(word.split(",") for word in words[1::2])):
            given = dict(zip((word[1:] for word in words[::2]), values))
            report = report_of(given, text)
            if report:
                wanted.append((given, report))
        rows = self.rows(3, trace, *words, left_out=left_out)
        self.assertEqual(len(rows), len(wanted))
        for row, (given, report) in zip(rows, wanted):
            self.assertEqual({name: row[name] for name in given}, given)
            self.assertEqual({key: int(row["-".join(key).lstrip("-")]) for key in report}, report)
            for cache in {cache for cache, name in report if name == "fetches"}:
                references = sum(report[cache, name] for name in ("fetches", "reads", "writes"))
                misses = sum(report[cache, f"{name}-misses"] for name in ("fetch", "read", "write"))
                got = tuple(int(row[f"{cache}-{name}"]) for name in ("references", "misses"))
                self.assertEqual(got, (references, misses))
                percent = 100 * misses / max(1, references)
                self.assertAlmostEqual(float(row[f"{cache}-percent"]), percent, delta=0.00051)
        return len(rows)

    def short(self):
        """A trace with all labels that is short enough for the model."""
        text = b"".join(DIN.read_bytes().splitlines(True)[:900])
        return self.write("short", text + b"4 0\n1 1fff000578\n2 401000\n")

    def test_policies_and_write_modes(self):
        self.assertEqual(48, self.agree(
            self.short(), "", "-l1-usize 64,256 -l1-ubsize 16 -l1-uassoc 2,4 -l1-urepl l,f,r "
            "-l1-uwalloc a,n -l1-uwback a,n"))

    def test_second_levels(self):
        """Of 2 * 2 * 2 * 2 = 16, 4 have blocks of 16 bytes behind those of 32: left out."""
        self.assertEqual(12, self.agree(
            self.short(), "4 of 16", "-l1-isize 64 -l1-ibsize 16 -l1-dsize 64 -l1-dbsize 16,32 "
            "-l1-dwback n,a -l2-usize 256 -l2-ubsize 16,32 -l2-uassoc 4 -l2-urepl f,r"))

    def test_sets_and_any_number_of_ways(self):
        self.assertEqual(18, self.agree(
            self.short(), "", "-l1-usets 1,4,16 -l1-ubsize 16 -l1-uassoc 2,3,12 -l1-urepl l,f"))

    def test_seeds(self):
        """Also where the second level alone replaces at random."""
        self.agree(self.short(), "", "-l1-usize 64 -l1-ubsize 16 -l1-uassoc 4 -l1-urepl r,l "
                   "-l2-usize 256 -l2-ubsize 32 -l2-uassoc 4 -l2-urepl r,l "
                   "-seed 0,1,42,123456789012")

    def test_lackey_and_one_kind_alone(self):
        options = "-informat l -l1-dsize 1k -l1-dbsize 32 -l1-dassoc 1-4".split()
        rows = self.rows(2, EXAMPLES / "blocks.lackey", *options)
        self.assertEqual(list(rows[0])[:4], ["l1-dsize", "l1-dbsize", "l1-dassoc", "l1-d-fetches"])
        # the cookbook's caches of 1,024 bytes with blocks of 32
        self.assertEqual([row["l1-d-misses"] for row in rows], ["340", "364", "468"])

    def test_lru_is_that_of_a_sweep(self):
        options = "-l1-usize 64-8k -l1-ubsize 16-64 -l1-uassoc 1-8".split()
        rows = self.rows("auto", DIN, *options, left_out="10 of 96")
        space = "--bsize 16-64 --sets 1-512 --assoc 1-8 --pow2 --size 64-8k -t".split()
        swept = csv.DictReader(self.sweep(*space, DIN).splitlines())
        wanted = {(row["size"], row["bsize"], row["assoc"]): row["misses"] for row in swept}
        names = ("l1-usize", "l1-ubsize", "l1-uassoc")
        got = {tuple(row[name] for name in names): row["l1-u-misses"] for row in rows}
        self.assertEqual(got, wanted)


class Values(DinTableTest):
    def test_ranges_and_lists(self):
        for text, values in (
            ("4k", "4096"), ("1k-8k", "1024 2048 4096 8192"), ("64,1k-2k", "64 1024 2048"),
            ("1K-1K", "1024"),
        ):
            rows = self.rows(4, DIN, "-l1-usize", text, "--l1-ubsize=16")
            self.assertEqual(" ".join(row["l1-usize"] for row in rows), values)
        options = "--l1-usize=256 -l1-ubsize 16 -l1-uassoc 4 -l1-urepl r --seed 3-5,9".split()
        rows = self.rows(4, DIN, *options)
        self.assertEqual([row["seed"] for row in rows], ["3", "4", "5", "9"])
        self.assertEqual(len({row["l1-u-misses"] for row in rows}), 4)

    def test_a_seed_changes_nothing_without_random_replacement(self):
        """There is a row for each seed all the same, from one run."""
        env = self.program('echo "$*" >> commands')
        rows = self.rows(2, DIN, *POLICIES, env=env)
        got = [(row["l1-urepl"], row["seed"]) for row in rows]
        self.assertEqual(got, 2 * list(itertools.product("lfr", "123")))
        commands = (self.folder / "commands").read_text().splitlines()
        self.assertEqual(len(commands), 2 * (1 + 1 + 3))
        found = collections.defaultdict(set)
        for row in rows:
            found[row["l1-usize"], row["l1-urepl"]].add(row["l1-u-misses"])
        for (_, policy), misses in found.items():
            self.assertEqual(len(misses) > 1, policy == "r")

    def test_refused(self):
        many = "400000 combinations; at most 100000 are taken"
        for words, fault in (
            ("-l1-usize 64k -l1-ubsize", "-l1-ubsize: an option and its values are wanted"),
            ("-l1-usize 64-x -l1-ubsize 16", "'x' is no size"),
            ("-l1-usize 24-64 -l1-ubsize 16", "24-64 is no range of powers of two"),
            ("-l1-usize 64-32 -l1-ubsize 16", "64-32 is no range of powers of two"),
            ("-l1-usize 64,64 -l1-ubsize 16", "-l1-usize 64,64: a value is there twice"),
            ("-l1-usize 64 -l1-ubsize 16 --seed=", "-seed : a value is missing"),
            ("-l1-usize 64 -l1-ubsize 16 --seed=1,", "-seed 1,: a value is missing"),
            ("-l1-usize 64 -l1-ubsize 16 --seed 5-3", "5-3 is a reversed range"),
            ("-l1-usize 64 -l1-ubsize 16 --seed 1-999999", "more than 100000 combinations"),
            ("-l1-usize 64-8k -l1-ubsize 16 --seed 1-50000", many),
            ("-l1-usize 64 -l1-usize 16", "l1-usize is given twice"),
            ("64 -l1-usize 16 -l1-ubsize", "64: an option and its values are wanted"),
            ("-l1-usize 64 -l1-ubsize 16 -t x", "leave out -t"),
            ("-informat d,l -l1-usize 64 -l1-ubsize 16", "a trace has one format"),
            ("-l1-usize 16 -l1-ubsize 32", "no cache has such a geometry\n"),
            ("-l1-usize 4k -l1-ubsize 32 -l1-uassoc 4 -l2-usize 64k -l2-ubsize 32 -l2-uassoc 10,12",
             "no cache has such a geometry; give -l2-usets in place of -l2-usize\n"),
            ("-l1-usize 48 -l1-ubsize 16", "cachesim: -l1-usize: bad value\n"),
            ("-l1-usize 64-128 -l1-ubsize 16 -l1-urepl l,x", "cachesim: -l1-urepl: bad value\n"),
            ("-l1-usize 64-128 -l2-ubsize 16", "cachesim: l1-u: size and bsize are needed\n"),
            ("-l2-usize 64 -l2-ubsize 16", "cachesim: no first-level cache\n"),
            ("-l1-usize 64 -l1-ubsize 16 -l1-x y", "cachesim: error: "),
        ):
            self.refused(self.tool(2, "none", *words.split()), 2, fault)
        self.refused(self.tool("four", DIN, *SMALL), 2, "din-table: four is no number of jobs")
        self.refused(self.tool(4, DIN), 2, "din-table: ", "are wanted")


class Traces(DinTableTest):
    def test_read_once(self):
        """Standard input, pipes, packed traces, few runs at once and many: one table."""
        text = DIN.read_bytes()
        self.write("t.gz", gzip.compress(text))
        wanted = self.good(self.tool(2, DIN, *SMALL))
        self.assertEqual(wanted.count("\n"), 7)
        for jobs, trace in itertools.product((1, 4, 6, 30), ("-", "t.gz")):
            self.assertEqual(self.good(self.tool(jobs, trace, *SMALL, stdin=text)), wanted)
        tool, words = f'"{TOOLS}/din-table" 2', " ".join(SMALL)
        script = f'{tool} <(cat "$1") {words}; {tool} /dev/stdin {words} < "$1"'
        self.assertEqual(self.good(self.run_command("bash", "-c", script, "-", DIN)), 2 * wanted)

    def test_jobs(self):
        """No more runs at once than are asked for; the runs of a pipe behind the first ones too."""
        body = 'touch "run $$"; ls | grep -c "^run" >> counts; sleep 0.2; rm "run $$"'
        for trace, stdin in ((DIN, b""), ("-", DIN.read_bytes())):
            (self.folder / "counts").unlink(missing_ok=True)
            self.rows(2, trace, *SMALL, stdin=stdin, env=self.program(body))
            counts = list(map(int, (self.folder / "counts").read_text().split()))
            self.assertEqual((len(counts), max(counts)), (6, 2))
        one = "taskset", "-c", min(os.sched_getaffinity(0)), TOOLS / "din-table", "auto"
        (self.folder / "counts").unlink()
        self.good(self.run_command(*one, DIN, *SMALL, env=self.program(body)))
        self.assertEqual((self.folder / "counts").read_text(), 6 * "1\n")


class Faults(reading_base.ReadingForMany, DinTableTest):
    TOOL = "din-table"
    OPTIONS = SMALL
    RUN = "*size=64*assoc=1*", "the run of -l1-usize 64 -l1-ubsize 16 -l1-uassoc 1"

    def test_a_later_run_fails(self):
        """One that begins when others have ended, of a file as of a pipe that was kept."""
        for size, trace in itertools.product((128, 256), (DIN, "-")):
            env = self.program(f"[[ $* != *size={size}*assoc=2* ]] || exit 7")
            ran = self.tool(2, trace, *SMALL, stdin=DIN.read_bytes(), env=env)
            name = f"-l1-usize {size} -l1-ubsize 16 -l1-uassoc 2"
            self.failed(ran, 1, f"din-table: the run of {name} ended with status 7\n")

    def test_a_program_that_writes_no_report(self):
        silent = self.program("exit 0")
        told = f"din-table: {silent['CACHESIM']} has written no report of din\n"
        self.failed(self.tool(2, DIN, *SMALL, env=silent), 1, told)

    def test_no_room_for_the_trace(self):
        limited = f'ulimit -f 10; trap "" XFSZ; exec "{TOOLS}/din-table" 2 - {" ".join(SMALL)}'
        given = {"stdin": DIN.read_bytes(), "env": {"TMPDIR": str(self.folder)}}
        ran = self.run_command("bash", "-c", limited, **given)
        told = f"din-table: the trace can't be kept in {self.folder}: File too large\n"
        self.failed(ran, 1, told)
