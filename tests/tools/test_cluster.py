"""A sweep by a cluster: with a stand-in for its scheduler, and with a Slurm of one node."""

import gzip
import os
import pathlib
import re
import shutil
import tempfile

import one_node
from base import EXAMPLES, PROGRAM, TOOLS, ToolTest, all_processes, comes, needs

CLUSTER = TOOLS / "cluster"
SPACE = "--bsize 16-64 --sets 1-64 --assoc 1-8 --size 256-16k".split()
# rows of these only: 16,2,2, then 16,4,1 and 16,4,2
THREE = "--bsize 16 --sets 1-4 --assoc 1-2 --size 64-1k".split()
TRACE = EXAMPLES / "sort.din"

# Runs the tasks of a job at once, and a job that depends on another only where all tasks of that
# one ended well. Each job is noted with its options. A task that is to be spoiled does nothing;
# before another one a script may run.
SBATCH = """\
set -eu
note=$(dirname "$0") tasks= after=
number=7
while [ -e "$note/job-$number" ]; do number=$((number + 1)); done
[ ! -e "$note/refuse-$number" ] || { echo "sbatch: error: refused" >&2; exit 1; }
while [[ $1 == --* ]]; do
    echo "$1" >> "$note/job-$number"
    case $1 in
    --array=1-*) tasks=$(seq "${1#*-*-*-}") ;;
    --array=*) tasks=${1#*=} && tasks=${tasks//,/ } ;;
    --chdir=*) folder=${1#*=} ;;
    --dependency=afterok:*) after=${1#*:} ;;
    esac
    shift
done
echo "$number;here"
[ ! -e "$note/failed-$after" ] || exit 0
cd "$folder"
for task in ${tasks:-0}; do
    if [ -e "$note/spoil-$task" ]; then touch "$note/failed-$number"; continue; fi
    [ ! -e "$note/before-$task" ] || . "$note/before-$task"
    SLURM_ARRAY_TASK_ID=$task bash "$@" < /dev/null > "log-$number-$task" 2>&1 ||
        touch "$note/failed-$number"
done
"""


class Submitting(ToolTest):
    def setUp(self):
        super().setUp()
        self.note = self.executable("bin/sbatch", SBATCH).parent
        self.executable("bin/scancel", f'echo "$@" >> {self.note}/cancelled')
        self.executable("bin/squeue", "exit 1")

    def submit(self, *arguments, **env):
        path = f"{self.note}:{PROGRAM.parent}:{os.environ['PATH']}"
        return self.run_command(CLUSTER / "submit", *arguments, env={"PATH": path, **env})

    def options(self, number):
        return (self.note / f"job-{number}").read_text().split("\n")

    def test_same_bytes(self):
        pressed = self.folder / "a trace.gz"
        pressed.write_bytes(gzip.compress(TRACE.read_bytes()))
        runs = (1, TRACE), (4, "a trace.gz"), (5, "./a trace.gz"), (3, TRACE, "--full")
        for number, (tasks, trace, *more) in enumerate(runs):
            said = self.good(self.submit(f"run {number}", tasks, trace, *SPACE, *more))
            made = self.folder / f"run {number}"
            wanted = self.sweep(*SPACE, *more, "-t", TRACE)
            self.assertEqual((made / "table.csv").read_text(), wanted)
            jobs = f"job {7 + 2 * number}: {tasks} pages; job {8 + 2 * number}"
            self.assertEqual(said, f"{jobs}: {made}/table.csv\n")
            self.assertEqual(len((made / "pages").read_text().splitlines()), tasks)
            self.assertEqual([path.name for path in made.glob("part-*")], [])

    def test_options_of_the_jobs(self):
        self.good(self.submit("run", 2, TRACE, *THREE))
        folder = f"--chdir={self.folder}/run"
        after = "--dependency=afterok:7", "--kill-on-invalid-dep=yes"
        self.assertEqual(self.options(7), ["--parsable", "--array=1-2", folder, ""])
        self.assertEqual(self.options(8), ["--parsable", *after, folder, ""])

    def test_bad_trace(self):
        (self.folder / "bad").write_text("0 10\n0 20\n2 1g\n")
        (self.folder / "cut.gz").write_bytes(gzip.compress(TRACE.read_bytes())[:-8])
        for trace, fault in (("bad", "cachesim: line 3: bad address\n"), ("cut.gz", "gzip: ")):
            self.good(self.submit(f"run-{trace}", 2, trace, *THREE))
            made = self.folder / f"run-{trace}"
            self.assertFalse((made / "table.csv").exists())
            self.assertEqual(list(made.glob("part-[0-9]")), [])
            logs = list(made.glob("log-*"))
            self.assertEqual([fault in log.read_text() for log in logs], [True, True])

    def joined(self, *parts):
        """The status of a join of parts, what it says, and the table, if there is one. Each part is
        a number of references in two rows."""
        self.write("pages", "a page\n" * len(parts))
        for path in [*self.folder.glob("part-*"), *self.folder.glob("table.csv")]:
            path.unlink()
        table = ["bsize,sets,assoc,size,hits,misses,evictions\n"]
        for number, references in enumerate(parts, 1):
            rows = (f"16,{number},{ways},64,{references - ways},{ways},0\n" for ways in (1, 2))
            rows = ["".join(table), *rows] if number == 1 else rows
            table.append("".join(rows))
            if references:
                self.write(f"part-{number}", table[-1])
                self.write(f"trace-{number}", "120 1764226529.000000001\n")
        ran, made = self.run_command("bash", CLUSTER / "join.sbatch"), self.folder / "table.csv"
        if made.exists():
            self.assertEqual(made.read_text(), "".join(table[1:]))
        return ran.returncode, ran.stderr.decode(), made.exists()

    def test_parts_are_joined_by_their_numbers(self):
        """And not as their names are sorted, if all are there and of one trace."""
        self.assertEqual(self.joined(*[30] * 11), (0, "", True))
        self.assertEqual([path.name for path in self.folder.glob("part-*")], [])
        status, _, is_made = self.joined(30, 0, 30)
        self.assertEqual((status, is_made), (1, False))
        for parts in ((30, 20), (30, 30, 29), (20, 30, 30)):
            status, told, is_made = self.joined(*parts)
            self.assertEqual((status, is_made), (1, False))
            self.assertIn("the pages are of different traces: remove ", told)
            self.assertEqual(len(list(self.folder.glob("part-*"))), len(parts))

    def rewriting(self):
        """A trace, and a line of bash that rewrites it with as many references and bytes."""
        trace = self.write("trace.din", TRACE.read_bytes())
        other = self.write("other.din", b"".join(sorted(TRACE.read_bytes().splitlines(True))))
        self.assertTrue(self.sweep(*SPACE, "-t", other) != self.sweep(*SPACE, "-t", trace))
        return trace, f"cat '{self.folder}/other.din' > '{trace}'\n"

    def test_a_trace_that_is_rewritten_between_tasks(self):
        """With as many references: its pages are not joined."""
        trace, rewrites = self.rewriting()
        self.write("bin/before-2", rewrites)
        self.good(self.submit("run", 3, trace, *SPACE))
        made = self.folder / "run"
        self.assertFalse((made / "table.csv").exists())
        told = f"the pages are of different traces: remove {made}, and submit it anew\n"
        self.assertEqual((made / "log-8-0").read_text(), told)
        self.assertEqual(len(list(made.glob("part-*"))), 3)

    def test_a_trace_that_is_rewritten_before_again(self):
        """The pages that are there are of another one: nothing is submitted."""
        trace, rewrites = self.rewriting()
        (self.note / "spoil-2").touch()
        self.good(self.submit("run", 3, trace, *SPACE))
        self.good(self.run_command("bash", "-c", rewrites))
        told = (f"submit: {trace} has changed since its first pages were swept: remove "
                f"{self.folder}/run, and submit it anew\n")
        self.refused(self.submit("--again", "run"), 1, told)
        self.assertEqual(len(list(self.note.glob("job-*"))), 2)

    def test_a_trace_that_is_rewritten_while_a_task_reads_it(self):
        """It leaves no part. A packed trace is read once, so no run sees that it has changed."""
        trace, rewrites = self.rewriting()
        packed = self.write("trace.gz", gzip.compress(TRACE.read_bytes()))
        for name, also in (trace, rewrites), (packed, f"touch -d '2 days ago' '{packed}'\n"):
            program = self.executable(
                "slow", f'{PROGRAM} "$@" || exit', '[[ $* != *--rows* ]] && exit', also)
            run = f"run of {name.name}"
            self.good(self.submit(run, 1, name, *SPACE, CACHESIM=str(program)))
            made = self.folder / run
            self.assertEqual([path.name for path in made.glob("part-?")], [])
            log, = made.glob("log-*")
            self.assertRegex(log.read_text(), f"{name} has changed while it was read")
            self.write("trace.din", TRACE.read_bytes())

    def test_where_readers_are_sent(self):
        """To the tool that explains what they are to find there."""
        for path, call, found in (
            (CLUSTER / "README.md", r"the command in `tools/([\w-]+) --help`", "parallel --will"),
            (CLUSTER / "submit", r"\(see `([\w-]+) --help`\)", "the pages are the table, byte"),
        ):
            name = re.search(call, " ".join(path.read_text().split()))[1]
            helped = " ".join(self.good(self.run_tool(name, "--help")).split())
            self.assertIn(found, helped)

    def test_again(self):
        """What failed or is missing, and no other page, by one command."""
        table = self.sweep(*SPACE, "-t", TRACE)
        for spoiled in (2,), (1, 3), (1, 2, 3):
            for number in spoiled:
                (self.note / f"spoil-{number}").touch()
            self.good(self.submit("run", 3, TRACE, *SPACE))
            made = self.folder / "run"
            self.assertFalse((made / "table.csv").exists())
            there = {path: path.stat().st_mtime_ns for path in made.glob("part-?")}
            self.assertEqual(len(there), 3 - len(spoiled))
            for number in spoiled:
                (self.note / f"spoil-{number}").unlink()
            first = len(list(self.note.glob("job-*"))) + 7
            said = self.good(self.submit("--again", "run"))
            told = f"job {first}: {len(spoiled)} pages; job {first + 1}: {made}/table.csv\n"
            self.assertEqual(said, told)
            array = ",".join(map(str, spoiled))
            self.assertIn(f"--array={array}", self.options(first))
            self.assertIn(f"--dependency=afterok:{first}", self.options(first + 1))
            self.assertEqual((made / "table.csv").read_text(), table)
            shutil.rmtree(made)

    def test_again_where_only_the_join_failed(self):
        (self.note / "spoil-0").touch()
        self.good(self.submit("run", 2, TRACE, *THREE))
        (self.note / "spoil-0").unlink()
        self.assertFalse((self.folder / "run/table.csv").exists())
        said = self.good(self.submit("--again", "run"))
        self.assertEqual(said, f"job 9: {self.folder}/run/table.csv\n")
        self.assertEqual(self.options(9), ["--parsable", f"--chdir={self.folder}/run", ""])
        table = (self.folder / "run/table.csv").read_text()
        self.assertEqual(table, self.sweep(*THREE, "-t", TRACE))

    def test_again_is_refused(self):
        self.refused(self.submit("--again", "none"), 1, "none is no folder that submit has made\n")
        for words in ["--again"], ["--again", "run", "2"]:
            self.refused(self.submit(*words), 2, "submit: ")
        self.good(self.submit("run", 2, TRACE, *THREE))
        self.refused(self.submit("--again", "run"), 1, "run/table.csv is there: no page is missing")
        (self.folder / "run/table.csv").unlink()
        self.executable("bin/squeue", "[ \"$*\" != '-h -j 7,8' ] || echo 7 main")
        self.refused(self.submit("--again", "run"), 1, "submit: job 7 or 8 has not ended\n")
        self.executable("bin/squeue", "exit 1")
        (self.note / "refuse-9").touch()
        told = "sbatch: error: refused\nsubmit: no job was submitted\n"
        self.refused(self.submit("--again", "run"), 1, told)
        self.assertTrue((self.folder / "run/pages").exists())

    def test_refused(self):
        (self.folder / "there").mkdir()
        for arguments, status, message in (
            (("there", 2, TRACE, *THREE), 1, "there can't be made, or is there already\n"),
            (("no/run", 2, TRACE, *THREE), 1, "no/run can't be made"),
            *((("run", 2, trace, *THREE), 1, f"{trace}: no file that each task can read\n")
              for trace in ("none", "-", ".", "/dev/stdin")),
            (("run", "auto", TRACE, *THREE), 2, "auto is no number of tasks"),
            *(((name, 2, TRACE, *THREE), 2, f"{self.folder}/{name}: Slurm takes % and \\ for its")
              for name in ("50%a", "a\\b")),
        ):
            self.refused(self.submit(*arguments), status, f"submit: {message}")
        ran = self.submit("run", 2, TRACE, "--bsize", "24", *THREE[2:])
        self.refused(ran, 2, "cachesim: bsize: not a power of two\n")
        self.refused(self.submit("run", 2, TRACE, *THREE, "-t", TRACE), 2, "leave out -t")
        self.refused(self.submit("run", 2), 2, "submit: ", "missing")
        self.assertFalse((self.folder / "run").exists())
        self.assertEqual(list(self.note.glob("job-*")), [])

    def test_scheduler_refuses(self):
        for number, cancelled in ((7, ""), (8, "7\n")):
            (self.note / f"refuse-{number}").touch()
            (self.note / "cancelled").write_text("")
            ran = self.submit("run", 2, TRACE, *THREE)
            self.refused(ran, 1, "sbatch: error: refused\nsubmit: no job was submitted\n")
            self.assertFalse((self.folder / "run").exists())
            self.assertEqual((self.note / "cancelled").read_text(), cancelled)
            (self.note / f"refuse-{number}").unlink()

    def test_no_scheduler(self):
        (self.note / "sbatch").unlink()
        for name in ("bash", "dirname", "readlink"):
            (self.note / name).symlink_to(f"/usr/bin/{name}")
        ran = self.submit("run", 2, TRACE, *THREE, PATH=str(self.note))
        self.refused(ran, 1, "submit: sbatch is missing: apt-get install slurm-client\n")


def daemons(place):
    """The commands of the processes that work for a Slurm in a folder."""
    known = all_processes("comm", "cmdline", "environ")
    found = {name.decode().strip() for _, name, *texts in known
             if any(str(place).encode() in text for text in texts)}
    return sorted(found & {"munged", "slurmctld", "slurmd", "slurmstepd"})


@needs("slurm-wlm", "munge")
class OneNode(ToolTest):
    @classmethod
    def setUpClass(cls):
        cls.place = pathlib.Path(tempfile.mkdtemp(prefix="cachesim-slurm-"))
        cls.addClassCleanup(shutil.rmtree, cls.place)
        cls.slurm = one_node.Slurm(cls.place / "slurm")
        cls.slurm.start()
        cls.addClassCleanup(cls.stopped)

    @classmethod
    def stopped(cls):
        cls.slurm.stop()
        if not comes(lambda: not daemons(cls.place)):
            raise AssertionError(f"still there: {daemons(cls.place)}")

    def in_cluster(self, *command):
        return self.good(self.run_command(*command, env=self.slurm.env))

    def wait(self):
        """Waits until no job is left."""
        log = self.place / "slurm/slurmctld.log"
        self.assertTrue(comes(lambda: not self.in_cluster("squeue", "-h"), 80), log.read_text())

    def test_sweep(self):
        """A good trace gives the bytes of one run; a bad one no table, and its join never runs."""
        (self.folder / "a trace.gz").write_bytes(gzip.compress(TRACE.read_bytes()))
        (self.folder / "bad").write_text("0 10\n0 20\n2 1g\n")
        for name, trace in (("plain", TRACE), ("a b", "a trace.gz"), ("failing", "bad")):
            self.in_cluster(CLUSTER / "submit", name, 3, trace, *SPACE)
        self.wait()
        table, fault = self.sweep(*SPACE, "-t", TRACE), "cachesim: line 3: bad address\n"
        for name in ("plain", "a b"):
            self.assertEqual((self.folder / name / "table.csv").read_text(), table)
            logs = [path.read_text() for path in (self.folder / name).glob("*.log")]
            self.assertEqual(logs, 4 * [""])
        logs = {path.name: path.read_text() for path in (self.folder / "failing").glob("*.log")}
        self.assertEqual(logs, {f"page-{number}.log": fault for number in (1, 2, 3)})
        self.assertFalse((self.folder / "failing" / "table.csv").exists())

    def test_again(self):
        """A page that has failed is swept once more, and the table is that of one run."""
        self.write("trace", "0 10\n0 20\n2 1g\n")
        self.in_cluster(CLUSTER / "submit", "run", 3, "trace", *SPACE)
        self.wait()
        self.write("trace", TRACE.read_bytes())
        self.in_cluster(CLUSTER / "submit", "--again", "run")
        self.wait()
        table = self.sweep(*SPACE, "-t", TRACE)
        self.assertEqual((self.folder / "run/table.csv").read_text(), table)

    def test_jobs_are_ended_by_a_stop(self):
        """A second Slurm beside the first, on ports of its own; it is ended while a job runs."""
        other = one_node.Slurm(self.place / "other")
        other.start()
        self.assertEqual(daemons(other.folder), ["munged", "slurmctld", "slurmd"])
        self.good(self.run_command("sbatch", "--parsable", "--wrap", "sleep 1000", env=other.env))
        self.assertTrue(comes(lambda: "slurmstepd" in daemons(other.folder)))
        other.stop()
        self.assertTrue(comes(lambda: not daemons(other.folder)), daemons(other.folder))
        other.stop()
