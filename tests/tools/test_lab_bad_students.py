"""Students' programs that do what nobody expects: each gets the verdict that it deserves, alone,
confined and in a class, and leaves nothing behind."""

import concurrent.futures
import csv
import shutil

from base import needs
from lab_base import SHORT, running
from test_lab_class import ClassTest

# name, points (and those with --confine, where they differ) and what is said; and what csim does, a
# script, for which $right is a right program. '-' is one that ends `grade` itself. After a run that
# does not end well there are no points, whatever it printed.
STUDENTS = r"""
silent 0 got    nothing
    :
fine 3
    "$right" "$@"
status 0 ended with status 3
    "$right" "$@"; exit 3
status_255 0 ended with status 255
    "$right" "$@"; exit 255
status_of_signal 0 ended by signal 2: Inter
    "$right" "$@"; exit 130
segmentation 0 ended by signal 11: Segm
    "$right" "$@"; kill -SEGV $$
abort 0 ended by signal 6: Abort
    kill -ABRT $$
kills_itself 0 ended by signal 9: Kille
    kill -KILL $$
kills_its_group 0 ended by signal 15: Term
    kill -TERM 0
stops_itself 0 no end within
    kill -STOP $$
loops 0 no end within
    while :; do :; done
loops_deaf 0 no end within
    trap '' TERM HUP INT QUIT; while :; do :; done
sleeps_after 0 no end within
    "$right" "$@"; exec sleep 1000
child 3
    sleep 1000 & "$right" "$@"
child_of_session 3
    setsid sleep 1000 & "$right" "$@"
daemon 3
    (setsid sleep 1000 &); "$right" "$@"
children 3
    for i in {1..60}; do setsid sleep 1000 & done; "$right" "$@"
child_prints 3
    "$right" "$@"; (sleep 2; echo hits:0 misses:0 evictions:0) &
floods 0 ended by signal 25: File
    exec yes
floods_a_file 0 ended by signal 25: File
    "$right" "$@"; head -c 70000000 /dev/zero > large
floods_messages 0 ended by signal 25: File
    exec yes >&2
no_files 0 ended by signal 25: File
    ulimit -f 0; exec "$right" "$@"
many_files 3
    touch file-{1..2000}; "$right" "$@"
deep_folders 3
    "$right" "$@"; mkdir -p $(printf 'd/%.0s' {1..1500})
deep_locked 3
    "$right" "$@"; for i in {1..40}; do mkdir d && cd d && chmod 0 .; done
long_names 3
    n=$(printf '%0200d' 0); "$right" "$@"; for i in {1..40}; do mkdir $n && cd $n; done
locked_folders 3
    mkdir -p a/b/c; touch a/b/f; chmod 0 a/b a; "$right" "$@"
locked_room 3
    "$right" "$@"; chmod 0 .
room_moved 3
    "$right" "$@"; mv "$PWD" ../moved 2> /dev/null; :
room_a_link 3
    "$right" "$@"; mv "$PWD" ../moved 2> /dev/null && ln -s "$here" "$PWD"; :
results_pipe 0 .csim_results has ''
    "$right" "$@"; rm .csim_results; mkfifo .csim_results
results_link 3
    "$right" "$@"; ln -sf /dev/zero .csim_results
results_folder 3
    "$right" "$@"; rm .csim_results; mkdir .csim_results
results_huge 0 .csim_results has
    "$right" "$@"; head -c 5000000 /dev/zero > .csim_results
results_binary 0 has '\x1b[31m\xff'
    "$right" "$@"; printf '\033[31m\377' > .csim_results
results_digits 0 .csim_results has '0000
    "$right" "$@"; printf '%04300d' 1 > .csim_results
results_empty 0 .csim_results has ''
    "$right" "$@"; : > .csim_results
digits 0 no summary; the last lin
    printf 'hits:%04300d misses:1 evictions:1\n' 1
negative 0 got    hits:-1 misses:-1
    echo hits:-1 misses:-1 evictions:-1
no_line_feed 3
    printf %s "$("$right" "$@")"
carriage_return 3
    "$right" "$@" | sed 's/$/\r/'
escapes 0 '\x1b[2J\x9b31m\x7f'
    printf '\033[2J\302\23331m\177\n'
long_line 3
    head -c 3000000 /dev/zero | tr '\0' x; echo; "$right" "$@"
zeros 3
    head -c 100000 /dev/zero; echo; "$right" "$@"
two_summaries 0 got    hits:0 misses:0
    "$right" "$@"; rm .csim_results; echo hits:0 misses:0 evictions:0
to_messages 0 got    nothing
    "$right" "$@" >&2
no_output 0 got    nothing
    exec >&-; "$right" "$@"
no_descriptors 0 got    nothing
    exec <&- >&- 2>&-; "$right" "$@"
reads_input 3
    cat; "$right" "$@"
reads_again 3
    cat "${@: -1}" "${@: -1}" > copy; "$right" "$@"
removes_trace 3
    "$right" "$@"; rm -r traces
writes_trace 3
    "$right" "$@"; echo nonsense | tee "${@: -1}" > traces/other
trace_a_pipe 3
    "$right" "$@"; rm "${@: -1}"; mkfifo "${@: -1}"
leaves_temporary 3
    mktemp -d > name; mktemp >> name; "$right" "$@"
ends_grade -/0 no end within
    kill -TERM $PPID; exec sleep 1000
kills_grade -/0 no end within
    kill -KILL $PPID; exec sleep 1000
"""
OPTIONS = ["--geometry", "4,1,4", "--seconds", "20"]
SIDE_BY_SIDE = 8  # most wait


def students():
    """Of each student the name, the points without and with --confine, a text and a script."""
    lines = STUDENTS.strip().splitlines()
    for head, script in zip(lines[::2], lines[1::2]):
        name, points, *said = head.split(None, 2)
        plain, _, confined = points.partition("/")
        yield name, plain, confined or plain, "".join(said), script


@needs("bubblewrap")
class BadStudents(ClassTest):
    def setUp(self):
        super().setUp()
        self.trace = self.write("short.trace", SHORT)
        for name, *_, script in students():
            lines = 'here=$(dirname "$0")', "right=$here/right", script
            folder = self.enrol(name, self.executable(f"made/{name}", *lines))
            shutil.copy(self.student(), folder / "right")

    def program(self, name):
        return self.folder / "students" / name / "csim"

    def nothing_is_left(self):
        self.assertEqual((running(), list(self.private.iterdir())), ([], []))
        for name, *_ in students():
            found = sorted(path.name for path in self.program(name).parent.iterdir())
            self.assertEqual([file for file in found if file != "grade.txt"], ["csim", "right"])

    def test_there_are_enough(self):
        self.assertGreaterEqual(len(list(students())), 46)

    def judge(self, name, *options):
        given = [*OPTIONS, "--points", "--verbose-lines=no", *options, self.program(name)]
        env = {"TMPDIR": str(self.private)}
        return self.run_tool("lab/grade", *given, self.trace, env=env)

    def judge_each(self, wanted, *options):
        """Judges some, each by itself, and compares their points and texts."""
        with concurrent.futures.ThreadPoolExecutor(SIDE_BY_SIDE) as pool:
            judged = pool.map(lambda name: self.judge(name, *options), wanted)
            for (name, (points, said)), ran in zip(wanted.items(), judged):
                with self.subTest(name):
                    text = ran.stdout.decode()
                    self.assertEqual(ran.stderr, b"")
                    if points == "-":
                        self.assertEqual((ran.returncode, text), (143, ""))
                        continue
                    last = f"{int(points == '3')} of 1 right, {points} of 3 points"
                    self.assertEqual((ran.returncode, text.splitlines()[-1]), (points != "3", last))
                    self.assertIn(said, text)
        self.nothing_is_left()

    def test_alone(self):
        """But the one that leaves `grade` no time to remove anything."""
        wanted = {name: (points, said) for name, points, _, said, _ in students()}
        del wanted["kills_grade"]
        self.judge_each(wanted)

    def test_confined(self):
        wanted = {name: (points, said) for name, _, points, said, _ in students()}
        self.judge_each(wanted, "--confine")

    def test_in_a_class(self):
        """Each has a row as alone. Those who end `grade` are not judged, and a line says so."""
        folders = [self.program(name).parent for name, *_ in students()]
        given = [*OPTIONS, "--trace", self.trace, "--jobs", SIDE_BY_SIDE, *folders]
        ran = self.grade_class(*given)
        told = {"ends_grade": 143, "kills_grade": -9}
        lines = sorted(f"grade-class: {self.program(name)}: grade ended with status {status}"
                       for name, status in told.items())
        self.assertEqual((ran.returncode, sorted(ran.stderr.decode().splitlines())), (1, lines))
        rows = {row["name"]: row for row in csv.DictReader(ran.stdout.decode().splitlines())}
        for name, points, _, said, _ in students():
            row = rows.pop(name)
            with self.subTest(name):
                text = "not judged" if points == "-" else said
                self.assertEqual((row["points"], row["of"]), (points.replace("-", "0"), "1"))
                self.assertIn(text, self.text_of(name))
                self.assertIn(" ".join(text.split()), row["reason"])
        self.assertEqual(rows, {})
        self.nothing_is_left()
