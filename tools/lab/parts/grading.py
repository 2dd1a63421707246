"""What `grade` says of a student's program, case by case."""

import collections
import itertools
import os
import re
import shlex
import subprocess

from lib import files
from parts import evidence, student, tool, traces
from parts.student import Case, last_line, shown, tail_of, visible_name

# Set bits, lines per set, block bits: those of the lab's tests, that of the handout's example, a
# single byte, a single set, ways that are no power of two, a first level of today, many sets, and
# more lines than arrays of 8 or 64 have.
CACHES = ("1,1,1 4,2,4 2,1,4 2,1,3 2,2,3 2,4,3 5,1,5 4,1,4 0,1,0 0,2,4 3,3,6 6,8,6 14,2,2 1,9,3 "
          "1,65,3").split()
TURNED = "3,3,6"  # the cache with which the options come in another order
NUMBER = rb"(-?\d{1,30})"
SUMMARY = re.compile(rb"hits:%b misses:%b evictions:%b\s*$" % ((NUMBER,) * 3), re.MULTILINE)
ACCESS = re.compile(rb"\s*[LSM]\s")
LOST = (
    "note: what a program has printed but not flushed (fflush) when it crashes or is stopped is "
    "lost; a terminal would show it, since each line is flushed there"
)
UNJUDGED = ("not judged",)  # the way of a case in which a program had no room for what it wrote
# runs in which a mistake would do no harm
HARMLESS = (
    (student.APART, "memory of malloc is used past its end: the size may be that of a pointer, or "
                    "that of too few lines or sets, or the last index is one too high"),
    (student.ZEROED, "memory of malloc is taken for zeros; calloc clears it"),
    (student.UNFILLED, "memory is used after it was freed"),
)
SHORT = 64 << 10  # bytes of a trace: cases on longer ones are run once
AGAIN = 6  # so many wrong cases are run again to see whether the numbers differ
NOT_WRITTEN = "memory of malloc is read where nothing was written, or past its end"
DIFFERS = ("its numbers differ from run to run: it draws some by rand() after srand(), takes the "
           "time of a clock, or reads memory before it writes there")
LAB_LINE = re.compile(rb"(I +| [LSM] )[0-9a-fA-F]+,[0-9]+\n?")


def numbers_in(text):
    """The three numbers of the last summary in a text, or None."""
    found = SUMMARY.findall(text)
    return tuple(map(int, found[-1])) if found else None


def summary_of(numbers):
    return "hits:{} misses:{} evictions:{}".format(*numbers)


def reference(cachesim, case, *flags, output=subprocess.PIPE):
    """What cachesim writes in a case."""
    command = [cachesim, "csim", *flags, *case.arguments("/dev/stdin")]
    given = {"stdout": output, "stderr": subprocess.PIPE, "check": False}
    with open(case.trace, "rb") as trace:
        ran = subprocess.run(command, stdin=trace, **given)
    if ran.returncode:
        message = ran.stderr.decode(errors="replace").strip().removeprefix("cachesim: ")
        ended = f"cachesim {student.status_in_words(ran.returncode)}"
        tool.fail(f"{case}: {message or ended}")
    return ran.stdout


class Judgement(collections.namedtuple("Judgement", "said got points has_lost way kept",
                                       defaults=(None, 0, False, (), None))):
    """What is wrong with a run, nothing where it is right; its numbers; a point for each of them
    that is right, where it ended well; whether output may be lost; in which way it is wrong: cases
    that have the same are alike; and the numbers in .csim_results, if it has any."""

    @property
    def word(self):
        return "not judged" if self.way == UNJUDGED else "wrong" if self.said else "right"


def judged(ran, wanted):
    got = numbers_in(tail_of(ran.output))
    said = [ran.fault] if ran.fault else []
    if got != wanted:
        last = last_line(ran.output)
        instead = f"no summary; the last line is '{shown(last)}'" if last else "nothing"
        instead = summary_of(got) if got else instead
        said += [f"wanted {summary_of(wanted)}", f"got    {instead}"]
    results, kept = ran.results, got or wanted
    if results is not None:
        words = results.split()
        are_numbers = all(re.fullmatch(rb"-?\d+", word) for word in words)
        kept = tuple(map(int, words)) if are_numbers else ()
    if kept != (got or wanted):
        said.append(f".csim_results has '{shown(results)}'")
    if said and ran.no_room:
        return Judgement([ran.no_room], way=UNJUDGED)
    right = [one == two == three for one, two, three in zip(wanted, got or (), kept)]
    points = 0 if ran.fault else sum(right)
    signs = tuple((have > want) - (have < want) for have, want in zip(got or (), wanted))
    way = (ran.fault.partition(";")[0], signs, kept != (got or wanted))
    return Judgement(said, got, points, ran.is_killed and got != wanted, way, kept)


def first_wrong_line(cachesim, student, case, changed, ended_well):
    """Where the output with -v is wrong first, in words. Where the program fails, its lines come
    one by one, so that none is lost. Nothing where there is no room for what it writes."""
    ran = student.run(case, "-v", by_line=not ended_well, changed=changed)
    if ended_well and ran.fault:
        ran = student.run(case, "-v", by_line=True, changed=changed)
    if ran.no_room:
        return []
    with open(ran.output, "rb") as file:
        if not any(ACCESS.match(line) for line in file):
            return ["with -v it writes no line for an access"]
    with open(os.memfd_create("wanted"), "w+b") as lines, open(ran.output, "rb") as file:
        reference(cachesim, case, "-v", output=lines)
        lines.seek(0)
        for number, (line, got) in enumerate(itertools.zip_longest(lines, file), 1):
            if line is None or line.startswith(b"hits:"):
                is_access = got is not None and ACCESS.match(got)
                more = f", but after the last one stands '{shown(got)}'" if is_access else ""
                return [f"with -v the line of each access is right{more}"]
            if got is None or line.rstrip() != got.rstrip() and words_of(line) != words_of(got):
                break
    place, text = traced(case.trace, number)
    instead = f"nothing; {ran.fault}" if ran.fault else "nothing"
    return [
        f"line {number} with -v is the first that is wrong; "
        f"line {place} of the trace is '{shown(text)}'",
        f"    wanted {shown(line)}",
        f"    got    {instead if got is None else shown(got)}",
        replay_of(case, place, text),
    ]


def words_of(line):
    """The words of a line with -v, whose address may have zeros in front and capital letters."""
    return re.sub(rb"^(\S+\s+)0+(?=[0-9a-f])", rb"\1", line.strip().lower()).split()


def traced(trace, number):
    """The line of a trace that has its data access of this number, and what it says."""
    with open(trace, "rb") as file:
        accesses = ((place, line) for place, line in enumerate(file, 1)
                    if line.lstrip()[:1] in (b"L", b"S", b"M"))
        return next(itertools.islice(accesses, number - 1, None))


def replay_of(case, place, text):
    """The command that shows what happens in the set of an access."""
    set_bits, lines, block_bits = map(int, case.cache.split(","))
    address = int(text.split()[1].partition(b",")[0], 16)
    number = address >> block_bits & (1 << set_bits) - 1
    is_installed = os.path.exists(f"{tool.HERE}/../../bin/cachesim-replay")
    return (f"see {'cachesim-' * is_installed}replay -s {set_bits} -E {lines} -b {block_bits} "
            f"--set {number:x} --until {place} -t {shlex.quote(case.name)}")


def notes_on(trace, name):
    """A note where a trace has a line that the handout doesn't prepare students for."""
    with open(trace, "rb") as file:
        numbered = enumerate(file, 1)
        odd = next((number for number, line in numbered if not LAB_LINE.fullmatch(line)), None)
    said = f"note: line {odd} of {name} isn't in the lab's form; a program may rightly misread it"
    return [said] if odd else []


class Grading:
    """Judges the cases one by one, and keeps what they come to."""

    def __init__(self, asked, cachesim, student):
        self.asked, self.cachesim, self.student = asked, cachesim, student
        self.right = self.points = 0
        self.slow, self.has_results, self.has_lost = set(), False, False
        self.others = []  # cases that are not right, with what was wanted and their judgements
        self.runs = []  # cases with the numbers that were wanted and got
        self.changed = {}  # what was changed in the runs of cases that were right without it

    @property
    def wrong(self):
        return [other for other in self.others if other[2].way != UNJUDGED]

    @property
    def unjudged(self):
        return [other for other in self.others if other[2].way == UNJUDGED]

    def of_case(self, case, wanted):
        """What is wrong in a case; nothing where the program is right."""
        if case.trace in self.slow:
            return Judgement(["not run: a run on this trace took too long"], way="not run")
        ran = self.student.run(case)
        found = judged(ran, wanted)
        if not found.said and os.path.getsize(case.trace) <= SHORT:
            # memory that is filled hides what reads past its end
            ran = self.student.run(case, changed=student.UNFILLED)
            found = judged(ran, wanted)
            if found.said:
                self.changed[case] = student.UNFILLED
        if found.way == UNJUDGED:
            return found
        self.has_results |= ran.results is not None
        self.points += found.points
        self.has_lost |= found.has_lost
        if found.got:
            self.runs.append((case, wanted, found.got))
        is_sought = self.asked.verbose_lines == "yes" and self.student.slow_runs < 2
        if found.said and is_sought and (self.asked.all or not self.has_seen(found)):
            found.said.extend(first_wrong_line(self.cachesim, self.student, case,
                                               self.changed.get(case, []), not ran.fault))
        if ran.is_slow:
            self.slow.add(case.trace)
        return found

    def has_seen(self, found):
        return any(found.way == other.way for _, _, other in self.others)

    def all(self, cases):
        wanted = [numbers_in(reference(self.cachesim, case)) for case in cases]
        for case, numbers in zip(cases, wanted):
            found = self.of_case(case, numbers)
            self.right += not found.said
            if self.asked.all or found.said and not self.has_seen(found):
                tool.write_lines(["\n    ".join([f"{found.word}: {case}", *found.said])])
            if found.said:
                self.others.append((case, numbers, found))
        if not self.asked.all:
            self.tell_alike()

    def tell_alike(self):
        """Lists the cases that are as one before them is."""
        alike = {}
        for case, _, found in self.others:
            alike.setdefault((found.way, found.word), []).append(case)
        for (_, word), (first, *others) in alike.items():
            tool.write_lines([f"{word} in the same way as {first}, with s,E,b:"] * bool(others))
            for name in dict.fromkeys(case.name for case in others):
                caches = " ".join(case.cache for case in others if case.name == name)
                tool.write_lines([f"    {caches} -t {name}"])

    def is_right(self, case, wanted, **given):
        return not judged(self.student.run(case, **given), wanted).said

    def differs(self, case, found):
        """Whether another run has other numbers."""
        changed = self.changed.get(case, [])
        again = judged(self.student.run(case, changed=changed), found.got) if found.got else found
        return None not in (again.got, found.got) and again.got != found.got

    def of_memory(self, case, wanted):
        """What a program that is wrong in a case does with memory, if it is right with other."""
        changed = self.changed.get(case, [])
        if changed and not self.is_right(case, wanted):
            return DIFFERS
        for other, text in HARMLESS[:1 if changed else None]:
            if self.is_right(case, wanted, changed=[*changed, *other]):
                return text
        return NOT_WRITTEN if changed else ""

    def why(self):
        """The mistake in words, where another run or all results tell it."""
        first, wanted, _ = self.wrong[0]
        if self.student.slow_runs == 0:
            # by chance the numbers of a case are the same again
            tried = [*self.wrong[:-AGAIN:-1], self.wrong[0]]
            if any(self.differs(case, found) for case, _, found in tried):
                return DIFFERS
            told = self.of_memory(first, wanted)
            if told:
                return told
            turned = [run for run in self.wrong if run[0].is_turned][:1]
            if any(self.is_right(run[0]._replace(is_turned=False), run[1]) for run in turned):
                return ("the options are taken in one order only, and not in any: by their places, "
                        "or one sets another too (break is missing)")
        crashed = [(case, judgement.said[0]) for case, _, judgement in self.wrong
                   if "signal" in judgement.way[0]]
        kept = [(wanted, judgement.got, judgement.kept) for _, wanted, judgement in self.wrong]
        told = self.of_ends() or ("" if crashed else evidence.of_results(kept))
        # what fails after a slow run may not have been run
        failed = [] if self.student.slow_runs else [
            case for case, _, judgement in self.wrong
            if not judgement.got and "signal" not in judgement.way[0]]
        return told or evidence.reason(self.runs, crashed, failed)

    def of_ends(self):
        """What is told by how all runs end, whatever they count."""
        faults = [judgement.way[0] for _, _, judgement in self.wrong]
        if not self.runs and not any(faults):
            return "it prints no line 'hits:H misses:M evictions:E', with these words and blanks"
        are_right = all(judgement.got == judgement.kept == wanted
                        for _, wanted, judgement in self.wrong)
        # one above 128 is taken for that of a signal
        if are_right and any(fault.startswith("ended with status") for fault in faults):
            return "all numbers are right, but the program ends with another status than 0"
        return ""

    def tell_by_trace(self, cases):
        """How many cases are right on each of several traces, of those that are judged."""
        all = collections.Counter(case.name for case in cases)
        wrong, unjudged = (collections.Counter(case.name for case, _, _ in some)
                           for some in (self.wrong, self.unjudged))
        if self.others and len(all) > 1:
            for name in all:
                count = all[name] - unjudged[name]
                tool.write_lines([f"{count - wrong[name]} of {count} right on {name}"])

    def end(self, cases):
        """The last lines. Returns the status."""
        if self.has_lost:
            tool.write_lines([LOST])
        if self.right and not self.has_results:
            tool.write_lines(["note: no .csim_results was written; the lab's printSummary would "
                              "have done so"])
        wrong, unjudged = self.wrong, self.unjudged
        reason = wrong and not unjudged and self.why()
        if reason:
            tool.write_lines([f"why: {reason}"])
        self.tell_by_trace(cases)
        if unjudged:
            tool.write_lines([f"{len(unjudged)} of {len(cases)} cases are not judged: "
                              f"{unjudged[0][2].said[0]}"])
        count = len(cases) - len(unjudged)
        points = f", {self.points} of {3 * count} points" if self.asked.points else ""
        tool.write_lines([f"{self.right} of {count} right{points}"])
        return 2 if unjudged else 1 if wrong else 0


def kept(keep, given, program):
    """The six traces, kept in a folder, by their names there."""
    os.makedirs(keep, exist_ok=True)
    names = [os.path.join(keep, name) for _, name in given]
    files.claim(names, [("CSIM", program)])
    for (place, _), name in zip(given, names):
        with open(place, "rb") as trace:
            files.keep(name, trace.read())
    return [(place, name) for (place, _), name in zip(given, names)]


def grade(asked, folder):
    """Judges all cases; returns the status."""
    cachesim = tool.find_cachesim()
    given = traces.in_folder(asked.traces, folder)
    if asked.keep is not None and not asked.traces:
        given = kept(asked.keep, given, asked.program)
    names = asked.name or [name for _, name in given]
    given = [(place, visible_name(name)) for (place, _), name in zip(given, names)]
    around = student.confinement(asked.program, cachesim, folder) if asked.confine else None
    cases = [Case(cache, *trace, cache == TURNED and not asked.geometry)
             for trace in given for cache in asked.geometry or CACHES]
    own = student.Student(asked.program, folder, asked.seconds, around)
    grading = Grading(asked, cachesim, own)
    grading.all(cases)
    for trace in given:
        tool.write_lines(notes_on(*trace))
    if grading.others and not asked.traces and asked.keep is None:
        tool.write_lines(["note: --keep . keeps the traces that are named above"])
    return grading.end(cases)
