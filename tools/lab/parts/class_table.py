"""The table of a class, for which `grade` judges one student after another."""

import concurrent.futures
import os
import re
import subprocess
from collections import namedtuple

from lib import files, processes
from lib.signals import uninterrupted
from lib.text_table import csv_lines
from parts import tool, traces
from parts.student import visible_name

GRADE = f"{tool.HERE}/lab/grade"
LAST = re.compile(r"^(\d+) of (\d+) right, (\d+) of \d+ points\n\Z", re.MULTILINE)
WHY = re.compile(r"^why: .*", re.MULTILINE)
REASON = re.compile(r"^wrong: .*(\n {4}(?!see )\S.*)*", re.MULTILINE)
OF_A_TRACE = re.compile(r"^(\d+) of \d+ right on ", re.MULTILINE)
UNJUDGED = re.compile(r"^\d+ of \d+ cases are not judged: .*", re.MULTILINE)


class Judgement(namedtuple("Judgement", "text right of points fault")):
    """What `grade` said of a program, in text and numbers, and what kept it from judging all."""

    @property
    def reason(self):
        """The first thing that is wrong, and why, as one line."""
        why, found = WHY.search(self.text), REASON.search(self.text)
        first = re.sub(r"\s+", " ", found[0].replace("\n", ";")) if found else ""
        return self.fault or (f"{first}; {why[0]}" if why else first)

    def by_trace(self, count):
        """How many cases are right on each of so many traces."""
        numbers = OF_A_TRACE.findall(self.text)
        return numbers if len(numbers) == count else [self.right // count] * count


def unjudged(text, fault, of=None):
    """The judgement on a program for which there are no numbers: it has no case right, of all or
    of as many as were judged."""
    return Judgement(f"{text}{fault}\n", 0, of, 0, fault)


class Class:
    """Runs `grade` for one student after another, several at a time, and can end all that runs."""

    def __init__(self, options, given, folder):
        self.options = [*options, *(f"--name={name}" for _, name in given)]
        self.traces = [place for place, _ in given]
        cachesim = os.path.abspath(tool.find_cachesim())
        # what a `grade` leaves that was killed goes with the folder
        self.env = {**os.environ, "CACHESIM": cachesim, "TMPDIR": folder}
        self.running, self.is_stopped, self.faults = set(), False, []

    def judge(self, program, *options):
        """What `grade` says of a program."""
        command = [GRADE, "--points", *self.options, *options, "--", program, *self.traces]
        pipes = {"stdin": subprocess.DEVNULL, "stdout": subprocess.PIPE, "stderr": subprocess.PIPE}
        process = subprocess.Popen(command, **pipes, env=self.env, encoding="utf-8",
                                   errors="backslashreplace")
        self.running.add(process)
        if self.is_stopped:
            process.terminate()
        text, message = process.communicate()
        self.running.discard(process)
        numbers, missed = LAST.search(text), UNJUDGED.search(text)
        if missed:
            self.faults.append(f"{program}: {missed[0]}")
        if numbers:
            return Judgement(text, *map(int, numbers.groups()), missed[0] if missed else "")
        message, ended = message.strip().removeprefix("grade: "), process.returncode
        is_of_program = ended == 2 and message.startswith(f"{program}: ")
        if not is_of_program and not self.is_stopped:
            fault = message if ended == 2 else f"grade ended with status {ended}"
            self.faults.append(f"{program}: {fault}")
        fault = message.replace(f"{program}: ", "csim: ") or "not judged"
        return unjudged(text, fault, None if is_of_program or ended != 2 else 0)

    def student(self, folder):
        """The judgement on a student; its text is kept in the folder."""
        program = os.path.join(folder, "csim")
        if self.is_stopped:
            return None
        is_there = os.path.isfile(program)
        found = self.judge(program) if is_there else unjudged("", "csim: no such file")
        try:
            if not self.is_stopped:
                text = found.text.encode(errors="backslashreplace")
                files.replace(os.path.join(folder, "grade.txt"), text, 0o644)
        except OSError as fault:
            self.faults.append(f"{folder}: grade.txt can't be written: {fault.strerror}")
        return found

    def stop(self):
        """Ends what runs. Each `grade` then ends its program, and removes its files."""
        self.is_stopped = True
        for process in list(self.running):
            process.terminate()


def write_table(group, names, folders, jobs):
    """Judges all, and writes a row for each as soon as it and those before it are judged."""
    # a fault of the arguments, before it is said of each student
    nobody = group.judge("/bin/true", "--verbose-lines=no")
    if nobody.fault:
        tool.fail(nobody.fault)
    tool.write_lines(csv_lines([["name", "right", "of", "points", *names, "reason"]]))
    front = os.path.commonpath([os.path.dirname(folder) for folder in folders])
    with concurrent.futures.ThreadPoolExecutor(jobs) as threads:
        try:
            # A thread that a signal interrupts as it begins would not be waited for. The threads,
            # and each `grade` until it has its folder, go on to put signals off.
            with uninterrupted():
                judged = threads.map(group.student, folders)
            for folder, found in zip(folders, judged):
                name = os.path.relpath(folder, front)
                of = nobody.of if found.of is None else found.of
                by_trace = found.by_trace(len(names))
                row = [visible_name(name), found.right, of, found.points, *by_trace, found.reason]
                tool.write_lines(csv_lines([row]))
        except BaseException:
            group.stop()
            raise


def of_class(asked, private):
    """Judges all, and returns the status."""
    options = [f"--seconds={asked.seconds}", *(f"--geometry={cache}" for cache in asked.geometry),
               *["--confine"] * asked.confine]
    given = traces.in_folder(list(dict.fromkeys(asked.trace)), private)
    processes.adopt_orphans()
    group = Class(options, given, private)
    group.faults += [f"{name}: left out, as it is no folder" for name in asked.left_out]
    write_table(group, [visible_name(name) for _, name in given], asked.folders, asked.jobs)
    for fault in group.faults:
        tool.warn(fault)
    return 1 if group.faults else 0
