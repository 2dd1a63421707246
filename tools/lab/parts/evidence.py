"""What a student's program counted, and which mistakes count exactly so; where no known one does,
where the mistake must be."""

import collections
import functools
import itertools
import os
import re

from parts.mistakes import MISTAKES, NUMBERED, RARE, RARE_NUMBERED, USUAL
from parts.simulator import MANY, Cache, Habits, accesses_in, counts, read, takes_all

LONG = 1000  # accesses: of longer traces two cases are looked at
FEW = 3  # so many guesses are shown; where more fit, the cases say too little
ENOUGH = 20  # cases, for what is less likely than one known mistake
OUTCOMES = {"": ("hit", "miss", "eviction"), " that hits": ("hit",),
            " that misses": ("miss", "eviction"), " that evicts": ("eviction",),
            " that fills a free line": ("miss",)}
COUNTS = "hit", "miss", "eviction"
# kinds of accesses; those of two letters are for where none of the first fits
KINDS = ((*zip("LSM", "LSM"), ("access", [*"LSM", "its store"])),
         (("L or S", "LS"), ("L or M", "LM"), ("S or M", "SM")))
SIZES = {"lines per set": lambda s, lines, b: lines, "sets": lambda s, lines, b: 1 << s,
         "lines": lambda s, lines, b: lines << s}
# of these: programs that evict the wrong block are wrong with fewer
LEAST_LARGE = {"lines per set": 8, "sets": 32}
OVERRUN = "memory of malloc is written past its end"
# what glibc says as it ends a program
MESSAGES = {
    "corrupted (size|top size|unsorted)|invalid next size|corrupted double-linked": OVERRUN,
    r"double free or corruption \(out\)": OVERRUN,
    r"malloc\(\): (invalid size|mismatching next|unsorted)|malloc\.c.*assertion": OVERRUN,
    "stack smashing detected": "an array in a function is written past its end",
    r"double free detected|double free or corruption \((fasttop|top)\)": "memory is freed twice",
    r"free\(\): invalid pointer|munmap_chunk": "free gets an address that malloc did not return",
}
NAMES = "hits", "misses", "evictions"
LEAST = ("-s", 0), ("-E", 1), ("-b", 0)
LEAST_WRONG = 4  # cases, where what they have in common tells something
NOTHING = ("all counts are 0: no line of a trace is taken for an access, or what counts them is "
           "not what is printed")


class Run(collections.namedtuple("Run", "name accesses cache got is_right highest longest")):
    """A case that is looked at: what a program counted there, and what makes numbers matter: the
    highest address, and how many digits the longest one has."""

    def is_of(self, habits):
        """Whether its numbers are those of a simulator with these habits. None is run where they
        can't make as many accesses: on a long trace that takes a third of a second."""
        made = Habits(**habits)
        if takes_all(made) and sum(self.got[:2]) != accesses_in(self.accesses):
            return False
        return counts(self.accesses, self.cache, made) == self.got


def looked_at(runs):
    """Runs of cases with what was wanted and what was got, the short traces first. Of a long trace
    one right case and one wrong one are taken."""
    traces = {path: read(path) for path in {case.trace for case, _, _ in runs}}
    of_trace = {path: (max(one.address + one.size for one in accesses),
                       max(len(one.digits) for one in accesses))
                for path, accesses in traces.items() if accesses}
    seen, found = set(), []
    for case, wanted, got in sorted(runs, key=lambda run: len(traces[run[0].trace])):
        accesses, kind = traces[case.trace], (case.trace, wanted == got)
        if accesses and (len(accesses) <= LONG or kind not in seen):
            cache = tuple(map(int, case.cache.split(",")))
            found.append(Run(case.name, accesses, cache, got, wanted == got,
                             *of_trace[case.trace]))
        seen.add(kind)
    return sorted(found, key=lambda run: (len(run.accesses), run.is_right))  # stable


def are_of(runs, *mistakes):
    """Whether all was counted as by a simulator with the habits of these mistakes."""
    habits = {habit: value for mistake in mistakes for habit, value in mistake.items()}
    return all(run.is_of(habits) for run in runs)


def numbered(runs, habit, **others):
    """A mistake with a number, beside other habits, in words; nothing where no number fits. Most
    traces tell few numbers apart."""
    text, numbers, usual, matters = NUMBERED[habit]

    @functools.cache
    def fits_without(at):
        return runs[at].is_of(others)

    def fits(at, number):
        # a long trace is counted once for all numbers that do not matter: else this takes three
        # quarters of a grading
        does = matters(runs[at], number)
        return runs[at].is_of({habit: number, **others}) if does else fits_without(at)

    fitting = [number for number in numbers if all(fits(at, number) for at in range(len(runs)))]
    return numbers_text(text, fitting, usual) if fitting else ""


def numbers_text(text, fitting, usual):
    """A text with its numbers, the usual ones first."""
    ends = [number for number in fitting if number + 1 not in fitting]
    starts = [number for number in fitting if number - 1 not in fitting]
    every = " or ".join(f"{start} to {end}" if start < end else str(end)
                        for start, end in zip(starts, ends))
    named = " or ".join(str(number) for number in usual if number in fitting)
    if named in ("", every):
        return text.format(every)
    return f"{text.format(named)}, or another number from {every}"


def told(runs, pair):
    """Two mistakes in words."""
    others = [name for name in pair if name not in USUAL]
    if len(others) != 1:
        return " and ".join(pair)
    (with_number,), (other,) = set(pair) - set(others), others
    (habit,) = USUAL[with_number]
    return f"{other} and {numbered(runs, habit, **MISTAKES[other])}"


def single(runs):
    """The mistakes that give exactly the numbers of a program, as texts."""
    found = with_numbers(runs, (habit for habit in NUMBERED if habit not in RARE_NUMBERED))
    found += [name for name in MISTAKES if name not in USUAL and are_of(runs, MISTAKES[name])]
    if found or len(runs) < ENOUGH:
        return found
    return (with_numbers(runs, RARE_NUMBERED)
            + [name for name in RARE if are_of(runs, RARE[name])])


def with_numbers(runs, habits):
    return [text for habit in habits for text in [numbered(runs, habit)] if text]


def pairs(runs):
    """The same for two usual mistakes at once."""
    apart = (pair for pair in itertools.combinations(MISTAKES, 2)
             if not set(MISTAKES[pair[0]]) & set(MISTAKES[pair[1]]))
    fitting = [pair for pair in apart if are_of(runs, *map(MISTAKES.get, pair))]
    return list(dict.fromkeys(told(runs, pair) for pair in fitting))


def reason(runs, crashed, failed):
    """Why a program is wrong, as a text: mistakes that give exactly its numbers, or else where its
    mistake must be; nothing where it can't be said. Runs are cases with what was wanted and what
    was got; the others crashed, or failed in another way."""
    if runs and not any(any(got) for _, _, got in runs):
        return NOTHING
    seen = looked_at(runs)
    is_right = all(run.is_right for run in seen)
    found = [] if is_right else single(seen)
    where = "" if found else place(runs, seen, crashed, failed)
    if where:
        return where
    if not found and not is_right and len(seen) >= ENOUGH:
        found = pairs(seen)
    if not 0 < len(found) <= FEW:
        return ""
    results = "all results are those" if len(runs) > 1 else "the result is that"
    return f"{results} of a program in which {', or of one in which '.join(found)}"


def of_results(kept):
    """What .csim_results has where the summary is right and it is not. Kept are what was wanted,
    what was got and what the file has, in each wrong case."""
    if any(wanted != got or got == numbers for wanted, got, numbers in kept):
        return ""
    if not any(numbers for _, _, numbers in kept):
        return ".csim_results has not three numbers alone, as printSummary writes them"
    orders = [order for order in itertools.permutations(range(3))
              if all(numbers == tuple(wanted[at] for at in order) for wanted, _, numbers in kept)]
    if len(orders) != 1:
        return ".csim_results has other numbers than the summary, which is right"
    order = ", ".join(NAMES[at] for at in orders[0])
    return f".csim_results has {order} in this order, and not {', '.join(NAMES)}"


def place(runs, seen, crashed, failed):
    """Where a mistake must be that is not known."""
    fine = [case for case, wanted, got in runs if wanted == got]
    wrong = [case for case, wanted, got in runs if wanted != got]
    crashing = [case for case, _ in crashed]
    if crashed:
        texts = {text for _, fault in crashed for words, text in MESSAGES.items()
                 if re.search(words, fault)}
        if len(texts) == 1:
            return f"it crashes: {texts.pop()}"
        if wrong:
            return wrong_if_large(fine, wrong + crashing, "crashes or is wrong")
        return too_large(fine, crashing) or too_small("crashes", fine, crashing)
    small = wrong_if_small(fine, wrong + failed)
    if small:
        return small
    large = wrong_if_large(fine, wrong + failed, "is wrong") if len(seen) >= ENOUGH else ""
    if large:
        return large
    if is_of_victims(runs):
        return ("the wrong block is evicted, since all is right where a set has one line or "
                "nothing is evicted: uses are noted, or the one longest ago is found, wrongly")
    return ended_early(seen) or (miscounted(seen) if len(seen) >= ENOUGH else "")


def too_large(fine, crashed):
    """What the cases that crash have more of than all others."""
    length, names = (lambda case: os.path.getsize(case.trace)), {case.name for case in crashed}
    if len(names) == 1 and fine and length(crashed[0]) > max(map(length, fine)):
        return f"it crashes on {crashed[0].name} only, the longest: an array may be too short"
    return too_short("crashes", more_of(fine, crashed))


def wrong_if_large(fine, bad, what):
    """The same of cases that crash or are wrong, where there are many lines or sets, and most cases
    with as many are bad: else a wrong block is more likely."""
    def count(cases, name, least):
        return sum(size_of(case, name) >= least for case in cases)

    return too_short(what, [(name, least) for name, least in more_of(fine, bad)
                            if least >= LEAST_LARGE.get(name, MANY)
                            and count(bad, name, least) > count(fine, name, least)])


def size_of(case, name):
    return SIZES[name](*map(int, case.cache.split(",")))


def more_of(fine, bad):
    """The sizes that bad cases have, and only fine ones have less of, with the least."""
    for name in SIZES:
        sizes, all_fine = ({size_of(case, name) for case in cases} for cases in (bad, fine))
        others = all_fine - sizes
        if sizes and others and min(sizes) > max(others):
            yield name, min(sizes)


def too_short(what, sizes):
    more = " or ".join(f"{least:,} {name}" for name, least in sizes)
    return f"it {what} only where there are {more} or more: an array may be too short" * bool(more)


def least_of(cases):
    """The options of which all cases have the least value."""
    return [at for at, (_, value) in enumerate(LEAST)
            if {int(case.cache.split(",")[at]) for case in cases} == {value}]


def too_small(what, fine, bad):
    """The options of which all bad cases have the least value, and others have not."""
    common = [" ".join(map(str, LEAST[at])) for at in least_of(bad)
              if any(at not in least_of([case]) for case in fine)]
    return f"it {what} only with {' and '.join(common)}" if common else ""


def wrong_if_small(fine, bad):
    """The same of cases that are wrong, where most cases with these values are."""
    alike = [case for case in fine if set(least_of(bad)) <= set(least_of([case]))]
    return too_small("is wrong", fine, bad) if len(bad) >= max(LEAST_WRONG, len(alike) + 1) else ""


def is_of_victims(runs):
    """Whether only the choice of victims can be wrong. What has none, as a set has one line or
    nothing is evicted, must be right, and be there; and all accesses count, and all lines are
    filled, as they should."""
    alone = large = wrong = 0
    for case, wanted, got in runs:
        lines, (hits, misses, evictions) = int(case.cache.split(",")[1]), wanted
        if hits + misses != sum(got[:2]) or misses - evictions != got[1] - got[2]:
            return False
        if wanted != got and (lines == 1 or not evictions):
            return False
        wrong += wanted != got
        alone += lines == 1 and hits > 0 and evictions > 0
        large += lines >= 8 and hits > 0 and not evictions
    return min(alone, wrong) >= 4 and large >= 2


def ended_early(runs):
    """Where the beginning of a trace alone is read, in words."""
    ends = {}
    for run in runs:
        accesses, count = beginning(run)
        if count < accesses_in(run.accesses):
            ends.setdefault(run.name, set()).add(count)
        if counts(accesses, run.cache, Habits()) != run.got:
            return ""
    if not ends or any(len(counts) > 1 for counts in ends.values()):
        return ""
    said = ", ".join(f"{min(counts):,} of {name}" for name, counts in ends.items())
    return f"of the accesses only the first count ({said}): reading ends there"


def beginning(run):
    """The lines of a trace that have as many accesses as a program counted, and how many these
    are."""
    count, total = 0, sum(run.got[:2])
    for at, access in enumerate(run.accesses):
        if count >= total:
            return run.accesses[:at], count
        count += {"I": 0, "M": 2}.get(access.kind, 1)
    return run.accesses, count


def tallied(run):
    """How often each kind of access hits, misses and evicts in a right simulator."""
    made, found = Cache(run.cache, Habits()), collections.Counter()
    for kind, address, _, _ in run.accesses:
        if kind != "I":
            found[kind, made.touch(kind, address)] += 1
        if kind == "M":
            found["its store", made.touch(kind, address)] += 1
    return found, (made.hits, made.misses, made.evictions)


def groups_of(kinds):
    """Groups of accesses: what they are called, and their kinds and outcomes."""
    return [(f"{name}{when}", list(itertools.product(letters, outcomes)))
            for name, letters in kinds for when, outcomes in OUTCOMES.items()]


def fitting_of(groups, more, tallies):
    """The groups of accesses that explain by how many a count is wrong, and their share in it."""
    return [(name, times) for name, keys in groups for times in (-1, 1, 2)
            if more == [times * sum(found[key] for key in keys) for found, _ in tallies]]


def miscounted(runs):
    """Which accesses count as too many or too few hits, misses or evictions, in words."""
    tallies, said = [tallied(run) for run in runs], []
    one, two = map(groups_of, KINDS)
    for at, count in enumerate(COUNTS):
        more = [run.got[at] - wanted[at] for run, (_, wanted) in zip(runs, tallies)]
        if not any(more):
            continue
        fitting = fitting_of(one, more, tallies) or fitting_of(two, more, tallies)
        if len(fitting) != 1:
            return ""
        [(name, times)] = fitting
        said.append(f"{abs(times)} {count}{'s' * (times > 1)} too {'many' if times > 0 else 'few'} "
                    f"for each {name}")
    verb = "are" if said and said[0].startswith("2") else "is"
    return f"there {verb} {' and '.join(said)}" if said else ""
