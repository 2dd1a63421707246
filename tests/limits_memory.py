"""What tests/limits judges of the bytes that a run asks for: the formulas of the manual, and runs
that must ask for as many as these give."""

import re
import sys

import common

POWERS = [2**power for power in range(21)]
WAYS, PAIRS = 65_536, len(POWERS) ** 2
# bytes by which a table of eight pairs, and of all, may differ from the formulas: the program lists
# its pairs
LISTED, ALL_LISTED = 4096, 2**20
ALL = ["sweep", "--bsize", "1-1m", "--sets", "1-1m", "--assoc", "1", "--size", "1-1024g"]
# sentences of the manual on memory, with their numbers and formulas
NUMBER, FORMULA = r"([\d.,]+)", r"`([\d.*+ SA-]+)`"
# rows of its table, whose last cell is of full tables
ROWS = rf"otherwise \| any \| {FORMULA} \| {FORMULA}"
MORE = f"{FORMULA} more than otherwise, late {FORMULA}"
SPARSE = rf"{NUMBER} to {NUMBER} \| above {NUMBER} \| {MORE} \| {MORE}"
SLOTS = (
    rf"{NUMBER} to {NUMBER} \| up to {NUMBER} \| {FORMULA}, late {NUMBER} per set \| {FORMULA}"
)
LONG_LISTS = (
    rf"{NUMBER} or more \| any \| at most {FORMULA}: {NUMBER} MB for one set of 65,536 ways, "
    rf"{NUMBER} MB for the largest pair \| at most {FORMULA}"
)
BATCH = (
    f"All pairs together take {NUMBER} KiB more for waiting references, with `--full` {NUMBER} KiB"
)
# of docs/speed.md
ALL_PAIRS = f"Sweeping all {PAIRS} pairs with one way takes {NUMBER} MB"
BUFFERS = f"a run has two buffers of {NUMBER} KiB, and a sweep {NUMBER} KiB for references"
CACHES = (
    f"`csim`, `din` and `log` take {NUMBER} bytes per line of a cache and {NUMBER} per set; with "
    f"{NUMBER} ways or more {NUMBER} per line, {NUMBER} per set and {NUMBER} more, and under "
    f"random replacement {NUMBER} per line, {NUMBER} per set and {NUMBER} more"
)


def told_by_the_manual(sentence, page="docs/manual.md"):
    """The numbers of a sentence of the manual, and its formulas as they stand."""
    text = " ".join((common.TOP / page).read_text().split())
    found = re.search(sentence, text)
    if not found:
        print(f"{page} does not say {sentence}\n0 passed, 1 failed")
        sys.exit(1)
    return [it if re.search("[SA]", it) else float(it.replace(",", "")) for it in found.groups()]


def value(formula, sets, ways):
    return eval(formula, {"S": sets, "A": ways})


def told_of_pair(sets, ways, is_full=False):
    """The bytes of a pair of a sweep, for so many sets and the most lines per set."""
    formulas, (deep, most, *_, full_most) = map(told_by_the_manual, (ROWS, LONG_LISTS))
    sparse_from, sparse_to, many, more, _, full_more, _ = told_by_the_manual(SPARSE)
    slots_from, slots_to, few, slots, _, full_slots = told_by_the_manual(SLOTS)
    formula = formulas[is_full]
    if ways >= deep:
        formula = full_most if is_full else most
    elif sets <= few and slots_from <= ways <= slots_to:
        formula = full_slots if is_full else slots
    elif sets > many and sparse_from <= ways <= sparse_to:
        formula = f"{formula} + {full_more if is_full else more}"
    return value(formula, sets, ways)


def told_of_cache(sets, ways, policy="l"):
    """The bytes of a cache for so many sets and lines per set, by the letter of its policy."""
    line, set_, indexed, *others = told_by_the_manual(CACHES)
    more = 0
    if ways >= indexed:
        line, set_, more = others[3:] if policy == "r" else others[:3]
    return sets * (line * ways + set_) + more


def pair(sets, ways):
    """A sweep of one pair, and its bytes."""
    words = ["sweep", "--bsize", "16", "--sets", f"{sets}", "--assoc", f"{ways}"]
    return [*words, "--size", "0-1g"], told_of_pair(sets, ways)


def full_pair(sets, ways):
    """The same of the full table."""
    words, _ = pair(sets, ways)
    return [*words, "--full"], told_of_pair(sets, ways, is_full=True)


def cache(command, sets, ways, policy="l"):
    """A run of one cache, and its bytes."""
    if command == "csim":
        words = ["-s", f"{sets.bit_length() - 1}", "-E", f"{ways}", "-b", "4", "-t", "/dev/stdin"]
    else:
        words = ["-l1-ubsize", "16", "-l1-usets", f"{sets}", "-l1-uassoc", f"{ways}"]
        words += ["-l1-urepl", policy]
    return [command, *words], told_of_cache(sets, ways, policy)


def blocks(sets, tags=range(1)):
    """References to each of these sets, of up to 4,096, by so many blocks, at each block size up to
    4,096: the twelve digits of a set stand in the address twice, so any twelve of them tell one."""
    return b"".join(b"0 %x\n" % (tag << 24 | set_ * 4097) for tag in tags for set_ in sets)


def far_blocks(sets, tags=range(1)):
    """The same of any number of sets, by blocks of 16 bytes."""
    return b"".join(b"0 %x\n" % (tag << 40 | set_ << 4) for tag in tags for set_ in sets)


def bytes_of_pairs(limits, told):
    """On both sides of each bound between two ways of keeping lists."""
    for sets, ways in (
        (1, 1), (2**20, 1), (1024, 2), (4096, 11), (4096, 17), (4096, 31), (4096, 32), (4096, 255),
        (8192, 12), (8192, 16), (8192, 31), (16, 12), (4096, 12), (4096, 16), (8192, 32),
        (8192, 255),
    ):
        name = f"a sweep with S = {sets} and A = {ways}"
        limits.takes(name, pair(sets, ways), pair(16, 1), told)
    seen = {}
    for sets, ways, least in (
        (1, 256, 0.92), (16_384, 256, 0.87), (1, WAYS, 0.995), (64, WAYS, 0.995),
    ):
        name = f"a sweep with S = {sets} and A = {ways}"
        seen[sets, ways] = limits.takes(name, pair(sets, ways), pair(16, 1), told, least=least)
    *_, one, largest, _ = told_by_the_manual(LONG_LISTS)
    for name, sets, most, digit in (
        ("one set of 65,536 ways", 1, one, 0.1), ("the largest pair", 64, largest, 1),
    ):
        megabytes = seen[sets, WAYS] / 1e6
        good, name = most - digit < megabytes <= most, f"{name}: as the manual tells in MB"
        limits.judge(name, good, f"not {most:g} MB", f"{megabytes:.2f} MB")


def bytes_of_full_pairs(limits, told):
    """The same of the full table."""
    for sets, ways in (
        (1, 1), (2**20, 1), (1024, 2), (4096, 11), (16, 12), (4096, 12), (4096, 16), (4096, 17),
        (8192, 12), (8192, 16), (4096, 32), (8192, 31), (8192, 32), (8192, 255), (4096, 255),
    ):
        name = f"a full sweep with S = {sets} and A = {ways}"
        limits.takes(name, full_pair(sets, ways), full_pair(16, 1), told)
    for sets, ways, least in (
        (1, 256, 0.95), (4096, 256, 0.87), (1, WAYS, 0.995), (64, WAYS, 0.995),
    ):
        name = f"a full sweep with S = {sets} and A = {ways}"
        limits.takes(name, full_pair(sets, ways), full_pair(16, 1), told, least=least)


def bytes_of_tables(limits, told):
    """A pair counts with its greatest associativity, and only if it has a row. Of the first sizes,
    with blocks of 16 bytes, each cache has 2^11 to 2^15 lines, so each pair has a row."""
    words = ["sweep", "--bsize", "16", "--sets", "64-8k", "--assoc", "1-64", "--size", "32k-512k"]
    eight = [(sets, min(64, 2**15 // sets)) for sets in POWERS[6:14]]
    for name, table, pairs, slack in (
        ("a table of eight pairs", words, eight, LISTED),
        ("its first row, of one pair", [*words, "--rows", "1"], eight[:1], LISTED),
        ("all pairs", ALL, [(sets, 1) for sets in POWERS for _ in POWERS], ALL_LISTED),
    ):
        run = table, sum(told_of_pair(sets, ways) for sets, ways in pairs)
        seen = limits.takes(name, run, pair(16, 1), told, slack=slack)
    [most] = told_by_the_manual(ALL_PAIRS, "docs/speed.md")
    limits.judge("MB of all pairs with one way", abs(seen / 1e6 - most) <= 0.5, f"not {most:g}")


def bytes_of_caches(limits, told):
    """The same of caches."""
    above = int(told_by_the_manual(CACHES)[2])
    below = above - 1
    for command, policy, sets, ways in (
        ("din", "l", 2**20, 1), ("din", "r", 1024, below), ("din", "l", 1024, below),
        ("din", "l", 1024, above), ("din", "f", 1024, above), ("din", "r", 1024, above),
        ("din", "l", 1, WAYS), ("din", "l", 64, WAYS), ("din", "r", 64, WAYS),
        ("log", "l", 1024, below), ("log", "l", 1024, above),
        ("csim", "l", 2**20, 1), ("csim", "l", 1024, below), ("csim", "l", 1024, above),
        ("csim", "l", 1, WAYS), ("csim", "l", 64, WAYS),
    ):
        name = f"{command} with S = {sets} and A = {ways}, replacement {policy}"
        limits.takes(name, cache(command, sets, ways, policy), cache(command, 16, 1), told)


def bytes_of_buffers(limits, large):
    [batch, of_full] = told_by_the_manual(BATCH)
    [buffer, same] = told_by_the_manual(BUFFERS, "docs/speed.md")
    runs = pair(1, 1)[0], full_pair(1, 1)[0], cache("din", 1, 1)[0], ["--help"]
    sweep, full, din, none = (limits.asked(arguments, large)[0] / 1024 for arguments in runs)
    limits.equal("KiB of two buffers", din - none, 2 * buffer)
    limits.equal("KiB of references that wait", (sweep - din, same), (batch, batch))
    limits.equal("KiB of references that wait in a full sweep", full - din, of_full)
