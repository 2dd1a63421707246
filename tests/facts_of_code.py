"""Facts of the code, of the examples, and of commands on the page that says them."""

import csv
import re

import common
import limits_memory
from facts import NUMBER, constant, everywhere, fact, power


def geometry(name):
    return constant("cache_core", "geometry.rt", name)


def kept(name):
    return constant("profile_core", "profile/kept_profile.rt", name)


def indexed():
    return constant("cache_core", "cache/chosen.rt", "INDEXED_WAYS")


def deep():
    return constant("profile_core", "set_lists/long_lists.rt", "DEEP")


def row():
    return constant("profile_core", "set_lists/long_lists.rt", "ROW")


def full_deep(name):
    return constant("full_profile", "marked_lists/long_lists.rt", name)


def sparse_from():
    """From how many sets and ways on full rows are sparse, and the most ways."""
    sets, ways = (constant("full_profile", "profile/kept_full.rt", name)
                  for name in ("MANY_SETS", "MANY_WAYS"))
    return f"{sets:,}", f"{ways}", f"{full_deep('DEEP') - 1}"


def lines():
    return constant("trace_core", "limits.rt", "MAX_LINES")


def buffer():
    """The KiB of each of the two buffers."""
    [size] = {constant("trace_core", "buffer.rt", "CAPACITY"),
              constant("cachesim", "main.rt", "OUTPUT_BUFFER")}
    return f"{size // 1024}"


def digits(radix):
    """The most digits that a number of a line has."""
    code = (common.TOP / "crates/trace_core/src/line.rt").read_text()
    [most] = {*re.findall(rf"read_number\({radix}, (\d+), ", code)}
    return most


def bits():
    return [f"{geometry('MAX_BITS')}"]


fact("docs/manual.md", r"required: set index bits, for 2\^s sets; at most (\d+)", bits)
fact("docs/manual.md", r"required: block bits, for blocks of 2\^b bytes; at most (\d+)", bits)
fact("docs/manual.md", r"Block size and number of sets: 1 to ([\d,]+) \((2\^\d+)\)",
     lambda: [f"{2**geometry('MAX_BITS'):,}", f"2^{geometry('MAX_BITS')}"])
fact("docs/manual.md", r"Associativity: 1 to ([\d,]+) \((2\^\d+)\)",
     lambda: [f"{geometry('MAX_WAYS'):,}", power(geometry("MAX_WAYS"))])
fact("docs/manual.md", r"the lines of a cache: at most ([\d,]+) \((2\^\d+)\)",
     lambda: [f"{geometry('MAX_CACHE_LINES'):,}", power(geometry("MAX_CACHE_LINES"))])
fact("docs/manual.md", r"A line of a trace: at most ([\d,]+) bytes before its LF\. A trace: at "
     r"most (2\^\d+) lines",
     lambda: [f"{constant('trace_core', 'limits.rt', 'MAX_LINE'):,}", power(lines())])
fact("docs/manual.md", r"address has 1 to (\d+) hexadecimal digits", lambda: [digits(16)])
fact("docs/manual.md", r"The size has 1 to (\d+) decimal digits", lambda: [digits(10)])
fact("docs/manual.md", r"lackey: not 1 to (\d+) decimal digits", lambda: [digits(10)])
fact("docs/manual.md", r"is buffered in pieces of (\d+) KiB", lambda: [buffer()])
fact("docs/architecture.md", r"By hand: texts that say (\d+) KiB", lambda: [buffer()])
fact("docs/architecture.md", r"By hand: (\d+) in `tools/three-c`, `tools/by-line` and "
     r"`tools/lib/optimal\.c`, `MOST_LINES` of `tools/lib/machine\.py`, (\d+) in",
     lambda: [f"{geometry('MAX_WAYS')}", *bits()])
fact("crates/trace_core/CALLING.md", r"takes a buffer of (\d+) KiB", lambda: [buffer()])
fact("crates/trace_core/CALLING.md", r"a line longer than (\d+) bytes",
     lambda: [f"{constant('trace_core', 'limits.rt', 'MAX_LINE')}"])
fact("docs/proofs.md", r"a system takes (2\^\d+) steps \(a flush is one too\), a profile (2\^\d+) "
     r"references", lambda: [
         power(constant("cache_core", "system.rt", "MAX_STEPS")),
         power(constant("profile_core", "profile.rt", "MAX_REFERENCES"))])
fact("docs/proofs.md", r"references, a simulation (2\^\d+);", lambda: [simulated()])
fact("crates/cache_core/CALLING.md", r"No count may be above (2\^\d+)", lambda: [simulated()])
fact("docs/proofs.md", r"up to the limit \(`\.within`\), which is at most (2\^\d+)",
     lambda: [power(lines())])
fact("docs/proofs.md", r"a job of `parse` takes (2\^\d+) lines", lambda: [power(lines())])
fact("docs/DECISIONS.md", r"a reader's limit is at most (2\^\d+)", lambda: [power(lines())])
fact("docs/DECISIONS.md", r"An index begins at (\d+) ways\*\*", lambda: [f"{indexed()}"])
fact("docs/DECISIONS.md", r"Profiles of (\d+) ways or more have deep lists",
     lambda: [f"{deep()}"])
fact("docs/manual.md", r"^(\d+) or more \| any \| at most", lambda: [f"{full_deep('DEEP')}"])
fact("docs/manual.md", r"^(\d+) to (\d+) \| above ([\d,]+) \|",
     lambda: [*sparse_from()[1:], sparse_from()[0]])
fact("crates/full_profile/CALLING.md",
     r"With a depth of (\d+) to (\d+) and more than ([\d,]+) sets it takes",
     lambda: [*sparse_from()[1:], sparse_from()[0]])
fact("crates/full_profile/CALLING.md", r"with a depth of (\d+) or more at most",
     lambda: [f"{full_deep('DEEP')}"])
fact("crates/full_profile/CALLING.md", r"only the first (\d+) blocks are walked over",
     lambda: [f"{full_deep('ROW')}"])
fact("docs/definitions.md", r"and stream (\d+)\.",
     lambda: [f"{constant('cache_core', 'replacement.rt', 'STREAM')}"])
fact("crates/sweep_core/CALLING.md", r"in an array of (\d+) bytes",
     lambda: [f"{constant('trace_core', 'devices.rt', 'SINK_CAPACITY')}"])
fact("crates/deep_list/CALLING.md", r"A list has at most `cap` blocks, 1 to (2\^\d+)",
     lambda: [power(geometry("MAX_CACHE_LINES"))])


def simulated():
    """The most that a simulation counts, by the condition of its accesses."""
    text = (common.TOP / "crates/cache_core/src/simulation.rt").read_text()
    [most] = {*re.findall(r"SimulationCountsWithin \((2 \^ \d+)\) self\.old", text)}
    return most.replace(" ", "")


# where lists are kept in another way, on each page that says it
everywhere(r"csim`, `din` (?:and|or) `log` with (\d+) ways", lambda: {f"{indexed()}"})
everywhere(r"(?:caches?|sets?)(?: of `csim`, `din` or `log`)? (?:of|with) (\d+) ways or more",
           lambda: {f"{indexed()}"})
everywhere(r"(?:profile|depth) of (\d+) (?:ways )?or more", lambda: {f"{deep()}"})
everywhere(r"(?:one|list|lists|depth) of (\d+) to (\d+) (?:blocks )?(?:where|and up|are|behind)",
           lambda: {f"{kept('SLOTTED_FROM')}", f"{kept('SLOTTED_TO')}"})
everywhere(r"(?:up to|more than|most) ([\d,]+) sets", lambda: {f"{kept('MANY_SETS'):,}"})
everywhere(r"depth of (32) to (\d+) and more sets", lambda: {
    f"{kept('MANY_WAYS')}", f"{deep() - 1}"})
fact("docs/architecture.md", r"Up to ([\d,]+) references wait",
     lambda: [f"{constant('sweep_core', 'batch.rt', 'BATCH'):,}"])
fact("docs/architecture.md", r"takes `rows/plain\.rt` for all lists of up to (\d+) blocks",
     lambda: [f"{deep() - 1}"])
for count, found in (
    (r"^(\d+) to (\d+) \| up to ([\d,]+) \| second blocks in one array",
     lambda: (kept("SLOTTED_FROM"), kept("SLOTTED_TO"), kept("MANY_SETS"))),
    (r"^(\d+) to (\d+) \| more than ([\d,]+) \| in the order",
     lambda: (kept("SLOTTED_FROM"), kept("SLOTTED_TO"), kept("MANY_SETS"))),
    (r"^up to (\d+), and (\d+) to (\d+) \| all numbers", lambda: (
        kept("SLOTTED_FROM") - 1, kept("SLOTTED_TO") + 1, kept("MANY_WAYS") - 1)),
    (r"^(\d+) to (\d+) \| up to ([\d,]+) \| the same",
     lambda: (kept("MANY_WAYS"), deep() - 1, kept("MANY_SETS"))),
    (r"^(\d+) to (\d+) \| more than ([\d,]+) \| second blocks in one array, those behind them in "
     "another", lambda: (kept("MANY_WAYS"), deep() - 1, kept("MANY_SETS"))),
    (r"^(\d+) or more \| all numbers \| the first (\d+) blocks", lambda: (deep(), row())),
):
    fact("docs/architecture.md", count, lambda found=found: [f"{it:,}" for it in found()])

# ---- what tests/limits measures
for sentence in ("ROWS", "SPARSE", "SLOTS", "LONG_LISTS", "BATCH", "CACHES"):
    fact("docs/manual.md", getattr(limits_memory, sentence), "tests/limits")
fact("docs/speed.md", limits_memory.ALL_PAIRS, "tests/limits")
fact("docs/speed.md", limits_memory.BUFFERS, "tests/limits")


def of_caches():
    """The bytes of a cache, as the manual tells them, which tests/limits measures."""
    return [f"{it:g}" for it in limits_memory.told_by_the_manual(limits_memory.CACHES)]


def of_slots():
    """The bytes of a set's slots, and those of them that are written for a third block."""
    *_, formula, late, _ = limits_memory.told_by_the_manual(limits_memory.SLOTS)
    return [formula.partition("*")[0], f"{late:g}"]


fact("docs/PERF.md", rf"a profile in slots {NUMBER} bytes for each set \([^)]*\), of which "
     rf"{NUMBER} are written", of_slots)
fact("docs/PERF.md", rf"a cache of {NUMBER} ways or more {NUMBER} bytes for each line, {NUMBER} "
     rf"for each set and {NUMBER} more, under random replacement {NUMBER} for each line, {NUMBER} "
     rf"for each set and {NUMBER} more, in place of {NUMBER} for each line and {NUMBER} for each "
     "set",
     lambda: [*of_caches()[2:], *of_caches()[:2]])
fact("crates/cache_core/CALLING.md",
     rf"{NUMBER} bytes for each line and {NUMBER} for each set\. In a `System` or a `Simulation` "
     rf"one with {NUMBER} ways or more takes {NUMBER} bytes for each line, {NUMBER} for each set "
     rf"and {NUMBER} more, and under random replacement {NUMBER} for each line, {NUMBER} for each "
     rf"set and {NUMBER} more", of_caches)

# ---- examples


def held(name):
    return [line.split()[0] for line in (common.TOP / "examples" / name).read_text().splitlines()]


fact("examples/README.md", rf"`transpose\.c` transposes .*? row by row: {NUMBER} fetches, {NUMBER} "
     rf"loads, {NUMBER} stores", lambda: [
         f"{held('transpose.lackey').count(it):,}" for it in "ILS"])
fact("examples/README.md", rf"without the fetches: {NUMBER} loads, {NUMBER} stores",
     lambda: [f"{held('blocks.lackey').count(it):,}" for it in "LS"])
fact("examples/README.md", rf"by merging: {NUMBER} reads, {NUMBER} writes, {NUMBER} fetches",
     lambda: [f"{held('sort.din').count(it):,}" for it in "012"])


def pictured():
    with open(common.TOP / "docs/pictures/sort.csv", newline="", encoding="ascii") as file:
        rows = list(csv.DictReader(file))
    return [f"{(int(rows[0]['hits']) + int(rows[0]['misses'])) / 1e6:.1f}", f"{len(rows)}"]


fact("README.md", rf"{NUMBER} million data references in (\d+) caches", pictured)

# ---- limits of the crates below


def needed(crate, source, sentence):
    """The powers of two that conditions of a source name, by this sentence."""
    text = (common.TOP / "crates" / crate / "src" / source).read_text()
    return [power.replace(" ", "") for power in re.search(sentence, text).groups()]


fact("crates/block_index/CALLING.md",
     r"Empty lists, at most (2\^\d+) of them, for at most (2\^\d+) slots",
     lambda: needed("block_index", "slot_lists.rt", r"\{ lists ≤ (2 \^ \d+) \}\s+requires slots "
                    r"\{ slots ≤ (2 \^ \d+) \}"))
fact("crates/block_index/CALLING.md", r"An index of at most (2\^\d+) slots",
     lambda: needed("block_index", "block_index.rt", r"\{ slots ≤ (2 \^ \d+) \}"))
fact("crates/block_index/CALLING.md", r"The chain of a block, of at most (2\^\d+):",
     lambda: needed("block_index", "chains.rt", r"\{ chains ≤ (2 \^ \d+) \}"))
for page, place in ("profile_core", "profile/counts.rt"), ("full_profile", "profile.rt"):
    fact(f"crates/{page}/CALLING.md", r"The sums at associativity (\d+)",
         lambda page=page, place=place: needed(page, place, r"sums_at self\.now (\d+) \}"))
for page in "block_index", "deep_list":
    fact(f"crates/{page}/CALLING.md", r"on one chain: after (\d+) slots",
         lambda: [f"{constant('block_index', 'chains.rt', 'LONGEST')}"])
fact("docs/architecture.md", r"where more than (\d+) slots are on the chain",
     lambda: [f"{constant('block_index', 'chains.rt', 'LONGEST')}"])
everywhere(r"(?:count for each|4 for each) (\d+) (?:slots|of these)",
           lambda: {f"{constant('deep_list', 'slots.rt', 'CHUNK')}"})
everywhere(r"at most (\d+) flags", lambda: {f"{constant('deep_list', 'slots.rt', 'CHUNK') - 1}"})
fact("crates/deep_list/CALLING.md", rf"with roundings at most {NUMBER} bytes per block",
     lambda: [limits_memory.told_by_the_manual(limits_memory.LONG_LISTS)[1].partition("*")[0]])
fact("docs/DECISIONS.md", r"at most (\d+) counts and (\d+) flags",
     lambda: counted_at(geometry("MAX_WAYS")))
fact("docs/DECISIONS.md", r"A batch is two arrays of (\d+) KiB",
     lambda: [f"{constant('sweep_core', 'batch.rt', 'BATCH') * 8 // 1024}"])


def counted_at(ways):
    """The counts and flags of a deep list's place: half as many slots more, in chunks."""
    chunk = constant("deep_list", "slots.rt", "CHUNK")
    return [f"{ways * 3 // 2 // chunk + 1}", f"{chunk - 1}"]


# ---- what other tests compare
fact("docs/manual.md", r"`-l1-uassoc` N \| lines per set, (\d+) by default",
     "Manual.test_options")
fact("docs/manual.md", r"\(\[definitions\]\(definitions\.md#one-cache\)\), (\d+) by default",
     "Manual.test_options")
fact("docs/manual.md", r"^(0): done, or help \(.*?\. (1): a fault of the run\. (2): a fault of",
     "Sentences.test_statuses")
fact("docs/manual.md", r"Faults of the arguments \(exit status (\d)\)",
     "Sentences.test_statuses")
fact("docs/manual.md", r"Faults of the run \(exit status (\d)\)", "Sentences.test_statuses")

# ---- what the tests take, by README and the Makefile


def said(page, sign):
    return re.search(sign, (common.TOP / page).read_text())[1]


fact("tests/README.md", r"`all` \| [^|]* \| [^|]* \| (\d+) minutes",
     lambda: [said("README.md", r"make test +# (\d+) minutes")])
fact("tests/README.md", r"([\d,]+) cases in minutes",
     lambda: [f"{int(said('Makefile', r'--cases ([0-9]+)')):,}"])
fact("docs/proofs.md", r"with words of up to ([\d,]+) letters",
     lambda: [said("tests/refusals", r"for letters in \([\d_]+, ([\d_]+)\)").replace("_", ",")])

fact("tools/README.md", r"All need Python (3\.\d+) or later",
     lambda: [".".join(shown("tools/lib/__init__.py", r"version_info < \((\d+), (\d+)\)"))])
fact("README.md", r"its man page \(which needs (\w+)\)",
     lambda: [said("package/pages.py", r'said\("(\w+)", "-sTman"')])


# ---- how many lines definitions have


def lines_of_definitions():
    """Those that callers cite, and those in internal, without explanations and imports; by hundreds
    and thousands."""
    public = internal = 0
    for path in (common.TOP / "crates").glob("*/specs/**/*.antt"):
        lines = [line for line in path.read_text().split("\n")
                 if line.strip() and not line.strip().startswith(("--", "use "))]
        if "internal" in path.parts:
            internal += len(lines)
        else:
            public += len(lines)
    return [f"{round(public, -2):,}", f"{round(internal, -2):,}"]


fact("docs/definitions.md", rf"They are some {NUMBER} lines, and {NUMBER} more in "
     "`specs/internal/`, without explanations and imports", lines_of_definitions)

# ---- what the same page shows


def shown(page, sign):
    """The parts of a command that a page shows."""
    return list(re.search(sign, (common.TOP / page).read_text()).groups())


COST = r"--miss-cost (\d+)\+(\d+)/(\d+)"
fact("README.md", r"cache of up to (\d+) KiB with the shortest access time, where a miss takes "
     r"(\d+) cycles and (\d+) more for each (\d+) bytes",
     lambda: shown("README.md", r"--up-to (\d+)k " + COST))
fact("docs/cookbook.md", r"here with (\d+) cycles for a miss and (\d+) more for each (\d+) bytes",
     lambda: shown("docs/cookbook.md", COST))
fact("docs/cookbook.md", r"after the first lines, here ([\d,]+), which warm",
     lambda: [f"{int(shown('docs/cookbook.md', r'tools/warm ([0-9]+) -')[0]):,}"])
fact("docs/cookbook.md", r"The working set of each ([\d,]+) references",
     lambda: [f"{int(shown('docs/cookbook.md', r'split -l ([0-9]+) ')[0]):,}"])
fact("docs/cookbook.md", r"Misses in steps of (\d+) references",
     lambda: shown("docs/cookbook.md", r"--each (\d+)"))
fact("docs/cookbook.md", r"a hit takes (\d+) cycle in up to (\d+) bytes and (\d+) in more",
     lambda: [shown("docs/cookbook.md", r"\(\$size > (\d+) \? (\d+) : (\d+)\)")[at]
              for at in (2, 0, 1)])
fact("docs/cookbook.md", r"with (\d+) cycles for a miss of the first and (\d+) more for one of "
     "the second", lambda: shown("docs/cookbook.md", r"= (\d+) \* \(.*? \+ (\d+) \* "))
fact("docs/cookbook.md", r"split of at most (\d+) KiB",
     lambda: shown("docs/cookbook.md", r"--up-to (\d+)k --measure cycles"))


def samples():
    """How many samples are shown, the least and the greatest of their estimates, and the misses."""
    text = (common.TOP / "docs/cookbook.md").read_text()
    rows = text.partition("$ cat samples.csv\n")[2].partition("$ ")[0].split()
    misses = [int(row.split(",")[5]) for row in rows]
    estimates = [len(misses) * count for count in misses]
    return [f"{it}" for it in (len(misses), min(estimates), max(estimates), sum(misses))]


fact("docs/cookbook.md", rf"estimates the misses as {NUMBER} times its own, here as {NUMBER} to "
     rf"{NUMBER} instead of {NUMBER}:", samples)


def sizes():
    """Of the two caches that are shown: KiB and ways, and MiB and ways."""
    first, second = (shown("docs/cookbook.md", sign) for sign in (
        r"-l1-dsets (\d+) -l1-dbsize (\d+) -l1-dassoc (\d+) -l2", r"-l2-usets (\d+) -l2-ubsize "
        r"(\d+) -l2-uassoc (\d+) -t"))
    bytes_of = [int(sets) * int(bsize) * int(ways) for sets, bsize, ways in (first, second)]
    return [f"{bytes_of[0] / 2**10:g}", first[2], f"{bytes_of[1] / 2**20:g}", second[2]]


fact("docs/cookbook.md", rf"Here {NUMBER} KiB with {NUMBER} ways, and {NUMBER} MiB with {NUMBER} "
     "ways", sizes)


def last_level():
    """The MiB of a last level that is shown: block size, sets and ways."""
    bsize, sets, ways = shown("docs/cookbook.md", r"third\.din --bsize (\d+) --sets (\d+) --assoc "
                              r"(\d+)\n")
    return [f"{int(bsize) * int(sets) * int(ways) / 2**20:g}"]


fact("docs/cookbook.md", rf"A last level of {NUMBER} MiB behind two levels", last_level)
fact("docs/cookbook.md", r"LRU caches of any number of sets, here (\d+)\.",
     lambda: shown("docs/cookbook.md", r"any-index examples/sort\.din --bsize 16 --sets (\d+) "))
fact("docs/cookbook.md", r"For (\d+) sets, in a cache of (\d+):",
     lambda: [*shown("docs/cookbook.md", r"\$set = \$block % (\d+);"),
              *shown("docs/cookbook.md", r"\$set' \\\n.*\| cachesim din -l1-usets (\d+) ")])
fact("docs/manual.md", r"`--rows 100` gives the header and (\d+) rows",
     lambda: shown("docs/manual.md", r"`--rows (\d+)` gives"))
fact("docs/manual.md", r"`32-64k` begins at (\d+)\.",
     lambda: shown("docs/manual.md", r"`(\d+)-64k`"))
fact("tools/lab/README.md", r"To scale the points to the lab's (\d+)",
     lambda: shown("tools/lab/README.md", r"round\((\d+) \* "))
fact("tools/lab/README.md", r"here line (\d+) of `order\.trace`",
     lambda: shown("tools/lab/README.md", r"--until (\d+) -t order\.trace"))
