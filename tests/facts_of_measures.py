"""Facts of what was measured, by the files that tests/measure wrote."""

import re

import common
from facts import NUMBER, WORDS, fact

MEASURED = common.TOP / "tests/measured"
PARTS = {"tenth": 10, "fifth": 5, "quarter": 4, "third": 3, "half": 2}


def measured(name):
    """The lines that a command wrote, as tests/measure has kept them."""
    return (MEASURED / name).read_text().splitlines()[1:]


def spaces():
    """Of each space: rows, seconds of cachesim, of C and of plain C, and the ratios to these."""
    shape = (r"ok (\w+): (\d+) rows, cachesim (\S+) s, C (\S+) s, plain C (\S+) s, ratio of "
             r"medians \(of minima\) (\S+ \(\S+\)), to plain C (\S+ \(\S+\))")
    found = map(re.compile(shape).fullmatch, measured("against_c"))
    return {it[1]: it.groups()[1:] for it in found if it}


def space(name):
    rows, ours, same, plain, to_same, to_plain = spaces()[name]
    return [f"{int(rows):,}", ours, same, *parts_of(to_same), plain, *parts_of(to_plain)]


def parts_of(ratio):
    return re.findall(r"[\d.]+", ratio)


for name in ("small", "typical", "large", "deep"):
    fact("docs/speed.md", rf"^{name} \| `[^`]*` \| {NUMBER} \| {NUMBER} s \| {NUMBER} s \| "
         rf"{NUMBER} \({NUMBER}\) \| {NUMBER} s \| {NUMBER} \({NUMBER}\)$",
         lambda name=name: space(name))


def full_spaces():
    """Of each space: seconds of full tables as above, and their part of the time without --full."""
    shape = (r"ok (\w+) --full: \d+ rows, cachesim (\S+) s, C (\S+) s, plain C (\S+) s, ratio of "
             r"medians \(of minima\) (\S+ \(\S+\)), to plain C (\S+ \(\S+\)), (\S+) of the time "
             r"without --full")
    found = map(re.compile(shape).fullmatch, measured("against_c_full"))
    return {it[1]: it.groups()[1:] for it in found if it}


def full_space(name):
    ours, same, plain, *_, longer = full_spaces()[name]
    return [ours, same, plain, longer]


for name in full_spaces():
    fact("docs/speed.md",
         rf"^{name} \| {NUMBER} s \| {NUMBER} s \| {NUMBER} s \| {NUMBER}$",
         lambda name=name: full_space(name))


def each_row():
    [text] = [line for line in measured("against_c") if "a C run for each row" in line]
    seconds, times = re.search(r": (\S+) s, (\d+) times", text).groups()
    return [spaces()["typical"][0], seconds, times]


fact("docs/speed.md", rf"A C run for each of the {NUMBER} caches takes {NUMBER} s in all, {NUMBER} "
     "times as long", each_row)


def depths():
    """The cells of by_depth, by the trace: the nanoseconds of a reference, by three programs."""
    rows = [line.split(" | ") for line in measured("by_depth") if " | " in line]
    return {name: cells for name, *cells in rows[1:]}


for name in ("compiler", "Python", "stream", "cycle", "random"):
    cell = rf"{NUMBER}, {NUMBER}, {NUMBER}"
    fact("docs/speed.md", rf"^{name} \| {cell} \| {cell} \| {cell} \| {cell}$",
         lambda name=name: re.findall(r"\d[\d,]*\d", ", ".join(depths()[name])))


def ten_million():
    found = (re.fullmatch(r"(.*): (\d+) lines, ([\d.]+) s(?:, (\d+) KiB)?", line)
             for line in measured("ten_million"))
    return {it[1]: [f"{int(it[2]):,}", it[3], *(f"{int(kib):,}" for kib in it.groups()[3:] if kib)]
            for it in found if it}


OF_LINES, OF_SAME = rf"{NUMBER} lines \| {NUMBER} s \| {NUMBER} K", rf"the same \| {NUMBER} s"
for command, at, sentence in (
    ("`sweep`, typical space", slice(0, 3), f"din, {OF_LINES}"),
    ("`tools/sweep-parallel 4`, the same", slice(1, 2), rf"{OF_SAME} \| $"),
    ("`csim -s 6 -E 8 -b 6`", slice(0, 3), f"lackey, {OF_LINES}"),
    ("`csim -v ..`", slice(1, 3), rf"{OF_SAME} \| {NUMBER} K"),
    ("`din`, split 32 KiB first level over 256 KiB", slice(0, 3), f"din, {OF_LINES}"),
):
    fact("docs/speed.md", "^" + re.escape(command).replace(r"\ ", " ") + rf" \| {sentence}",
         lambda command=command, at=at: ten_million()[command][at])


def instructions():
    return {line.rpartition(": ")[0]: line.rpartition(": ")[2].split()
            for line in measured("instructions")}


for what in (
    "reading a din line; a lackey line (both as tracers write them, in a sweep that counts no "
    "fetches)", "a reference in one profile: typical space; deep space",
    "a line in `csim`; in `din` (reading included)", "what `csim -v` adds for a line that it "
    "writes; a line in `log` (reading and simulation included)",
):
    fact("docs/speed.md", "^" + re.escape(what).replace(r"\ ", " ") + r" \| (\d+); (\d+)$",
         lambda what=what: instructions()[what])
fact("docs/PERF.md", r"Reading, (\d+) instructions a line", lambda: [
    next(it[0] for what, it in instructions().items() if what.startswith("reading a din line"))])
fact("docs/PERF.md", r"takes ([\d.]+) of the time in the typical space, ([\d.]+) in the large",
     lambda: [parts_of(spaces()[name][5])[0] for name in ("typical", "large")])


def workloads():
    return {line.split()[0]: line.split()[1:] for line in measured("bench")[1:]}


for name in ("typical", "scattered", "large", "class", "tables", "log"):
    fact("docs/PERF.md", rf"^\| `{name}` \| {NUMBER} \| {NUMBER} \| {NUMBER} \|$",
         lambda name=name: workloads()[name])


def summary():
    """README's sentence on a sweep: caches, seconds, megabytes, and seconds of four processes."""
    whole, parallel = (ten_million()[it] for it in (
        "`sweep`, typical space", "`tools/sweep-parallel 4`, the same"))
    return [spaces()["typical"][0], f"{float(whole[1]):g}",
            f"{int(whole[2].replace(',', '')) * 1024 / 1e6:.1f}", f"{float(parallel[1]):g}"]


fact("README.md", rf"A sweep of {NUMBER} caches over ten million references of a C compiler takes "
     rf"{NUMBER} seconds and {NUMBER} MB, and with four processes {NUMBER} seconds", summary)


def longer():
    """By which part C takes longer than the sweep, as the nearest parts."""
    ratios = [float(it[4].split()[0]) for it in spaces().values()]
    return [min(PARTS, key=lambda part: abs(1 / ratio - 1 - 1 / PARTS[part]))
            for ratio in (max(ratios), min(ratios))]


fact("README.md", r"for the same algorithm takes a (\w+) to a (\w+) longer", longer)


def by_depth():
    """How often 65,536 ways take the time of 16, at least and at most, and on how many traces."""
    ratios = [int(cells[-1].split(", ")[0]) / int(cells[0].split(", ")[0])
              for cells in depths().values()]
    return [WORDS[round(min(ratios))], WORDS[round(max(ratios))], WORDS[len(ratios)]]


fact("README.md", r"65,536 ways take (\w+) to (\w+) times as long as 16 on \[(\w+) traces",
     by_depth)
