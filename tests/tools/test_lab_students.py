"""Students' programs with one mistake each, judged in the one case that must find it, and what
`grade` says of it; and the traces by which it judges."""

import importlib
import itertools
import re
import shlex

from base import EXAMPLES
from lab_base import LAB, StudentTest, traces

mistakes, simulator = map(importlib.import_module, ("parts.mistakes", "parts.simulator"))

# By mistake of student.c: a trace, a cache, and why; where grade can't know, the line that is told.
# In wide.trace four bases differ in bits 40 to 46 and 48 to 63: with more bits than are told they
# differ. From how few on the results are the same depends on the numbers drawn: '..'.
WRONG = """
LINES_OF_8       rows   1,9,3   the array has 8 lines for a set, and more run into the next set
LINES_OF_64      rows   1,65,3  the array has 64 lines for a set, and more run into the next set
MOST_8           order  1,9,3   a set uses at most 8 of its lines
MOST_64          rows   1,65,3  a set uses at most 64 of its lines
ONE_WAY          order  1,9,3   a set uses at most 1 of its lines
UNCLEARED        order  2,4,3   memory of malloc is taken for zeros; calloc clears it
BYTE_CLOCK       mixed  2,4,3   the clock of LRU has only 8 bits
TICKS_AT_MISSES  mixed  2,2,3   in which a hit does not advance the clock of LRU
TICKS_AFTER_MISSES mixed 2,4,3  of LRU, and a miss does once its block is in
SHORT_TAG        wide   0,2,4   tags have only 16 or 32 bits, or another number from .. to 36
TAG_OF_44        wide   0,2,4   tags have only .. to 44 bits
MASK_OF_31       wide   0,2,4   addresses have only 32 bits, or another number from .. to 40
SIGNED_CLOCK     mixed  0,2,4   the clock of LRU is signed and has only 8 bits
NRU              mixed  2,4,3   and where there is none all bits are cleared (NRU)
HAND             mixed  2,4,3   gets a second chance (the clock algorithm)
MASK_IS_S        mixed  4,2,4   the mask of the set is s and not 2 to the power of s, less 1
BLOCKS_OF_16     mixed  2,4,3   blocks have 16 bytes, whatever -b is
SHORT_LINES      wide   2,4,3   a line of the trace is read into 16 bytes, and longer ones are lost
BYTE_TAG         order  2,4,3   tags have only 8 bits, or another number from 1 to 11
TAG_IS_ADDRESS   mixed  4,2,4   the offset is taken for a part of the tag
TAG_WITHOUT_SET  mixed  2,1,4   the tag is the address without s bits, with b bits of the offset
ONE_SET          mixed  4,2,4   all blocks share one set
MASK_SETS        mixed  2,4,3   the mask of the set is 1 << (s - 1), which is how C reads 1 << s - 1
XOR_SETS         mixed  4,2,4   the set is that of 2 ^ s, which is an exclusive or in C
COUNTS_OTHERS    order  2,4,3   all counts are 0: no line of a trace is taken for an access, or
LOADS_NO_USE     mixed  2,4,3   a load that hits does not count as a use of its block
FORGETS_MISSED   order  2,4,3   the store of an M that misses does not count
NO_MODIFIES      order  2,4,3   M is ignored
NO_STORES        order  2,4,3   S is ignored
BYTE_COUNTS      mixed  4,2,4   counts have only 8 bits
SWAPS_MISSES     order  2,4,3   misses and evictions are exchanged
NO_EVICTIONS     order  2,4,3   evictions are not counted
LAST_TWICE       order  2,4,3   the last line of the trace counts twice (while !feof)
TAG_TOO_SHORT    mixed  2,4,3   line 25 with -v
NEVER_VALID      order  2,4,3   line 3 with -v
NEXT_SETS        mixed  2,1,4   line 11 with -v
ONE_LESS         order  2,4,3   line 7 with -v
ONE_MORE         order  2,2,3   line 4 with -v
STORES_NEXT      mixed  2,1,3   line 8 with -v
DECIMAL_ADDRESS  order  2,4,3   line 1 with -v
FIRST_LETTER     order  2,4,3   with -v it writes no line for an access
ENDS_AT_FETCH    mixed  2,4,3   line 3 with -v
OWN_ORDER        order  2,4,3   it prints no line 'hits:H misses:M evictions:E', with these words
FIFO             mixed  2,4,3   a hit does not count as a use of its block (FIFO)
MRU              mixed  2,4,3   the block used last is evicted (MRU)
LFU              order  2,4,3   the block used least often is evicted (LFU)
FIRST_WAY        mixed  2,4,3   a full set always evicts the block in its first line
NEW_IS_OLD       order  2,4,3   a new block counts as the oldest of its set
STORES_NO_USE    mixed  2,4,3   a store that hits does not count as a use of its block
STORES_PASS      mixed  2,4,3   a store that misses brings no block in
FORGETS_STORE    mixed  2,4,3   M counts as one access
FETCHES          mixed  2,4,3   I lines count as accesses
NARROW           wide   0,2,4   addresses have only 32 bits, or another number from .. to 40
NARROW_TAG       wide   0,2,4   tags have only 16 or 32 bits, or another number from .. to 36
SIGNED_ADDRESS   wide   0,2,4   addresses are signed, and cut at 7fffffffffffffff
CROSSES          mixed  0,1,0   an access that ends in another block counts for that too
NO_VALID         order  2,4,3   a line that is still empty is found by tag 0
LAST_LOST        order  2,4,3   the last line of the trace is lost
FIRST_LOST       order  2,4,3   the first line of the trace is lost
SWAPS_BITS       mixed  2,4,3   -s and -b are exchanged
OFFSET_KEPT      mixed  2,4,3   the set is that of the address, with its offset
TWICE_SETS       mixed  4,2,4   the set is that of 2 * s and not of 2 to the power of s
FEW_SETS         rows   14,2,2  numbers of sets have only 10 bits
EVICTS_ALWAYS    order  2,4,3   each miss counts as an eviction
EVICTION_NO_MISS order  2,4,3   an eviction does not count as a miss
EVICTION_HITS    order  2,4,3   an eviction counts as a hit too
COUNTS           order  2,4,3   hits are one too many
SWAPS_COUNTS     order  2,4,3   hits and misses are exchanged
SHORT_COUNTS     long   0,1,0   counts have only 16 bits
FEW_LINES        long   4,2,4   the trace is read to line 65,536
CALLS_CACHESIM   order  2,4,3   ended with status 1
"""


class Students(StudentTest):
    takes_long = True

    def setUp(self):
        super().setUp()
        traces.write(self.folder)

    def grade(self, *arguments):
        """What the tool says. On a trace of 70,000 lines this may take a third of a minute."""
        return self.run_tool("lab/grade", *arguments, seconds=600).stdout.decode()

    def test_each_is_told(self):
        """By its reason, or else by the place."""
        rows = [row.split(None, 3) for row in WRONG.strip().splitlines()]
        for mistake, trace, cache, words in rows:
            with self.subTest(mistake):
                said = self.grade(f"--geometry={cache}", self.student(mistake), f"{trace}.trace")
                reasons = re.findall("^why: (.*)", said, re.M)
                where = said if "with -v" in words or not reasons else reasons[0]
                self.assertRegex(where, re.escape(words).replace(r"\.\.", r"\d+"))
                self.assertTrue(said.endswith("\n0 of 1 right\n"), said)

    def test_rare_mistakes(self):
        """They are looked for where there are cases enough, here all of one set or of many."""
        one = [f"--geometry=0,{ways},{bits}" for ways in (2, 8, 20, 40, 60) for bits in range(2, 6)]
        many = [f"--geometry={sets},2,{bits}" for sets in range(3, 7) for bits in range(2, 7)]
        for mistakes, caches, words in (
            (["NRU", "NEW_UNUSED"], one, "are cleared; that of a new block is clear (NRU)"),
            (["SIGNED_AGE"], one, "ages are signed and have only 8 bits"),
            (["YOUNGER_BY_ONE"], one, "a hit makes its block younger by one only"),
            (["ONE_DIGIT"], one, "of the number behind -E only the first digit is taken"),
            (["STAYS"], one, "an eviction counts, but the old block stays, and the new one is not"),
            (["FILLS_ALL"], one, "unless it is the first in its set (or it fills all free lines)"),
            (["STICKS"], one, "all accesses after the first hit count as hits (a flag is not"),
            (["NO_TAG"], many, "tags are not compared"),
            (["XOR_MASK"], many, "the mask of the set is (2 ^ s) - 1, where ^ is an exclusive or"),
            (["TWICE_MASK"], many, "the mask of the set is 2 * s - 1 and not 2 to the power of s"),
            (["SHIFTED_BY_S"], many, "the set is shifted by s bits and not by b"),
        ):
            said = self.grade(*caches, "--verbose-lines=no", self.student(*mistakes), "mixed.trace")
            self.assertRegex(said, f"\nwhy: all results .*{re.escape(words)}", mistakes)

    def test_which_need_not_be_counted(self):
        """Mistakes with which each access counts as a hit or a miss, and nothing else does. They
        are most."""
        known = [*mistakes.MISTAKES.values(), *mistakes.RARE.values(),
                 *({habit: each.usual[0]} for habit, each in mistakes.NUMBERED.items())]
        all_taken = [made for made in (simulator.Habits(**habits) for habits in known)
                     if simulator.takes_all(made)]
        self.assertGreater(3 * len(all_taken), 2 * len(known))
        for name in ("mixed", "order", "wide"):
            lines = simulator.read(self.folder / f"{name}.trace")
            data = "".join(one.kind for one in lines)
            self.assertEqual(simulator.accesses_in(lines), sum(map(data.count, "LSMM")))
            for made, cache in itertools.product(all_taken, ((0, 1, 0), (2, 4, 3), (4, 9, 4))):
                found = simulator.counts(lines, cache, made)
                self.assertEqual(sum(found[:2]), simulator.accesses_in(lines), made)

    def test_where_an_unknown_mistake_is(self):
        """In all cases together. Reading that ends at a fetch leaves what stands before it."""
        before = {}
        for name in ("mixed", "wide", "long"):
            lines = (self.folder / f"{name}.trace").read_text().splitlines()
            first = next(at for at, line in enumerate(lines) if line[0] == "I")
            before[name] = first + sum(line[1] == "M" for line in lines[:first])
        for mistake, words in (
            ("AT_RANDOM", "the wrong block is evicted, since all is right where "),
            ("MODIFIES_THRICE", "there is 1 hit too many for each M\n"),
            ("MODIFIES_FOURFOLD", "there are 2 hits too many for each M\n"),
            ("NEEDS_TWO", "it crashes only with -E 1\n"),
            ("FEW_ROOM", "it crashes only where there are 16,384 sets or 32,768 lines or more: an "
             "array may be too short\n"),
            ("ENDS_AT_FETCH", "of the accesses only the first count ({wide} of wide.trace, "
             "{mixed} of mixed.trace, {long} of long.trace): reading ends there\n"),
        ):
            said = self.grade("--verbose-lines=no", self.student(mistake))
            self.assertIn(f"\nwhy: {words.format(**before)}", said)

    def test_too_slow_for_one_trace(self):
        """Where it ends it is right: no reason is looked for, since no case is wrong."""
        right = self.student()
        program = self.executable("slow", 'case "$*" in *long*) sleep 60;; esac',
                                  f'exec "{right}" "$@"')
        said = self.grade("--seconds", "1", program)
        self.assertNotIn("why: ", said)
        self.assertEqual(said.splitlines()[-1], "75 of 90 right")

    def test_two_mistakes(self):
        """The number of bits is as open as with one."""
        said = self.grade(self.student("FIFO", "MASK_OF_31"), "order.trace", "wide.trace")
        self.assertRegex(said, r"\nwhy: .* a hit does not count as a use of its block \(FIFO\) and "
                         r"addresses have only 32 bits, or another number from \d+ to 40(,|\n)")

    def test_what_is_right(self):
        """Another way to read; and with -v zeros and capitals in addresses, or a line too many."""
        for mistakes, trace, right, told in (
            (["BY_FSCANF"], "mixed", 1, ""),
            (["BY_GETLINE"], "mixed", 1, ""),
            (["TAG_WITH_SET"], "mixed", 1, ""),
            (["ECHOES"], "wide", 1, ""),
            (["ECHOES", "COUNTS"], "wide", 0, "with -v the line of each access is right\n"),
            (["LAST_TWICE"], "order", 0, "with -v the line of each access is right, but after the "
             "last one stands 'L 90010,4 hit'\n"),
        ):
            said = self.grade("--geometry=2,4,3", self.student(*mistakes), f"{trace}.trace")
            self.assertIn(told, said)
            self.assertEqual(said.splitlines()[-1], f"{right} of 1 right")

    def test_options_in_another_order(self):
        """With one cache of the list, and with none that is named."""
        program = self.student("FIXED_OPTIONS")
        said = self.grade("--all", program, "order.trace")
        wrong = [line for line in said.splitlines() if line.startswith("wrong: ")]
        self.assertEqual(wrong, ["wrong: -t order.trace -b 6 -E 3 -s 3"])
        self.assertIn("\nwhy: the options are taken in one order only, and not in any", said)
        for ways in (9, 65):
            self.assertIn(f"\nright: -s 1 -E {ways} -b 3 -t order.trace\n", said)
        said = self.grade("--geometry=3,3,6", program, "order.trace")
        self.assertEqual(said, "1 of 1 right\n")

    def test_alike_cases(self):
        """With --all they are written each; mistakes.cases has how they are listed else."""
        options = ["--geometry=2,2,3", "--geometry=0,2,4", self.student("MRU"), "order.trace"]
        first = "wrong: -s 2 -E 2 -b 3 -t order.trace\n"
        second = "wrong: -s 0 -E 2 -b 4 -t order.trace\n"
        said = self.grade("--all", *options)
        self.assertEqual([said.count(word) for word in (first, second, "see replay")], [1, 1, 2])
        self.assertNotIn("in the same way", said)

    def test_the_replay_that_is_named(self):
        """Its last step is the access that is told as wrong, with what was wanted. The traces that
        are kept are named by their place."""
        said = self.grade("--geometry=2,4,3", "--keep", "a folder", self.student("FIFO"))
        command = re.search("^    see replay (.*)", said, re.M)[1]
        place, outcome = re.search("^        wanted [LS] ([0-9a-f]+),4 (.*)", said, re.M).groups()
        shown = self.good(self.run_command(LAB / "replay", *shlex.split(command), "--text"))
        last = shown.splitlines()[-2].split()
        self.assertEqual(last[2], place)
        self.assertIn(outcome, " ".join(last))
        self.assertNotIn("note: ", said)
        for kept in (self.folder / "a folder").iterdir():
            self.assertEqual(kept.read_text(), (self.folder / kept.name).read_text())


class Traces(StudentTest):
    def test_what_the_help_says_of_them(self):
        """How many accesses; and which have fetches between them, or addresses above 32 bits."""
        names = traces.write(self.folder)
        for name, count in zip(names, (24, 600, 300, 2048, 2048, 70000)):
            lines = (self.folder / name).read_text().splitlines()
            data = [int(line[3:].split(",")[0], 16) for line in lines if line[0] == " "]
            self.assertEqual(len(data), count, name)
            got = len(lines) > count, max(data) >= 1 << 32
            self.assertEqual(got, (name[0] in "mwl", name == "wide.trace"), name)
            for line in lines:
                found = re.fullmatch(r"(I  | [LSM] )([0-9a-f]{8,16}),([1248]|11)", line)
                # a fetch has a size of two digits, which is read too
                most = 16 if found[1] == "I  " else 8
                self.assertLessEqual(int(found[2], 16) % most + int(found[3]), most, line)

    def test_two_are_those_of_the_examples(self):
        traces.write(self.folder)
        blocks, rows = ((self.folder / f"{name}.trace").read_text() for name in ("blocks", "rows"))
        self.assertEqual(blocks, (EXAMPLES / "blocks.lackey").read_text())
        lines = (EXAMPLES / "transpose.lackey").read_text().splitlines()
        self.assertEqual(rows.splitlines(), [line for line in lines if line[0] == " "])
