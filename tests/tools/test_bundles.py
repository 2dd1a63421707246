"""Mutants that are tried in one check, in a small repository with a stand-in for the kit's rt."""

import re

from base import ToolTest, copy_scripts

SOURCE = """\
//! Parts of a number, in braces: '{'.
const TWO: u64 = 2;

pub trait Part {
    fn whole(&self) -> u64
        ensures value { result ≡ 1 }
    {
        1
    }
}

impl Half {
    pub fn of(&self, number: u64) -> u64
        ensures value { result ≡ number / 2 }
    {
        number / TWO // as "{" has it
    }

    pub fn odd(&self, number: u64) -> bool
        requires { number < 9 }
        ensures value { IsTrue result ↔ number % 2 ≡ 1 }
    {
        number % TWO == 1
    }
}

impl Part for Half {
    fn third(&self, number: u64) -> u64 {
        number / 3
    }
}

pub fn fourth(number: u64) -> u64
    ensures value { result ≡ number / 4 }
    ensures small { result ≤ number }
{
    if number == u64::from(b'{') { 30 } else { number / 4 }
}

const fn fifth(number: u64) -> u64
    ensures value { result ≡ number / 5 }
{
    number / 5
}

fn sixth(number: u64) -> u64 {
    number / 6
}

fn seventh(number: u64) -> u64
    ensures value { result ≡ number / 7 }
{
    const SEVEN: u64 = 7;
    number / SEVEN
}
"""
# What the code has of a function, and what its mutant has in its place; its control has the first
# word of that in capitals.
OLD = {
    "Half::of": "number / TWO // as",
    "Half::odd": "number % TWO == 1",
    "HalfPart::third": "number / 3",
    "fourth": "else { number / 4 }",
    "fifth": "    number / 5\n",
    "sixth": "number / 6",
    "seventh": "number / SEVEN",
    "whole": "        1",
}
# It notes which mutants and controls are in the code that it is to check, and says of each mutant
# what the test has it say, of functions without a stored proof something else.
RT = """\
#!/bin/sh
wrong=$(grep -o 'wrong_[0-9a-z]*' src/lib.rt | sort -u | sed 's/wrong_//')
right=$(grep -o 'RIGHT_[0-9a-z]*' src/lib.rt | sort -u)
gone=
[ -e proofs/Half/of/Answers.antt ] || gone=' without'
echo "$*$gone:" $wrong $right >> "$STAND_IN/calls"
refused=
for name in $wrong $right; do
    said=$STAND_IN/$name
    [ -z "$gone" ] || [ ! -e "$said-alone" ] || said=$said-alone
    [ ! -e "$said" ] || cat -- "$said"
    [ ! -s "$said" ] || refused=yes
done
case $*$refused in
    *holes*) echo holes=0 ;;
    *yes) echo logic=not-proved ;;
    *) echo logic=proved functions=7 ;;
esac
[ -z "$refused" ]
"""
ALONE, TOGETHER = "check --jobs 1", "check --jobs 1 --allow-holes"
PASSED = ["ok low a at Half::of value", "ok low b at Half::odd value", "ok low c at fourth value"]
STORED = "./proofs/Half/of/Answers.antt:7:3: error: `returns-clause-value`: types differ\n"


def refused(function, goal="value"):
    """What is said where a function's goal is refused, if no value makes it false."""
    before = SOURCE.partition(f"fn {function.rpartition('::')[2]}(")[0]
    why = f"it is not proved that something holds (`returns-in-Some-clause-{goal}`); and more"
    return f"note: src/lib.rt:{before.count(chr(10)) + 2}:5: {why}\n"


class MutantsTest(ToolTest):
    """A test with a small repository, where the crate `low` has a source and a stored proof."""

    SOURCE, RT, STORED = SOURCE, RT, "proofs/Half/of/Answers.antt"

    def setUp(self):
        super().setUp()
        self.top = self.folder / "a copy"
        self.crate = self.top / "crates/low"
        self.stored = self.crate / self.STORED
        for folder in ("src", "must-fail", "out/incremental", self.stored.parent):
            (self.crate / folder).mkdir(parents=True)
        copy_scripts(self.top, "try-mutants", "bundles.py", "common.py", "contracts.py", "edits.py",
                     "prover.py")
        (self.top / "tests/mutants").mkdir()
        (self.crate / "src/lib.rt").write_text(self.SOURCE)
        self.stored.write_text("an answer\n")
        (self.top / "crates.txt").write_text("low:\n")
        (self.top / "HANDLES").write_text("Handles allowed: none.\n")
        self.write("rt", self.RT).chmod(0o755)

    def try_mutants(self, *arguments):
        stand_in = {"RT": str(self.folder / "rt"), "STAND_IN": str(self.folder)}
        words = ("--jobs", "1", *arguments)
        return self.run_command(self.top / "tests/try-mutants", *words, env=stand_in)


class Bundles(MutantsTest):
    def setUp(self):
        super().setUp()
        self.edits = self.top / "tests/mutants/low.edits"

    def edit(self, name, function, old=None, new=None, goal=None, right=None):
        """A mutant of a function, refused at its goal, with a control if it has a right."""
        old = old or OLD[function].strip("\n")
        (self.folder / name).write_text(refused(function))
        text = (f"== {name}\ngoal: {goal or function + ' value'}\nfile: src/lib.rt\nold: {old}\n"
                f"new: {new or old.replace('number', f'wrong_{name}', 1)}\n")
        with self.edits.open("a") as edits:
            edits.write(text.replace("goal: -\n", "") + (f"right: {right}\n" if right else ""))

    def tried(self, *arguments):
        """The lines of a run, without the times, and what each check after the first had in it."""
        (self.folder / "calls").unlink(missing_ok=True)
        ran = self.try_mutants(*arguments)
        self.assertEqual(ran.stderr, b"")
        lines = re.sub(r" \(\d+ s\)", "", ran.stdout.decode()).splitlines()
        self.assertEqual(ran.returncode, int(not lines[-1].endswith(" 0 failed")))
        first, *calls = (self.folder / "calls").read_text().splitlines()
        self.assertEqual(first, f"{ALONE}:")
        return lines, calls

    def three(self):
        """Mutants of three functions."""
        self.edit("a", "Half::of")
        self.edit("b", "Half::odd")
        self.edit("c", "fourth")

    def test_others_functions_in_one_check(self):
        """Each is refused at its goal: so much is said as of each alone."""
        self.three()
        self.edit("d", "HalfPart::third")
        lines, calls = self.tried()
        wanted = [*PASSED, "ok low d at HalfPart::third value", "4 passed, 0 failed"]
        self.assertEqual(lines, wanted)
        self.assertEqual(calls, [f"{TOGETHER}: a b c d"])
        # something of the proof of one of them
        with (self.folder / "d").open("a") as said:
            said.write(STORED.replace("Half/of", "Part+Half/third").replace("value", "small"))
        self.assertEqual(self.tried(), (wanted, calls))
        self.assertEqual((self.crate / "src/lib.rt").read_text(), SOURCE)

    def test_one_that_is_not_refused_at_its_goal(self):
        """It is tried alone, and the others not again."""
        for said, told in (("", "it is proved"),
                           (refused("fourth", "small"), "not at fourth value, but at fourth small"),
                           (refused("fourth", "small") + refused("fourth"), None)):
            self.edits.unlink(missing_ok=True)
            self.three()
            (self.folder / "c").write_text(said)
            lines, calls = self.tried()
            self.assertEqual(lines[:2], PASSED[:2])
            last = f"FAILED low c: {told}" if told else "ok low c at fourth value"
            self.assertEqual(lines[2], last)
            self.assertEqual(calls, [f"{TOGETHER}: a b c", *[f"{ALONE}: c"] * bool(told)])

    def test_one_that_says_something_of_another(self):
        """A source that is not read, a function of no mutant that is refused, or a lemma: each is
        tried alone."""
        calls = [f"{TOGETHER}: a b c", f"{ALONE}: a", f"{ALONE}: b", f"{ALONE}: c"]
        lemma = "./proofs/Lemmas.antt:7:3: error: `half_of`: types differ\n"
        for said, told in (("src/lib.rt:6:5: error: no such word\n", False),
                           (refused("seventh"), True), (lemma, True),
                           (lemma.replace("Lemmas", "sixth/Answers"), True)):
            self.edits.unlink(missing_ok=True)
            self.three()
            (self.folder / "a").write_text(said + refused("Half::of"))
            lines, seen = self.tried()
            begin = "ok low a at" if told else "FAILED low a: it did not reach the prover: src"
            self.assertEqual(lines[0][:len(begin)], begin)
            self.assertEqual(lines[1:3], PASSED[1:])
            self.assertEqual(seen, calls)

    def test_a_check_that_ends_before_the_prover(self):
        self.three()
        (self.folder / "rt").write_text(RT.replace("echo holes=0", "echo cannot go on"))
        lines, calls = self.tried()
        self.assertEqual(lines[-1], "3 passed, 0 failed")
        self.assertEqual(calls[1:], [f"{ALONE}: a", f"{ALONE}: b", f"{ALONE}: c"])

    def test_a_stored_proof(self):
        """Where this alone was tried, the mutant is tried again without it, and then alone if it
        isn't refused at its goal."""
        self.three()
        (self.folder / "a").write_text(STORED)
        (self.folder / "a-alone").write_text(refused("Half::of"))
        lines, calls = self.tried()
        again = "a at Half::of value, without its stored proof too"
        self.assertEqual(sorted(lines[:3]), [f"ok low {again}", *PASSED[1:]])
        self.assertEqual(calls, [f"{TOGETHER}: a b c", f"{TOGETHER} without: a"])
        (self.folder / "a-alone").write_text("")
        lines, calls = self.tried()
        told = "by its stored proof alone, and without it: it is proved"
        self.assertEqual(lines[2:], [f"FAILED low a: {told}", "2 passed, 1 failed"])
        self.assertEqual(calls[2:], [f"{ALONE}: a", f"{ALONE} without: a"])

    def test_a_stored_proof_that_no_longer_fits(self):
        """That is looked at, as of one alone."""
        self.three()
        gone = STORED.replace("types differ", "record has no field `x`")
        (self.folder / "a").write_text(refused("Half::of") + gone)
        lines, calls = self.tried()
        self.assertEqual(lines[2:4], [
            "ok low a at Half::of value", "LOOK low a: a stored proof of its function no longer "
            "fits, and no values make the goal false"])
        self.assertEqual(calls, [f"{TOGETHER}: a b c", f"{ALONE}: a"])

    def test_what_is_tried_alone(self):
        """Two of one function; what is more than a wrong body of one that promises something; one
        without a goal, or with that of another function."""
        for given in (
            {"function": "Half::of", "old": "number / TWO", "new": "wrong_d"},
            {"function": "fifth"}, {"function": "sixth"}, {"function": "seventh"},
            {"function": "whole", "new": "        wrong_d"},
            {"function": "HalfPart::third", "goal": "-"},
            {"function": "HalfPart::third", "goal": "fourth small"},
            {"function": "HalfPart::third", "new": "fn e() ensures { a } { wrong_d }"},
            {"function": "HalfPart::third", "new": "const D: u64 = 3; wrong_d / D"},
            {"function": "HalfPart::third", "old": "fn third(&self, number",
             "new": "fn third(&self, wrong_d"},
            {"function": "HalfPart::third", "old": "const TWO: u64 = 2;",
             "new": "const TWO: u64 = wrong_d;"},
        ):
            self.edits.unlink(missing_ok=True)
            self.three()
            self.edit("d", **given)
            # how it is tried counts here, and not what is said of it
            _, calls = self.tried("low")
            self.assertEqual(calls[0], f"{TOGETHER}: a b c", given)
            if given["function"] not in ("sixth", "whole"):  # those fail untried
                self.assertEqual(calls[1:], [f"{ALONE}: d"], given)

    def test_a_proof_that_others_cite(self):
        """Its function's mutant is tried alone."""
        self.three()
        lemmas = self.crate / "proofs/Lemmas.antt"
        for module in " Rattle.low.proofs.Half.of.Answers", "\n    Rattle.low.proofs.Half.of.Goals":
            lemmas.write_text(f"use{module}.{{returns}}\n")
            self.assertEqual(self.tried()[1], [f"{TOGETHER}: b c", f"{ALONE}: a"])
        lemmas.write_text("use Rattle.other.proofs.Half.of.Answers.{returns}\n"
                          "use Rattle.low.proofs.Half.Lemmas.{half}\n")
        (self.crate / "proofs/Half/Lemmas.antt").write_text("lemmas\n")
        self.stored.write_text("use Rattle.low.proofs.Half.of.Goals as goal\n")
        self.assertEqual(self.tried()[1], [f"{TOGETHER}: a b c"])

    def test_many(self):
        """Not more than sixteen share a check."""
        names, source = "abcdefghijklmnopqr", ""
        for name in names:
            (self.folder / name).write_text(
                f"note: src/lib.rt:{source.count(chr(10)) + 1}:1: it is not so (`returns`); no\n")
            source += f"fn of_{name}(n: u64) -> u64\n    ensures {{ result ≡ n }}\n"
            source += f"{{\n    n{name}\n}}\n\n"
        (self.crate / "src/lib.rt").write_text(source)
        self.edits.write_text("".join(
            f"== {name}\ngoal: of_{name} returns\nfile: src/lib.rt\nold:     n{name}\n"
            f"new:     wrong_{name}\n" for name in names))
        lines, calls = self.tried()
        self.assertEqual(lines[-1], "18 passed, 0 failed")
        self.assertEqual(calls, [f"{TOGETHER}: {' '.join(names[:16])}", f"{TOGETHER}: q r"])

    def test_controls(self):
        """All are proved if the check is; if not, each is tried alone."""
        for name, function in (("a", "Half::of"), ("b", "Half::odd"), ("c", "fourth")):
            old = OLD[function]
            self.edit(name, function, right=old.replace("number", f"RIGHT_{name}", 1))
        lines, calls = self.tried("--controls")
        self.assertEqual(lines, [*(f"ok low {name}, control proved" for name in "abc"),
                                 "3 passed, 0 failed"])
        both = f"{ALONE}: RIGHT_a RIGHT_b RIGHT_c"
        self.assertEqual(calls, [both])
        (self.folder / "RIGHT_b").write_text(refused("Half::odd"))
        lines, calls = self.tried("--controls")
        self.assertEqual(lines[1], "FAILED low b, control: refused at Half::odd value")
        self.assertEqual(lines[3], "2 passed, 1 failed")
        self.assertEqual(calls, [both, *(f"{ALONE}: RIGHT_{name}" for name in "abc")])

    def test_controls_with_a_reason(self):
        """They are to be refused, and are tried alone."""
        for name, function in (("a", "Half::of"), ("b", "Half::odd")):
            self.edit(name, function, right=OLD[function].replace("number", f"RIGHT_{name}", 1))
        with self.edits.open("a") as edits:
            edits.write("control: no proof is kept of it\n")
        (self.folder / "RIGHT_b").write_text(refused("Half::odd", "small"))
        (self.folder / "b").write_text(refused("Half::odd", "small") + refused("Half::odd"))
        lines, calls = self.tried()
        self.assertEqual(lines[-1], "4 passed, 0 failed")
        self.assertEqual(calls, [f"{TOGETHER}: a b", f"{ALONE}: RIGHT_a", f"{ALONE}: RIGHT_b",
                                 f"{ALONE}: b"])
