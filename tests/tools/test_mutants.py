"""Mutants, tried in a small repository with a stand-in for the kit's command rt."""

import collections
import re

from base import TOP, ToolTest, script
from test_bundles import MutantsTest

SOURCE = """\
//! Half of a number.
impl Model for Half { }

impl Half {
    /// A half.
    #[inline]
    pub fn of(&self, number: u64) -> u64
        ensures value { result ≡ number / 2 }
    {
        number / 2
    }
}
"""
EDIT = "file: src/lib.rt\nold:         number / 2\nnew:         number / 3\n"
NOT_PROVED = "it is not proved that what the function ensures holds when it returns"
IN_CODE = f"note: src/lib.rt:5:5: {NOT_PROVED} (`returns-in-Some-clause-value`); and more\n"
FALSE = (
    f"note: src/lib.rt:6:5: {NOT_PROVED} (`returns-clause-small`);"
    " the facts known there allow values at which this goal is false\n"
)
STORED = "./proofs/lib/Half/of/Answers.antt"
IN_ANSWER = f"{STORED}:7:3: error: `invariant_of-self-in-New-2`: types differ\n"
GONE = f"{STORED}:9:3: error: `returns-clause-value`: record has no field `x`\n"
REFUSED, PROVED = "logic=not-proved\n", "logic=proved functions=1\n"
# What is said of a source that has the mutant in it, its control, or neither
RT = """\
#!/bin/sh
echo "$PWD $*" >> "$STAND_IN/calls"
said=whole
grep -q 'number / 3' src/lib.rt && said=mutant
grep -q 'number >> 1' src/lib.rt && said=control
[ $said != mutant ] || [ -e proofs/lib/Half/of/Answers.antt ] || said=alone
cat -- "$STAND_IN/$said"
[ ! -e "$STAND_IN/status-$said" ] || exit "$(cat -- "$STAND_IN/status-$said")"
! grep -q '^logic=not' "$STAND_IN/$said"
"""


class AllMutants(ToolTest):
    def test_each_can_be_tried(self):
        """Each changes code that is there, and names a goal that is a promise."""
        ran = self.run_command(TOP / "tests/try-mutants", "--list")
        self.assertEqual(re.findall("(?m)^.*(?:FAILED|no goal named).*$", ran.stdout.decode()), [])
        self.assertEqual((ran.stderr, ran.returncode), (b"", 0))


class TheTable(ToolTest):
    """The table of docs/proofs.md says which wrong bodies the gate refuses, and where."""

    def setUp(self):
        super().setUp()
        text = (TOP / "docs/proofs.md").read_text().partition("\nWrong body: ")[2]
        self.rows = [line.split(" | ") for line in text.partition("\n\n")[0].splitlines()[2:]]

    def test_each_edit_has_its_row(self):
        """No edit is lost without its row, no row without its edit, and both name one goal."""
        edits = [f"`{path.parts[-3]}/{path.stem}` | `{goal_of(path)}`"
                 for path in TOP.glob("crates/*/must-fail/*.edit")]
        rows = [f"{edit[1]} | {goal}" for told, goal in self.rows
                if (edit := re.match(r"(`\w+/\w+`)(?:: |$)", told))]
        self.assertEqual(sorted(rows), sorted(edits))

    def test_each_test_is_there(self):
        tests = [found for row in self.rows for found in re.findall(r"`([a-z]\w*)::(\w+)`", row[0])]
        self.assertGreater(len(tests), 0)
        for module, name in tests:
            source = next(TOP.glob(f"crates/worked_*/src/{module}.rt")).read_text()
            self.assertIn(f"#[test]\nfn {name}(", source)
            self.assertIn(f'"{module}::{name}"', (TOP / "tests/refusals-library").read_text())

    def test_a_name_is_in_one_place(self):
        mutants = script("try-mutants").all_mutants()
        named = collections.Counter((it.crate, it.name) for it in mutants)
        self.assertGreater(len(named), 300)
        self.assertEqual([it for it, count in named.items() if count > 1], [])


def goal_of(path):
    return re.search(r"^goal: (.*)$", path.read_text(), re.M)[1]


class Mutants(MutantsTest):
    SOURCE, RT, STORED = SOURCE, RT, STORED

    def setUp(self):
        super().setUp()
        self.mutant = self.top / "tests/mutants/low/a_third.edit"
        self.mutant.parent.mkdir()
        self.mutant.write_text("goal: Half::of value\n" + EDIT)
        (self.folder / "whole").write_text(PROVED)

    def tried(self, said, *arguments):
        """The last two lines, and the status, where the prover says this of the mutant."""
        (self.folder / "mutant").write_text(said)
        ran = self.try_mutants(*arguments)
        self.assertEqual(ran.stderr, b"")
        return ran.stdout.decode().splitlines()[-2:], ran.returncode

    def refused(self, said, text):
        lines, status = self.tried(said)
        self.assertRegex(lines[0], rf"^FAILED low a_third \(\d+ s\): {text}")
        self.assertEqual((lines[1], status), ("0 passed, 1 failed", 1))

    def passes(self, said, place):
        lines, status = self.tried(said)
        self.assertRegex(lines[0], rf"^ok low a_third \(\d+ s\) at {place}$")
        self.assertEqual((lines[1], status), ("1 passed, 0 failed", 0))

    def test_at_its_goal(self):
        for said in (IN_CODE, FALSE + IN_CODE, IN_ANSWER + IN_CODE):
            self.passes(said + REFUSED, "Half::of value")

    def test_elsewhere_or_not_at_all(self):
        self.refused(FALSE + REFUSED, "not at Half::of value, but at Half::of small")
        (self.folder / "alone").write_text(GONE + REFUSED)
        self.refused(GONE + REFUSED, "by its stored proof alone, and without it: only a stored "
                     "proof no longer fits: .*has no field")
        self.refused(PROVED, "it is proved")
        before = "it did not reach the prover"
        self.refused("error: a mismatched type\n", f"{before}: error: a mismatched")
        self.refused("src/lib.rt:6:5: error: no such word\n" + REFUSED, before)
        self.mutant.write_text(EDIT.replace("number / 2", "number / 4"))
        self.refused(IN_CODE + REFUSED, "an 'old:' text is in src/lib.rt 0 times, and not once")

    def test_a_crate_that_was_not_checked(self):
        """It is told that it takes long."""
        (self.top / "crates/low/out/incremental").rmdir()
        (self.folder / "mutant").write_text(IN_CODE + REFUSED)
        ran = self.try_mutants()
        self.assertEqual(ran.stderr.decode(), (
            "each copy of low first proves it and all crates below it, which takes long: "
            "(cd crates/low && rt check) does so once\n"))
        self.assertEqual(ran.returncode, 0)

    def test_a_goal_that_is_no_promise(self):
        """It fails untried."""
        for goal in ("index-old-requires", "overflow_sub-result", "nonzero_div-self-inside",
                     "push-requires-clause-room", "ilog2-requires"):
            self.mutant.write_text(f"goal: Half::of {goal}\n{EDIT}")
            lines, status = self.tried(IN_CODE + REFUSED)
            told = (f"its goal is no promise: Half::of {goal}. "
                    "Name the clause that it breaks, or change what it changes")
            self.assertEqual(lines, [f"FAILED low a_third: {told}", "0 passed, 1 failed"])
            self.assertEqual((status, (self.folder / "calls").exists()), (1, False))
            lines, status = self.tried("", "--list")
            self.assertEqual((lines[-1][-len(told) - 1:], status), (told + ")", 1))
        bound = IN_CODE.replace("returns-in-Some-clause-value", "index-old-requires")
        self.mutant.write_text(EDIT)
        self.tried(bound + IN_CODE + REFUSED, "--write-goals")
        self.assertEqual(self.mutant.read_text(), f"goal: Half::of value\n{EDIT}")

    def test_a_goal_with_a_stored_proof(self):
        """It is tried again without that proof."""
        name, own = "invariant_of-self", self.folder / "alone"
        goal = f"Half::of {name}"
        self.mutant.write_text(f"goal: {goal}\n{EDIT}")
        own.write_text(IN_CODE.replace("returns-in-Some-clause-value", name) + REFUSED)
        self.passes(IN_ANSWER + REFUSED, f"{goal}, without its stored proof too")
        for said, told in ((PROVED, "it is proved"),
                           (IN_CODE + REFUSED, f"not at {goal}, but at Half::of value")):
            own.write_text(said)
            self.refused(IN_ANSWER + REFUSED, f"by its stored proof alone, and without it: {told}")
        # where a lemma beside the stored proof is what no longer holds, and where the stored proof
        # names what is gone
        self.mutant.write_text(f"goal: Half::of value\n{EDIT}")
        for said in (IN_ANSWER, GONE):
            self.passes(said + REFUSED, "Half::of value, without its stored proof too")

    def of_control(self, said, mutant=FALSE + IN_CODE + REFUSED, more=""):
        """What is said of the control, and the sum, where the prover says this of it."""
        control = EDIT + "right:         number >> 1\n" + more
        self.mutant.write_text("goal: Half::of value\n" + control)
        (self.folder / "control").write_text(said)
        lines, status = self.tried(mutant, "--controls")
        self.assertEqual(lines[1], f"{1 - status} passed, {status} failed")
        return re.sub(r" \(\d+ s\)", "", lines[0])

    def test_controls(self):
        """A control must be proved: only what its mutant means is wrong, and not its form."""
        name, small = "low a_third, control", FALSE + REFUSED
        self.assertEqual(self.of_control(PROVED), f"ok {name} proved")
        self.assertEqual(self.of_control(small), f"FAILED {name}: refused at Half::of small")
        unread = "error: a mismatched type\n"
        self.assertIn("it did not reach the prover", self.of_control(unread))
        lines, status = self.tried(IN_CODE + REFUSED)  # the mutant and its control
        self.assertEqual((lines[1], status), ("1 passed, 1 failed", 1))
        self.of_control(PROVED)
        lines, status = self.tried(IN_CODE + REFUSED)
        self.assertEqual((lines[1], status), ("2 passed, 0 failed", 0))

    def test_controls_that_cannot_be_proved(self):
        """One with a reason must be refused at fewer goals, and not at its mutant's."""
        name, why = "low a_third, control", "control: no proof is kept of it\n"
        small = FALSE + REFUSED
        fewer = f"ok {name} refused at Half::of small, and no longer at its mutant's goal"
        self.assertEqual(self.of_control(small, more=why), fewer)
        for said, of_mutant, told in (
            (PROVED, FALSE + IN_CODE, "proved, so that 'control:' is wrong"),
            (IN_CODE + REFUSED, FALSE + IN_CODE, "refused at Half::of value"),
            (small, IN_CODE, "refused at Half::of small"),
            (REFUSED, FALSE + IN_CODE, "refused at no goal"),
        ):
            seen = self.of_control(said, of_mutant + REFUSED, why)
            self.assertEqual(seen, f"FAILED {name}: {told}")

    def test_a_control_that_is_lacking(self):
        """A mutant of the gate must have one, and a reason is one of a control."""
        gate = self.top / "crates/low/must-fail/no_half.edit"
        gate.write_text("goal: Half::of value\n" + EDIT)
        lines, status = self.tried(IN_CODE + REFUSED, "--controls", "no_half")
        told = "FAILED low no_half, control: the gate's mutant has none"
        self.assertEqual((lines, status), ([told, "0 passed, 1 failed"], 1))
        same = EDIT.replace("number / 3", "number / 2")
        for text, told in (
            (EDIT + "control: none\n", "it says why it has no proved control, and has none"),
            (EDIT + "right:         number / 3\n", "its control is the mutant itself"),
            (EDIT + "right:         number / 2\n", "its control changes nothing"),
            (EDIT + "right:\n", "its control only drops code: an empty 'right:'"),
            (EDIT + "right:         number  / 2 // half\n", "its control changes nothing"),
            (same, "it changes nothing"),
            (EDIT, "the gate's mutants must have a control"),
        ):
            gate.write_text("goal: Half::of value\n" + text)
            lines, status = self.tried("", "--list", "no_half")
            self.assertEqual((lines[-1][-len(told) - 10:], status), (f"(FAILED: {told})", 1))

    def test_a_control_that_was_not_tried(self):
        """Not since its edit or its function was changed: the gate, which lists all, sees that."""
        gate = self.top / "crates/low/must-fail/no_half.edit"
        source, edit = self.top / "crates/low/src/lib.rt", EDIT + "right:         number >> 1\n"
        again = ("FAILED: these edits or their functions have changed since their controls were "
                 "tried: tests/try-mutants --controls no_half")
        clause = SOURCE.replace("result ≡", "result + 0 ≡")
        for text, code in ((edit, SOURCE), (edit.replace("/ 3", "/ 3 + 0"), SOURCE),
                           (edit, clause)):
            gate.write_text(text)
            source.write_text(code)
            (self.folder / "control").write_text(IN_CODE + REFUSED)
            for said in (IN_CODE + REFUSED, PROVED):
                lines, status = self.tried("", "--list", "low")
                self.assertEqual((lines[-1], status), (again, 1))
                (self.folder / "control").write_text(said)
                self.tried(IN_CODE + REFUSED, "--controls", "no_half")
            self.assertEqual(self.tried("", "--list")[1], 0)
        source.write_text("// another\n" + clause.replace("{\n ", "{ // half\n "))
        self.assertEqual(self.tried("", "--list")[1], 0)
        gate.rename(gate.with_stem("half"))
        self.tried(IN_CODE + REFUSED, "--controls")
        self.assertRegex((self.top / "tests/controls").read_text(), r"^low half: \w+\n$")

    def test_each_status_but_0_is_a_failure(self):
        """Whatever rt says before it."""
        for wrong in "1", "3":
            self.write("status-control", wrong)
            self.assertRegex(self.of_control(PROVED), f"^FAILED .* the prover: {PROVED.strip()}$")
        for wrong in "1", "3":
            self.write("status-whole", wrong)
            lines, status = self.tried(IN_CODE + REFUSED)
            self.assertEqual((lines[1], status), ("0 passed, 1 failed", 1))

    def test_a_change_without_its_right(self):
        """It is in the control as it is in the mutant."""
        self.mutant.write_text("goal: Half::of value\nfile: src/lib.rt\nold:         number / 2\n"
                               "new: HALF\nold: HALF\nnew: number / 3\nright: number >> 1\n")
        (self.folder / "control").write_text(PROVED)
        lines, _ = self.tried(IN_CODE + REFUSED, "--controls")
        self.assertEqual(lines[1], "1 passed, 0 failed")
        # nor need it have what a change of the mutant is of
        self.mutant.write_text("goal: Half::of value\nfile: src/lib.rt\nold:         number / 2\n"
                               "new: HALF\nright: number >> 1\nold: HALF\nnew: number / 3\n")
        lines, _ = self.tried(IN_CODE + REFUSED, "--controls")
        self.assertEqual(lines[1], "1 passed, 0 failed")

    def test_the_reason_of_a_refusal(self):
        """It must not be a function without a contract, and is shown where it may be a proof."""
        lines, _ = self.tried(FALSE + IN_CODE + GONE + REFUSED)
        self.assertEqual(lines[0], "LOOK low a_third: a stored proof of its function no longer fits"
                         ", and no values make the goal false")
        self.passes(IN_CODE + FALSE.replace("small", "value") + GONE + REFUSED, "Half::of value")
        self.assertEqual(self.of_control(PROVED), "ok low a_third, control proved")
        lines, _ = self.tried(FALSE + IN_CODE + GONE + REFUSED)
        self.assertRegex(lines[0], "^ok ")
        source = self.top / "crates/low/src/lib.rt"
        adds = EDIT.replace("number / 3", "fn third() {} number / 3")
        for text, edit, told in (
            (SOURCE.replace("        ensures value { result ≡ number / 2 }\n", ""), EDIT,
             "Half::of has no contract, and the mutant no control"),
            (SOURCE, adds, "it adds third, which has no contract, and has no control"),
        ):
            source.write_text(text)
            self.mutant.write_text("goal: Half::of value\n" + edit)
            lines, status = self.tried(IN_CODE + REFUSED)
            self.assertEqual((lines[0], status), (f"FAILED low a_third: {told}", 1))

    def test_sections(self):
        """The mutants of a crate may be sections of one file."""
        self.mutant.unlink()
        self.mutant.parent.rmdir()
        file = self.top / "tests/mutants/low.edits"
        whole = f"== a_third\ngoal: Half::of value\n{EDIT}\n== half\n{EDIT}"
        file.write_text(whole)
        lines, _ = self.tried("", "--list")
        self.assertEqual(lines, [
            "low a_third: Half::of: a third. Refused at: Half::of value",
            "low half: Half::of: half. Refused at: no goal named",
        ])
        lines, _ = self.tried(IN_CODE + REFUSED, "--write-goals")
        self.assertEqual(lines[1], "2 passed, 0 failed")
        goal = "== half\ngoal: Half::of value\n"
        self.assertEqual(file.read_text(), whole.replace("== half\n", goal))

    def test_a_crate_that_is_not_proved(self):
        (self.folder / "whole").write_text(IN_CODE + REFUSED)
        lines, status = self.tried(IN_CODE + REFUSED)
        self.assertIn("0 passed, 1 failed", lines)
        self.assertEqual(status, 1)

    def test_goals_are_written(self):
        for said, goal in ((IN_CODE, "value"), (IN_CODE + FALSE, "small"),
                           (IN_ANSWER, "invariant_of-self")):
            self.mutant.write_text(EDIT)
            (self.folder / "alone").write_text(said + REFUSED)
            self.tried(said + REFUSED)
            self.assertEqual(self.mutant.read_text(), EDIT)
            self.tried(said + REFUSED, "--write-goals")
            self.assertEqual(self.mutant.read_text(), f"goal: Half::of {goal}\n{EDIT}")

    def listed(self, text, told=None):
        """Lists a mutant, which can't be tried for this reason."""
        self.mutant.write_text(text)
        lines, status = self.tried("", "--list")
        end = f"(FAILED: {told})" if told else "Refused at: "
        self.assertIn(end, lines[-1])
        self.assertEqual((status, lines[-1].endswith(end)), (bool(told),) * 2, lines[-1])

    def test_code_that_is_gone(self):
        old, goal = EDIT.replace("number / 2", "number / 4"), "goal: Half::of value\n"
        self.listed(goal + old, "an 'old:' text is in src/lib.rt 0 times, and not once")
        twice = EDIT.replace("old:         number / 2", "old: number / 2")
        self.listed(goal + twice, "an 'old:' text is in src/lib.rt 2 times, and not once")

    def test_a_goal_that_is_gone(self):
        """Its function, its clause, or the loop that it names."""
        for goal in "value", "returns", "invariant_of-self", "loop-number-preserved":
            self.listed(f"goal: Half::of {goal}\n{EDIT}")
        for goal in "small", "loop-half-init":
            told = f"the clause of its goal is gone: Half::of {goal}"
            self.listed(f"goal: Half::of {goal}\n{EDIT}", told)
        gone = "the function of its goal is gone: Third::of"
        self.listed(f"goal: Third::of value\n{EDIT}", gone)
        # a clause of two has its name; one of a trait is where the trait is
        source = self.top / "crates/low/src/lib.rt"
        two = SOURCE.replace("    {\n        number", "        ensures { result ≤ number }\n    {\n"
                             "        number")
        source.write_text(two.replace("ensures {", "ensures small {"))
        self.listed(f"goal: Half::of small\n{EDIT}")
        self.listed(f"goal: Half::of returns\n{EDIT}",
                    "the clause of its goal is gone: Half::of returns")
        of_trait = SOURCE.replace("impl Half", "impl Part for Half").replace(
            "        ensures value { result ≡ number / 2 }\n", "")
        source.write_text(of_trait)
        self.listed(f"goal: HalfPart::of any\n{EDIT}")  # of a trait that is nowhere
        source.write_text(of_trait + "\npub trait Part {\n    fn of(&self, number: u64) -> u64\n"
                          "        ensures value { result ≤ number };\n}\n")
        self.listed(f"goal: HalfPart::of value\n{EDIT}")
        self.listed(f"goal: HalfPart::of any\n{EDIT}",
                    "the clause of its goal is gone: HalfPart::of any")

    def test_a_clause_of_its_own(self):
        """A mutant is to break the contract that is there, and may give one to a new function."""
        function = "fn of(&self, number: u64) -> u64"
        head = f"goal: Half::of value\nfile: src/lib.rt\nold:     pub {function}\n"
        wrong = f"new:     pub {function}{{}} {{{{ 0 }}}} fn more() ensures {{{{ a }}}}\n"
        brought = "it brings a clause of of, and is to break one that is there"
        other = "it has another contract for Half::of, and is to break its own"
        for clause, told in ((" ensures value { result ≡ number / 2 }", brought),
                             (" ensures value { result ≤ number }", other), ("", other)):
            self.listed(head + wrong.format(clause), told)
        clause = "        ensures value { result ≡ number / 2 }"
        more = " { 0 } fn more(&self, number: u64) -> u64 ensures { result ≡ number / 2 }\n"
        head = f"goal: Half::of value\nfile: src/lib.rt\nold: {clause}\n"
        self.listed(f"{head}new: {clause}{more}")
        self.listed(f"{head}new:         requires {{ number ≤ 2 }} {clause}\n", other)

    def test_a_control_of_many_words(self):
        """It is the mutant except a few, wherever they stand."""
        own = [f"and number {at}" for at in range(4)]
        new = EDIT.replace("number / 3", f"number / 3 {' '.join(own)}")
        goal, right = "goal: Half::of value\n", "right:         number >> 1"
        self.listed(f"{goal}{new}{right} {' '.join(reversed(own))}\n", None)
        many = "its control differs from it by 12 words, and may by 10"
        self.listed(f"{goal}{new}{right}\n", many)

    def test_each_of_many_is_tried(self):
        """Those of a crate are parted, and none is lost."""
        self.mutant.unlink()
        self.mutant.parent.rmdir()
        for count in 1, 24, 25, 60:
            sections = (f"== third_{at}\ngoal: Half::of value\n{EDIT}" for at in range(count))
            (self.top / "tests/mutants/low.edits").write_text("\n".join(sections))
            lines, status = self.tried(IN_CODE + REFUSED)
            self.assertEqual((lines[-1], status), (f"{count} passed, 0 failed", 0))

    def test_names_and_list(self):
        gate = self.top / "crates/low/must-fail/no_half.edit"
        gate.write_text(EDIT + "right:         number >> 1\n")
        (self.folder / "control").write_text(PROVED)
        self.tried(PROVED, "--controls")
        lines, _ = self.tried("", "--list")
        self.assertEqual(lines, [
            "low a_third: Half::of: a third. Refused at: Half::of value",
            "low no_half (gate): Half::of: no half. Refused at: no goal named, with a control",
        ])
        for arguments, count in (([], 3), (["low"], 3), (["no_half"], 2), (["a_third"], 1)):
            lines, _ = self.tried(IN_CODE + REFUSED, *arguments)
            self.assertEqual(lines[1], f"{count} passed, 0 failed")
        lines, status = self.tried("", "nosuch")
        self.assertEqual((lines[0], status), ("FAILED nosuch: there is no such mutant or crate", 1))
        calls = (self.folder / "calls").read_text().split()
        self.assertNotIn(str(self.top / "crates/low"), calls)  # only copies are checked
