"""Mutants: what an edit says, and why it can't be tried, or says nothing of a contract."""

import collections
import functools
import re
from typing import NamedTuple

import common
from contracts import contracts_in, without_comments
from prover import NO_PROMISE, function_at, functions_of, text_of_function

# a control may have so many words that its mutant has not, or lack as many
MOST_WORDS = 10
WRITTEN = re.compile(r"\b(?:ensures|requires)\b[^{]*\{[^}]*\}")
LOOP = re.compile(r"loop-(\w+)-(?:init|preserved)")


class Unfit(Exception):
    """An edit that can't be applied."""


class Change(NamedTuple):
    """A text of a file, what the mutant has in its place, and what the control has."""

    file: str
    old: str
    new: str
    right: str = None


def code_of(texts):
    """The texts of files without comments and blanks, so that one code has one text."""
    return {file: re.sub(r"//.*|\s", "", text) for file, text in texts.items()}


class Mutant:
    def __init__(self, text, name, path, crate):
        self.name, self.path, self.crate, self.text = name, path, crate, text
        self.is_of_gate = path.parent.name == "must-fail"
        self.goal = self.found = self.reason = None
        self.changes, self.weakness = [], ""
        file = old = None
        for line in text.split("\n"):
            mark, _, said = line.partition(":")
            said = said.removeprefix(" ")
            if mark == "goal":
                self.goal = tuple(said.split(" ", 1))
            elif mark == "file":
                file = said.strip()
            elif mark == "old":
                old = said
            elif mark == "new":
                self.changes.append(Change(file, old, said))
            elif mark == "right" and self.changes:
                self.changes[-1] = self.changes[-1]._replace(right=said)
            elif mark == "control":
                self.reason = said

    @property
    def has_control(self):
        return any(it.right is not None for it in self.changes)

    def texts(self, crate, is_control=False):
        """The files that it changes, with its texts in them, in the order of its changes. One may
        be of a text that another has put there; the control may lack that."""
        changed = {}
        for file, old, new, right in self.changes:
            text = changed.get(file) or (crate / file).read_text()
            if is_control and right is None and old not in text + (crate / file).read_text():
                continue
            if text.count(old) != 1:
                raise Unfit(f"an 'old:' text is in {file} {text.count(old)} times, and not once")
            changed[file] = text.replace(old, right if is_control and right is not None else new)
        if not changed:
            raise Unfit("it has no 'old:' and 'new:'")
        return changed

    @property
    def wrong_goal(self):
        """Why a refusal at its goal says nothing of a clause, in words, or nothing."""
        if self.goal and NO_PROMISE.fullmatch(self.goal[-1]):
            goal = f"its goal is no promise: {' '.join(self.goal)}"
            return f"{goal}. Name the clause that it breaks, or change what it changes"
        return "" if self.has_control else without_contract(self)

    @property
    def misfit(self):
        """Why it or its control can't be applied, or it breaks no clause, in words, or nothing."""
        crate = common.TOP / "crates" / self.crate
        try:
            mutant, control = self.texts(crate), self.texts(crate, is_control=True)
        except Unfit as fault:
            return str(fault)
        right = {file: (crate / file).read_text() for file in mutant}
        wrong = self.wrong_control(*map(code_of, (mutant, control, right)))
        return wrong or self.own_clause(mutant) or self.lost_goal(mutant) or ""

    def wrong_control(self, mutant, control, right):
        """The same of its control, by the code of the files that it changes."""
        if mutant == right:
            return "it changes nothing"
        if self.has_control and control == mutant:
            return "its control is the mutant itself"
        if self.has_control and control == right:
            return "its control changes nothing"
        if self.reason is not None and not self.has_control:
            return "it says why it has no proved control, and has none"
        if any(it.right is not None and not it.right.strip() for it in self.changes):
            return "its control only drops code: an empty 'right:'"
        if self.is_of_gate and not self.has_control:
            return "the gate's mutants must have a control"
        if (words := self.other_words()) > MOST_WORDS:
            return f"its control differs from it by {words} words, and may by {MOST_WORDS}"
        return None

    def other_words(self):
        """By how many words the control differs from the mutant; where they stand is the same."""
        new, right = collections.Counter(), collections.Counter()
        for it in self.changes:
            if it.right is not None:
                new.update(re.findall(r"\w+", it.new))
                right.update(re.findall(r"\w+", it.right))
        return max((new - right).total(), (right - new).total())

    def lost_goal(self, texts):
        """Why there is no such goal, in words, or nothing."""
        if not self.goal:
            return None
        name, word = self.goal
        sources = {**sources_of(self.crate), **texts}
        found = [(it, text) for text in sources.values() for it in contracts_in(text).get(name, ())]
        if not found:
            return f"the function of its goal is gone: {name}"
        of_traits = [its for it, _ in found if it.trait
                     for its in clauses_of_traits().get((it.trait, name.rpartition("::")[2]), ())]
        if loop := LOOP.fullmatch(word):
            code = (without_comments(text, "//") for _, text in found)
            is_there = any(re.search(rf"\b{loop[1]}\b", text) for text in code)
        else:
            # the goal of a lone clause has no name; of a trait of a library nothing is known
            known = [it.ensured for it, _ in found] + of_traits
            is_there = any(word in names or word == "returns" and len(names) == 1 or "" in names
                           for names in known) or "-" in word
            is_there = is_there or any(it.trait for it, _ in found) and not of_traits
        return None if is_there else f"the clause of its goal is gone: {' '.join(self.goal)}"

    def own_clause(self, texts):
        """Why what it breaks is no contract of the crate, in words, or nothing."""
        for file, text in texts.items():
            before, after = contracts_in(sources_of(self.crate).get(file, "")), contracts_in(text)
            for name, functions in before.items():
                kept = [it.clauses for it in after.get(name, ())]
                if any(it.ensured and it.clauses not in kept for it in functions):
                    return f"it has another contract for {name}, and is to break its own"
            known = {name.rpartition("::")[2] for name in before}
            for it in (it for it in self.changes if it.file == file):
                for name, clause in clauses_brought(it.new):
                    if name in known and clause not in it.old:
                        return f"it brings a clause of {name}, and is to break one that is there"
        return None

    def sum_of_control(self, crate):
        """What its control is tried on: the edit, and the functions of a crate that it changes."""
        functions = [text_of_function((crate / it.file).read_text(), it.old) for it in self.changes]
        return common.sum_of("\n".join([self.text, *functions]))

    def write_goal(self):
        goal, text = f"goal: {' '.join(self.found)}\n", self.path.read_text()
        heading = f"== {self.name}\n" if self.path.suffix == ".edits" else ""
        self.path.write_text(text.replace(heading, heading + goal, 1))

    def about(self):
        """What it changes, and its name in words."""
        first = self.changes[0]
        text = (common.TOP / "crates" / self.crate / first.file).read_text()
        before = text[: text.find(first.old) + len(first.old)]
        return f"{function_at(before)}: {self.name.replace('_', ' ')}"


def clauses_brought(text):
    """The clauses in the text of an edit, each with the function before it there."""
    for part in re.split(r"(?=\bfn \w)", text):
        if head := re.match(r"fn (\w+)", part):
            yield from ((head[1], clause) for clause in WRITTEN.findall(part))


@functools.lru_cache(None)
def sources_of(crate):
    """The sources of a crate, by their places in it."""
    folder = common.TOP / "crates" / crate
    return {str(path.relative_to(folder)): path.read_text()
            for path in sorted((folder / "src").rglob("*.rt"))}


@functools.lru_cache(None)
def clauses_of_traits():
    """The names of the clauses of what traits promise, by the trait and the function."""
    found = collections.defaultdict(list)
    for crate in sorted(path.name for path in (common.TOP / "crates").iterdir()):
        for text in sources_of(crate).values():
            for name, functions in contracts_in(text).items():
                for it in functions:
                    if it.is_in_trait:
                        found[it.trait, name].append(it.ensured)
    return found


def without_contract(mutant):
    """The function without a contract that may be the reason of a refusal, in words, or nothing."""
    functions = functions_of(mutant.crate)
    if mutant.goal and not functions.get(mutant.goal[0], True):
        return f"{mutant.goal[0]} has no contract, and the mutant no control"
    known = {name.rpartition("::")[2] for name in functions}
    for it in mutant.changes:
        for name in re.findall(r"\bfn (\w+)", it.new):
            if name not in known and "ensures" not in it.new:
                return f"it adds {name}, which has no contract, and has no control"
    return ""


def all_mutants():
    crates, tests = common.TOP / "crates", common.TOP / "tests/mutants"
    alone = [*crates.glob("*/must-fail/*.edit"), *tests.glob("*/*.edit")]
    found = [Mutant(path.read_text(), path.stem, path, path.parts[-3 + (tests in path.parents)])
             for path in alone]
    for path in tests.glob("*.edits"):
        for text in re.split("^== ", path.read_text(), flags=re.M)[1:]:
            name, _, text = text.partition("\n")
            found.append(Mutant(text, name.strip(), path, path.stem))
    return sorted(found, key=lambda it: (it.crate, it.name))
