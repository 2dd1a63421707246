"""What the code and its definitions promise: clauses of functions, parts of records, views."""

import functools
import re
from typing import NamedTuple

import common

ITEM = re.compile(r"^(?:pub(?:\(\w+\))? )?(impl|trait)\b(?:<[^{]*?>)? "
                  r"(?:[\w:]+(?:<[^{]*?>)? for )?(\w+)|^[^\s/}#].*$", re.M)
FUNCTION = re.compile(r"(\bpub )?\bfn (\w+)")
CLAUSE = re.compile(r"(ensures|requires)\s*(\w+)?\s*\{|[()\[\]{;]")
# a function that others may call, with the comment above it
CALL = re.compile(r"((?:^ *///.*\n)+)(?: *(?:#\[|// ).*\n)* *pub fn (\w+)(?:<[^(]*>)?\(", re.M)
RECORD = re.compile(r"^(?:pub )?record (\w+)[^\n]*(?:\n[ \t][^\n]*|\n(?=\n? ))*", re.M)
PART = re.compile(r"^  pub (\w+) : ((?:.*)(?:\n {4,}.*)*)", re.M)
# a definition in the code; an invariant is none, since it is only assumed of what was made so
GHOST = re.compile(r"^ *ghost (?!(?:use|invariant|Value)\b)(\w+)(?: = |: \{[^}]*\} = )\{", re.M)


class Clause(NamedTuple):
    """A clause of a function's contract, or a part of a record. Without a name it is the only one;
    a condition is a `requires`."""

    owner: str
    name: str
    text: str
    is_condition: bool = False
    is_public: bool = True

    def __str__(self):
        mark = " (requires)" if self.is_condition else ""
        return f"{self.owner}{'.' * bool(self.name)}{self.name}{mark}: {self.text}"


def without_comments(text, mark):
    text = re.sub(r"/\*.*?\*/" if mark == "//" else r"\{-.*?-\}", "", text, flags=re.S)
    return re.sub(rf"^\s*{mark}.*\n|\s+{mark}.*", "", text, flags=re.M)


def flat(text):
    return " ".join(text.split())


def closed(text, at):
    """Where the brace closes that opens before this place."""
    depth = 1
    while depth:
        depth += {"{": 1, "}": -1}.get(text[at], 0)
        at += 1
    return at - 1


def contract(text, at):
    """The clauses between a function's name and its body: (is a condition, name, text)."""
    depth = 0
    while found := CLAUSE.search(text, at):
        mark, at = found[0], found.end()
        if found[1]:
            end = closed(text, at)
            yield found[1] == "requires", found[2] or "", flat(text[at:end])
            at = end + 1
        elif mark in "([":
            depth += 1
        elif mark in ")]":
            depth -= 1
        elif not depth:
            return


def owner_at(text):
    """A function that tells of each place of a source the type or trait that it is about."""
    owners = [(found.start(), found[2] if found[1] else "") for found in ITEM.finditer(text)]
    return lambda place: next((name for at, name in reversed(owners) if at <= place), "")


@functools.cache
def functions_of_code(path):
    """The functions of a source with their clauses; one of a type or trait is called by both."""
    text = without_comments(path.read_text(), "//")
    owner_of = owner_at(text)
    crate = path.relative_to(common.TOP / "crates").parts[0]
    module, functions = "laws::" * (path.stem == "laws"), []
    for found in FUNCTION.finditer(text):
        owner = owner_of(found.start())
        called = f"{crate}::{module}{owner}{'::' * bool(owner)}{found[2]}"
        functions.append((called, [Clause(called, name, said, is_needed, bool(found[1]))
                                   for is_needed, name, said in contract(text, found.end())]))
    return functions


def calls_of(path):
    """The calls that a source offers, each with the names of its parameters and its comment."""
    text = path.read_text()
    owner_of = owner_at(text)
    for found in CALL.finditer(text):
        owner, end, depth = owner_of(found.start(2)), found.end(), 1
        while depth:
            depth += {"(": 1, ")": -1}.get(text[end], 0)
            end += 1
        parameters = re.findall(r"(\w+): ", text[found.end():end])
        said = flat(re.sub(r"^ *///", "", found[1], flags=re.M))
        yield f"{owner}{'::' * bool(owner)}{found[2]}", parameters, said


def clauses_of_records(path):
    crate = path.relative_to(common.TOP / "crates").parts[0]
    text = without_comments(path.read_text(), "--")
    for record in RECORD.finditer(text):
        for name, said in PART.findall(record[0]):
            yield Clause(f"{crate}::{record[1]}", name, flat(said))


# the type of an implementation, with its trait
TYPE = re.compile(r"impl(?:<[^{]*?>)? (?:(\w+)(?:<[^{]*?>)? for )?(\w+)")
TRAIT = re.compile(r"(?:pub(?:\(\w+\))? )?trait (\w+)|.*?(\w+)(?:<[^{]*?>)? for ")
TOP_ITEM = re.compile(r"^(?:pub(?:\(\w+\))? )?(?:impl|struct|enum|trait|fn|const)\b.*", re.M)


class Contract(NamedTuple):
    """What a function promises by itself: the trait that it is of or in, its clauses, and the names
    of those that it ensures."""

    trait: str
    is_in_trait: bool
    clauses: frozenset
    ensured: frozenset


@functools.cache
def contracts_in(text):
    """The contracts of the functions in a source, by their names as the prover has them."""
    text, found = without_comments(text, "//"), {}
    items = [(item.start(), item[0]) for item in TOP_ITEM.finditer(text)]
    for head in FUNCTION.finditer(text):
        item = next((item for at, item in reversed(items) if at <= head.start()), "")
        of, trait = TYPE.match(item), TRAIT.match(item)
        owner = f"{of[2]}{of[1] or ''}::" if of else ""
        clauses = frozenset(contract(text, head.end()))
        ensured = frozenset(name for is_condition, name, _ in clauses if not is_condition)
        its = Contract(trait and (trait[1] or trait[2]), bool(trait and trait[1]), clauses, ensured)
        found.setdefault(owner + head[2], []).append(its)
    return found
