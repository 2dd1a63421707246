"""Bundles: mutants of a crate that are tried in one check, or controls. A function is proved from
the contracts of what it calls, so that a wrong body of one says nothing of another."""

import functools
import re
from typing import NamedTuple

from contracts import CLAUSE, TOP_ITEM, TYPE, closed
from edits import Unfit
from prover import function_of_proof

# How many share a check. It reads libraries for as long as it tries three: more would gain little,
# and where one spoils it all are tried again.
MOST = 16
# what is no code: its braces and words count for nothing
NO_CODE = re.compile(r"//[^\n]*|/\*.*?\*/|b?\"(?:\\.|[^\"\\])*\"|b?'(?:\\.[^']*|[^\\'\n])'", re.S)
HEAD = re.compile(r"^( *)((?:[\w()]+ )*)fn (\w+)", re.M)
# what is more than code of its function, where it stands in a body
ITEM = re.compile(r"\b(?:fn|const|static|struct|enum|union|impl|trait|mod|use|type|ghost|macro)\b")
# a module that a proof cites, with its folder, and those that are kept of a function's own proof
CITED = re.compile(r"^(?:pub )?use\s+Rattle\.(\w+)\.proofs\.([\w.+-]+)\.([\w-]+)", re.M)
OF_PROOF = ("Answers", "Invariants", "Proof")


class Source(NamedTuple):
    """A source in parts: the bodies that may be another's, by their functions, and what stands
    before each of them and behind the last."""

    others: list
    bodies: dict


def body_at(code, at):
    """Where the body of a function begins and ends whose name ends here, or nothing."""
    depth = 0
    while found := CLAUSE.search(code, at):
        at = found.end()
        if found[1]:
            at = closed(code, at) + 1
        elif found[0] in "([)]":
            depth += 1 if found[0] in "([" else -1
        elif not depth:
            return (at, closed(code, at)) if found[0] == "{" else None
    return None


def spans_of(code):
    """The functions of a source, each with the place of its body: none where it has no contract, of
    its own or of a trait, is known while it is compiled, or has an item in it."""
    items = [(item.start(), item[0]) for item in TOP_ITEM.finditer(code)]
    for head in HEAD.finditer(code):
        item = next((item for at, item in reversed(items) if at <= head.start()), "")
        of = TYPE.match(item)
        span = body_at(code, head.end())
        is_promised = span and (of and of[1] or re.search(r"\bensures\b", code[head.end():span[0]]))
        is_one = len(head[1]) == (4 if of else 0) and "const " not in head[2]
        is_shared = is_promised and is_one and not ITEM.search(code, *span)
        yield (f"{of[2]}{of[1] or ''}::" if of else "") + head[3], span if is_shared else None


@functools.cache
def source(text):
    code = NO_CODE.sub(lambda it: re.sub(r"[^\n]", " ", it[0]), text)
    spans = [*spans_of(code)] if code.count("{") == code.count("}") else []
    names = [name for name, _ in spans]
    others, bodies, last = [], {}, 0
    for name, span in spans:
        if span and names.count(name) == 1:
            others.append(text[last:span[0]])
            bodies[name], last = text[slice(*span)], span[1]
    return Source([*others, text[last:]], bodies)


@functools.cache
def cited(crate):
    """The functions of a crate whose proofs others cite: what is kept of them, or what the prover
    makes, of which there is no file. Lemmas have a folder without a proof."""
    found, top = set(), crate / "proofs"
    for path in top.rglob("*.antt"):
        for name, place, module in CITED.findall(path.read_text()):
            folder = top / place.replace(".", "/")
            is_lemma = (folder / f"{module}.antt").exists() and not any(
                (folder / f"{it}.antt").exists() for it in OF_PROOF)
            if name == crate.name and folder != path.parent and not is_lemma:
                found.add(function_of_proof(place.replace(".", "/")))
    return found


def bodies_changed(mutant, crate, is_control):
    """The bodies that a mutant has, or its control, by file and function. None where it is to be
    tried alone: where it names no goal, or one of a function that it doesn't change, changes more
    than bodies, or changes one whose proof others cite."""
    if not mutant.goal or is_control and mutant.reason is not None:
        return {}
    try:
        texts = mutant.texts(crate, is_control)
    except Unfit:
        return {}
    found = {}
    for file, text in texts.items():
        before, after = source((crate / file).read_text()), source(text)
        if (before.others, [*before.bodies]) != (after.others, [*after.bodies]):
            return {}
        found.update({(file, name): body for name, body in after.bodies.items()
                      if body != before.bodies[name]})
    names = {name for _, name in found}
    return found if mutant.goal[0] in names and not names & cited(crate) else {}


class Bundle:
    """Mutants, or controls, each with the bodies that it changes, which are of other functions than
    those of all others."""

    def __init__(self, is_control, bodies=()):
        self.is_control, self.bodies = is_control, dict(bodies)

    def functions(self, mutants=None):
        return {name for it in mutants or self.bodies for _, name in self.bodies[it]}

    def part(self, mutants):
        return Bundle(self.is_control, {it: self.bodies[it] for it in mutants})

    def texts(self, crate):
        """The files that it changes, with all its bodies in them."""
        changed = {key: body for bodies in self.bodies.values() for key, body in bodies.items()}
        texts = {}
        for file in {file for file, _ in changed}:
            own = source((crate / file).read_text())
            bodies = [changed.get((file, name), body) for name, body in own.bodies.items()]
            pairs = zip(own.others, [*bodies, ""], strict=True)
            texts[file] = "".join(other + body for other, body in pairs)
        return texts


def bundles_of(trials, crate):
    """Those of the trials that may share a check, in bundles."""
    bundles = []
    for mutant, is_control in trials:
        if bodies := bodies_changed(mutant, crate, is_control):
            names = {name for _, name in bodies}
            fits = (it for it in bundles if it.is_control == is_control and len(it.bodies) < MOST
                    and not it.functions() & names)
            if not (bundle := next(fits, None)):
                bundles.append(bundle := Bundle(is_control))
            bundle.bodies[mutant] = bodies
    return [it for it in bundles if len(it.bodies) > 1]
