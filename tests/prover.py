"""What the prover says of a crate, and the functions and goals that it names."""

import copy
import functools
import re

import common
from contracts import TYPE, contracts_in

# What the prover says of a goal: where it is in the code, or in a stored answer
IN_CODE = re.compile(r"note: (src/\S+\.rt):(\d+):\d+: .*?\(`([^`]+)`\)(.*)")
IN_ANSWER = re.compile(
    r"(?:\./)?(proofs/(\S+)/(?:Answers|Invariants|Proof)\.antt):\d+:\d+: error: `([^`]+)`: (.*)")
IN_PROOF = re.compile(r"^(?:\./)?proofs/(?:(\S+)/)?[^/\s]+\.antt:\d+:\d+: error", re.M)
IN_SOURCE = re.compile(r"(?:\./)?(?:src|specs)/\S+:\d+:\d+: error: (`[^`]*`: )?(.*)")
# A stored answer that names what the code no longer has
GONE = re.compile(r"has no field|is not in scope|has no `|was not admitted")
# Goals that are no promise: bounds of a statement, and what a called function asks for
NO_PROMISE = re.compile(r"(index|overflow|nonzero)[_-].*|.*-requires(-clause-\w+)?")
IS_FALSE = re.compile(r"allow values at which this goal is false|the goal fails, at")
ITEM = re.compile(r"(?:pub(?:\(\w+\))? )?(impl|struct|enum|trait|fn|const)\b")
FUNCTION = re.compile(r"\s*(?:[\w()]+ )*(?:fn|const|struct|enum|trait) (\w+)")


def function_at(text):
    """The function in which a source's text ends, with its type, as 'Profile::feed'."""
    within, function = "", ""
    for line in text.split("\n"):
        if item := ITEM.match(line):
            # a method of a trait is called by the type and the trait
            found = TYPE.match(line) if item[1] == "impl" else None
            within = f"{found[2]}{found[1] or ''}::" if found else ""
        function = begun[1] if (begun := FUNCTION.match(line)) else function
    return within + function


def text_of_function(text, part):
    """The function, with its contract and without its comments, that has this part; elsewhere all
    from the function before it, or the source's beginning, to the part."""
    place = text.find(part) + len(part)
    *_, head = re.finditer(r"^( *)(?:[\w()]+ )*fn \w+|\A()", text[:place], re.M)
    end = text.find(f"\n{head[1] or ''}}}\n", head.end())
    return " ".join(re.sub("//.*", "", text[head.start():max(end, place)]).split())


def function_of_line(path, number):
    """The function that this line belongs to, or that the attribute in it belongs to."""
    lines = path.read_text().split("\n")
    while lines[number - 1].lstrip().startswith(("#[", "//")):
        number += 1
    return function_at("\n".join(lines[:number]))


def goal_of(word):
    """A goal without the branches on the way to it: a clause by its name, or the prover's word."""
    if clause := re.fullmatch(r"returns.*-clause-(\w+)", word):
        return clause[1]
    if word.startswith("returns"):
        return "returns"
    return re.sub(r"-(in|in_\w+|then|else)-.*|-\d+", "", word)


class Check:
    """What the prover says of a crate: that all is proved, or what is wrong with a source, or the
    goals that it refuses, by function, and how it says that; and of which functions it refuses a
    goal, or something of a proof."""

    def __init__(self, ran, crate):
        lines = (ran.stdout + ran.stderr).strip().split("\n")
        # past open goals it counts holes, and gives no verdict
        ends = ("logic=", "holes=")
        verdict = next((line for line in reversed(lines) if line.startswith(ends)), "")
        is_proved = verdict.startswith("logic=proved")
        self.is_proved = is_proved and not ran.returncode
        is_judged = verdict and is_proved == self.is_proved
        self.unread = not_read(lines) or ("" if is_judged else lines[-1])
        self.goals, self.stored, self.gone = {}, {}, []
        for line in ran.stdout.split("\n"):
            if found := IN_CODE.match(line):
                self.add(function_of_line(crate / found[1], int(found[2])), found[3], 1, line)
            elif (found := IN_ANSWER.match(line)) and not GONE.search(found[4]):
                key = self.add(function_of_proof(found[2]), found[3], 2, line)
                self.stored[key] = crate / found[1]
            elif found:
                self.gone.append((function_of_proof(found[2]), crate / found[1], line))
        in_proofs = (function_of_proof(folder) for folder in IN_PROOF.findall(ran.stdout))
        self.functions = {*in_proofs, *(function for function, _ in self.goals)}

    def of(self, functions):
        """What it says of these functions alone."""
        part = copy.copy(self)
        part.goals = {key: rank for key, rank in self.goals.items() if key[0] in functions}
        part.stored = {key: file for key, file in self.stored.items() if key[0] in functions}
        part.gone = [it for it in self.gone if it[0] in functions]
        return part

    def add(self, function, word, rank, line):
        key = (function, goal_of(word))
        rank = 0 if IS_FALSE.search(line) else rank
        self.goals[key] = min(rank, self.goals.get(key, rank))
        return key

    def best(self):
        """The goal that says most: a promise, found to be false, then tried by the prover alone;
        clauses first."""
        def order(goal):
            return bool(NO_PROMISE.fullmatch(goal[1])), self.goals[goal], "-" in goal[1]

        return min(self.goals, key=order)

    def stored_alone(self, goal):
        """The file of a stored proof of this goal, or of a lemma beside it, if nothing else of the
        function was tried."""
        if self.goals.get(goal, 2) < 2:
            return None
        keys = [key for key in (goal, *self.stored) if key in self.stored and key[0] == goal[0]]
        return self.stored[keys[0]] if keys else None

    def unfit(self, goal):
        """The file of a stored proof of the goal's function that no longer fits the code."""
        return next((file for function, file, _ in self.gone if goal and function == goal[0]), None)

    def places(self):
        return "; ".join(" ".join(goal) for goal in self.goals) or "no goal"


def function_of_proof(path):
    """The function of a folder of proofs: its name, and the type before it, whose trait is in
    front of it there."""
    *_, owner, name = ["", *path.split("/")]
    return f"{''.join(reversed(owner.split('+')))}::{name}" if owner[:1].isupper() else name


def not_read(lines):
    """The line that says that a source could not be read; one that only makes a claim false can."""
    for line in lines:
        if (found := IN_SOURCE.match(line)) and (not found[1] or GONE.search(found[2])):
            return line
    return ""


@functools.lru_cache(None)
def functions_of(crate):
    """The functions of a crate, as goals name them, and whether each has a contract, of its own or
    of its trait."""
    found = {}
    for path in (common.TOP / "crates" / crate / "src").rglob("*.rt"):
        for name, functions in contracts_in(path.read_text()).items():
            found[name] = any(it.ensured or it.trait for it in functions)
    return found
