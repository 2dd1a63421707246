"""What documents say in numbers, and what each number is compared with.

A fact is a sentence with a group for each number, the page that has it, and a function that says
what the numbers must be: from the code or the same page (facts_of_code.py), or from what was
measured (facts_of_measures.py). A sentence that another test compares names that instead.
"""

import re
from typing import NamedTuple

import common

NUMBER = r"([\d,.]*\d)"
WORDS = "none one two three four five six seven eight nine ten".split()


def pages():
    """The documents of the repository, except its history."""
    patterns = ("README.md", "docs/*.md", "examples/*.md", "tests/*.md", "tools/**/README.md",
                "crates/*/CALLING.md")
    paths = (path for pattern in patterns for path in sorted(common.TOP.glob(pattern)))
    return [str(path.relative_to(common.TOP)) for path in paths]


class Fact(NamedTuple):
    pages: tuple
    sentence: re.Pattern
    wanted: object
    is_of_each: bool

    def found(self, page, text):
        """Where a page says it."""
        return list(self.sentence.finditer(text)) if page in (self.pages or (page,)) else []


FACTS = []


def pattern(sentence):
    """A blank stands for any, also for the end of a line; one in brackets for itself."""
    return re.compile(re.sub(r"(\[[^]]*\])| ", lambda it: it[1] or r"\s+", sentence), re.M)


def fact(pages, sentence, wanted):
    """A sentence that each of these pages has once. What is wanted is a function, or a script or a
    test of test_facts.py that compares it."""
    names = (pages,) if isinstance(pages, str) else tuple(pages)
    FACTS.append(Fact(names, pattern(sentence), wanted, False))


def everywhere(sentence, wanted):
    """What each page that says it must say so, as one of several values."""
    FACTS.append(Fact((), pattern(sentence), wanted, True))


def constant(crate, source, name):
    """The value of a constant of the code; a product of numbers and constants of limits.rt."""
    text = (common.TOP / "crates" / crate / "src" / source).read_text()
    sign = rf"^(?:pub(?:\(\w+\))? )?const {name}: \w+ = (?:(\d+) \* MAX_LINES|(\d[\d_]*));$"
    times, value = re.search(sign, text, re.M).groups()
    return int(value) if value else int(times) * constant("trace_core", "limits.rt", "MAX_LINES")


def power(number):
    """A power of two as pages write it."""
    assert number & (number - 1) == 0, number
    return f"2^{number.bit_length() - 1}"


def flat(page):
    return " ".join((common.TOP / page).read_text().split())
