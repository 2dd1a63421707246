"""The numbers that documents tell, and how many of them are compared with what they are of.

A number of a document stands in its text or in what a command in it writes. None are those in
names, code and links, in a chapter's heading or number, a year, and what a user types. Those that a
shown command writes are compared by its run; those of the text by a fact (facts.py), or not at all.
"""

import re

import common
import documents
import facts_of_code  # noqa: F401
import facts_of_measures  # noqa: F401
from facts import FACTS, pages

NUMBER = re.compile(r"(?<![\w.\-^+])\d[\d,]*(?:\.\d+)?(?:\^\d+)?(?![\w^])")
# what is no text: code, links, comments, headings, the number of an item, a year
NO_TEXT = re.compile(r"`[^`]*`|\]\([^)]*\)|<!--(?:.|\n)*?-->|^#.*|^ *\d+\. |"
                     r"\b(?<![.,\d])(?:19|20)\d\d\b(?![,.]?\d)", re.M)


def lines_of_code(text):
    """The lines that are code, by their numbers, and those that commands in it must write."""
    code, shown = set(), set()
    for block in documents.blocks_of(text):
        code |= {*range(block.number, block.number + len(block.lines))}
        for command in [] if block.reason else block.commands():
            first = command.number + 1 + command.text.count("\n")
            shown |= {*range(first, first + len(command.wanted))}
    return code, shown


def masked(text):
    """A document without what is no text, in which all else is where it was."""
    code, _ = lines_of_code(text)
    lines = [" " * len(line) if number in code else line
             for number, line in enumerate(text.split("\n"), 1)]
    return NO_TEXT.sub(lambda it: re.sub(r"[^\n]", " ", it[0]), "\n".join(lines))


def shown_by(text):
    """How many numbers commands of a document write, all of which their run compares."""
    _, shown = lines_of_code(text)
    lines = (line for number, line in enumerate(text.split("\n"), 1) if number in shown)
    return sum(len(NUMBER.findall(line)) for line in lines)


def compared(page, text):
    """The places of the numbers of a page that a fact compares."""
    places = set()
    for fact in FACTS:
        for found in fact.found(page, text):
            for group in range(1, found.re.groups + 1):
                places |= {*range(*found.span(group))}
    return places


def counted(page):
    """How many numbers the text of a page has, and how many of them are compared."""
    text = (common.TOP / page).read_text()
    places = compared(page, text)
    numbers = [found.start() for found in NUMBER.finditer(masked(text))]
    return len(numbers), sum(place in places for place in numbers)


def told():
    """A line for each page that has numbers: how many are compared of how many."""
    for page in pages():
        count, of_them = counted(page)
        if count:
            yield page, of_them, count
