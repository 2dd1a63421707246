"""The arguments of the tools, which argparse reads."""

import argparse
import os
import re
import sys

from lib import tool
from lib.compiled import compiled


class Arguments(argparse.ArgumentParser):
    """Arguments of a tool, whose help begins with its own text. A fault of them is one line."""

    def __init__(self, text, **given):
        super().__init__(prog=tool.NAME, description=text,
                         formatter_class=argparse.RawDescriptionHelpFormatter, **given)

    def error(self, message):
        tool.misused(message)

    def print_help(self, file=None):
        tool.write_lines(self.format_help().splitlines())


class Build(argparse.Action):
    """Compiles the parts in C of a tool, and ends it."""

    def __call__(self, parser, *_):
        for part in self.const:
            compiled(part)
        parser.exit()


class Collected(argparse.Action):
    """Collects an option and its value, as they are to be handed on."""

    def __call__(self, parser, asked, value, option=None):
        getattr(asked, self.dest).extend([option] if self.nargs == 0 else [option, value])


class Explained(Arguments):
    """Arguments that the text explains: it is the whole help. With --build, which it does not tell
    of, the tool only compiles its `parts`."""

    def __init__(self, text, *parts):
        super().__init__(text.strip(), usage=argparse.SUPPRESS, allow_abbrev=False)
        if parts:
            self.add_argument("--build", action=Build, nargs=0, const=parts)

    def add_argument(self, *names, **given):
        return super().add_argument(*names, **{**given, "help": argparse.SUPPRESS})

    def add_places(self, *names):
        """Arguments in the first places, before all that is handed on."""
        self.places = names
        for name in names:
            self.add_argument(name, nargs="?")

    def add_trace(self, *before):
        self.add_places(*before, "trace")
        self.add_argument("-t", nargs="?", const="", dest="by_t")  # as the program takes it

    def before_program(self, flags=(), others="(?!)", asked=None):
        """What is asked for, the `program` with its words, before which '--' may stand, and the
        other options. These match a pattern. An option that is no flag has a value, which may begin
        with a dash: argparse would take that of another option for the program."""
        options, left = [], sys.argv[1:]
        while left and left[0].startswith("-") and left[0] != "-":
            word = left.pop(0)
            if word == "--":
                break
            has_value = word not in ("-h", "--help", "--build", *flags) and "=" not in word
            options.append("=".join([word, *left[:has_value]]))
            del left[:has_value]
        asked, found = self.parse_known_args(options, asked)
        for word in found:
            if not re.fullmatch(others, word):
                self.error(f"{word.partition('=')[0]} is no option")
        asked.program = left
        return asked, found

    def handed_on(self, needed, asked=None):
        """What is asked for, and what is handed on to the program."""
        words, last = sys.argv[1:], len(self.places) - 1
        if words[last:] and re.match("-.", words[last]) and os.path.exists(words[last]):
            words[last] = f"./{words[last]}"  # a file, and no option
        asked, others = self.parse_known_args(words, asked)
        if getattr(asked, "by_t", None) is not None:
            place = ("first", "second")[last]
            self.error(f"the trace is the {place} argument, and not given by -t")
        is_missing = getattr(asked, self.places[-1]) is None
        if is_missing or {*others[:1]} & {*words[:len(self.places)]}:
            self.error(needed)
        return asked, others
