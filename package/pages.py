"""Manual pages: that of cachesim is the manual, made into a page by Debian's lowdown; that of a
tool is its help, whose blocks become paragraphs, lists of words with their meanings, and code."""

import re
import textwrap

from shared import TOP, changes, said, tool

# of the manual: its title, a sentence, a block of calls, and the contents
BEGINNING = re.compile(r"# [^\n]*\n\n(?P<first>.*?)\n\n(?: {4}[^\n]*\n)+\n"
                       r"Contents: .*?\n\n(?=## )", re.S)
# a cell of tbl(1) that shows at most so many characters
SHORT = re.compile(r"T\{\n((?:(?:\\f.)*(?:\\\(..|\\?.)){0,24}(?:\\f.)*)\nT\}")
# how a help begins: with the call and behind blanks what it does, also below argparse's usage; with
# that usage and a sentence; or with a sentence and an indented call
FORMS = (r"(?:usage: (?:.+\n)+\n)?(?P<call>NAME .*?) {3,}(?P<what>(?s:.*?))(?:\n\n|$)",
         r"usage: (?P<call>NAME (?s:.*?))\n\n(?=(?P<what>(?s:.*)))",
         r"(?P<what>(?:\S.*\n)+)\n +(?P<call>NAME (?s:.*?))\n\n")
# how a list of options, or of words with their meanings, begins
LIST = re.compile(r" *(?:-|\S+ {3,}\S)")
WHERE = ("The folders examples and tests are in share/doc/cachesim, beside the share/man of this "
         "page.")


def installed(text, names):
    """A text with the names that the tools have where they are installed."""
    return re.sub(rf"\btools/(?:lab/)?({names})(?![\w.-])", r"cachesim-\1", text)


def table(found):
    """A table of tbl(1): the last column has what short texts leave of the terminal's width."""
    text = SHORT.sub(r"\1", found[0]).replace(" expand", "")
    return re.sub(r"(lb?)(\.?)\n", r"\1x\2\n", text, count=2) + ".sp\n"


def of_program(texts, names):
    """The manual with NAME and SYNOPSIS instead of its title, list of calls and contents."""
    manual = (TOP / "docs/manual.md").read_text(encoding="utf-8")
    beginning = BEGINNING.match(manual)
    if not beginning:
        tool.fail("docs/manual.md doesn't begin with a title, a sentence, a block of calls, "
                  "'Contents:' and a section")
    what = texts["cachesim"].lstrip().partition("\n")[0]
    calls = re.findall(r"^Usage: (cachesim \w.*)$", "\n".join(texts.values()), re.M)
    calls = re.sub(r"<(.+?)>", r"\1", "`  \n`".join([*calls, "cachesim [COMMAND] --help"]))
    others = ", ".join(f"`{name}`(1)" for name in [*texts, "valgrind"] if re.search("[-v]", name))
    text = "\n\n".join([
        f"## Name\n\ncachesim - {what[0].lower()}{what[1:]}", f"## Synopsis\n\n`{calls}`",
        f"## Description\n\n{beginning['first']}", manual[beginning.end():],
        f"## See also\n\n{others}\n\nThe cookbook and the other documents are there too. {WHERE}"])
    # a page has no links to other files
    text = installed(re.sub(r"\[([^]]*)\]\((?!https?:)[^)]*\)", r"\1", text), names)
    text = re.sub(r"^## (.*)$", lambda line: f"# {line[1].upper()}", text, flags=re.M)
    text = re.sub(r"^#(##+ )", r"\1", text, flags=re.M)
    version, day, _ = changes()[0]
    known = {"title": "CACHESIM", "section": 1, "date": day.date(), "source": f"cachesim {version}",
             "volume": "User Commands"}
    page = said("lowdown", "-sTman", "--parse-no-super",
                *(f"-M{key}={value}" for key, value in known.items()), text=text)
    page = re.sub(r"^\.TS\n.*?^\.TE\n", table, page, flags=re.S | re.M)
    # dashes of code as they are typed, and not as hyphens
    page = re.sub(r"\\fC.*?\\fR|^\.EX\n.*?^\.EE$|(?<=\ncachesim) - ",
                  lambda code: re.sub(r"(?<!\\)-", r"\\-", code[0]), page, flags=re.S | re.M)
    # no word is cut, and no line is filled with blanks
    page = re.sub(r"^(\.TH .*\n)", r".nr HY 0\n\1.ad l\n", page, count=1, flags=re.M)
    # a pipe in the code of a table has a backslash there, which lowdown keeps
    return page.replace("\\e|", "|").replace("\\fC", "\\fB")


def plain(text):
    """A text as roff has it, each dash as it is typed."""
    return re.sub(r"^(?=[.'])", r"\\&", text.replace("\\", "\\e").replace("-", "\\-"), flags=re.M)


def flowing(text):
    """The same for a text whose lines are filled: what is in backticks is bold."""
    return re.sub(r"`([^`]+)`", r"\\fB\1\\fR", plain(text))


def block_of(block, names):
    """A block of a help in roff: a list of words with their meanings, a paragraph, or code."""
    text = textwrap.dedent(block)
    if LIST.match(block):
        entries = (re.split(r" {2,}|\n *|$", entry, maxsplit=1)
                   for entry in re.split(r"\n(?=\S)", text))
        return "\n".join(f".TP\n\\fB{plain(word)}\\fR\n" + flowing(re.sub(r"\n +", "\n", meaning))
                         for word, meaning in entries)
    if not block.startswith(" "):
        return f".PP\n{flowing(text)}"
    code = re.sub(rf"(^ *(?:\$ )?|[|;&(] *)({names})(?= )", r"\1cachesim-\2", text, flags=re.M)
    return f".PP\n.RS 4\n.EX\n{plain(code)}\n.EE\n.RE"


def of_tool(name, text, names):
    text = installed(text.strip("\n"), names)
    found = next(filter(None, (re.match(form.replace("NAME", name), text) for form in FORMS)), None)
    if not found:
        tool.fail(f"{name}: the help begins with no call of {name} and what it does")
    call = re.sub(r"\s+", " ", found["call"][len(name):])
    # of several sentences the first; '..' ends none
    what = re.sub(r"\s+", " ", re.split(r"(?<!\.)\.(?:\s|$)", found["what"])[0]).replace("`", "")
    # what is indented below a paragraph is a block of its own
    rest = re.sub(r"^(?!\S.* {2})(\S.*\n)(?= )", r"\1\n", text[found.end():], flags=re.M)
    version, day, _ = changes()[0]
    return "\n".join([
        ".nr HY 0",
        f'.TH CACHESIM-{name.upper()} 1 {day.date()} "cachesim {version}" "User Commands"',
        ".ad l",
        ".SH NAME", f"cachesim\\-{plain(name)} \\- {plain(what[0].lower() + what[1:])}",
        ".SH SYNOPSIS", f"\\fBcachesim\\-{plain(name)}\\fR{plain(call)}",
        ".SH DESCRIPTION", *(block_of(block, names) for block in re.split(r"\n{2,}", rest)),
        ".SH SEE ALSO", "\\fBcachesim\\fR(1)",
        *([".PP", WHERE] if re.search(r"\b(?:examples|tests)/", text) else []), ""])
