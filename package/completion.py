"""Completion for bash, zsh and fish, made from what the program and the tools say with --help.

An option is a line of a help that begins with it, behind blanks. Its value is one of several words
where it stands as u|d|i or {yes,no}, or where the option's text ends in letters with their
meanings, as 'u all, d data'. A tool that takes the options of `cachesim sweep` or `cachesim din`,
as its help says, has these too, except the trace and what the help leaves out. Each argument of a
tool may be a file.
"""

import re
import shlex
from collections import namedtuple

from shared import words_in

# an option: blanks, its spellings, its value, and its text with what stands further right below
OPTION = re.compile(r"^( +)(?=-)(?:(-\w)(?:, )?)?(--[\w-]+)?(?: (\S+))?"
                    r"((?: {2,}.*)?(?:\n\1 {2,}(?![ -]).*)*)$", re.M)
LETTER = re.compile(r"([a-z]) (.+)")
ONE_DASH = re.compile(r"--(?:l\d-\w+|informat)")  # as in Dinero IV
PASSED_ON = re.compile(r"(?:those of|what|options? of)\s+`(cachesim (?:sweep|din))`(?:\s+takes)?"
                       r"(?:,\s+(?:but\s+for|except|without)\s+(-[\w-]+(?:\s+and\s+-[\w-]+)*))?")
ANOTHER_NAME = re.compile(r"(--[\w-]+)\s+is\s+another\s+name\s+for\s+(-[\w-]+)")


# its spellings, what its value is called if it has one, the beginning of its help, the words that
# the value is one of, each with its meaning, and whether it is else a file and may be given again
Option = namedtuple("Option", "names value text words is_file repeats")
# what a command takes: options; words for the first argument, each with its meaning; files
Command = namedtuple("Command", "options words files")
HELP = Option(("-h", "--help"), "", "show the help", [], False, False)


def words_of(value, text):
    """The words that a value is one of, each with its meaning."""
    if re.search("[|{]", value):
        return [(word, "") for word in re.split("[|,]", value.strip("{}"))]
    letters = [LETTER.fullmatch(part) for part in text.rpartition(": ")[2].split(", ")]
    is_list = value and len(letters) > 1 and all(letters)
    return [match.groups() for match in letters] if is_list else []


def options_in(text, is_tool):
    """The options that a help tells of. Each value of a tool's option may be a file."""
    # an example may go on in a further line
    for match in OPTION.finditer(re.sub(r"\\\n *", "", text)):
        *names, value, meaning = (part or "" for part in match.groups()[1:])
        # a line may end within a word that has a hyphen
        meaning = re.sub(r"(?<=\w-) ", "", " ".join(meaning.split()))
        beginning = re.sub(r" \[default: .*\]$", "", meaning).partition(". ")[0]
        if ONE_DASH.fullmatch(names[-1]):
            names[0] = names[-1][1:]
        called = "value" if re.search("[|{]", value) else value.strip("<>")
        yield Option(tuple(filter(None, names)), called, beginning, words_of(value, beginning),
                     is_tool or called == "FILE", "may be repeated" in meaning)


def commands_of(texts):
    """What each command takes, by the helps: of the program, as 'cachesim sweep', and the tools."""
    commands = {}
    for name, text in texts.items():
        is_tool = name.startswith("cachesim-")
        passed_on = PASSED_ON.search(text) if is_tool else None
        taken = commands[passed_on[1]].options if passed_on else []
        left_out = {"-t", *re.findall(r"-[\w-]+", passed_on[2] or "")} if passed_on else set()
        other = {known: another for another, known in ANOTHER_NAME.findall(text)}
        given = [option._replace(names=(*option.names, *filter(None, map(other.get, option.names))))
                 for option in taken if not left_out & {*option.names}]
        found = [*([HELP] if is_tool else []), *given, *options_in(text, is_tool)]
        words = [(word, re.split(r"[:.] ", meaning)[0]) for word, meaning in words_in(text)]
        options = {option.names[-1]: option for option in found}
        commands[name] = Command([*options.values()], words, is_tool)
    return commands


def signs(name):
    """What stands behind a name for zsh, if it has a value, and before it for fish."""
    return ("=", "-l") if name.startswith("--") else ("+", "-s") if len(name) == 2 else ("", "-o")


def listed(words, between):
    """Words with their meanings, in quotes."""
    return " ".join(f'{word}{between}"{text}"' if text else word for word, text in words)


BASH = """\
# completion of cachesim and its tools, made from their help
_cachesim() {
    local word=${COMP_WORDS[COMP_CWORD]} before=${COMP_WORDS[COMP_CWORD - 1]}
    local given=" ${COMP_WORDS[*]:1:COMP_CWORD - 1} " line=${COMP_WORDS[0]##*/}
    local first='' options='' files='' words='' dashes=- option name
    COMPREPLY=()
    # an option and its value may be one word, which bash cuts at the '='
    [[ $word != = ]] || word=''
    [[ $before != = ]] || before=${COMP_WORDS[COMP_CWORD - 2]}
    [[ $COMP_CWORD = 1 || $line != cachesim ]] || line+=" ${COMP_WORDS[1]}"
    # an option has its name, without dashes where it may have one or two, a plus if it may be
    # repeated, and behind '=' the words of its value, or FILE
    case $line in
CASES
    esac
    [[ $COMP_CWORD != 1 || -z $first ]] || words=$first files=''
    # what may have one dash is shown with one, unless the word has two
    [[ $word != --* ]] || dashes=--
    for option in $options; do
        name=${option%%[+=]*}
        if [[ $option = *=* && $before = ?(-)?(-)"$name" ]]; then
            words=${option#*=} files=''
            [[ $words != FILE ]] || words='' files=1
            break
        fi
        [[ $files && $word != -* ]] && continue
        [[ $option != *+* && $given = *" "?(-)?(-)"$name "* ]] && continue
        [[ $name = -* ]] || name=$dashes$name
        words+=" $name"
    done
    [[ -z $files ]] || compopt -o default
    mapfile -t COMPREPLY < <(compgen -W "${words//,/ }" -- "$word")
}
complete -F _cachesim NAMES
"""


def filled(form, cases, commands):
    """The text of a shell, with its cases and the names of the program and the tools."""
    names = " ".join(name for name in commands if " " not in name)
    return form.replace("CASES", "\n".join(cases)).replace("NAMES", names)


def bash(commands):
    """A function that is called for each word: it gives words, files or nothing for the value of an
    option, otherwise options."""

    def entries(option):
        value = "=" + (",".join(dict(option.words)) or "FILE" * option.is_file)
        names = {name.lstrip("-") if {f"-{name}", name[1:]} & {*option.names} else name: None
                 for name in option.names}
        return (f"{name}{'+' * option.repeats}{value * bool(option.value)}" for name in names)

    cases = []
    for line, takes in commands.items():
        options = " ".join(each for option in takes.options for each in entries(option))
        cases.append(f"    '{line}') first='{' '.join(dict(takes.words))}'"
                     f" files={'1' * takes.files} options='{options}' ;;")
    return filled(BASH, cases, commands)


ZSH = """\
#compdef NAMES
# completion of cachesim and its tools, made from their help

local line=$service
if [[ $service = cachesim ]] && (( CURRENT > 2 )); then
    line+=" $words[2]"
    shift words
    (( CURRENT-- ))
fi
case $line in
CASES
esac
"""


def zsh(commands):
    """Calls of _arguments, which knows how the options of a command are written."""

    def bare(text):
        return re.sub(r"([][\\:])", r"\\\1", text)

    def specs(takes):
        for option in takes.options:
            words = f"(({bare(listed(option.words, ':'))}))" if option.words else ""
            action = words or "_files" * option.is_file or " "
            value = f":{bare(option.value)}:{action}" if option.value else ""
            start = "*" if option.repeats else f"({' '.join(option.names)})"
            for name in option.names:
                yield f"{start}{name}{signs(name)[0] if value else ''}[{bare(option.text)}]{value}"
        if takes.words:
            yield f"1:word:(({bare(listed(takes.words, ':'))}))"
        if takes.files:
            yield "*:file:_files"

    cases = (" \\\n    ".join([f"'{line}') _arguments", *map(shlex.quote, specs(takes))]) + " ;;"
             for line, takes in commands.items())
    return filled(ZSH, cases, commands)


def fish(commands):
    """A line for each first word, and for each option of each command."""
    lines = ["# completion of cachesim and its tools, made from their help",
             "complete -c cachesim -f"]
    for line, takes in commands.items():
        name, _, word = line.partition(" ")
        start = f"complete -c {name}"
        first = f"{start} -n __fish_use_subcommand"
        if not takes.files:
            start = f"{start} -n '__fish_seen_subcommand_from {word}'" if word else first
        for option in takes.options:
            names = (f"{signs(name)[1]} {name.lstrip('-')}" for name in option.names)
            values = shlex.quote(listed(option.words, "\\t"))
            value = f"-x -a {values}" if option.words else "-r -F" if option.is_file else "-x"
            lines.append(" ".join([start, *names, *[value] * bool(option.value), "-d",
                                   shlex.quote(option.text)]))
        lines += [f"{first} -f -a {each} -d {shlex.quote(text)}" for each, text in takes.words]
    return "\n".join([*lines, ""])
