"""The completion of bash, zsh and fish, for the program and for the tools."""

import os
import pty
import re
import select
import time

from base import ToolTest, needs
from test_install import installed

PLACES = {"bash": "bash-completion/completions/cachesim", "zsh": "zsh/site-functions/_cachesim",
          "fish": "fish/vendor_completions.d/cachesim.fish"}
# The options of each command, from the manual, and of tools, from their help
CACHES = "size sets bsize assoc repl walloc wback"
ONE_OR_TWO = ["informat", *(f"{cache}{option}" for cache in ("l1-i", "l1-d", "l1-u", "l2-u")
                            for option in CACHES.split())]
SWEEP = "-h --help --bsize --sets --assoc --size --kind --format --after --rows --pow2 --full"
DIN = "-h --help --seed " + " ".join(f"-{name} --{name}" for name in ONE_OR_TWO)
OPTIONS = {
    "cachesim sweep": f"{SWEEP} -t",
    "cachesim csim": "-s -E -b -t -v -h --help",
    "cachesim din": f"{DIN} -t",
    "cachesim log": f"{DIN} -t",
    "cachesim-best": "-h --help --up-to --within --below --rows --front --measure --traffic "
    "--miss-cost",
    "cachesim-trace": "-h --help -o --output --program-output --from --to --during --kind --skip "
    "--count --with --libraries --any-version --map --heap --threads",
    "cachesim-to-din": "-h --help",
    "cachesim-din-table": DIN,
    "cachesim-over-time": f"{DIN} --each --cache --format",
    "cachesim-by-page": f"{DIN} --page --cache --format",
    "cachesim-by-line": f"{DIN} --at --program --base --map --by --heap --evicted-by --callgrind "
    "--callers --skip-site --source --shared",
    "cachesim-profile": f"{DIN} --at --by --callers --skip-site --evicted-by --shared --callgrind "
    "--rows --csv -o --output --from --to --during --skip --count --libraries --any-version",
    "cachesim-second-level": f"{DIN} --format",
    "cachesim-three-c": SWEEP,
    "cachesim-optimal": SWEEP.removesuffix(" --full"),
    "cachesim-any-index": "-h --help --sets --bsize --assoc --index --kind --format",
    "cachesim-prefetch": f"{DIN} --buffer --cache --format",
    "cachesim-warm": SWEEP,
    "cachesim-sweep-parallel": f"{SWEEP} --pages",
}
FORMATS = "pin champsim dinero memtrace drmemtrace execlog spike gem5 lackey addresses"
# what is offered for the last word, which begins behind the last blank
LINES = {
    "cachesim sw": "sweep",
    "cachesim x": "",
    "cachesim sweep --kind ": "u d i",
    "cachesim sweep --bsize ": "",
    "cachesim sweep --after ": "",
    "cachesim csim -b ": "",
    "cachesim din --seed ": "",
    "cachesim din -l1-usize ": "",
    "cachesim din --l2-urepl ": "l f r",
    "cachesim log -l1-urepl ": "l f r",
    "cachesim din -l1-dwalloc ": "a n",
    "cachesim din --l1-iwback ": "a n",
    "cachesim din -l1-uw": "-l1-uwalloc -l1-uwback",
    "cachesim din --l1-uw": "--l1-uwalloc --l1-uwback",
    "cachesim din -l2-us": "-l2-usize -l2-usets",
    "cachesim-best --fr": "--front",
    "cachesim-trace --with ": "qemu lackey",
    "cachesim-trace --kind=d --wi": "--with",
    "cachesim-plot --only ": "size block pareto curve three-c traffic kinds",
    "cachesim-sweep-parallel 4 t.din --s": "--sets --size",
    "cachesim-warm 1000 t.din --kind ": "u d i",
    "cachesim-to-din p": "pin",
    "cachesim-by-line t.din -l1-dw": "-l1-dwalloc -l1-dwback",
    "cachesim-by-page t.din --l1-dw": "--l1-dwalloc --l1-dwback",
    "cachesim-by-page t.din -l1-dsize ": "",
    "cachesim-second-level t.din -l2-urepl ": "l f r",
    "cachesim-over-time t.din --format ": "d l",
    "cachesim-din-table auto t.din -l1-ibsize 16 -l1-ib": "",
    "cachesim-grade ./csim --geometry 1,1,1 --geo": "--geometry",
    **{f"cachesim {option} ": "d l"
       for option in ("sweep --format", "din -informat", "din --informat")},
}


def written(shell):
    """The completion for a shell, as it is installed."""
    return (installed() / "share" / PLACES[shell]).read_text()


class Bash(ToolTest):
    """What the function for bash offers, called by this test, with FILES for files. An '=' is a
    word of its own, as bash cuts it."""

    def offered(self, line):
        words = re.sub("(?<=[^ ])=", " = ", line).split(" ")
        quoted = " ".join(f"'{word}'" for word in words)
        script = f"{written('bash')}\ncompopt() {{ [[ $* != '-o default' ]] || echo FILES; }}\n"
        script += f"COMP_WORDS=({quoted}) COMP_CWORD={len(words) - 1}; _cachesim\n"
        script += 'echo "${COMPREPLY[@]}"'
        return set(self.good(self.run_command("bash", "-c", script)).split())

    def test_options(self):
        """What may have one dash or two is shown with one, unless the word has two."""
        for command, options in OPTIONS.items():
            words = set(options.split())
            two = {option for option in words if option.startswith("--")}
            one = words - {option for option in two if option[1:] in words}
            files = {"FILES"} if "-" in command else set()
            self.assertEqual(self.offered(f"{command} a -"), one | files)
            self.assertEqual(self.offered(f"/b/{command} a --"), two | files)
            self.assertEqual(self.offered(f"{command} a "), files or one)
        for name in ("grade", "lab-trace"):
            self.assertIn("--help", self.offered(f"cachesim-{name} -"))

    def test_lines(self):
        in_one_word = {f"{line[:-1]}=": words for line, words in LINES.items() if line[-1] == " "}
        left = " ".join(set(OPTIONS["cachesim sweep"].split()) - {"--bsize", "--pow2", "--kind"})
        others = " ".join(f"-l1-u{name}" for name in CACHES.split()[1:])
        for line, wanted in {
            **LINES, **in_one_word,
            "cachesim ": "sweep csim din log -h --help",
            "cachesim-to-din ": f"{FORMATS} -h --help",
            "cachesim csim -t ": "FILES",
            "cachesim-trace --output ": "FILES",
            "cachesim sweep --kind=d": "d",
            "cachesim-trace --with=q": "qemu",
            "cachesim din --l2-usi": "--l2-usize",
            # each option is offered once, however many dashes it had
            "cachesim sweep --bsize 16 --pow2 --kind=d ": left,
            "cachesim csim -t s -": "-s -E -b -v -h --help",
            "cachesim din -l1-usize 1k -l1-u": others,
            "cachesim din --l1-usize 1k -l1-u": others,
            "cachesim din -l1-usize 1k --l1-usi": "",
            "cachesim din --l1-usize 1k --l1-usi": "",
        }.items():
            is_file = {"FILES"} if wanted != "FILES" and not line.endswith(("=", " ")) else set()
            self.assertEqual(self.offered(line) - is_file, set(wanted.split()), line)


class Shells(ToolTest):
    """The shells themselves, in a folder of two traces and a folder."""

    FILES = {"cachesim sweep -t a": "a trace.din", "cachesim-plot b": "b.din",
             "cachesim csim -t ": "a trace.din|b.din|folder"}
    # a line is completed by all that fits; 'cachesim' is a function that writes its words
    SHOW = ("cachesim() { printf '\\n'; printf '<%s>' \"$@\"; echo EN''-D; }; "
            "cachesim-plot() { cachesim \"$@\"; }; cd traces; echo REA''-DY\n")
    TYPED = ("cachesim sw", "cachesim sweep --kind ", "cachesim sweep --bsize ",
             "cachesim din --l2-urepl ", "cachesim din -l1-uw", "cachesim din --l1-uw",
             "cachesim-plot --only ")

    def setUp(self):
        super().setUp()
        self.env = {"PATH": os.environ["PATH"], "HOME": str(self.folder), "TERM": "dumb",
                    "LC_ALL": "C.UTF-8", "PS1": "> "}
        (self.folder / "traces/folder").mkdir(parents=True)
        for name in ("a trace.din", "b.din"):
            (self.folder / "traces" / name).touch()

    def on_terminal(self, words, *typed):
        """What a program shows on a terminal that is given texts, each with a mark to wait for."""
        process, terminal = pty.fork()
        if not process:
            os.chdir(self.folder)
            os.execvpe(words[0], words, self.env)
        shown, seen = b"", 0
        for text, mark in typed:
            os.write(terminal, text.encode())
            end = time.monotonic() + 60
            while mark not in shown[seen:] and time.monotonic() < end:
                try:
                    if select.select([terminal], [], [], 60)[0]:
                        shown += os.read(terminal, 65536)
                except OSError:
                    break
            seen = len(shown)
        os.close(terminal)
        os.waitpid(process, 0)
        return shown.decode(errors="replace")

    def check(self, words, before, key):
        lines = {**{line: "|".join(LINES[line].split()) for line in self.TYPED}, **self.FILES}
        for line, wanted in lines.items():
            shown = self.on_terminal(words, (f"{before}; {self.SHOW}", b"REA-DY"),
                                     (f"{line}{key}\n", b"EN-D"))
            last = "<" + shown.rpartition("\n<")[2]
            found = [word.rstrip("/") for word in re.findall(r"<(.*?)>", last)]
            typed = line.split()[1:] if line.endswith(" ") else line.split()[1:-1]
            self.assertEqual(sorted(found), sorted([*typed, *filter(None, wanted.split("|"))]),
                             (line, shown))

    @needs("bash-completion")
    def test_bash(self):
        share = self.folder / "share/bash-completion/completions"
        share.mkdir(parents=True)
        for name in "cachesim", "cachesim-plot":
            (share / name).write_text(written("bash"))
        self.env["XDG_DATA_DIRS"] = str(self.folder / "share")
        before = (". /usr/share/bash-completion/bash_completion; "
                  "bind 'set enable-bracketed-paste off'")
        self.check(["bash", "--norc", "-i"], before, "\x1b*")

    @needs("zsh")
    def test_zsh(self):
        (self.folder / "site").mkdir()
        (self.folder / "site/_cachesim").write_text(written("zsh"))
        before = (
            "fpath=(./site $fpath); autoload -Uz compinit && compinit -u -D;"
            " zle -C all-matches complete-word _generic; bindkey '^Xa' all-matches;"
            " zstyle ':completion:all-matches::::' completer _all_matches _complete;"
            " zstyle ':completion:all-matches:*' insert true; autoload +X _cachesim"
        )
        self.check(["zsh", "-f", "-i"], before, "\x18a")

    @needs("zsh")
    def test_options_of_zsh(self):
        """Each command has its options, and the whole is read without a fault."""
        (self.folder / "_cachesim").write_text(written("zsh"))
        self.good(self.run_command("zsh", "-n", "_cachesim"))
        for command, options in OPTIONS.items():
            name, _, word = command.partition(" ")
            script = (f'_arguments() {{ print -l -- "$@" }}; service={name} CURRENT=3; '
                      f"words=({name} '{word}' c); source ./_cachesim")
            told = self.good(self.run_command("zsh", "-f", "-c", script))
            found = re.findall(r"(?m)^(?:\(.*?\)|\*)(--?[\w-]+)[=+]?\[", told)
            self.assertEqual(set(found), set(options.split()))
            self.assertEqual("*:file:_files\n" in told, "-" in command)
        start = "#compdef cachesim cachesim-any-index cachesim-best cachesim-by-line "
        self.assertTrue(written("zsh").startswith(start))
        self.assertIn("'1:word:((pin\\:\"Pin", written("zsh"))

    @needs("fish")
    def test_fish(self):
        self.write("c.fish", written("fish"))
        lines = {
            **{line: "|".join(words.split()) for line, words in LINES.items()}, **self.FILES,
            **{f"{command} -": "|".join(words.split()) for command, words in OPTIONS.items()},
            "cachesim ": "sweep|csim|din|log", "cachesim-to-din pin b": "b.din",
            "cachesim sweep --kind=": "--kind=u|--kind=d|--kind=i",
            "cachesim-to-din ": "|".join(FORMATS.split()),
        }
        asked = "".join(f"echo '<{line}>'; complete -C '{line}'; " for line in lines)
        ran = self.run_command("fish", "-N", "-c", f"source c.fish; cd traces; {asked}",
                               env=self.env)
        found = re.findall(r"<(.*)>\n((?:[^<].*\n)*)", self.good(ran))
        self.assertEqual([line for line, _ in found], [*lines])
        for line, told in found:
            words = {each.partition("\t")[0] for each in told.splitlines()}
            words = {word.replace("\\ ", " ").rstrip("/") for word in words}
            given = set(line.split(" ")[:-1])  # an option is offered again
            wanted = set(filter(None, lines[line].split("|")))
            self.assertEqual(words - given, wanted - given, line)
