"""Puts all that is installed below a prefix, and removes it again."""

import gzip
import os
import pathlib
import re
import shutil
import subprocess
import sys
import tempfile

import completion
import pages
from shared import TOP, said, tool, tools, words_in
from lib.compiled import compiled

BUILT = TOP / "crates/cachesim/out/cachesim"
LIST = "lib/cachesim/installed"
# where each shell looks for the completion of a command; zsh for one file of all
SHELLS = {completion.bash: "bash-completion/completions/{}",
          completion.fish: "fish/vendor_completions.d/{}.fish",
          completion.zsh: "zsh/site-functions/_cachesim"}
# documents, and what these and the pages name
DOCUMENTS = ["*.md", "CITATION.cff", "docs", "examples", "tests/README.md", "tests/cases/inputs",
             "tests/tools/lab/student.c", "tools/README.md", "tools/*/README.md"]
# a call in a tool that names a C part of it
PART = re.compile(r"\b(?:compiled|Arguments|Explained)\((?:__doc__, )?\"([\w.-]+)\"")


def write(path, content):
    path.parent.mkdir(parents=True, exist_ok=True)
    path.write_bytes(content)


def is_compiled(path):
    """Whether the C parts of a tool are there, or can be compiled; a line says why they can't."""
    try:
        for part in PART.findall(path.read_text(encoding="utf-8")):
            compiled(part)
    except SystemExit as end:
        if end.code != tool.FAILED:
            raise  # a signal
        return False
    return True


def put_tools(tree):
    """What is in tools/ but C code and documents, with links to the tools, which it returns. Those
    are left out that have a C part, where it can't be compiled."""
    to, found = tree / "lib/cachesim", tools()
    absent = [name for name, path in found.items() if not is_compiled(TOP / "tools" / path)]
    ignored = shutil.ignore_patterns("*.[ch]", "*.md", ".*", "__pycache__", "Makefile")
    shutil.copytree(TOP / "tools", to, ignore=ignored, symlinks=True)
    for name in absent:
        (to / found.pop(name)).unlink()
    if absent:
        tool.warn(f"left out, since their C parts are not compiled: {' '.join(absent)}")
    for name, path in found.items():
        (tree / f"bin/cachesim-{name}").symlink_to(f"../lib/cachesim/{path}")
    return found


def helps(found):
    """What the program, its commands and the tools say with --help, by installed names."""
    texts = {"cachesim": said(BUILT, "--help")}
    for word, _ in words_in(texts["cachesim"]):
        texts[f"cachesim {word}"] = said(BUILT, word, "--help")
    return {**texts, **{f"cachesim-{name}": said(TOP / "tools" / path, "--help")
                        for name, path in found.items()}}


def put_texts(share, found, texts):
    """The manual pages, the completion of all commands, and the documents."""
    names = "|".join(map(re.escape, found))
    written = {f"cachesim-{name}": pages.of_tool(name, texts[f"cachesim-{name}"], names)
               for name in found}
    if shutil.which("lowdown"):
        written["cachesim"] = pages.of_program(texts, names)
    else:
        tool.warn("left out, since lowdown is missing (apt-get install lowdown): the manual page")
    for name, page in written.items():
        write(share / f"man/man1/{name}.1.gz", gzip.compress(page.encode(), mtime=0))
    commands = completion.commands_of(texts)
    for writer, place in SHELLS.items():
        first, *others = dict.fromkeys(place.format(name.partition(" ")[0]) for name in commands)
        write(share / first, writer(commands).encode())
        for link in others:
            (share / link).symlink_to(os.path.basename(first))
    for path in (path for pattern in DOCUMENTS for path in TOP.glob(pattern)):
        there = share / "doc/cachesim" / path.relative_to(TOP)
        there.parent.mkdir(parents=True, exist_ok=True)
        (shutil.copytree if path.is_dir() else shutil.copyfile)(path, there)


def stage(tree):
    """Puts all into a folder, as it stands below the prefix, and returns the tools that are there.
    What can't be made is left out, and a line says so."""
    if not BUILT.is_file():
        tool.fail(f"no program {BUILT}: make builds it")
    share = tree / "share"
    (tree / "bin").mkdir(parents=True)
    shutil.copy(BUILT, tree / "bin")
    found = put_tools(tree)
    put_texts(share, found, helps(found))
    for path in tree.rglob("*"):
        if not path.is_symlink():
            is_run = path.is_dir() or share not in path.parents and path.stat().st_mode & 0o100
            path.chmod(0o755 if is_run else 0o644)
    return found


def remove(prefix):
    """Removes what the list names, and it last, so that after a fault it can be done again."""
    listed = prefix / LIST
    lines = listed.read_text(encoding="utf-8").splitlines()
    paths = [pathlib.Path(os.path.normpath(prefix / line)) for line in reversed(lines)]
    for is_last in (False, True):
        for path in paths:
            if path.is_dir() and not path.is_symlink():
                if not any(path.iterdir()):
                    path.rmdir()
            elif os.path.lexists(path) and (is_last or path != listed):
                path.unlink()


def put(tree, prefix):
    """Copies the staged tree, after the list of what that makes."""
    if (prefix / LIST).exists():
        remove(prefix)
    found = {prefix / path.relative_to(tree): path for path in sorted(tree.rglob("*"))}
    files = [path for path, staged in found.items() if not staged.is_dir()]
    folders = [path for path in [*reversed(prefix.parents), prefix, *found]
               if path not in files and not os.path.lexists(path)]
    lines = [os.path.relpath(path, prefix) for path in [*folders, *files, prefix / LIST]]
    write(prefix / LIST, "".join(f"{line}\n" for line in lines).encode())
    for path, staged in found.items():
        if staged.is_dir():
            path.mkdir(exist_ok=True)
        else:
            path.unlink(missing_ok=True)
            shutil.copy(staged, path, follow_symlinks=False)


def install(prefix):
    with tempfile.TemporaryDirectory(prefix="cachesim-install.") as folder, tool.faults_of(prefix):
        tree = pathlib.Path(folder, "tree")
        stage(tree)
        # tools begin sooner where Python finds what they share compiled; -s: without the folder
        command = [sys.executable, "-m", "compileall", "-q", "--invalidation-mode", "checked-hash"]
        subprocess.run([*command, "-s", tree, tree / "lib/cachesim"], check=False)
        put(tree, prefix)
    tool.write_lines([f"installed: {prefix}/bin/cachesim"])


def uninstall(prefix):
    if not (prefix / LIST).exists():
        tool.fail(f"nothing is installed below {prefix}: there is no {prefix / LIST}")
    with tool.faults_of(prefix):
        remove(prefix)
    tool.write_lines([f"removed from {prefix}"])
