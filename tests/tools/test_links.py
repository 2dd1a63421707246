"""Documents name files and headings that are there, and pages for callers names that are there."""

import functools
import re
import unittest

import base
import documents
from test_documents import DOCUMENTS

LINK = re.compile(r"\[[^]]+\]\((?!\w+:)([^)#\s]*)(?:#([^)\s]*))?\)")
HEADING = re.compile(r"^#+ (.*)$", re.M)
# names of the code, and the crate that they are said to be of
OF_CRATE = re.compile(r"((?:`[^`]+`(?:,| and| or)?\s+)+)(?:\(|of (?:the )?)`(\w+)`")
# a target of make, in a command
TARGET = re.compile(r"(?:^|[;|&]|\$) *(?:\w+=\S+ )*make ([a-z][\w-]*)", re.M)
# a file or a folder of the repository; NAME and what is built stand for any
PATH = re.compile(r"`((?:crates|docs|examples|package|tests|tools)/[\w./*-]+)")
ANY = re.compile(r"NAME|/out\b|\.\.")
# a source or a script, by its name or the end of its path, and those of other programs
SOURCE = re.compile(r"`((?:[\w-]+/)*[\w-]+\.(?:rt|antt|py|sbatch))`")
OF_OTHERS = {"util/decode_packet_trace.py"}
PAGES = sorted(base.TOP.glob("crates/*/CALLING.md"))
CODE = re.compile(r"`([^`]+)`")
NAME = re.compile(r"[A-Za-z]\w+")
FENCED = re.compile(r"^```.*?^```$", re.M | re.S)
USE = re.compile(r"^(?:    )?use (\w+)::(?:(\w+)::)?(?:\{(.*)\}|(\w+));$", re.M)
ROOT = re.compile(r"^pub (?:(?:mod|fn) (\w+)|use [\w:]+?::(?:\{([^}]*)\}|(\w+));)", re.M)


def anchors(text):
    """The headings as links name them."""
    headings = (re.sub(r"[^\w -]", "", heading.lower()) for heading in HEADING.findall(text))
    return {heading.strip().replace(" ", "-") for heading in headings}


def broken(text, path):
    """The links of a document that lead nowhere, and the paths in it that are not there."""
    for name, anchor in LINK.findall(text):
        target = path.parent / name if name else path
        if not target.exists():
            yield name
        elif anchor and anchor not in anchors(text if target == path else target.read_text()):
            yield f"{name}#{anchor}"
    for name in PATH.findall(text):
        found = (path for top in (base.TOP, path.parent) for path in top.glob(name.rstrip("/.")))
        if not ANY.search(name) and not any(found):
            yield name
    ends = sources()
    yield from (name for name in SOURCE.findall(text)
                if not ANY.search(name) and name not in ends | OF_OTHERS)


@functools.cache
def sources():
    """The ends of the paths of all sources and scripts."""
    folders = ("crates/*/src", "crates/*/specs", "crates/*/proofs", "docs", "examples", "package",
               "tests", "tools")
    paths = (path.relative_to(base.TOP) for folder in folders
             for path in base.TOP.glob(f"{folder}/**/*.*"))
    return {"/".join(path.parts[at:]) for path in paths for at in range(len(path.parts))}


def words_of(crate):
    """The words of a library's code and definitions."""
    folder = base.TOP / "crates" / crate
    paths = (path for top in ("src", "specs") for path in folder.glob(f"{top}/**/*.*"))
    return {word for path in paths for word in NAME.findall(path.read_text())}


def unknown(text, crate):
    """The names of a page for callers that no library has, and those that a `use` doesn't find."""
    crates = [path.parts[-2] for path in base.TOP.glob("crates/*/src")]
    known = {word for each in crates for word in [each, *words_of(each)]}
    for code in CODE.findall(FENCED.sub("", text)):
        if code.split("/")[0] not in ("specs", "src", "tests"):
            yield from (name for name in NAME.findall(code) if name not in known)
        # a page may speak of a file of another crate
        elif not code.startswith("tests") and not any(base.TOP.glob(f"crates/*/{code}")):
            yield code
    for used, module, names, name in (use for use in USE.findall(text) if use[0] in crates):
        # a root exports modules of its folders, by their names
        sources = (base.TOP / "crates" / used / "src").rglob(f"{module or 'lib'}.rt")
        items = "".join(source.read_text() for source in sources)
        one = r"^pub \w+ (\w+)()()"
        found = re.findall(one, items, re.M) if module else ROOT.findall(items)
        there = {word for each in found for word in NAME.findall(" ".join(each))}
        absent = (each for each in NAME.findall(names or name) if each not in there)
        yield from (f"{each} of {used}" for each in absent)


class Links(unittest.TestCase):
    def test_documents(self):
        paths = [*map(base.TOP.joinpath, DOCUMENTS), *PAGES, *base.TOP.glob("package/*.md"),
                 *base.TOP.glob("*/*/README.md")]
        texts = {path: path.read_text() for path in paths}
        named = sum(len(LINK.findall(text)) + len(PATH.findall(text)) for text in texts.values())
        self.assertGreater(named, 100)
        wrong = [f"{path}: {name}" for path, text in texts.items() for name in broken(text, path)]
        self.assertEqual(wrong, [])

    def targets(self, text):
        """The targets of make that a document's commands name, also those that are not run."""
        code = [*CODE.findall(FENCED.sub("", text)), *(
            line for block in documents.blocks_of(text) for line in block.lines)]
        return [target for line in code for target in TARGET.findall(line)]

    def test_targets(self):
        """Each is one of the Makefile."""
        known = {*re.findall(r"^([a-z][\w-]*):", (base.TOP / "Makefile").read_text(), re.M)}
        told = {page: self.targets((base.TOP / page).read_text()) for page in DOCUMENTS}
        self.assertGreater(sum(map(len, told.values())), 20)
        self.assertEqual([f"{page}: make {target}" for page, targets in told.items()
                          for target in targets if target not in known], [])
        text = "To make it, `make all` or\n`make -C a`:\n\n    $ make one\n    make two # make x\n"
        self.assertEqual(self.targets(text), ["all", "one", "two"])

    def test_what_is_broken(self):
        path = base.TOP / "docs/manual.md"
        text = "# A Title, and more\n[a](#a-title-and-more) [b](#b) [c](nowhere.md) "
        text += "[d](proofs.md#promises) [e](proofs.md#promise)\n`tests/run NAME`, `tests/walk`, "
        text += "`crates/*/specs`, `crates/NAME/src`, [f](https://a.b/c), `rows/plain.rt`, "
        text += "`rows/plane.rt`, `lain.rt`\n"
        wrong = ["#b", "nowhere.md", "proofs.md#promise", "tests/walk", "rows/plane.rt", "lain.rt"]
        self.assertEqual(list(broken(text, path)), wrong)


class PagesOnTheCode(unittest.TestCase):
    """What pages on the code name is there: a function, a type, a constant, a word of a tool. One
    that is named with its type, as `Profile::feed`, is in a source that has this type, and one with
    a crate behind it in this crate."""

    PAGES = "docs/architecture.md", "docs/proofs.md", "docs/DECISIONS.md"
    CODE = "crates/*/src/**/*.rt", "crates/*/specs/**/*.antt", "crates/*/proofs/**/*.antt"
    OF_TOOLS = "tests/*", "tests/tools/*.py", "tools/**/*", "package/*", "Makefile"
    # a name that stands for any, what is of other programs, and the prover's name of a method
    OTHERS = {"test_NAME", "HashMap", "lscpu", "usbsize", "ListRowsListStore"}

    def words(self, places):
        """The words of each file, with those of its path."""
        for path in (path for place in places for path in base.TOP.glob(place)):
            if path.is_file() and path.suffix != ".md" and "out" not in path.parts and (
                    path.name not in ("clauses", "promises", "test_links.py")):
                text = f"{path.relative_to(base.TOP)} {path.read_text(errors='replace')}"
                yield {*NAME.findall(text)}

    def unknown(self, text, code, known):
        for span in CODE.findall(FENCED.sub("", text)):
            yield from (name for name in NAME.findall(span) if name not in known)
            for owner, name in re.findall(r"\b([A-Z]\w+)::(\w\w+)", span):
                of_owner = [words for words in code if owner in words]
                if of_owner and not any(name in words for words in of_owner) and (
                        owner not in self.OTHERS):
                    yield f"{owner}::{name}"
        for spans, crate in OF_CRATE.findall(text):
            places = (f"crates/{crate}/{top}/**/*.*" for top in ("src", "specs", "proofs"))
            if words := set().union(*self.words(places)):
                names = {name for span in CODE.findall(spans) for name in NAME.findall(span)}
                yield from (f"{name} of {crate}" for name in sorted(names - words))

    def test_names(self):
        code = [*self.words(self.CODE)]
        known = set().union(self.OTHERS, *code, *self.words(self.OF_TOOLS))
        wrong = [f"{page}: {name}" for page in self.PAGES
                 for name in self.unknown((base.TOP / page).read_text(), code, known)]
        self.assertEqual(wrong, [])
        text = "`Profile::feed_batch`, `Profile::feed_bunch`, `MAX_LINE`, `Profile::read_number`. "
        text += "`Lines::next` (`trace_core`), `MAX_WAYS` and\n`Lines` of `trace_core`"
        wrong = ["feed_bunch", "Profile::feed_bunch", "Profile::read_number"]
        wrong.append("MAX_WAYS of trace_core")
        self.assertEqual([*self.unknown(text, code, known)], wrong)


class PagesForCallers(unittest.TestCase):
    def test_names(self):
        self.assertGreater(len(PAGES), 5)
        wrong = [f"{path.parts[-2]}: {name}" for path in PAGES
                 for name in unknown(path.read_text(), path.parts[-2])]
        self.assertEqual(wrong, [])
        self.assertEqual([path.parts[-2] for path in PAGES if not USE.search(path.read_text())], [])

    def test_what_is_unknown(self):
        text = "    use cache_core::{Cache, Cash};\n    use cache_core::simulate::simulate;\n"
        text += "    use cache_core::simulate::simulated;\n`Cache::access`, "
        text += "`Cache::axess(reference)`, `specs/Windows.antt`, `specs/Doors.antt`, `MAX_STEPS`\n"
        wrong = ["axess", "specs/Doors.antt", "Cash of cache_core", "simulated of cache_core"]
        self.assertEqual(list(unknown(text, "cache_core")), wrong)
