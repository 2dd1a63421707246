"""The version, and the Debian package."""

import importlib
import os
import pathlib
import re
import shutil
import subprocess
import sys
import tempfile
import unittest
from unittest import mock

from base import EXAMPLES, PACKAGES, PACKAGING, PROGRAM, TOOLS, TOP, ToolTest, needs
from test_make import MakeTest, copy_repository, put_program

sys.path.append(str(PACKAGING))
shared = importlib.import_module("shared")
deb = importlib.import_module("deb")
SPACE = ["--bsize", "16-32", "--sets", "1-8", "--assoc", "1-2", "--size", "64-256"]


def run(*arguments, **given):
    """Runs a command; what it writes is text."""
    given = {"timeout": 120, "text": True, "stdin": subprocess.DEVNULL, **given}
    return subprocess.run([str(word) for word in arguments], capture_output=True, **given)


def crates():
    """The crates of crates.txt, and all that it names for them."""
    lines = (line.partition("#")[0] for line in (TOP / "crates.txt").read_text().splitlines())
    ours, _, used = zip(*(line.partition(":") for line in lines if ":" in line))
    return {crate.strip() for crate in ours}, set(" ".join(used).split())


def packages_named(tools):
    """Debian's packages that the files of a folder name where something is missing, except what is
    built there."""
    found, package = set(), r"([a-z][\w+.-]*\w)"
    # after a command for it, in a call of tool.needs, and in a row of runs.UNPACKERS
    named = rf'apt-get install {package}|(?:\bneeds\([^\s,]+|"\.\w+": \("\w+"), "{package}"\)'
    for path in tools.rglob("[!.]*"):
        is_built = {"out", "__pycache__"} & {*path.relative_to(tools).parts}
        if path.is_file() and not is_built and path.suffix not in (".c", ".h", ".md"):
            found |= {name for names in re.findall(named, path.read_text()) for name in names}
    return found - {""}


class Version(ToolTest):
    def changes(self, text):
        """What the package finds in a CHANGELOG.md, as whole days."""
        self.write("CHANGELOG.md", text)
        with mock.patch.object(shared, "TOP", self.folder):
            return [(version, str(day.date()), text) for version, day, text in shared.changes()]

    def test_the_program_and_the_changes_name_the_same(self):
        version, day, _ = self.changes((TOP / "CHANGELOG.md").read_text())[0]
        helped = self.good(self.run_command(PROGRAM, "--help"))
        self.assertEqual(re.findall(r"(?m)^cachesim [\d.]+$", helped), [f"cachesim {version}"])
        cited = (TOP / "CITATION.cff").read_text()
        self.assertIn(f"\nversion: {version}\ndate-released: {day}\n", cited)
        told = re.findall(r"\bVersion ([\d.]+\d)", (TOP / "README.md").read_text())
        self.assertEqual(told, [version])

    def test_the_top_entry_counts(self):
        older = "## 1.0.0 (2026-11-23)\n"
        self.assertEqual(self.changes(f"# Changes\n\n## 1.2.3 (2027-01-31)\n\n- x\n\n{older}"),
                         [("1.2.3", "2027-01-31", "\n- x\n\n"), ("1.0.0", "2026-11-23", "")])
        entry = "10.0.0", "2027-12-01", ""
        self.assertEqual(self.changes("## 10.0.0 (2027-12-01)\n"), [entry])
        for text in ("# Changes\n", f"## Unreleased\n\n{older}", "## 1.0 (2026-11-23)\n",
                     "## 1.0.0\n", "## 1.0.0 (2026-11-23) and more\n"):
            with mock.patch.object(shared.tool, "fail", side_effect=SystemExit) as fail:
                self.assertRaises(SystemExit, self.changes, text)
            self.assertIn("CHANGELOG.md", fail.call_args[0][0])

    def test_each_change_is_in_the_packages_history(self):
        entries = (TOP / "CHANGELOG.md").read_text().partition("\n## ")[2].split("\n")
        points = [line for line, before in zip(entries[1:], entries)
                  if line[:2] == "- " or line and not before]
        text = "\n".join(deb.changelog("A Name <name@example.org>"))
        self.assertEqual(text.count("\n  * "), len([line for line in points if line[0] != "#"]) +
                         len([line for line in points if line[:4] == "### "]))
        self.assertLessEqual(max(map(len, text.split("\n"))), 80)

    def test_copyright_names_what_is_linked(self):
        """Of the kit's ports it names those whose code the program has, and those of crates.txt."""
        ours, used = crates()
        linked = set(re.findall(r" [tT] (\w+)::", run("nm", "-C", PROGRAM).stdout))
        kits_own = {name for name in linked if re.fullmatch("core|io|libc|os|std.*", name)}
        text = (PACKAGING / "debian/copyright").read_text()
        named = set(re.findall(r"(?m)^    ([a-z]\w+)  +(?:Copyright|\(no)", text))
        self.assertIn("strsim", linked)
        self.assertEqual(named, (used | linked) - ours - kits_own)


class Missing(MakeTest):
    def test_a_missing_package_is_named(self):
        env = {"PATH": self.path_without("dh")}
        ran = self.run_command(self.top / "package/target", "deb", env=env)
        self.refused(ran, 1, "deb: dh is missing: apt-get install debhelper\n")
        self.assertFalse((self.top / "out").exists())


@needs("debhelper", "lowdown", "man-db")
class Package(unittest.TestCase):
    """The Debian package, made from a copy of the repository, and installed into its own folder."""

    maxDiff = 4000

    @classmethod
    def setUpClass(cls):
        cls.folder = pathlib.Path(tempfile.mkdtemp(prefix="cachesim-test-"))
        cls.addClassCleanup(shutil.rmtree, cls.folder, ignore_errors=True)
        cls.top = cls.folder / "copy"
        copy_repository(cls.top)
        put_program(cls.top)
        cls.version = shared.changes()[0][0]
        cls.made = cls.make("out")
        cls.package = cls.top / "out" / f"cachesim_{cls.version}_amd64.deb"

    @classmethod
    def make(cls, to):
        own = {"SOURCE_DATE_EPOCH": "1795388123", "DEBFULLNAME": "A Tester",
               "DEBEMAIL": "tester@example.org"}
        return run(cls.top / "package/target", "deb", cls.top / to, env={**os.environ, **own})

    def setUp(self):
        told = f"made: {self.package}\n"
        self.assertEqual((self.made.returncode, self.made.stdout), (0, told), self.made.stderr)

    def field(self, name):
        return run("dpkg-deb", "-f", self.package, name).stdout.strip()

    def test_fields(self):
        # it is made for no other machine
        self.assertIn("\nArchitecture: amd64\n", (PACKAGING / "debian/control").read_text())
        self.assertEqual(self.field("Version"), self.version)
        self.assertEqual(self.field("Maintainer"), "A Tester <tester@example.org>")
        # 2.35 has the newest symbol that is needed, by trace-heap.so: _dl_find_object
        self.assertIn("libc6 (>= 2.35)", self.field("Depends"))
        self.assertIn("python3 (>= 3.9)", self.field("Depends"))
        recommended = "llvm, python3-matplotlib, qemu-user, valgrind"
        self.assertEqual(self.field("Recommends"), recommended)
        self.assertIn("parallel", self.field("Suggests"))
        suggested = self.field("Suggests").split(", ")
        self.assertEqual(suggested, sorted(set(suggested)))
        self.assertLessEqual(set(suggested), set(PACKAGES))

    def test_what_the_tools_name_is_suggested(self):
        """And nothing else, but what runs the list that cachesim-pages writes."""
        named = {"parallel"} | packages_named(TOOLS)
        # all is compiled there, and gzip is always there
        named -= {"gcc", "make", "gzip"}
        *others, suggested = map(self.field, ("Depends", "Recommends", "Suggests"))
        there = set(re.findall(r"[a-z][\w+.-]*", f"{others}, {suggested}"))
        self.assertEqual(named - there, set())
        self.assertEqual(set(suggested.split(", ")) - named, set())
        self.assertEqual({"python3-matplotlib", "qemu-user", "valgrind"} - named, set())

    def test_names_owners_and_modes(self):
        """And each link leads to what is there."""
        modes, links = {}, {}
        for line in run("dpkg-deb", "-c", self.package).stdout.splitlines():
            mode, owner, _, day, _, name = line.split(None, 5)
            self.assertEqual((owner, day), ("root/root", "2026-11-22"), line)
            name, _, link = name.partition(" -> ")
            modes[name] = mode
            if link:
                links[name] = os.path.normpath(os.path.join(os.path.dirname(name), link))
        self.assertEqual(links["./usr/bin/cachesim-best"], "usr/lib/cachesim/best")
        self.assertEqual({link for link in links.values() if f"./{link}" not in modes}, set())
        documents = [f"docs/{path.name}" for path in (TOP / "docs").glob("*.md")]
        self.assertIn("docs/cookbook.md", documents)
        documents += "copyright CHANGELOG.md README.md tools/README.md examples/sort.din".split()
        for name in (
            *(f"share/doc/cachesim/{name}" for name in documents), "lib/cachesim/lib/tool.py",
            "share/bash-completion/completions/cachesim", "share/man/man1/cachesim.1.gz",
            "share/zsh/vendor-completions/_cachesim", "share/man/man1/cachesim-best.1.gz",
            "share/fish/vendor_completions.d/cachesim.fish",
        ):
            self.assertEqual(modes[f"./usr/{name}"], "-rw-r--r--")
        self.assertEqual(modes["./usr/bin/cachesim"], "-rwxr-xr-x")
        known = {"drwxr-xr-x", "-rw-r--r--", "-rwxr-xr-x", "lrwxrwxrwx"}
        self.assertEqual(set(modes.values()) - known, set())

    def test_each_file_has_its_sum(self):
        run("dpkg-deb", "-R", self.package, self.folder / "raw")
        listed = (self.folder / "raw/DEBIAN/md5sums").read_text().splitlines()
        ran = run("md5sum", "--quiet", "-c", "DEBIAN/md5sums", cwd=self.folder / "raw")
        self.assertEqual((ran.returncode, ran.stdout), (0, ""))
        files = [path for path in (self.folder / "raw/usr").rglob("*")
                 if path.is_file() and not path.is_symlink()]
        self.assertEqual(len(listed), len(files))

    def test_the_same_files_make_the_same_package(self):
        self.assertEqual(self.make("again").returncode, 0)
        again = self.top / "again" / self.package.name
        self.assertEqual(again.read_bytes(), self.package.read_bytes())

    @needs("lintian")
    def test_lintian_finds_nothing(self):
        root = ["--allow-root"] if os.geteuid() == 0 else []
        ran = run("lintian", "--fail-on", "error,warning", *root, self.package)
        self.assertEqual((ran.returncode, ran.stdout), (0, ""), ran.stderr)

    def dpkg(self, root, *arguments):
        """Runs dpkg on a system of its own below `root`."""
        (root / "var/lib/dpkg/updates").mkdir(parents=True, exist_ok=True)
        (root / "var/lib/dpkg/info").mkdir(exist_ok=True)
        (root / "var/lib/dpkg/status").touch()
        as_root = [] if os.geteuid() == 0 else ["unshare", "--map-root-user"]
        env = {**os.environ, "PATH": f"{os.environ['PATH']}:/usr/sbin:/sbin"}
        words = (f"--root={root}", "--force-depends", "--path-include=/usr/share/*", *arguments)
        ran = run(*as_root, "dpkg", *words, env=env)
        self.assertEqual(ran.returncode, 0, ran.stdout + ran.stderr)

    def test_installed_run_and_removed(self):
        """What is installed does what it should, without the checkout."""
        root = self.folder / "a root"
        self.dpkg(root, "-i", self.package)
        usr = root / "usr"
        env = {"PATH": f"{usr}/bin:/usr/bin:/bin", "HOME": str(self.folder), "LC_ALL": "C.UTF-8"}
        self.assertEqual((usr / "bin/cachesim").read_bytes(), PROGRAM.read_bytes())
        table = self.folder / "table.csv"
        table.write_text(run(PROGRAM, "sweep", *SPACE, "-t", EXAMPLES / "sort.din").stdout)
        best = run(TOOLS / "best", table).stdout
        self.assertIn("percent", best)
        examples, names = usr / "share/doc/cachesim/examples", ("cachesim", "cachesim-best")
        completion = usr / "share/bash-completion/completions/cachesim"
        for words, text, wanted in (
            (("cachesim", "sweep", *SPACE, "-t", examples / "sort.din"), "", table.read_text()),
            (("cachesim-best", table), "", best),
            (("cachesim-to-din", "lackey"), "I  04016d80,3\n L 1ffeffe7e,1\n S 1ffeffe80,8\n",
             "2 4016d80\n0 1ffeffe7e\n1 1ffeffe80\n"),
            (("man", "-M", usr / "share/man", "-w", *names), "",
             "".join(f"{usr}/share/man/man1/{name}.1.gz\n" for name in names)),
            (("bash", "-c", f". '{completion}' && complete -p cachesim"), "",
             "complete -F _cachesim cachesim\n"),
        ):
            ran = run(*words, env=env, input=text, stdin=None)
            self.assertEqual((ran.stdout, ran.stderr, ran.returncode), (wanted, "", 0))
        self.dpkg(root, "-r", "cachesim")
        self.assertEqual([path.name for path in root.iterdir()], ["var"])

    def test_nothing_of_the_kit_is_needed(self):
        needed = re.findall(r"(?m)^\s*(?:/\S*/)?([\w.-]+?)(?:\.so\S*)", run("ldd", PROGRAM).stdout)
        self.assertEqual(set(needed), {"linux-vdso", "libc", "ld-linux-x86-64"})

    @needs("qemu-user")
    def test_the_processor_that_it_needs(self):
        for processor, status in ("Nehalem", 0), ("qemu64", 127):
            ran = run("qemu-x86_64", "-cpu", processor, PROGRAM, "--help")
            self.assertEqual(ran.returncode, status, ran.stderr)
        self.assertIn("x86-64-v2", ran.stdout + ran.stderr)
