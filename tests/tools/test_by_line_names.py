"""Names of functions and variables: those that several have, of debug information in a file of its
own, and of Rust."""

import os
import pathlib
import re
import shutil
import unittest.mock

import base
from base import cache
from test_by_line import ByLineTest

from lib.by_line import binutils

CACHE = cache(16, 16)
# a static function and a static variable in each of two files
STATICS = """\
static int own[4];
static __attribute__((noinline)) int help(int at) {
    return own[at]++;
}
int NAME(int at) {
    return help(at) + help(at + 1);
}
"""
MAIN = "int a(int), b(int);\nint main(void) {\n    return a(0) + b(1);\n}\n"
IN_HEADER = """\
static __attribute__((noinline)) int help(int *at) {
    return (*at)++;
}
"""
RUST = """\
static mut TABLE: [u32; 64] = [1; 64];
mod inner {
    pub static mut TABLE: [u32; 64] = [2; 64];
    pub struct Pair(pub u32);
    impl super::Show for Pair {
        #[inline(never)]
        fn show(&self) -> u32 {
            unsafe { TABLE[self.0 as usize] += 1; TABLE[self.0 as usize + 1] }
        }
    }
}
trait Show { fn show(&self) -> u32; }
#[inline(never)]
fn set(at: usize) -> u32 { unsafe { TABLE[at] += 1; TABLE[at + 1] } }
fn main() {
    let count = std::env::args().count();
    println!("{}", set(count) + inner::Pair(count as u32).show());
}
"""


class Names(ByLineTest):
    def compiled(self, *words, compiler="gcc"):
        self.good(self.run_command(compiler, "-O1", "-no-pie", "-o", "program", *words))

    def statics(self, suffix="c"):
        """The two files, and one that calls both."""
        for name in "ab":
            self.write(f"{name}.{suffix}", STATICS.replace("NAME", name))
        self.write(f"main.{suffix}", MAIN)
        return [f"{name}.{suffix}" for name in ("main", "a", "b")]

    def places(self, name, program="program"):
        """The addresses of all that have a name, in the order of the files."""
        symbols = self.good(self.run_command("nm", "-p", program))
        return [int(at, 16) for at in re.findall(rf"(?m)^(\w+) \w {name}$", symbols)]

    def counted(self, places, *more, by="function", program="program"):
        """How many references each row has, where the first function makes one, the next two.."""
        text = "".join(f"2 {at:x}\n" + "0 10\n" * times for times, at in enumerate(places, 1))
        given = "-", "--program", program, *CACHE, "--by", by, *more
        return self.references(self.rows(*given, stdin=text.encode()), by.split(",", maxsplit=1)[0])

    def objects(self, places, program="program"):
        text = "".join(f"0 {place:x}\n" for place in places).encode()
        return self.references(self.rows("-", "--program", program, *CACHE, "--by", "object",
                                         stdin=text))


@base.needs("binutils", "gcc", "llvm")
class Functions(Names):
    def test_of_one_name(self):
        """They are apart, with and without lines, optimized at link time or not; others keep their
        names."""
        for flags, *lines in (
            (["-g"], "a.c:3", "b.c:3"), (["-g", "-flto"], "a.c:3", "b.c:3"),
            (["-g0"], "(help (a.c))", "(help (b.c))"),
        ):
            with self.subTest(flags=flags):
                self.compiled(*flags, *self.statics())
                found = [*self.places(r"help(?:\.lto_priv\.\d)?"), *self.places("main")]
                wanted = {"help (a.c)": 1, "help (b.c)": 2, "main": 3}
                self.assertEqual(self.counted(found), wanted)
                wanted = dict(zip(lines, (1, 2)))
                self.assertEqual(self.counted(found[:2], by="line"), wanted)
                variables = self.objects(self.places(r"own(?:\.lto_priv\.\d)?"))
                self.assertEqual(variables, {"own (a.c)": 1, "own (b.c)": 1})
        self.assertEqual(self.counted(self.places(r"help.*")[:1]), {"help": 1})

    def test_files_of_one_name(self):
        """They are called by as much of their paths as tells them apart; each keeps its counts."""
        main, *_ = self.statics()
        for name in "ab":
            os.mkdir(self.folder / name)
            os.rename(self.folder / f"{name}.c", self.folder / name / "own.c")
        self.compiled("-g", main, "a/own.c", "b/own.c")
        for by, *names in (("function", "help (a/own.c)", "help (b/own.c)"),
                           ("line", "a/own.c:3", "b/own.c:3")):
            self.assertEqual(self.counted(self.places("help"), by=by), dict(zip(names, (1, 2))))

    def test_of_a_header(self):
        """The copies of a header's function are one function."""
        self.write("own.h", IN_HEADER)
        for name in "ab":
            text = f'#include "own.h"\nint {name}(int at) {{ return help(&at); }}\n'
            self.write(f"{name}.c", text)
        self.write("main.c", MAIN)
        self.compiled("-g", "main.c", "a.c", "b.c")
        places = self.places("help")
        self.assertEqual(len(places), 2)
        self.assertEqual(self.counted(places), {"help": 3})

    @base.needs("g++")
    def test_of_an_unnamed_namespace(self):
        sources = self.statics("cc")
        for path in sources[1:]:
            text = (self.folder / path).read_text().replace("static ", "")
            self.write(path, "namespace {\n" + text.replace("}\nint", "}\n}\nint"))
        self.compiled("-g", *sources, compiler="g++")
        wanted = {f"(anonymous namespace)::help(int) ({path})": times
                  for times, path in enumerate(sources[1:], 1)}
        self.assertEqual(self.counted(self.places(r"_ZN\S*help\S*")), wanted)

    def test_of_a_program_and_a_library(self):
        """Without lines each has the name of its program behind it."""
        self.compiled("-g0", *self.statics()[:2], "b.c")
        self.good(self.run_command("gcc", "-shared", "-fPIC", "-o", "libown.so", "a.c"))
        library, maps, text = 0x10000000, "", ""
        for path, at, function in (("program", 0x400000, "a"), ("libown.so", library, "a")):
            maps += f"{at:x}-{at + 0x1000:x} r--p 00000000 00:00 0 {self.folder}/{path}\n"
            place, = self.places(function, path)
            text += f"2 {place + (at if at == library else 0):x}\n0 10\n"
        self.write("map", maps)
        rows = self.rows("-", "--map", "map", *CACHE, "--by", "function", "--callgrind", "out",
                         stdin=text.encode())
        wanted = {"a (program)": 1, "a (libown.so)": 1}
        self.assertEqual(self.references(rows, "function"), wanted)
        lines = (self.folder / "out").read_text().splitlines()
        named = [line for line in lines if line[:3] in ("ob=", "fn=")]
        self.assertEqual(named, [f"ob={self.folder}/libown.so", "fn=a (libown.so)",
                                 f"ob={self.folder}/program", "fn=a (program)"])

    @base.needs("valgrind")
    def test_callgrind(self):
        """Each function has its own file and its program, also as callgrind_annotate reads them."""
        self.compiled("-g", *self.statics())
        self.counted(self.places("help"), "--callgrind", "out")
        lines = (self.folder / "out").read_text().splitlines()
        named = [line for line in lines if line[:3] in ("ob=", "fl=", "fn=")]
        wanted = [[f"ob={self.folder}/program", f"fl={self.folder}/{file}", "fn=help"]
                  for file in ("a.c", "b.c")]
        self.assertEqual(named, [*wanted[0], *wanted[1]])
        ran = self.run_command("callgrind_annotate", "--auto=no", "--threshold=100",
                               "--show=References", "out")
        found = re.findall(r"(?m)^(\d) .* (\S+:help \[.*\])$", self.good(ran))
        program = f"[{self.folder}/program]"
        self.assertEqual(found, [("2", f"b.c:help {program}"), ("1", f"a.c:help {program}")])


@base.needs("binutils", "gcc", "llvm")
class Apart(Names):
    """The debug information is in a file of its own."""

    def stripped(self, place="program.debug"):
        """A stripped program that names its file. Returns where its functions and variables are."""
        self.compiled("-g", "-O0", *self.statics())
        found = self.places("help"), self.places("own")
        (self.folder / place).parent.mkdir(exist_ok=True)
        self.good(self.run_command("objcopy", "--only-keep-debug", "program", place))
        self.good(self.run_command("strip", "program"))
        self.good(self.run_command("objcopy", f"--add-gnu-debuglink={place}", "program"))
        self.assertEqual(self.run_command("nm", "program").stdout, b"")
        return found

    def test_by_its_name(self):
        for place in ("program.debug", ".debug/program.debug"):
            with self.subTest(place):
                functions, variables = self.stripped(place)
                self.assertEqual(self.counted(functions), {"help (a.c)": 1, "help (b.c)": 2})
                self.assertEqual(self.counted(functions, by="line"), {"a.c:2": 1, "b.c:2": 2})
                self.assertEqual(self.objects(variables), {"own (a.c)": 1, "own (b.c)": 1})
                os.remove(self.folder / place)
                self.assertEqual(self.objects(variables), {"(program)": 2})

    def test_below_the_folder_of_the_system(self):
        """By its name in the program's own folder there, and by its build ID. Another folder stands
        for the system's here."""
        self.stripped()
        identity = self.good(self.run_command("readelf", "-n", "program"))
        identity = re.search(r"Build ID: (\w+)", identity)[1]
        program, folder = self.folder / "program", f"{self.folder}/system"
        place = self.folder / "program.debug"
        with unittest.mock.patch.object(binutils, "DEBUG_FOLDER", folder):
            for name in (f"{os.path.realpath(self.folder)}/program",
                         f"/.build-id/{identity[:2]}/{identity[2:]}"):
                found = pathlib.Path(f"{folder}{name}.debug")
                found.parent.mkdir(parents=True)
                place = place.rename(found)
                binutils.debug_file.cache_clear()
                self.assertEqual(binutils.debug_file(str(program)), str(place))
            binutils.debug_file.cache_clear()
            self.good(self.run_command("gcc", "-g", "-o", "other", *self.statics()))
            self.good(self.run_command("objcopy", "--only-keep-debug", "other", place))
            self.assertIsNone(binutils.debug_file(str(program)))

    def test_of_another_build(self):
        """It is told, and its names are not taken."""
        _, variables = self.stripped()
        self.good(self.run_command("objcopy", "--strip-debug", "program.debug"))
        text = "".join(f"0 {place:x}\n" for place in variables).encode()
        ran = self.run_tool("by-line", "-", "--program", "program", *CACHE, "--by", "object",
                            stdin=text)
        self.assertEqual(ran.returncode, 0)
        self.assertIn(b"\n(program),2,", ran.stdout)
        told = f"by-line: {self.folder}/program.debug is of another build of ./program\n"
        self.assertEqual(ran.stderr.decode(), told)

    def test_another_machine(self):
        """The package with its binutils is named where they are missing."""
        commands = self.executable("bin/addr2line").parent
        elf = pathlib.Path(shutil.which("true")).read_bytes()
        for machine, name in ((40, "arm-linux-gnueabihf"), (183, "aarch64-linux-gnu"),
                              (243, "riscv64-linux-gnu")):
            self.write("program", elf[:18] + bytes([machine]) + elf[19:])
            ran = self.run_tool("by-line", "-", "--program", "program", *CACHE,
                                env={"PATH": str(commands)})
            told = f"{name}-readelf is missing: apt-get install binutils-{name}\n"
            self.refused(ran, 1, f"by-line: {told}")


@base.needs("binutils", "llvm", "rustc")
class Rust(Names):
    def test_names(self):
        """They are those of the source, whichever way rustc has changed them, without a hash."""
        self.write("own.rs", RUST)
        for mangling in ("legacy", "v0"):
            with self.subTest(mangling):
                codegen = f"symbol-mangling-version={mangling}", "relocation-model=static"
                flags = "-g", "-O", *(f"-C{option}" for option in codegen), "-Zunstable-options"
                self.good(self.run_command("rustc", *flags, "-o", "program", "own.rs",
                                           env={"RUSTC_BOOTSTRAP": "1"}))
                functions = [*self.places(r"_\S*own3set\S*"), *self.places(r"_\S*4show\S*")]
                wanted = {"own::set": 1, "<own::inner::Pair as own::Show>::show": 2}
                self.assertEqual(self.counted(functions), wanted)
                tables = self.places(r"_\S*5TABLE\S*")
                wanted = {"own::TABLE": 1, "own::inner::TABLE": 1}
                self.assertEqual(self.objects(tables), wanted)

    @base.needs("gcc")
    def test_after_an_optimizer_that_adds_a_number(self):
        """As ThinLTO does: here to names that an assembler has."""
        names = ("_ZN3std2rt10lang_start28_$u7b$$u7b$closure$u7d$$u7d$17hc820094044b0496fE",
                 "_RNvCsf2l3VMgRzbd_3own3set", "_ZN3own5TABLE17h029105707c695135E", "_own.llvm.1x")
        names = [f"{name}.llvm.4295446079832805675" for name in names]
        places = ".text", ".text", ".data", ".data"
        self.write("own.s", "".join(
            f'.section {place}\n.size "{name}", 4\n.globl "{name}"\n"{name}": .zero 4\n'
            for name, place in zip(names, places)))
        self.compiled("-nostdlib", "-Wl,--entry=0", "own.s")
        found = [self.places(re.escape(name))[0] for name in names]
        wanted = {"std::rt::lang_start::{{closure}}": 1, "own::set": 2}
        self.assertEqual(self.counted(found[:2]), wanted)
        self.assertEqual(self.objects(found[2:]), {"own::TABLE": 1, "_own.llvm.1x": 1})
