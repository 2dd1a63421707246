"""No tool waits without end for a file that an option, a map or debug information names, whatever
that is: it ends soon, with its answer or one line that names the file."""

import os
import socket

import base
import trace_base

SOURCE = "int table[9];\nint main(void) {\n    table[2] = 1;\n    return 0;\n}\n"
WAITS = "pipe", "device", "large"
ALL = *WAITS, "endless", "folder", "socket", "empty"
# what is put where, the words of a run, and of which kinds it is a fault
WAYS = (
    ("odd.file", "by-line s.din --program odd.file", ALL),
    ("odd.file", "by-line s.din --map odd.file", ALL),
    ("odd.file", "by-line s.din --by site --heap odd.file", ALL),
    ("odd.file", "by-line s.din --program plain --callgrind odd.file",
     ("pipe", "endless", "folder", "socket")),
    ("odd.file", "by-line s.din --map names.map", ()),
    ("odd.file", "by-line s.din --program lined", ()),
    ("odd.file", "by-line s.din --program linked", WAITS),
    (".debug/odd.file", "by-line s.din --program linked", WAITS),
    ("split.dwo", "by-line s.din --program split", WAITS),
    ("plain.dwp", "by-line s.din --program plain", WAITS),
    ("odd.file", "trace -o t --from main ./linked", ALL),
    (".debug/odd.file", "trace -o t --from main ./linked", ALL),
    ("odd.file", "trace -o t ./odd.file", ALL),
    ("odd.file", "trace -o t ./script", ALL),
)


@base.needs("gcc", "qemu-user", "binutils", "llvm")
class Waiting(base.ToolTest):
    def setUp(self):
        super().setUp()
        self.write("plain.c", SOURCE)
        self.write("lined.c", f'#line 1 "odd.file"\n{SOURCE}')
        for words in ("cc -no-pie -g -o plain plain.c", "cc -no-pie -g -o lined lined.c",
                      "cc -no-pie -g -gsplit-dwarf -c -o split.o plain.c", "rm split.dwo",
                      "cc -no-pie -o split split.o", "mkdir .debug", "cp plain odd.file",
                      "objcopy --strip-all --add-gnu-debuglink=odd.file plain linked",
                      "rm odd.file"):
            self.good(self.run_command(*words.split()))
        start, size = trace_base.symbols_of(self.folder / "plain")["main"]
        self.write("s.din", "".join(f"2 {at:x}\n0 10\n" for at in range(start, start + size)))
        self.write("names.map", f"400000-500000 r-xp 00000000 08:01 1 {self.folder}/odd.file\n")
        self.executable("script", "").write_text(f"#!{self.folder}/odd.file\n")

    def put(self, kind, place):
        if kind == "pipe":
            os.mkfifo(place)
        elif kind in ("device", "endless"):  # the latter says that it is regular, and empty
            place.symlink_to("/dev/zero" if kind == "device" else "/proc/self/pagemap")
        elif kind == "folder":
            place.mkdir()
        elif kind == "socket":
            with socket.socket(socket.AF_UNIX) as one:
                one.bind(str(place))
        else:
            place.write_bytes(b"\x7fELF" * (kind == "large"))
            os.truncate(place, (kind == "large") << 40)

    def test_all(self):
        for name, words, faults in WAYS:
            for kind in ALL:
                with self.subTest(words=words, name=name, kind=kind):
                    place = self.folder / name
                    self.put(kind, place)
                    try:
                        self.judge(place, words.split(), kind in faults)
                    finally:
                        place.rmdir() if kind == "folder" else place.unlink()

    def judge(self, place, words, is_fault):
        caches = base.cache(64, 16) if words[0] == "by-line" else ()
        ran = self.run_tool(*words, *caches, seconds=60)
        told = ran.stderr.decode()
        self.assertEqual(ran.returncode != 0, is_fault, told)
        self.assertLessEqual(told.count("\n"), 1, told)
        if is_fault:
            is_named = place.name in told or "linked has no function main" in told
            self.assertEqual((is_named, ran.stdout), (True, b""), told)
        else:
            self.assertEqual(ran.stdout.split(b",")[0], b"line", told)
