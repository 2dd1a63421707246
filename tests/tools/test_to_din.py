"""Other tools' traces as din lines."""

import atexit
import functools
import os
import pathlib
import random
import re
import shutil
import struct
import subprocess
import tempfile
from itertools import chain

from base import EXAMPLES, TOOLS, ToolTest, needs

SAMPLES = EXAMPLES / "formats"
SPACE = "--bsize 16-64 --sets 1-16 --assoc 1-4 --size 64-4k".split()
SPOILED = b"to-din failed: what stands above is not all\n"
# The accesses of examples/formats/copy.s, instruction by instruction, from its listing
COPY = (
    "2 401000,2 401005,1 40201c,2 401010,2 401015,2 40101a,2 40101d,2 401022,"
    + "".join(
        f"2 401024,0 4020{at:02x},2 401026,0 4020{at:02x},1 4020{at + 12:02x},2 401027,"
        "0 402018,1 402018,2 40102e,2 401030,"
        for at in (0, 4, 8)
    )
    + "2 401032,1 402028,2 401040,1 40201c,2 401047,0 402028,2 401037,2 40103c,2 40103e"
).split(",")
COPY_DATA = [access for access in COPY if access[0] != "2"]
# the same of copy-riscv.s behind Spike's boot code; its last instruction, ecall, is not committed
COPY_RISCV = (
    "2 1000,2 1004,2 1008,2 100c,0 1018,2 1010,"
    "2 80000000,2 80000004,2 80000008,2 8000000c,2 80000010,2 80000014,2 80000018,2 8000001a,"
    + "".join(
        f"2 8000001c,0 800010{at:02x},2 8000001e,1 800010{at + 12:02x},2 80000020,"
        "0 80001018,1 80001018,2 80000024,2 80000026,2 80000028,2 8000002a,"
        for at in (0, 4, 8)
    )
    + "2 8000002c,2 80000030"
).split(",")
EXPECTED = {
    "addresses.txt": ["0" + access[1:] for access in COPY_DATA],
    "pin.txt": COPY_DATA,
    "pin-values.txt": COPY_DATA,
    "memtrace-x86.txt": COPY_DATA,
    "spike.txt": COPY_RISCV,
    **dict.fromkeys(("champsim.bin", "dinero.txt", "drmemtrace.txt", "execlog.txt", "gem5.txt",
                     "lackey.txt", "memtrace-simple.txt"), COPY),
}

# Lines of a format, with their accesses behind '=>'. ' ..' goes on with the line before.
GOOD = {
    "addresses": r"""
7ffd1230 => 0 7ffd1230
  0X00DEADbeef => 0 deadbeef
ffffffffffffffff => 0 ffffffffffffffff
0000000000000000 => 0 0
# a comment =>""",
    "dinero": r"""
r 0x7ffd1230 8 => 0 7ffd1230
  w 7FFD1230 0X10 => 1 7ffd1230
i\t00401000\tf what follows => 2 401000
r ffffffffffffffff 0 => 0 ffffffffffffffff
m 7ffd1230 4 =>
c 0x7ffd1230 40 =>
v 0 0 =>""".replace(r"\t", "\t"),
    "drmemtrace": r"""
           5           1: T3264604 ifetch       3 byte(s) @ 0x00007f8b5d1a8090 48 89 e7
 ..   mov    %rsp, %rdi => 2 7f8b5d1a8090
   7: T3264604 write        8 byte(s) @ 0x00007ffe5ac78ac8 by PC 0x00007f8b5d1a8093
 .. => 1 7ffe5ac78ac8
T342625 read         8 byte(s) @ 0x00007ffe5ac78ac8 by PC 0x00007f8b5d1a8093 => 0 7ffe5ac78ac8
     7   1: W0.T3264 ifetch       2 byte(s) @ 0x0000000000401030 conditional jump => 2 401030
     7   1:  3264604 ifetch       2 byte(s) @ 0x0000000000401030 non-fetched instruction =>
     7   1:  3264604 pref-w-L2    1 byte(s) @ 0x0000000000401030 by PC 0x0000000000401000 =>
     7   1:  3264604 dflush       8 byte(s) @ 0x0000000000401030 by PC 0x0000000000401000 =>
     7   1:  3264604 iflush       8 byte(s) @ 0x0000000000401030 by PC 0x0000000000401000 =>
     7   1:  3264604                               00 00 40 =>
     7   1:  3264604 <marker: kernel xfer from 0x7f8b5d1a8090 to handler> =>
<marker: version 3> =>
---- <application exited with code 0> ---- =>""",
    # the first two from QEMU's documentation of its plugins: a whole system, with names of devices
    "execlog": r"""
0, 0xa18, 0xfff94803, "ldr r0, [pc, #0xc]", load, 0x00010a28, RAM => 2 a18,0 10a28
0, 0xd30, 0xfff9b510, "push {r4, lr}", store, 0x20003ee0, RAM, store, 0x20003ee4, RAM
 .. => 2 d30,1 20003ee0,1 20003ee4
1, 0x80000020, 0xe6202f, "a "b", load, 0x1", load, 0x80001018, store, 0x80001018
 .. => 2 80000020,0 80001018,1 80001018
0, 0x40, 0x1, "ldr r0, [r1]", load, 0x10, vga, bank, load, 0x20, loader, r0 -> 0x00000004
 .. => 2 40,0 10,0 20
0, 0x0, 0x0, "" => 2 0
# vCPU, vAddr, opcode, disassembly[, load/store, memory addr, device]... =>""",
    "gem5": r"""
r,2147483648,64,256,1000 => 2 80000000
r,2147483648,64,255,1000 => 0 80000000
r,2147483648,64,256 => 0 80000000
w,2147483648,64,256,1000,4198400 => 1 80000000
12,w,18446744073709551615,1,1 => 1 ffffffffffffffff
12,r,0,64,33554688,1000,4198400 => 2 0
u,2147483648,64,0,1000 =>""",
    "lackey": r"""
I  04016d80,3 => 2 4016d80
 L 1FFEFFE7E,1 what follows => 0 1ffeffe7e
S 0000000000000000,999999999 => 1 0
 M 0421c7cc,4 => 0 421c7cc,1 421c7cc
==12== I  04016d80,3 =>
--12-- a message =>
**12** a message =>""",
    "memtrace": r"""
0x00007ffd1230:  8, w => 1 7ffd1230
0x7ffd1230: 64, r => 0 7ffd1230
0x401000:  2, rep movs => 2 401000
0x401000:  4, b => 2 401000
0x401000:  4, <undecoded> => 2 401000
0x401000,w,8,0x7ffd1230 => 1 7ffd1230
0x401000,r,16,0x00007ffd1230 => 0 7ffd1230
Format: <data address>: <data size> =>""",
    "pin": r"""
0x401000: R 0x7ffd1230 => 0 7ffd1230
0x401000: W (nil) => 1 0
00007FF6C0401000: R 000000E5C7DAF9D8 => 0 e5c7daf9d8
0x401000: R     0x7ffd1230 16 0x0102030405060708090a0b0c0d0e0f10 => 0 7ffd1230
0x401000: R   000X7ffd1230  0 => 0 7ffd1230
0x401000: W 00000x7ffd12345678 04 0000000000000x1f => 1 7ffd12345678
#eof =>""",
    "spike": r"""
core   0: 3 0x80000044 (0x01053023) mem 0x80001000 0x7 => 2 80000044,1 80001000
core  12: 0 0x0000000080000048 (0x00053783) x15 0x0000000000000007 mem 0x0000000080001000
 .. => 2 80000048,0 80001000
core1000: 1 0x80000048 (0x5378) f8  0xffffffff3f800000 c1_fflags 0x0000000000000001 => 2 80000048
core   0: 3 0x80000048 (0x00053783) x 5 0x0000000000000007 mem 0x80001000 => 2 80000048,0 80001000
core   0: 0x80000044 (0x01053023) mem 0x80001000 0x7 => 2 80000044,1 80001000
3 0x80000048 (0x00053783) => 2 80000048
core   0: 3 0x44 (0x02056407) e32 mf2 l4 v8  0x0123456789abcdef0123456789abcdef mem 0x10 mem 0x14
 .. => 2 44,0 10,0 14
core   0: 0x0000000080000048 (0xffffffffffff9002) ebreak =>
core   0: >>>>  main =>
core   0: Executed 3 times =>
core   0: exception trap_illegal_instruction, epc 0x0000000080000048 =>
core   0:           tval 0x0000000000000000 =>""",
}
GOOD = {
    form: {line: accesses.strip().split(",") if accesses else [] for line, _, accesses in (
        case.partition(" =>") for case in text.replace("\n ..", "").split("\n")[1:])}
    for form, text in GOOD.items()
}
# a missing one, bad digits, more than 64 bits
NOT_HEXADECIMAL = ("", "0x", "0xg", "0x10000000000000000", "0x4g", "-1")

# Lines that are none of a format. {} stands for each of the above.
BAD = {
    "addresses": "{}|7ffd1230 8|7ffd1230,",
    "dinero": "r {} 8|w 0x10 {}|i 0x10|r 0x10 8,|r 0x10,8|r,0x10 8|r0x10 8|rw 0x10 8|x 0x10 8"
    "|R 0x10 8|0 0x10 8|5 0 0|m|c 0x10|v {} 0|m 0x10 x",
    "drmemtrace": "  7   2:  32 read         3 byte(s) @ {}"
    "|  7   2:  32 ifetch       3 byte(s) @ 0x401000,"
    "|  7   2:  32 ifetch       x byte(s) @ 0x401000|  7   2:  32 ifetched     3 byte(s) @ 0x401000"
    "|  7   2:  32 exec         3 byte(s) @ 0x401000|  7   2   32 ifetch       3 byte(s) @ 0x401000"
    "|  7   2: ifetch       3 byte(s) @ 0x401000|  7   2:  32|  7   2:  32    00 00 4"
    "|  7   2:  32    00 00x|  7   2:  32    0000 40"
    "|  7   2:  32    00 00 40 and more|ERROR: failed to initialize analyzer"
    "|             28 : instructions",
    "execlog": '0, {}, 0x8b, "mov"|0, 0x401000, 0x8b, "mov", load, {}'
    '|0, 0x401000, 0x8b, "mov", load, 0x10, store, {}, RAM|0, 0x401000, 0x8b, "mov", load'
    '|0, 0x401000, 0x8b, "mov|0, 0x401000, 0x8b, "mov" load, 0x10|0, 0x401000, "mov"'
    '|0x401000, 0x8b, "mov"|0, 0x401000, 0x8b|0, 0x401000, 0x8b, "mov",',
    "gem5": "r,,64,0,1|r,0x10,64,0,1|r,18446744073709551616,64,0,1|r,-1,64,0,1|w,16,,0,1|r,16,64"
    "|r,16,64,0,1,2,3|r,16,64,0,1,|x,16,64,0,1|5,4,16,64,0,1|4,16,64,0,1|5,,16,64,0,1|rw,16,64,0,1"
    "|u,16",
    "lackey": " L ,4| S 0x10,4| M 12345678901234567,4|I  4g,4|I04016d80,3|I  04016d80|I  04016d80,"
    "|I  04016d80,x|I  04016d80,1234567890|I  04016d80 ,3| X 04016d80,3| =| LS 04016d80,3"
    "|0 04016d80",
    "memtrace": "{}:  8, w|0x401000,w,8,{}|{},w,8,0x7ffd1230|0x401000,x,8,0x10|0x401000,w,,0x10"
    "|0x401000,w,8,0x10,|0x401000,w,8|0x10:  8|0x10:  8,|0x10:  8, W|0x10:  x, w|0x10: w",
    "pin": "0x401000: R {}|{}: R 0x10|0x401000: X 0x10|0x401000: RW 0x10|0x401000: R0x10"
    "|0x401000 R 0x10|0x401000: R 0x10, 8|0x401000: R 0x10 x|0x401000: R 0x10 8x|0x401000: R"
    "|0x401000: R (nil",
    "spike": "core   0: 3 {} (0x53)|core   0: 3 0x44 (0x53) mem {}|core   0: 0x44 (0x53) mem {}"
    "|core   0: 3 0x44 (0x53) mem 0x10 0x|core   0: 3 0x44 (0x53) mem 0x10 0x7g"
    "|core   0: 3 0x44 (0x53) mem 0x10 7|core   0: 3 0x44 (0x53) men 0x10"
    "|core   0: 3 0x44 (0x53) x15|core   0: 3 0x44 (0x53) x15 mem 0x10"
    "|core   0: 0x44 (0x53) x15 mem 0x10|core   0: 3 0x44 (0x53) c.ld    a5, 0(a0)"
    "|core   0: 3 0x44 (0x53|core   0: 3 0x44 ()|core   0: 3 0x44|core   x: 3 0x44 (0x53)"
    "|core   0: 33 0x44 (0x53)|core   0: 3|(spike) ",
}


@functools.cache
def guarded():
    """The converter itself, with the compiler's guards where it has them."""
    folder = pathlib.Path(tempfile.mkdtemp(prefix="cachesim-to-din-"))
    atexit.register(shutil.rmtree, folder)
    flags = "-std=c11 -Wall -Wextra -Werror -O1".split()
    compile_it = ["cc", *flags, TOOLS / "lib/to-din.c", "-o", folder / "to-din"]
    if subprocess.run([*compile_it, "-fsanitize=address,undefined", "-fno-sanitize-recover=all"],
                      capture_output=True, check=False).returncode:
        subprocess.run(compile_it, check=True)
    return folder / "to-din"


def mutated(chance, line):
    """A line with a few bytes more, less, or others."""
    for _ in range(chance.choice((0, 0, 1, 1, 2))):
        at = chance.randrange(len(line) + 1)
        other = chance.choice(("", *'0f ,:x\0\xff\rW"', line[at:][:9]))
        line = line[:at] + other + line[at:][chance.randrange(2):]
    return line


class ToDin(ToolTest):
    def din(self, form, *arguments, **given):
        return self.good(self.run_tool("to-din", form, *arguments, **given)).splitlines()

    def faulty(self, words, *texts, status=1, tool=TOOLS / "to-din", **given):
        """A run with one message. Its output ends in that, or in the line of a tool that failed."""
        ran = self.run_command(tool, *words.split(), **given)
        message = ran.stderr.decode()
        self.assertEqual((ran.returncode, message.count("\n")), (status, 1), message)
        self.assertTrue(message.startswith("to-din: "), message)
        self.assertTrue(ran.stdout.endswith((ran.stderr, SPOILED)), (ran.stdout[-200:], message))
        for text in texts:
            self.assertIn(text, message)


class Formats(ToDin):
    def test_samples(self):
        samples = [path.name for path in SAMPLES.iterdir() if path.suffix in (".txt", ".bin")]
        self.assertEqual(sorted(EXPECTED), sorted(samples))
        for sample, expected in EXPECTED.items():
            with self.subTest(sample):
                self.assertEqual(self.din(re.split("[-.]", sample)[0], SAMPLES / sample), expected)
                self.assertIn(f"`{sample}`", (SAMPLES / "README.md").read_text())

    def test_bad_lines(self):
        """NUL, which ends the list of Dinero's labels in C, is none of them. What could change a
        terminal is shown as '?'."""
        told = "line 1: not a line of Dinero IV's extended din format: ? 0x10 8 ?[7m?"
        self.faulty("dinero", told, stdin=b"\0 0x10 8 \x1b[7m\x7f\n")
        for form, cases in BAD.items():
            good, told = next(iter(GOOD[form].items()))
            lines = {case.replace("{}", at) for case in cases.split("|") for at in NOT_HEXADECIMAL}
            lines = sorted(lines - {""})
            self.faulty(form, "line 3: not a line of ", stdin=f"{good}\n\n{lines[0]}\n".encode())
            for line in lines:
                text = f"{good}\n\n{line}\n{good}\n"
                ran = self.run_command(guarded(), form, stdin=text.encode())
                with self.subTest(form=form, line=line):
                    message = ran.stderr.decode()
                    self.assertRegex(message, r"\A\S+: line 3: not a line of .*\n\Z")
                    self.assertIn(line[:60].rstrip(), message)
                    wrote = ran.stdout.decode().splitlines()[:len(told)]
                    self.assertEqual((ran.returncode, wrote), (1, told))

    def test_champsim(self):
        chance = random.Random(1)
        records, expected = [], []
        for _ in range(40000):
            ip = chance.getrandbits(64)
            places = [chance.choice((0, chance.getrandbits(chance.choice((8, 40, 64)))))
                      for _ in range(6)]
            flags = chance.randrange(2), chance.randrange(2), chance.randbytes(6)
            records.append(struct.pack("<QBB6s6Q", ip, *flags, *places))
            data = [(0, at) for at in places[2:]] + [(1, at) for at in places[:2]]
            expected += [f"2 {ip:x}"] + [f"{label} {at:x}" for label, at in data if at]
        self.same(self.din("champsim", stdin=b"".join(records)), expected)
        whole, third = b"".join(records[:2]), records[2]
        for cut in (1, 63):
            told = f"record 3: cut short: {cut} of 64 bytes"
            self.faulty("champsim", told, stdin=whole + third[:cut])
        for at in (8, 9):
            bad = third[:at] + b"\2" + third[at + 1:]
            self.faulty("champsim", "record 3: not a record of ChampSim", stdin=whole + bad)

    def test_lackey_as_the_program_reads_it(self):
        for name in ("transpose.lackey", "blocks.lackey", "formats/lackey.txt"):
            din = self.run_tool("to-din", "lackey", EXAMPLES / name).stdout
            for kind in "udi":
                words = *SPACE, "--kind", kind
                table = self.sweep(*words, "--format", "l", "-t", EXAMPLES / name)
                self.assertEqual(self.sweep(*words, stdin=din), table)

    def test_its_lines_are_those_of_the_example(self):
        din = (EXAMPLES / "sort.din").read_text().splitlines()
        lackey = "".join(f"{(' L', ' S', 'I ')[int(line[0])]} {line[2:]:>08},4\n" for line in din)
        self.same(self.din("lackey", stdin=lackey.encode()), din)


class Streams(ToDin):
    def test_good_lines(self):
        """By themselves, and in a trace of many buffers, in any order."""
        chance = random.Random(2)
        for form, told in GOOD.items():
            drawn = chance.choices(list(told), k=(3 << 20) * len(told) // sum(map(len, told)))
            for lines, end in (list(told), " \t\r\n\n \n"), (drawn, "\n"), (drawn, "\r\n"):
                expected = list(chain.from_iterable(told[line] for line in lines))
                self.same(self.din(form, stdin=end.join(lines).encode()), expected)

    def test_changed_lines(self):
        """What random changes make of good lines."""
        chance = random.Random(3)
        for form, good in GOOD.items():
            texts = ["\n".join(mutated(chance, line) for line in chance.choices(list(good), k=6))
                     for _ in range(25)]
            for text in [*(text.encode("latin-1") for text in texts), chance.randbytes(999)]:
                ran = self.run_command(guarded(), form, stdin=text)
                told = (ran.returncode, ran.stderr.count(b"\n"))
                self.assertIn(told, ((0, 0), (1, 1)), (text, ran.stderr))
        for first in range(1, 17):  # ends at each last byte of the buffer
            text = "f" * first + "\nffffffffffffffff" * 3999
            full = self.good(self.run_command(guarded(), "addresses", stdin=text.encode()))
            self.same(full.splitlines(), ["0 " + line for line in text.split()])

    def test_long_lines(self):
        line = b'0, 0x401000, 0x8b, "%b", load, 0x7ffd1230\n'
        room, filler = (1 << 24) - len(line % b""), b"a, b" * (1 << 22)
        longest, too_long = (line % filler[:size] for size in (room, room + 1))
        self.assertEqual(self.din("execlog", stdin=longest * 2), ["2 401000", "0 7ffd1230"] * 2)
        self.faulty("execlog", "line 2: 16777216 bytes or more", stdin=line % b"" + too_long)

    def test_decimal_addresses(self):
        """As those of an exercise, with the option on either side of the file."""
        self.write("exercise.txt", "180\n# hits?\n\n 43\t\r\n18446744073709551615")
        for words in (("--decimal", "exercise.txt"), ("exercise.txt", "--decimal")):
            self.assertEqual(self.din("addresses", *words), ["0 b4", "0 2b", "0 " + "f" * 16])
        for line in ("18446744073709551616", "1a", "0x10", "-1", "1 2", "1,2", "+1"):
            self.faulty("addresses --decimal", "line 2: not a line of decimal addresses",
                        stdin=f"1\n{line}\n".encode())

    def test_nothing_and_no_access(self):
        self.assertEqual(self.din("pin", os.devnull), [])
        self.faulty("pin", "no access in lines 1 to 2", stdin=b"#\n#eof\n")
        disassembled = re.sub(b"(?m)^.*: 3 .*\n", b"", (SAMPLES / "spike.txt").read_bytes())
        self.faulty("spike", "no access", stdin=disassembled)

    @needs("xz-utils", "zstd")
    def test_names_and_packed_traces(self):
        text = (SAMPLES / "champsim.bin").read_bytes()
        packers = {".gz": "gzip", ".xz": "xz", ".zst": "zstd"}
        for name in ("a trace", "-t", "--bogus", "a trace.gz", "-t.gz", "-a trace.xz", "-a.zst"):
            packer = packers.get(pathlib.Path(name).suffix)
            packed = self.run_command(packer, "-c", stdin=text).stdout if packer else text
            self.write(name, packed)
            self.assertEqual(self.din("champsim", name), COPY)
            if packer:
                self.write(name, packed[:-9])
                ran = self.run_tool("to-din", "champsim", name)
                self.assertTrue(ran.stderr.endswith(f"to-din: {name} can't be unpacked\n".encode()))
                self.assertEqual((ran.returncode, ran.stdout.endswith(SPOILED)), (1, True))
        self.assertEqual(self.din("champsim", "-", stdin=text), COPY)


class Faults(ToDin):
    def test_a_place_that_takes_no_more(self):
        (self.folder / "trace").write_bytes(b"0x401000: R 0x10\n" * 99999)
        call = f"{TOOLS}/to-din pin trace"
        for place, fault in ("/dev/full", "No space left on device"), ("&-", "Bad file descriptor"):
            ran = self.run_command("bash", "-c", f"{call} >{place}")
            self.refused(ran, 1, f"to-din: write failed: {fault}")
        call += " | head -n 1; echo ${PIPESTATUS[0]}"
        for before in "", "trap '' PIPE;":
            ran = self.run_command("bash", "-c", f"{before} {call}")
            self.assertEqual((ran.stdout, ran.stderr), (b"0 10\n141\n", b""))

    def test_arguments(self):
        see = "; 'to-din --help' explains the arguments\n"
        for words in ("", "pin a b"):
            self.faulty(words, "one file", see, status=2)
        for words in ("valgrind", "perf missing", "missing"):
            form = words.partition(" ")[0]
            told = f"to-din: {form} is no format; there are pin, champsim, dinero, "
            self.faulty(words, told, see, status=2)
        for name in ("missing", "missing.gz"):
            self.faulty(f"pin {name}", f"{name} can't be read")
        for form, unit in ("pin", "line"), ("champsim", "record"):
            self.faulty(f"{form} .", f"{unit} 1: read failed: Is a directory")
        told = re.findall(r"(?m)^  ([a-z0-9]+) {2,}", self.good(self.run_tool("to-din", "--help")))
        formats = re.findall(r'(?m)^    \{"(\w+)"', (TOOLS / "lib/to-din.c").read_text())
        self.assertEqual(sorted(told), formats)

    def test_what_was_compared(self):
        """The help says of each format whether it was compared with what its tool writes; of those
        that were there is a sample by the tool itself."""
        text = self.good(self.run_tool("to-din", "--help"))
        entries = dict(re.findall(r"(?m)^  ([a-z0-9]+) {2,}(.*(?:\n {14}.*)*)", text))
        compared = {form for form, entry in entries.items() if "Compared with what" in entry}
        others = {form for form, entry in entries.items()
                  if re.search(r"Not\s+compared\s+with\s+its\s+output", entry)}
        self.assertEqual(compared | others | {"addresses"}, set(entries))
        by_tools = (SAMPLES / "README.md").read_text().partition("The others show")[0]
        self.assertEqual(compared, set(re.findall(r"`(\w+)\.txt` \|", by_tools)))
