"""What binutils and LLVM tell of an ELF file, and the file of its debug information."""

import functools
import os
import re
import shutil
import zlib

from lib import processes, regular, tool

# of programs for other machines the prefix of their binutils
PREFIXES = {40: "arm-linux-gnueabihf", 183: "aarch64-linux-gnu", 243: "riscv64-linux-gnu"}
# LLVM's is asked for lines, since that of binutils 2.40 takes one file for another in DWARF 5
LLVM = "llvm-addr2line"
DEBUG_FOLDER = "/usr/lib/debug"
LINK = re.compile(r"\.gnu_debuglink .*\n\s*Separate debug info file: (.*)\n\s*CRC value: 0x(\w+)")
# any such file, or one that has a part of a compiler's debug information, and its folder
LINKED = re.compile(r"(?:Separate debug info file|^ +Name): +(.+)(?:\n +Directory: +(.+))?", re.M)
# of ELF files: parts of DWARF's usual form end at 4 GiB
LARGEST = 16 << 30
BUILD_ID = re.compile(r"Build ID: (\w\w)(\w+)")
# a variable in what llvm-dwarfdump tells; its file, the entry that has its file, and its address
VARIABLE = re.compile(r"0x(\w+): DW_TAG_variable\n((?: .*\n)*)")
TOLD = (r'decl_file\t\("(.*)"\)', r"abstract_origin\t\(0x(\w+)",
        r"location\t\(DW_OP_addr 0x(\w+)\)")
# what ThinLTO adds to a name, with which nm leaves Rust's names as they are
THIN_LTO = re.compile(r"\.llvm\.\d+(?=\.|$)")


def head_of(path):
    """The beginning of an ELF file, up to its machine; nothing of what is none, can't be read, or
    is too large for one."""
    try:
        with regular.opened(path) as file:
            head = file.read(20) or b""
            is_one = head[:4] == b"\x7fELF" and os.fstat(file.fileno()).st_size <= LARGEST
    except OSError:
        return b""
    return head if is_one else b""


def prefix_of(head):
    """The prefix of the binutils for an ELF file; none for this machine's."""
    prefix = PREFIXES.get(int.from_bytes(head[18:], "little"), "")
    return "" if prefix.split("-")[0] == os.uname().machine else prefix


def run(words, package, of, text=None):
    """What a command writes. Without its answer a table would look whole, so the tool ends where
    it fails."""
    text = None if text is None else text.encode(errors="surrogateescape")
    said = processes.output_of(words, package, text, of, {**os.environ, "LC_ALL": "C"})
    return said.decode(errors="replace")


def output_of(command, path, *options, text=None):
    """What a command of binutils or LLVM, with options of which the last may take the path, writes
    of an ELF file; nothing of another."""
    head = head_of(path)
    if not head:
        return ""
    is_llvm = command.startswith("llvm-")
    prefix = "" if is_llvm else prefix_of(head)
    package = "llvm" if is_llvm else f"binutils-{prefix}".rstrip("-")
    return run([f"{prefix}-{command}" if prefix else command, *options, path], package, path, text)


@functools.cache
def line_finder():
    """The command that tells the lines of addresses."""
    return LLVM if shutil.which(LLVM) else "addr2line"


def mended(names, path):
    """The names that nm has of a program's symbols, those of Rust after ThinLTO as of others."""
    left = [name for name in names if name.startswith("_") and THIN_LTO.search(name)]
    if not left:
        return names
    lines = "".join(f"{THIN_LTO.sub('', name)}\n" for name in left)
    told = dict(zip(left, run(["c++filt", "-i"], "binutils", path, lines).splitlines()))
    return [told.get(name, name) for name in names]


def sources_of(path, names):
    """By their addresses the source files of the variables that have one of these names, as the
    debug information has them. After an optimization at link time nm tells none."""
    if not names or not shutil.which("llvm-dwarfdump"):
        return {}
    text = output_of("llvm-dwarfdump", path, *(f"--name={name}" for name in sorted(names)))
    files, places = {}, {}
    for at, rest in VARIABLE.findall(text):
        file, origin, place = (re.search(pattern, rest) for pattern in TOLD)
        if file:
            files[int(at, 16)] = os.path.basename(file[1])
        if place:
            places[int(place[1], 16)] = int(origin[1] if origin else at, 16)
    return {place: files[entry] for place, entry in places.items() if entry in files}


def checksum_of(path):
    """That by which a program names the file of its debug information."""
    found = 0
    with regular.opened(path) as file:
        while piece := file.read(1 << 20):
            found = zlib.crc32(piece, found)
    return found


def build_id(path):
    found = BUILD_ID.search(output_of("readelf", path, "-n", "--"))
    return found.groups() if found else None


def is_usable(found, path):
    """Whether a file of a program's debug information is there. Ends the tool where it is a pipe or
    a device, or too large: llvm-addr2line looks for these files too, and would wait."""
    if regular.may_wait(found, LARGEST):
        tool.fail(f"{found} would be read as debug information of {path}, and is no regular file of"
                  f" up to {tool.size_text(LARGEST)} bytes")
    return bool(head_of(found))


@functools.cache
def links_of(path):
    """What readelf tells of the files to which debug information leads, each of which is judged so,
    where a command may look for it."""
    links = output_of("readelf", path, "-wk", "--")
    folder = os.path.dirname(path)
    for name, compiled_in in LINKED.findall(links):
        for place in (compiled_in or folder, folder, f"{folder}/.debug"):
            is_usable(os.path.join(place, name), path)
    is_usable(f"{path}.dwp", path)
    return links


@functools.cache
def debug_file(path):
    """The file with the names and lines of a stripped program, or None: that of its build ID, or
    the one that it names, where GDB looks for it; a file of another build is passed over."""
    identity = build_id(path)
    if identity:
        found = "{}/.build-id/{}/{}.debug".format(DEBUG_FOLDER, *identity)
        if is_usable(found, path) and build_id(found) == identity:
            return found
    link = LINK.search(links_of(path))
    folder = os.path.dirname(os.path.realpath(path))
    for place in (folder, f"{folder}/.debug", f"{DEBUG_FOLDER}{folder}") if link else ():
        found = os.path.join(place, link[1])
        if is_usable(found, path) and not os.path.samefile(found, path):
            if checksum_of(found) == int(link[2], 16):
                return found
            tool.warn(f"{found} is of another build of {path}")
    return None
