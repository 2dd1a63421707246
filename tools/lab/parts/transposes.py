"""The functions of a file that transpose a matrix: how they are run, and what is said of them."""

import collections
import contextlib
import os
import pathlib
import re
import shlex
import subprocess

from lib import files, log
from parts import private, tool
from parts.student import Limited, last_line, shown, status_in_words

SIZES = ("32x32", "64x64", "61x67")
KEPT = "[0-9]+x[0-9]+-[0-9]+[.]trace"
# points, for at most so many misses; none from so many on
POINTS = {"32x32": (8, 300, 600), "64x64": (8, 1300, 2000), "61x67": (10, 2000, 3000)}
CACHE = "-l1-dsize 1k -l1-dbsize 32 -l1-dassoc 1 -informat l".split()  # -s 5 -E 1 -b 5
ARRAYS = ("A", "B", "others")
BYTES = 256 * 256 * 4  # of A or B
GUARD = 4096  # bytes before A and after B that nothing else has
MOST = 1000000  # accesses
MOST_PRINTED = 64 << 20  # bytes
ACCESS = re.compile(rb"^ ([LSM]) ([0-9a-f]{1,8}),([0-9]+)\n", re.M)
JUDGED = {"right": "", "wrong": "the result is not the transpose of A", "changed": "A is changed"}
LOGGED = re.compile(r"l1-d [01] ([0-9a-f]+) (hit|miss)(?: eviction ([0-9a-f]+))?")

HEADER = "void registerTransFunction(void (*)(int M, int N, int[N][M], int[M][N]), char *);\n"

# Arrays of 256 * 256 elements one after another, as in the lab: elements of one place in A and B
# share a set. Between the stores to `before` and `after` stand the accesses that count. What there
# is to tell goes to a file, since the functions may print, and close what they like.
DRIVER = r"""
#include <stdio.h>
#include <stdlib.h>
#include <unistd.h>
typedef void function(int M, int N, int[N][M], int[M][N]);
static volatile char before, after;
static struct {
    char front[4096];
    int A[256][256], B[256][256];
    char back[4096];
} arrays __attribute__((aligned(4096)));
static struct { function *call; int M, N; } now __attribute__((aligned(32)));
static struct { function *call; const char *about; } functions[100];
static int count;
static const char *report;
#define TELL(...) do { \
    FILE *file = fopen(report, "a"); \
    if (!file) _Exit(9); \
    fprintf(file, __VA_ARGS__); \
    fclose(file); \
} while (0)
extern void registerFunctions(void);
void registerTransFunction(function *call, char *about)
{
    if (count == 100) {
        TELL("there are more than 100 functions\n");
        _Exit(9);
    }
    functions[count].call = call;
    functions[count++].about = about;
}
static void fill(int M, int N, int a[N][M], int b[M][N])
{
    for (int i = 0; i < N; i++)
        for (int j = 0; j < M; j++) a[i][j] = i * M + j, b[j][i] = -1;
}
static const char *judged(int M, int N, int a[N][M], int b[M][N])
{
    for (int i = 0; i < N; i++)
        for (int j = 0; j < M; j++)
            if (a[i][j] != i * M + j) return "changed";
    for (int i = 0; i < N; i++)
        for (int j = 0; j < M; j++)
            if (b[j][i] != i * M + j) return "wrong";
    return "right";
}
static void run(int number, int M, int N)
{
    int (*A)[M] = (void *)arrays.A, (*B)[N] = (void *)arrays.B;
    TELL("%p %p %p %p\n", (void *)A, (void *)B, (void *)&before, (void *)&after);
    int own = getpid();
    fill(M, N, A, B);
    now.call = functions[number].call, now.M = M, now.N = N;
    before = 1;
    now.call(now.M, now.N, (void *)arrays.A, (void *)arrays.B);
    after = 1;
    if (getpid() != own) _Exit(0); /* a child is not judged */
    TELL("%s\n", judged(M, N, A, B));
}
int main(int argc, char **argv)
{
    report = argv[1];
    registerFunctions();
    if (argc > 4)
        run(atoi(argv[2]), atoi(argv[3]), atoi(argv[4]));
    for (int i = 0; i < count && argc <= 4; i++) TELL("%s%c", functions[i].about, 0);
}
"""


class Place(collections.namedtuple("Place", "a b before after")):
    """Where the driver has its data."""

    def array_of(self, address):
        if self.a <= address < self.a + BYTES:
            return "A"
        return "B" if self.b <= address < self.b + BYTES else "others"


# what a function did: what is wrong with it, and where it ended well its accesses, as lines, and
# where the data is; or, where there was no room to say it, only that it is not judged
Result = collections.namedtuple("Result", "fault lines place is_judged",
                                defaults=((), None, True))


def compiled(source, folder, seconds):
    """The program that calls the functions. A cachelab.h beside the source comes first."""
    (folder / "cachelab.h").write_text(HEADER)
    (folder / "driver.c").write_text(DRIVER)
    compiler = shlex.split(os.environ.get("CC", ""))
    if not compiler:
        tool.needs("cc", "gcc")
        compiler = ["cc"]
    command = [*compiler, "-g", "-O0", "-std=gnu99", "-idirafter", folder, "-o", folder / "driver"]
    command += ["-x", "c", folder / "driver.c", os.path.join(".", source)]
    with tool.faults_of(compiler[0]), limited(command, folder, seconds) as running:
        drain(running)
        status = running.status()
    if status != 0:
        for line in (folder / "messages").read_bytes().splitlines():
            tool.tell(line.decode(errors="replace"))
        ended = f": {compiler[0]} {end_text(status, seconds)}" * (status is None or status < 0)
        fail(f"{source} can't be compiled{ended}", folder)
    return folder / "driver"


def fail(text, folder):
    """Ends the tool with a fault of what it was given, but where its folder may be to blame."""
    tool.fail(private.no_room(folder) or text)


def drain(running):
    """Reads what a run writes, up to its end."""
    for _ in log.pieces(running.process.stdout.fileno()):
        pass


@contextlib.contextmanager
def limited(command, folder, seconds):
    """A run of a program whose standard output is a pipe, and whose messages are in a file."""
    given = {"stdout": subprocess.PIPE, "env": {**os.environ, "TMPDIR": str(folder)}}
    with open(folder / "messages", "wb") as messages:
        with Limited(command, MOST_PRINTED, seconds, stderr=messages, **given) as running:
            yield running


def end_text(status, seconds):
    """A status in words."""
    return f"has no end within {seconds:g} s" if status is None else status_in_words(status)


def end_of(running):
    """What the end of a run was, in words."""
    status = running.status()
    said = end_text(status, running.seconds)
    return f"it {said}" if status is None or "signal" in said else (
        f"it has ended the program ({said})")


def functions_in(program, source, folder, seconds):
    """What is said of each function that a program has."""
    report = folder / "functions"
    report.write_bytes(b"")
    with limited([program, report], folder, seconds) as running:
        drain(running)
        fault = end_of(running)
    *names, rest = report.read_bytes().split(b"\0")
    if rest or running.process.returncode:
        said = shown(rest.strip() or last_line(folder / "messages"))
        fail(f"{source}: registering its functions: {fault}" + f"; {said}" * bool(said), folder)
    if not names:
        fail(f"{source} registers no function", folder)
    return [shown(name.replace(b"\n", b" ")) for name in names]


def traced(program, number, size, folder, seconds):
    """What a function of a program does, by Valgrind."""
    report, lines = folder / "report", []
    report.write_bytes(b"")
    command = [f"{tool.HERE}/lab/lab-trace", program, report, str(number), *size.split("x")]
    with limited(command, folder, seconds) as running:
        for text in log.pieces(running.process.stdout.fileno()):
            lines += (found[0] for found in ACCESS.finditer(text))
            if len(lines) > MOST:
                return Result(f"it makes more than {MOST:,} accesses")
        fault = end_of(running)
    place, *judged = report.read_text().split("\n")[:-1] or [""]
    if not judged and (no_room := private.no_room(folder)):
        return Result(f"not judged: {no_room}", is_judged=False)
    if not place:
        said = shown(last_line(folder / "messages"))
        tool.fail(f"{size}: no function has begun: {fault}" + f"; {said}" * bool(said))
    if not judged:
        return Result(fault)
    place = Place(*(int(word, 16) for word in place.split()))
    # its own accesses: from the store to `before` up to that to `after`
    at = {parts_of_line(line)[:2]: index for index, line in enumerate(lines)}
    own = lines[at[b"S", place.before]:at[b"S", place.after] + 1]
    return Result(JUDGED[judged[0]], own, place)


def parts_of_line(line):
    """The kind, the address and the size of an access."""
    kind, address, size = ACCESS.fullmatch(line).groups()
    return kind, int(address, 16), int(size)


def beyond(result, size):
    """What is said of the first write to what stands around the elements of A and B. An element
    there is named as C finds it, by the nearer array: A has rows of M elements, B of N."""
    place, (columns, rows) = result.place, map(int, size.split("x"))
    own = 4 * columns * rows
    for kind, address, count in map(parts_of_line, result.lines):
        inside = any(at <= address and address + count <= at + own for at in place[:2])
        around = place.a - GUARD <= address < place.b + BYTES + GUARD
        if kind != b"L" and around and not inside:
            name, start, width = (("B", place.b, rows) if 2 * address > place.a + own + place.b
                                  else ("A", place.a, columns))
            row, column = divmod((address - start) // 4, width)
            yield f"it writes beyond {name}: {name}[{row}][{column}]"
            return


def counted(result, cachesim):
    """By array: how many accesses hit, miss, and evict a block of which array."""
    counts, array_of = {array: collections.Counter() for array in ARRAYS}, result.place.array_of
    ran = subprocess.run([cachesim, "log", *CACHE], input=b"".join(result.lines),
                         capture_output=True, check=False)
    if ran.returncode:
        message = ran.stderr.decode(errors="replace").strip()
        tool.fail(message or f"cachesim {status_in_words(ran.returncode)}")
    for found in map(LOGGED.match, ran.stdout.decode().splitlines()):
        if found:
            own = counts[array_of(int(found[1], 16))]
            own[found[2]] += 1
            if found[3]:
                own[array_of(int(found[3], 16))] += 1
    return counts


def points_of(size, misses, is_right):
    """The lab's points, as words; nothing for other sizes."""
    if size not in POINTS:
        return ""
    most, few, many = POINTS[size]
    share = min(1.0, max(0.0, (many - misses) / (many - few))) * is_right
    return f"  {most * share:.1f} of {most} points"


def lines_of(size, result, cachesim):
    """What is said of a function at a size."""
    if not result.place:
        points = points_of(size, 0, False) * result.is_judged
        yield f"    {size}  {result.fault}{points}"
        return
    counts = counted(result, cachesim)
    total = sum(counts.values(), collections.Counter())
    evictions = sum(total[array] for array in ARRAYS)
    yield (f"    {size}  hits:{total['hit']} misses:{total['miss']} evictions:{evictions}"
           f"{points_of(size, total['miss'], not result.fault)}")
    yield from (f"        {said}" for said in [result.fault, *beyond(result, size)] if said)
    rows = [("array", "accesses", "hits", "misses", "evicting A", "evicting B", "others")]
    for array, own in counts.items():
        numbers = [own["hit"] + own["miss"], own["hit"], own["miss"], *(own[of] for of in ARRAYS)]
        rows.append((array, *map(str, numbers)))
    for name, *numbers in rows:
        aligned = (f"{text:>{len(head)}}" for text, head in zip(numbers, rows[0][1:]))
        yield f"        {name:6}  " + "  ".join(aligned)


def keeper(asked):
    """What keeps the accesses of a function under a name. It is a fault where such a name in the
    folder is another's."""
    if asked.keep is None:
        return lambda name, lines: None
    os.makedirs(asked.keep, exist_ok=True)
    places = [os.path.join(asked.keep, name) for name in sorted(os.listdir(asked.keep))
              if re.fullmatch(KEPT, name) and name.partition("-")[0] in (asked.size or SIZES)]
    files.claim(places, [("TRANS.C", asked.source)])
    return lambda name, lines: files.keep(os.path.join(asked.keep, name), b"".join(lines))


def judge(asked, folder):
    """Counts all functions for all sizes: what is said, by function, and the status."""
    cachesim, status, texts, keep = tool.find_cachesim(), 0, {}, keeper(asked)
    folder = pathlib.Path(folder)
    program = compiled(asked.source, folder, asked.seconds)
    names = functions_in(program, asked.source, folder, asked.seconds)
    for each in asked.size or SIZES:
        for number, about in enumerate(names):
            result = traced(program, number, each, folder, asked.seconds)
            if result.place:
                keep(f"{each}-{number + 1}.trace", result.lines)
            said = lines_of(each, result, cachesim)
            texts.setdefault((number, about), []).extend(said)
            status = max(status, 1 if result.fault else 0, 0 if result.is_judged else 2)
    return texts, status
