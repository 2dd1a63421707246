"""The cases tell a wrong program from the right one: each mistake of a colleague, put into the
model, is seen by a case.

So a case that alone shows a mistake can't be deleted unseen. Most mistakes are in which of two
faults is told, which the definitions and the code can have alike.
"""

import re
import types
import unittest

import base


def swapped(file, first, second, between=", "):
    """Two parts of the model that stand in the other order."""
    return file, first + between + second, second + between + first


# a part of the model and what a mistake has there, with the cases that are run
MISTAKES = {
    "sizes are judged before associativities": swapped(
        "sweep-words", '("assoc", 1, 65536)', '("size", 0, 2**64)'),
    "set counts are judged before block sizes": swapped(
        "sweep-words", '("bsize", 1, 2**20)', '("sets", 1, 2**20)'),
    "--rows is read before --after": swapped(
        "sweep-words", 'Option("--after", triple)', 'Option("--rows", number)', "]\n    + ["),
    "--format is read before --kind": swapped(
        "sweep-words", 'Option("--kind", one_of("udi"))', 'Option("--format", one_of("dl"))'),
    "a range that is no power of two and reversed is told as reversed": (
        "sweep-words", 'if name in ("bsize", "sets") and not',
        'if low <= high and name in ("bsize", "sets") and not'),
    "--seed is read before -informat": swapped(
        "din", 'Option("-informat", one_of("dl"))', 'Option("--seed", number)'),
    "write-back alone is no option of a cache": (
        "din", "if any(value is not None for value in own.values())",
        'if any(value is not None for word, value in own.items() if word != "wback")'),
    "a mixed first level is judged after the geometries": (
        "din", 'if "l1-u" in caches and (',
        'if all(it.get("size", 2**64) >= it["bsize"] for it in caches.values()) '
        'and "l1-u" in caches and ('),
    "smaller blocks below are judged before the geometries": (
        "din", "    machines = {}\n    for name, cache in caches.items():\n",
        "    machines = {}\n    for name, cache in caches.items():\n"
        '        if "l2-u" in caches and caches["l2-u"]["bsize"] < cache["bsize"]:\n'
        '            raise Fault("l2-u: block size smaller than in the first level", 2)\n'),
    "smaller blocks below are looked for in one first-level cache alone": (
        "din", "< max(bsizes)", "< bsizes[-2]"),
    "all caches have one generator": (
        "log", 'words=random_words(job["seed"])) for name',
        'words=one) for one in [random_words(job["seed"])] for name'),
    "the random words begin anew after a flush": (
        "din", "        self.held = {}\n",
        "        self.held, self.words = {}, random_words(42)\n"),
    "a write hit is no use without allocation": (
        "log", 'if self.repl == "l":',
        'if self.repl == "l" and (ref.access != "write" or self.walloc == "a"):'),
    "a write hit is no use with write-through": (
        "log", 'if self.repl == "l":',
        'if self.repl == "l" and (ref.access != "write" or self.wback == "a"):'),
    "a write hit is a use under FIFO": (
        "log", 'if self.repl == "l":',
        'if self.repl == "l" or self.repl == "f" and ref.access == "write":'),
    "a flush is no data": (
        "sweep-tables", "            events.append(FLUSH)\n",
        '            events += [FLUSH] * (kind != "d")\n'),
    "what is dirty at the end is copied back": (
        "sweep-full", "    stats = cache.stats\n", "    cache.flush()\n    stats = cache.stats\n"),
    "a flush copies nothing back": (
        "sweep-full", '        self.stats["copybacks"] += dirty\n', ""),
    "misses of reads and of writes change places": (
        "sweep-full", '"read miss", "write miss", "copybacks")',
        '"write miss", "read miss", "copybacks")'),
    "a block that is placed after a write is dirty": (
        "sweep-full", "        self.held[block] = [key, False]\n",
        "        self.held[block] = [key, self.stats['write'] > 0]\n"),
    "a number has at most 20 digits": (
        "sweep-words", 'if re.fullmatch("[0-9]+", text)', 'if re.fullmatch("[0-9]{1,20}", text)'),
    "the ends of a range differ": (
        "sweep-words", "if None not in ends and len(ends) in (1, 2):",
        "if None not in ends and len(set(ends)) == len(ends) < 3:"),
    "-informat= is respelled": ("din", 'or word == "-informat"', 'or word.startswith("-informat")'),
    "two prefixes are passed": (
        "lines-din", "(?:0[xX])?([0-9a-fA-F]{1,16})", "(?:0[xX]){0,2}([0-9a-fA-F]{1,16})"),
    "a return in front is a blank": (
        "lines-din", 'line.rstrip(b" \\t\\r"))', 'line.strip(b" \\t\\r"))'),
    "a size is judged before its address": (
        "lines-lackey", '    if not re.fullmatch(rb"[0-9a-fA-F]{1,16}", address)',
        '    if re.fullmatch(rb"[0-9]{1,9}", size) is None and address:\n'
        '        raise Fault("bad size")\n'
        '    if not re.fullmatch(rb"[0-9a-fA-F]{1,16}", address)'),
    "a message behind a blank is skipped": (
        "lines-lackey", 'line[:1] in (b"=", b"-", b"*")', 'line.strip()[:1] in (b"=", b"-", b"*")'),
}


class WrongModels(unittest.TestCase):
    def setUp(self):
        self.script, inputs = base.script("run"), base.TOP / "tests/cases/inputs"
        self.found = self.script.read_all(inputs.parent, inputs)

    def model(self, old="", new=""):
        """The model with a mistake."""
        text = (base.TOP / "tests/model.py").read_text()
        if old:
            self.assertEqual(text.count(old), 1, old)
        made = types.ModuleType("wrong_model")
        exec(compile(text.replace(old, new) if old else text, "wrong_model", "exec"), made.__dict__)
        return made

    def failed(self, model, files):
        """The names of the cases of some files of which a model makes something else. Of the texts
        that it lacks only the status is compared."""
        failed = []
        for case in self.script.chosen(self.found, files)[0]:
            if not case.files:
                given = {"/dev/stdin": case.stdin}
                out, err, status = model.run(
                    case.arguments, lambda: case.stdin,
                    lambda name: given.get(name) or model.file_text(name))
                wrong = [case.streams[name].differs(name, text.encode())
                         for name, text in (("stdout", out), ("stderr", err))]
                if status != case.status or any(wrong) and not case.is_beyond_the_model:
                    failed.append(case.name)
        return failed

    def test_the_right_model(self):
        files = sorted({file for file, *_ in MISTAKES.values()})
        self.assertEqual(self.failed(self.model(), files), [])

    def see(self, file, old, new):
        failed = self.failed(self.model(old, new), [file])
        self.assertNotEqual(failed, [], "no case tells this model from the right one")


for mistake, (file, old, new) in MISTAKES.items():
    setattr(WrongModels, "test_" + re.sub(r"\W+", "_", mistake),
            lambda self, given=(file, old, new): self.see(*given))


if __name__ == "__main__":
    unittest.main()
