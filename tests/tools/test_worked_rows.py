"""No worked row compares a thing with itself, is always true, or asks for a bound: it passes
whatever the definition or the code says. Nor does a test of a tool."""

import ast
import re
import unittest

import base

ROWS = re.compile(r"^(?:(?:abbrev|unfoldable|pub) )*(\w[\w-]*) :(.*?)(?=^\S|\Z)", re.M | re.S)
# a condition of code that is a constant, or has one beside it
ALWAYS = re.compile(r"\bassert!\(rt;\s*(true\b|[^;\"]*?(?:\|\|\s*true\b|\btrue\s*\|\|))")
# a condition that more values meet than one
LOOSE = re.compile(r"\bassert!\(rt;\s*([^;\"]*?(?:[<>]=|!=|\|\|)[^;\"]*?)\)?[,;]")
OPENS, CLOSES = "([{", ")]}"
TESTS = re.compile(r"^#\[test\]\n(?:#.*\n)*fn (\w+)\(.*?\{$(.*?)^\}$", re.M | re.S)


def side(text, opens, closes, ends):
    """A side of a comparison: up to the bracket that encloses it, or a sign that ends it."""
    depth = 0
    for at, letter in enumerate(text):
        if depth == 0 and letter in closes + ends:
            return text[:at]
        depth += (letter in opens) - (letter in closes)
    return text


def equal_sides(text, equals, ends):
    """The comparisons with the same text on both sides."""
    for sign in re.finditer(equals, text):
        left = side(text[: sign.start()][::-1], CLOSES, OPENS, ends)[::-1]
        right = side(text[sign.end() :], OPENS, CLOSES, ends)
        if left.split() == right.split():
            yield left.strip()


def in_rows(text):
    """The names of the rows of a module of proofs that compare a thing with itself."""
    return [name for name, row in ROWS.findall(text) if any(equal_sides(row, "≡", "×→≡"))]


def in_code(text):
    return [*equal_sides(text, "==", ",;=!&|"), *ALWAYS.findall(text)]


def loose(text):
    return [condition.strip() for condition in LOOSE.findall(text)]


def in_tests(text):
    """The lines of a module of tests that compare a thing with itself, ask for a constant, or end a
    test before its last line."""
    for call in ast.walk(ast.parse(text)):
        if isinstance(call, ast.Call) and ast.unparse(call.func).startswith("self.assert"):
            first, *others = map(ast.dump, call.args)
            if first in others[:1] or isinstance(call.args[0], ast.Constant) and not others:
                yield ast.unparse(call)
        if isinstance(call, ast.FunctionDef) and re.match(r"test_.*\(self\)", unparsed(call)):
            yield from (f"{call.name}: return" for it in ast.walk(call)
                        if isinstance(it, ast.Return) and not it.value)


def unparsed(function):
    return f"{function.name}({ast.unparse(function.args)})"


def unasserted(text):
    """The tests of a source that assert nothing."""
    return [name for name, code in TESTS.findall(text)
            if not re.search(r"\bassert!|\bexpect", code)]


class WorkedRows(unittest.TestCase):
    def test_of_definitions(self):
        files = [path for path in base.TOP.glob("crates/*/proofs/**/*.antt")
                 if re.search("Tables|Examples|Rows", path.stem)]
        self.assertGreater(len(files), 8)
        for path in files:
            self.assertEqual(in_rows(path.read_text()), [], path)

    def test_of_code(self):
        files = list(base.TOP.glob("crates/worked_*/src/*.rt"))
        self.assertGreater(len(files), 8)
        for path in files:
            self.assertEqual(in_code(path.read_text()), [], path)
            self.assertEqual(loose(path.read_text()), [], path)
            self.assertEqual(unasserted(path.read_text()), [], path)

    def test_of_tools(self):
        files = list((base.TOP / "tests/tools").glob("*.py"))
        self.assertGreater(len(files), 50)
        for path in files:
            self.assertEqual([*in_tests(path.read_text())], [], path)
        wrong = ["self.assertEqual(a.b(2), a.b(2))", "self.assertTrue(True)", "self.assertIn(a, a)"]
        right = "self.assertEqual(a.b(2), a.b(3))\nself.assertTrue(a)\nassertEqual(a, a)\n"
        self.assertEqual([*in_tests(right + "\n".join(wrong))], wrong)
        early = "def {}(self):\n    if a:\n        return{}\n    self.assertTrue(a)\n"
        texts = early.format("test_a", ""), early.format("judge", ""), early.format("test_b", " 2")
        self.assertEqual([*in_tests("".join(texts))], ["test_a: return"])

    def test_what_is_found(self):
        rows = ("good : (f 7 ≡ Some 7) × (f 8 ≡ None)\ngood = (refl, refl)\n"
                "bad : (f 7 ≡ Some 7)\n    × (f 8 ≡ f  8)\nbad = (refl, refl)\n")
        self.assertEqual(in_rows(rows), ["bad"])
        tests = "#[test]\nfn good(rt: Host) -> Fail {\n    assert!(rt; a == b);\n    Ok(())\n}\n\n"
        tests += tests.replace("good", "bad").replace("assert!(rt; ", "let _ = (")
        self.assertEqual(unasserted(tests), ["bad"])
        for code, *found in (
            ('assert!(rt; found == wanted, "row {i}"); let is_so = a.counts(2) == b.counts(2);',),
            ("assert!(rt; cache.counts(2) == cache.counts(2));", "cache.counts(2)"),
            ('assert!(rt;\n    ok && found == found,\n    "row {i}");', "found"),
            ('assert!(rt; true, "row {i}");', "true"),
            ('assert!(rt; is_true || a == b); assert!(rt; a == true, "true");',),
            ("assert!(rt; a == 2 || true);", "a == 2 || true"),
        ):
            self.assertEqual(in_code(code), found)

    def test_what_is_loose(self):
        """A bound where a value is known: a wrong value can meet it."""
        for code, *found in (
            ("assert!(rt; a.len() == 2); assert!(rt; a < b);",),
            ("assert!(rt; a.len() >= 2);", "a.len() >= 2"),
            ('assert!(rt; a != 2, "row {i}"); assert!(rt;\n    a == 1 || a == 2);',
             "a != 2", "a == 1 || a == 2"),
        ):
            self.assertEqual(loose(code), found)


if __name__ == "__main__":
    unittest.main()
