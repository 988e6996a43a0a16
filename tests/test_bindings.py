"""The bindings of C++, Rust and Python, and the programs that show how to use them, beside the program itself."""

import os
import re
import sys
import unittest

from support import c_library, programs

RUST = f"{programs.TOP}/bindings/rust"
PYTHON = f"{programs.TOP}/bindings/python"

# The tests of C++, each a program that prints what is wrong, and words for the compiler.
CPP_TESTS = [["lexing"], ["checking"], ["memory"], ["ranges", "-std=c++2a"], ["threads", "-pthread"]]

# A text in C of about 1 MB, and one that stops.
LONG = programs.read("examples/sorted.c") * (1_000_000 // len(programs.read("examples/sorted.c")))

# The report of a faulty rule file.
FAULTY = "{}:2:1: Invalid regular expression: unclosed group\n2 | c( 'C'\n  | ^\n"

# What is lexed by each binding: a rule file, and the text.
TEXTS = [
    ("examples/tokens.l", programs.read("examples/tokens.txt")),
    ("rules/c.l", LONG),
    ("rules/example.l", programs.read("tests/cli/rules_example.in")),
    ("rules/json.l", '{"a": [1, 2.5e3, "é❤😀"]}\n'),
    ("rules/json.l", '{"é": ?}'),
    ("rules/conf.l", programs.read("tests/examples/conf.in")),
    ("tests/cli/stop.l", programs.read("tests/cli/stop.in")),
    ("rules/c.l", ""),
]

# Files for the programs in C and C++, by their names. A folder is there too.
FILES = {
    "words.l": "%%\n[a-z]+ 'ID'\n[ \\n] ;\n",
    "long.l": f"%%\n[a-z]+ '{'n' * 300}'\n",
    "faulty.l": "%%\nc( 'C'\n",
    "\udcff.l": "%%\nc( 'C'\n",
    "bad": "a\udcff",
    "text": "ab c",
    "word": "ab",
    "stops": "ab ?",
    "folder/file": "",
}

# What they are called with, and what comes of it.
SAID = [
    (["words.l", "text"], programs.Outcome("ID ab\nID c\n")),
    (["long.l", "word"], programs.Outcome(f"{'n' * 300} ab\n")),
    (["words.l", "stops"], programs.Outcome("ID ab\nCouldn't lex input starting at byte 3\n", "", 1)),
    (["words.l"], programs.Outcome("", "Usage: tokens <lexer.l> <input file>\n", 1)),
    (["none.l", "text"], programs.Outcome("", "Can't open file none.l\n", 1)),
    (["words.l", "none"], programs.Outcome("", "Can't open file none\n", 1)),
    (["folder", "text"], programs.Outcome("", "Can't open file folder\n", 1)),
    (["words.l", "folder"], programs.Outcome("", "Can't open file folder\n", 1)),
    (["bad", "text"], programs.Outcome("", "File bad is not UTF-8\n", 1)),
    (["words.l", "bad"], programs.Outcome("", "File bad is not UTF-8\n", 1)),
    (["faulty.l", "text"], programs.Outcome("", FAULTY.format("faulty.l"), 1)),
    (["\udcff.l", "text"], programs.Outcome("", FAULTY.format("RULES"), 1)),
]


def python_environment():
    """The environment in which Python finds the package and the library."""
    return {**os.environ, "PYTHONPATH": PYTHON, "LRLEX_LIBRARY": c_library.shared(), "PYTHONDONTWRITEBYTECODE": "1"}


def rust_program(source, *words):
    """A program in Rust over the crate, which is built first."""
    c_library.need("rustc")
    scratch = programs.scratch().name
    crate, path = f"{scratch}/liblrlex.rlib", f"{scratch}/{os.path.basename(source).replace('.', '_')}_rust"
    options = ["rustc", "--edition", "2024", "-O", "-D", "warnings"]
    linked = ["-L", f"native={os.path.dirname(c_library.static())}", "-l", "static=lrlex"]
    run_well([*options, "--crate-type", "rlib", "--crate-name", "lrlex", *linked, "-o", crate, f"{RUST}/src/lib.rs"])
    run_well([*options, *words, "--extern", f"lrlex={crate}", *linked[:2], "-o", path, os.path.join(RUST, source)])
    return path


def run_well(words, **how):
    """The outcome of words that end well."""
    came = programs.run(words, timeout=600, **how)
    if came.status:
        raise AssertionError(f"{' '.join(words)} ended with status {came.status}:\n{came.out}{came.err}")
    return came


class Bindings(unittest.TestCase):
    """Each binding by its own tests, and by a program that prints the tokens of a text."""

    def setUp(self):
        c_library.need()

    def check_tokens(self, words, environment=None):
        """These words, with a rule file and an input after them, print what the program does."""
        programs.need("lrlex_program")
        path = f"{programs.scratch().name}/text"
        for rules, text in TEXTS:
            with self.subTest(rules=rules, text=text[:40]):
                programs.fill(programs.scratch().name, {"text": text})
                given = [f"{programs.TOP}/{rules}", path]
                wanted = programs.run([programs.path_of("lrlex_program"), *given])
                came = programs.run([*words, *given], environment=environment)
                self.assertEqual((came.status, len(came.out)), (wanted.status, len(wanted.out)), came.err)
                self.assertTrue(came.out == wanted.out)

    def check_shown(self, kind, make):
        """The program of this kind in docs/c.md, as `make` runs it, prints the tokens of its text."""
        [program] = re.findall(rf"^```{kind}\n(.*?)^```$", programs.read("docs/c.md"), re.M | re.S)
        file = f"{programs.scratch().name}/shown.{kind}"
        programs.fill(programs.scratch().name, {f"shown.{kind}": program})
        came = programs.run(make(file), environment=python_environment())
        self.assertEqual((came.status, came.err), (0, ""))
        first = re.sub("^1 ", "ID ", re.sub("^0 ", "INT ", came.out, flags=re.M), flags=re.M)
        self.assertEqual(first.splitlines()[:2], ["ID abc", "INT 123"])

    def test_the_programs_of_the_page(self):
        self.check_shown("c", lambda file: [c_library.of_c(file)])
        self.check_shown("cpp", lambda file: [c_library.of_cpp(file)])
        self.check_shown("rs", lambda file: [rust_program(file)])
        self.check_shown("py", lambda file: [sys.executable, file])

    def check_said(self, program):
        """The program says what is wrong, also that it can't write."""
        folder = f"{programs.scratch().name}/said"
        programs.fill(folder, FILES)
        for words, wanted in SAID:
            with self.subTest(words=words):
                self.assertEqual(programs.run([program, *words], cwd=folder), wanted)
        words = ["sh", "-c", f"{program} {programs.TOP}/examples/tokens.l {programs.TOP}/examples/tokens.txt >/dev/full"]
        self.assertEqual(programs.run(words), programs.Outcome("", "Can't write\n", 1))

    def test_c_prints_tokens(self):
        self.check_tokens([c_library.of_c("bindings/c/tokens.c")])

    def test_the_programs_in_c_and_cpp_say_what_is_wrong(self):
        self.check_said(c_library.of_c("bindings/c/tokens.c"))
        self.check_said(c_library.of_cpp("bindings/cpp/tokens.cpp"))

    def test_cpp(self):
        for name, *words in CPP_TESTS:
            with self.subTest(name=name):
                came = programs.run([c_library.of_cpp(f"bindings/cpp/tests/{name}.cpp", *words)])
                self.assertEqual(came, programs.Outcome())

    def test_cpp_prints_tokens(self):
        self.check_tokens([c_library.of_cpp("bindings/cpp/tokens.cpp")])

    def test_rust(self):
        for name in ["lexing", "checking"]:
            with self.subTest(name=name):
                run_well([rust_program(f"tests/{name}.rs", "--test"), "--quiet"])

    def test_the_example_of_the_crate(self):
        rust_program("examples/tokens.rs")
        c_library.need("rustdoc")
        crate, native = f"lrlex={programs.scratch().name}/liblrlex.rlib", f"native={os.path.dirname(c_library.static())}"
        words = ["rustdoc", "--edition", "2024", "--crate-name", "lrlex", "--extern", crate, "-L", native, "--test", f"{RUST}/src/lib.rs"]
        self.assertRegex(run_well(words).out, r"[1-9]\d* passed; 0 failed")

    def test_rust_prints_tokens(self):
        self.check_tokens([rust_program("examples/tokens.rs")])

    def test_python(self):
        words = [sys.executable, "-m", "unittest", "discover", "-s", f"{PYTHON}/tests"]
        run_well(words, environment=python_environment())

    def test_python_replays_cases(self):
        came = run_well([sys.executable, "-m", "support.c_replay"], cwd=f"{programs.TOP}/tests", environment=python_environment())
        self.assertRegex(came.out, r"\A\d+ cases, 110 left out, 0 differences\n\Z")

    def test_python_checks_a_rule_file(self):
        """What is printed is what docs/rolgumzai.md shows."""
        asked = "./rolgumzai check examples/faults.l"
        [wanted] = re.findall(rf"^\$ {re.escape(asked)}\n(.*?)^```$", programs.read("docs/rolgumzai.md"), re.M | re.S)
        words = [sys.executable, "-m", "lrlex", "--check", "examples/faults.l"]
        came = programs.run(words, environment=python_environment())
        self.assertEqual(came, programs.Outcome(wanted, "", 1))

    def test_python_prints_tokens(self):
        self.check_tokens([sys.executable, "-m", "lrlex"], python_environment())


if __name__ == "__main__":
    unittest.main()
