"""The C library: what its header declares, calls from C, misuse, refused memory, and what ./dev dist packs."""

import os
import re
import unittest

from support import c_library, fuzzing, programs

FIRST = """1:1 ID abc
1:5 INT 123
1:1 ID ab
stopped at 3 in state 0
2 tokens, end 5 in state 1
2 tokens, end 6 in state 0
1 tokens, end 3 in state 1, stopped
0 tokens, end 0 in state 0, stopped
state 1, entered at 2 to 4
state 1, entered at 7 to 9
not entered
not entered
state 1, entered at 0 to 2
state 1, entered at 2 to 4
not entered
state 1, entered at 2 to 4
state 1, entered at 7 to 9
not entered
state 0, entered at 4 to 5
kind 6, Start state already exists: 1:4, bytes 3 to 4 1:6, bytes 5 to 6
  Start state already exists
kind 9, Rule name already exists: 3:6, bytes 15 to 16 4:4, bytes 21 to 22
  Rule name already exists
kind 10, Invalid regular expression: regex parse error at 2..3: unclosed group: 5:1, bytes 24 to 24
  Invalid regular expression: unclosed group
a.l:1:6: Start state already exists
1 | %x A A
  |      ^
a.l:1:4: first here
1 | %x A A
  |    ^
a.l:4:4: Rule name already exists
4 | b 'A'
  |    ^
a.l:3:6: first here
3 | a+b 'A'
  |      ^
a.l:5:1: Invalid regular expression: unclosed group
5 | c( 'C'
  | ^
kind 6, Start state already exists: 1:4, bytes 3 to 4 1:6, bytes 5 to 6
  Start state already exists
kind 10, Invalid regular expression: regex parse error at 2..3: unclosed group: 3:1, bytes 10 to 10
  Invalid regular expression: unclosed group
kind 9, Rule name already exists: 4:4, bytes 20 to 21 5:4, bytes 26 to 27
  Rule name already exists
kind 5, Start state not known: 6:1, bytes 29 to 29
  Start state not known: declare it with %s or %x; commas separate the names of a list, and a target stands before the rule's name; a pattern that begins with the character < begins with \\<
a.l:1:6: Start state already exists
1 | %x A A
  |      ^
a.l:1:4: first here
1 | %x A A
  |    ^
a.l:3:1: Invalid regular expression: unclosed group
3 | c( 'C'
  | ^
a.l:5:4: Rule name already exists
5 | b 'A'
  |    ^
a.l:4:4: first here
4 | a 'A'
  |    ^
a.l:6:1: Start state not known: declare it with %s or %x; commas separate the names of a list, and a target stands before the rule's name; a pattern that begins with the character < begins with \\<
6 | <B>b ;
  | ^
1:4, bytes 3 to 4, kind 16, NeverEntered: no rule enters this start state; name it as the target of a rule
1:4, bytes 3 to 4, kind 17, NoRules: no rule is active in this start state, so lexing stops there; list it before a pattern
4:1, bytes 20 to 22, kind 0, NeverWins: this rule never wins: it matches no byte, or other rules match as much or more; put it before them, or make them match less
3 warnings
a.l:1:4: Warning: no rule enters this start state; name it as the target of a rule [NeverEntered]
1 | %x S
  |    ^
a.l:1:4: Warning: no rule is active in this start state, so lexing stops there; list it before a pattern [NoRules]
1 | %x S
  |    ^
a.l:4:1: Warning: this rule never wins: it matches no byte, or other rules match as much or more; put it before them, or make them match less [NeverWins]
4 | if 'IF'
  | ^^
0 warnings
PrematureEnd RoutinesNotSupported UnknownDeclaration MissingSpace InvalidName UnknownStartState DuplicateStartState InvalidStartState InvalidStartStateName DuplicateName RegexError VerbatimNotSupported TooManyRules
NeverWins NeverActive LooksAround NoTable TargetInPattern BlankAfterStates LostEscape EscapeAfterStates LostAlternative NameInPattern QuotedPattern BareOperator LostCaret GreedyDot ClassOperator UnknownClass NeverEntered NoRules
rule 0: A, id 0, bytes 16 to 17
state 0: INITIAL
state 1: STRING, exclusive
no rule has the name WORD
rule 0 has no id
1:1 ID abc
stopped at 4 in state 0
0+3:1 4+3:0, end 7
0+3:1 3+3:0, end 6
0+3:1 3+3:0, end 7, stopped
abc123 ?, to 1:9, 0:8
3 pieces
piece 3+3 of rule 0
piece 6+1 of rule 2
places 1:1 1:2 2:3 2:1 1:1 2:4 2:2
0+2 of rule 1, id 1
2+1 of rule 2
3+1 of rule 0, id 0
4+1 of rule 2
5+1 of rule 1, id 1
at 6, end 1 in state 0
at 0, end 1 in state 0
0+2 of rule 1, id 1
at 2, end 2 in state 0
"""

# What a program that links the archive has to give it, of the C library.
NEEDED = {"malloc", "realloc", "free", "memcpy", "memmove", "memset", "memcmp"}

WRAPPED = "-Wl,--wrap=malloc,--wrap=realloc,--wrap=free"

# Programs in C and C++, with their arguments.
TEXT = [f"{programs.TOP}/rules/c.l", f"{programs.TOP}/examples/sorted.c"]
SHOWN = [
    (c_library.of_c, "tests/c_library/first.c"),
    (c_library.of_c, "tests/c_library/misuse.c"),
    (c_library.of_c, "bindings/c/tokens.c", *TEXT),
    (c_library.of_cpp, "bindings/cpp/tokens.cpp", *TEXT),
    (c_library.of_cpp, "bindings/cpp/tests/lexing.cpp"),
]

# Of a shared library, the name that programs look for, and the version of its names.
NAMED = r"\(SONAME\).*\[(.*)\]"
MARKED = r"^LRLEX_([\d.]+) A"

# What a user's program is, to be compiled by what pkg-config says.
INCLUDED = "#include <lrlex.h>\nint main(void) { lrlex_definition d = {0}; lrlex_free(&d); return d.hidden != 0; }\n"


def declared():
    """The names of the header's functions."""
    return set(re.findall(r"^\w[\w ]*\b(lrlex_\w+)\(", programs.read("include/lrlex.h"), re.M))


def names_in(path, *words):
    """The names that nm prints of a library."""
    told = programs.run(["nm", "-P", *words, path])
    if told.status:
        raise AssertionError(told.err)
    return {line.split()[0].partition("@")[0] for line in told.out.splitlines() if len(line.split()) > 1}


class CLibrary(unittest.TestCase):
    """The C library by its header."""

    def setUp(self):
        c_library.need("gcc")

    def check_run(self, words, out="", environment=None):
        """A program ends well, and writes this."""
        self.assertEqual(programs.run(words, environment=environment), programs.Outcome(out))

    def test_a_first_text_a_refused_rule_text_edits_and_a_scanner(self):
        self.check_run([c_library.of_c("tests/c_library/first.c")], FIRST)

    def test_misuse_is_answered_by_a_status(self):
        self.check_run([c_library.of_c("tests/c_library/misuse.c")])

    def test_requests_for_memory_that_are_refused_in_turn(self):
        came = programs.run([c_library.of_c("tests/c_library/refused.c", WRAPPED, "-Wno-reserved-identifier")])
        self.assertEqual((came.status, came.err), (0, ""), came.out)
        self.assertRegex(came.out, r"\A\d+ requests refused, \d+ reported, 0 blocks left\n\Z")

    def test_no_access_is_wrong_and_no_block_lost(self):
        c_library.need("valgrind")
        for make, source, *given in SHOWN:
            with self.subTest(program=source):
                words = ["valgrind", "--quiet", "--leak-check=full", "--error-exitcode=9", make(source), *given]
                came = programs.run(words, timeout=600)
                self.assertEqual((came.status, came.err), (0, ""))

    def test_the_sanitizers_find_nothing(self):
        c_library.need_sanitizers()
        for make, source, *given in SHOWN:
            with self.subTest(program=source):
                came = programs.run([make(source, *c_library.SANITIZED), *given], timeout=600)
                self.assertEqual((came.status, came.err), (0, ""))

    def test_laws_on_mutated_cases(self):
        came = programs.run([*fuzzing.program(), "3"], timeout=600)
        self.assertEqual((came.status, came.err), (0, ""), came.out)
        self.assertRegex(came.out, r"\A[1-9]\d* texts: .*: nothing found\n\Z")

    def test_the_header_alone_is_c99_and_cpp11(self):
        for compiler, *words in [["gcc", "-std=c99", "-x", "c"], ["g++", "-std=c++11", "-x", "c++"]]:
            with self.subTest(compiler=compiler):
                c_library.need(compiler)
                words = [compiler, *words, *c_library.WARNINGS, "-fsyntax-only", f"{programs.TOP}/include/lrlex.h"]
                came = programs.run(words)
                self.assertEqual([it for it in came.err.splitlines() if "error" in it], [])
                self.assertEqual(came.status, 0, came.err)

    def test_both_libraries_have_the_names_of_the_header(self):
        c_library.need("nm")
        self.assertIn("lrlex_lex", declared())
        self.assertEqual(names_in(c_library.shared(), "-D", "--defined-only") - {"LRLEX_0.1"}, declared())
        self.assertLessEqual(declared(), names_in(c_library.static(), "--defined-only", "-g"))
        undefined = names_in(c_library.static(), "--undefined-only") - names_in(c_library.static(), "--defined-only", "-g")
        self.assertLessEqual({it for it in undefined if not it.startswith(("liblrlex", "_GLOBAL_"))}, NEEDED)

    def test_the_shared_library_is_named_by_the_first_two_numbers_of_the_version(self):
        c_library.need("nm", "readelf")
        numbers = dict(re.findall(r"^#define LRLEX_VERSION_(\w+) (\d+)$", programs.read("include/lrlex.h"), re.M))
        first_two = f"{numbers['MAJOR']}.{numbers['MINOR']}"
        told = programs.run(["readelf", "-d", c_library.shared()]).out + programs.run(["nm", "-P", "-D", c_library.shared()]).out
        self.assertEqual(re.findall(NAMED, told), [f"liblrlex.so.{first_two}"])
        self.assertEqual(re.findall(MARKED, told, re.M), [first_two])
        self.assertEqual(os.path.basename(c_library.shared()), f"liblrlex.so.{first_two}")
        self.assertEqual(os.readlink(f"{c_library.packed()}/lib/liblrlex.so"), f"liblrlex.so.{first_two}")

    def test_what_is_packed_is_whole(self):
        folder = c_library.packed()
        for path in ["include/lrlex.h", "include/lrlex.hpp", "lib/liblrlex.so", "share/man/man1/lrlex.1", "share/doc/lrlex/LICENSE-MIT"]:
            self.assertTrue(os.path.isfile(f"{folder}/{path}"), path)
        came = programs.run(["sha256sum", "--quiet", "-c", "SHA256SUMS"], cwd=folder)
        self.assertEqual(came, programs.Outcome())

    def test_programs_link_by_what_pkg_config_says(self):
        c_library.need("pkg-config")
        folder, scratch = c_library.packed(), programs.scratch().name
        environment = {**os.environ, "PKG_CONFIG_PATH": f"{folder}/lib/pkgconfig"}
        programs.fill(scratch, {"included.c": INCLUDED})
        told = {}
        for it in ("--cflags", "--libs", "--variable=libdir"):
            flags = programs.run(["pkg-config", it, "lrlex"], environment=environment)
            self.assertEqual((flags.status, flags.err), (0, ""))
            told[it] = flags.out.split()
        [libdir] = told["--variable=libdir"]
        # the shared library, where the loader is told of it, and the archive alone
        for libraries, found in [(told["--libs"], {"LD_LIBRARY_PATH": f"{folder}/lib"}), ([f"{libdir}/liblrlex.a"], {})]:
            self.check_run(["gcc", f"{scratch}/included.c", *told["--cflags"], *libraries, "-o", f"{scratch}/included"])
            self.check_run([f"{scratch}/included"], environment={**os.environ, **found})


if __name__ == "__main__":
    unittest.main()
