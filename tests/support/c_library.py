"""The C library as it is built: its archive and the shared library as users get them, and programs over them.

A test is skipped where the archive isn't built, or a tool isn't there. The environment variable LRLEX_ARCHIVE names the archive to
try, as rt lib leaves it.
"""

import functools
import os
import shutil
import subprocess
import sys
import unittest

from support import programs

WARNINGS = ["-Wall", "-Wextra", "-Wpedantic", "-Wconversion", "-Wshadow", "-Werror"]

# What has a program look for accesses and steps that C leaves undefined.
SANITIZED = ["-g", "-fsanitize=address,undefined", "-fno-sanitize-recover=undefined"]

HEADERS = ["-I", f"{programs.TOP}/include", "-I", f"{programs.TOP}/bindings/cpp"]


def archive():
    """Where the archive is, built or not."""
    return os.environ.get("LRLEX_ARCHIVE") or f"{programs.TOP}/crates/lrlex_c/out/liblrlex_c.a"


def need(*tools):
    """Skips the test where a tool isn't there, or the archive isn't built."""
    for tool in tools:
        if not shutil.which(tool):
            raise unittest.SkipTest(f"there is no {tool}")
    if not os.path.isfile(archive()):
        raise unittest.SkipTest("the C library isn't built: ./dev build lrlex_c")


@functools.lru_cache(maxsize=None)
def lacks_sanitizers(compiler):
    """Whether the compiler has no libraries for the sanitizers."""
    path = f"{programs.scratch().name}/sanitized"
    programs.fill(programs.scratch().name, {"sanitized.c": "int main(void) { return 0; }\n"})
    return programs.run([compiler, *SANITIZED, f"{path}.c", "-o", path]).status != 0


def need_sanitizers():
    """Skips the test where a compiler has no sanitizers."""
    for compiler in ["gcc", "g++"]:
        need(compiler)
        if lacks_sanitizers(compiler):
            raise unittest.SkipTest(f"{compiler} has no sanitizers here")


@functools.lru_cache(maxsize=None)
def packed():
    """A folder that is packed as ./dev dist does. The programs are in it if they are built."""
    need("ar", "cc", "rt")
    folder = f"{programs.scratch().name}/dist"
    built = [programs.path_of(it) for it in ("lrlex_program", "rolgumzai") if programs.is_built(it)]
    subprocess.run([sys.executable, "-B", f"{programs.TOP}/tools/dist.py", folder, archive(), *built], check=True)
    return folder


def static():
    """The archive as users get it."""
    return f"{packed()}/lib/liblrlex.a"


def shared():
    """The shared library as users get it."""
    return f"{packed()}/lib/liblrlex.so.0.1"


def compiled(compiler, source, *words):
    """A program of a source and the archive, by this compiler and these words, without a warning."""
    path = f"{programs.scratch().name}/{os.path.basename(source).replace('.', '_')}"
    source = os.path.join(programs.TOP, source)
    words = [compiler, *WARNINGS, "-O2", *HEADERS, *words, source, static(), "-o", path]
    built = programs.run(words, timeout=300)
    if built.status or built.err:
        raise AssertionError(f"{' '.join(words)}:\n{built.err}")
    return path


def of_c(source, *words):
    """A program of a source in C99."""
    need("gcc")
    return compiled("gcc", source, "-std=c99", *words)


def of_cpp(source, *words):
    """A program of a source in C++17."""
    need("g++")
    return compiled("g++", source, "-std=c++17", *words)
