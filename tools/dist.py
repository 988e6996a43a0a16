"""Packs the programs and the C library into a folder: dist.py FOLDER ARCHIVE [PROGRAM..], or ./dev dist and ./dev install, into dist/.

The folder gets the programs, the header and that of C++, the archive and the shared library, what pkg-config reads, the manual page, the
licences, and the checksums of all. The archive that rt lib leaves lacks the three functions by which a crate asks for memory: those
of the kit, over malloc, realloc and free, are joined in. The shared library shows the names of the header alone.

It needs ar and a C compiler.
"""

import hashlib
import os
import re
import shutil
import subprocess
import sys

import build
import crates
import processes
import prover

LIBRARY = "lrlex_c"
BUILT = f"{crates.TOP}/crates/{LIBRARY}/out/lib{LIBRARY}.a"
# The name that programs look for: with the first two numbers of the version, of which a breaking change raises one.
SONAME = "liblrlex.so.0.1"
# What a packed program is called, by its crate.
CALLED = {crates.PROGRAM: "lrlex"}
FOLDER = f"{crates.TOP}/dist"
C = f"{crates.TOP}/bindings/c"


def version():
    """The newest version of CHANGELOG.md."""
    with open(f"{crates.TOP}/CHANGELOG.md", encoding="utf-8") as it:
        return re.search(r"^## (\d+\.\d+\.\d+)", it.read(), re.M)[1]


def lacking():
    """A tool that isn't there, or nothing."""
    return next((it for it in ("ar", "cc") if not shutil.which(it)), "")


def join(archive, to):
    """Writes an archive with the objects of this one, and those of the kit that ask for memory."""
    with processes.scratch("join") as room:
        for number, it in enumerate([archive, f"{prover.kit()}/c/liblibc_c.a"]):
            os.mkdir(f"{room}/{number}")
            subprocess.run(["ar", "x", os.path.abspath(it)], cwd=f"{room}/{number}", check=True)
        objects = [f"{at}/{it}" for at, _, names in sorted(os.walk(room)) for it in sorted(names)]
        with_new(to, lambda new: subprocess.run(["ar", "rcsD", new, *objects], check=True))


def link(archive, to):
    """Links a shared library of a joined archive."""
    words = ["cc", "-shared", f"-Wl,-soname,{SONAME}", f"-Wl,--version-script={C}/lrlex.map", "-Wl,-z,relro,-z,now"]
    words += ["-Wl,--no-undefined", "-Wl,--whole-archive", archive, "-Wl,--no-whole-archive"]
    with_new(to, lambda new: subprocess.run([*words, "-o", new], check=True))


def with_new(path, make):
    """Has a file made, and puts it in its place once it is there."""
    os.makedirs(os.path.dirname(path), exist_ok=True)
    new = f"{path}.new"
    if os.path.exists(new):
        os.remove(new)
    make(new)
    os.replace(new, path)


def copy(file, to, mode=0o644):
    """Copies a file, and makes its folder."""
    os.makedirs(os.path.dirname(to), exist_ok=True)
    shutil.copyfile(file, to)
    os.chmod(to, mode)


def fill_in(file, to):
    """Copies a text with the version in the place of @VERSION@."""
    with open(file, encoding="utf-8") as it:
        text = it.read()
    os.makedirs(os.path.dirname(to), exist_ok=True)
    with open(to, "w", encoding="utf-8") as it:
        it.write(text.replace("@VERSION@", version()))


def files(folder):
    """The files and links below the folder, by their paths in it."""
    return sorted(os.path.relpath(f"{at}/{it}", folder) for at, _, names in os.walk(folder) for it in names)


def pack(folder, archive, *programs):
    """Fills the folder from an archive as rt lib leaves it, and these programs."""
    top = crates.TOP
    join(archive, f"{folder}/lib/liblrlex.a")
    link(f"{folder}/lib/liblrlex.a", f"{folder}/lib/{SONAME}")
    os.symlink(SONAME, f"{folder}/lib/liblrlex.so")
    for it in programs:
        crate = os.path.basename(it)
        copy(it, f"{folder}/bin/{CALLED.get(crate, crate)}", 0o755)
    copy(f"{top}/include/lrlex.h", f"{folder}/include/lrlex.h")
    copy(f"{top}/bindings/cpp/lrlex.hpp", f"{folder}/include/lrlex.hpp")
    fill_in(f"{C}/lrlex.pc.in", f"{folder}/lib/pkgconfig/lrlex.pc")
    fill_in(f"{C}/lrlex.1.in", f"{folder}/share/man/man1/lrlex.1")
    for it in ("LICENSE-APACHE", "LICENSE-MIT"):
        copy(f"{top}/{it}", f"{folder}/share/doc/lrlex/{it}")
    lines = [f"{hashlib.sha256(contents(f'{folder}/{it}')).hexdigest()}  {it}\n" for it in files(folder)]
    with open(f"{folder}/SHA256SUMS", "w", encoding="utf-8") as it:
        it.writelines(lines)


def contents(path):
    """The bytes of a file."""
    with open(path, "rb") as it:
        return it.read()


def install(folder, prefix):
    """Copies what is packed in the folder below the prefix, and below DESTDIR where the environment has it."""
    root = os.environ.get("DESTDIR", "") + os.path.abspath(prefix)
    for it in files(folder):
        to = f"{root}/{it}"
        if it == "SHA256SUMS":
            continue
        os.makedirs(os.path.dirname(to), exist_ok=True)
        if os.path.lexists(to):
            os.remove(to)
        shutil.copy2(f"{folder}/{it}", to, follow_symlinks=False)
        print(to)


def main(prefix=""):
    """Builds what isn't built, fills dist/, and installs it where there is a prefix. Gives the status."""
    if lost := lacking():
        print(f"dist: {lost} isn't on PATH", file=sys.stderr)
        return 1
    if status := build.main([*crates.PROGRAMS, LIBRARY]):
        return status
    shutil.rmtree(FOLDER, ignore_errors=True)
    pack(FOLDER, BUILT, *(f"{crates.TOP}/crates/{it}/out/{it}" for it in crates.PROGRAMS))
    if prefix:
        install(FOLDER, prefix)
    else:
        print("\n".join(f"dist/{it}" for it in files(FOLDER)))
    return 0


if __name__ == "__main__":
    processes.end_all_at_exit()
    pack(*sys.argv[1:])
