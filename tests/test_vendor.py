"""./dev vendor copies libraries with what they need into another repository, and nothing else there is touched."""

import os
import subprocess
import sys
import tempfile
import unittest

from support import programs

NEEDED = ["lrlex_base", "lrlex_matching", "lrlex_rules"]


def vendor(folder, *names):
    """Copies these crates into the folder, and gives the status and what is said."""
    words = [sys.executable, f"{programs.TOP}/dev", "vendor", folder, *names]
    ended = subprocess.run(words, stdin=subprocess.DEVNULL, capture_output=True, text=True, check=False)
    return ended.returncode, ended.stdout + ended.stderr


def text_of(path):
    with open(path, encoding="utf-8") as it:
        return it.read()


def files_below(folder):
    """The files below a folder, by their paths in it, with their texts."""
    return {os.path.relpath(f"{at}/{it}", folder): text_of(f"{at}/{it}") for at, _, names in os.walk(folder) for it in names}


class Vendor(unittest.TestCase):
    """Copies into a repository in a scratch folder."""

    def setUp(self):
        scratch = tempfile.TemporaryDirectory(prefix="lrlex-vendor-")
        self.addCleanup(scratch.cleanup)
        self.folder = scratch.name
        self.write("crates.txt", "# Mine.\nmine: lrlex_rules")
        self.write("crates/mine/src/lib.rt", "//! Mine.\n")

    def write(self, path, text):
        os.makedirs(os.path.dirname(f"{self.folder}/{path}"), exist_ok=True)
        with open(f"{self.folder}/{path}", "w", encoding="utf-8") as it:
            it.write(text)

    def test_a_library_comes_with_all_that_it_needs(self):
        status, said = vendor(self.folder, "lrlex_rules")
        self.assertEqual((status, said.split(" are in ")[0]), (0, f"vendor: {' '.join(NEEDED)}"))
        self.assertEqual(sorted(os.listdir(f"{self.folder}/crates")), sorted([*NEEDED, "mine"]))
        listed = text_of(f"{programs.TOP}/crates.txt").splitlines()
        lines = [it for name in NEEDED for it in listed if it.startswith(f"{name}:")]
        self.assertEqual(text_of(f"{self.folder}/crates.txt").splitlines(), ["# Mine.", "mine: lrlex_rules", *lines])
        for part in ("src", "specs", "proofs"):
            own = files_below(f"{programs.TOP}/crates/lrlex_rules/{part}")
            self.assertEqual(files_below(f"{self.folder}/crates/lrlex_rules/{part}"), own)

    def test_a_second_run_brings_a_copy_up_to_date(self):
        vendor(self.folder, "lrlex_matching")
        wanted = files_below(self.folder)
        self.write("crates/lrlex_matching/src/gone.rt", "//! Gone.\n")
        self.write("crates.txt", text_of(f"{self.folder}/crates.txt").replace("lrlex_matching: ", "lrlex_matching: older "))
        self.assertEqual(vendor(self.folder, "lrlex_matching")[0], 0)
        self.assertEqual(files_below(self.folder), wanted)

    def test_what_cannot_be_done_is_told_and_changes_nothing(self):
        self.write("crates/lrlex_base/src/lib.rt", "//! Mine too.\n")
        was = files_below(self.folder)
        rows = [
            (f"{self.folder}/crates", [], "has no crates.txt"),
            (self.folder, ["lrlex_rules"], "crates/lrlex_base is no copy made by ./dev vendor"),
            (self.folder, ["lrlex_nosuch"], "no library lrlex_nosuch"),
            (self.folder, ["lrlex_program"], "no library lrlex_program"),
            (self.folder, ["lrlex_c"], "no library lrlex_c"),
            (programs.TOP, ["lrlex_matching"], "crates/lrlex_matching is no copy made by ./dev vendor"),
        ]
        for folder, names, wanted in rows:
            with self.subTest(folder=folder, names=names):
                status, said = vendor(folder, *names)
                self.assertEqual((status, wanted in said), (1, True), said)
                self.assertEqual(files_below(self.folder), was)


if __name__ == "__main__":
    unittest.main()
