"""Sources in compile_fail/ that must not compile: the prover must refuse each of them by one fault."""

import subprocess
import sys
import unittest

from support import programs

# The status of tools/refused.py where it can't be tried.
CANNOT_BE_TRIED = 2


class CompileFail(unittest.TestCase):
    """Sources that are refused."""

    def check_refused(self, source, fault, *libraries):
        """The source, which uses these libraries, is refused by this fault and by no other."""
        words = [sys.executable, "-B", f"{programs.TOP}/tools/refused.py", f"{programs.TOP}/tests/compile_fail/{source}"]
        how = {"stdin": subprocess.DEVNULL, "stdout": subprocess.PIPE, "stderr": subprocess.STDOUT}
        ended = subprocess.run([*words, fault, *libraries], **how, text=True, errors="replace", check=False)
        if ended.returncode == CANNOT_BE_TRIED:
            raise unittest.SkipTest(ended.stdout.strip())
        self.assertEqual((ended.returncode, ended.stdout.splitlines()[-1:]), (0, [f"refused: {fault}"]), ended.stdout)

    def test_ids_cannot_be_set_while_a_run_borrows_the_definition(self):
        self.check_refused("ids_under_a_run.rs", "borrow-e0502", "lrlex", "lrlex_base")


if __name__ == "__main__":
    unittest.main()
