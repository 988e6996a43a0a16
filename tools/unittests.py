"""Runs the tests of tests/ and prints a line for each: unittests.py. A method is a test, and its rows are within it.

The last line is 'tests: N passed, M failed, K skipped'. The status is 0 where none failed and any passed.
"""

import os
import sys
import unittest

TESTS = os.path.join(os.path.dirname(os.path.dirname(os.path.abspath(__file__))), "tests")


class Lines(unittest.TestResult):
    """What came of each test, a line as it ends."""

    def __init__(self):
        super().__init__()
        self.count = {"passed": 0, "FAILED": 0, "skipped": 0}
        self.of_rows = []

    def told(self, test, came, said=""):
        """Counts the test, and says what came of it."""
        self.count[came] += 1
        name = test.id() if isinstance(test, unittest.TestCase) else str(test)
        print(f"test {name}: {came}{f', {said}' if said else ''}", flush=True)

    def addSuccess(self, test):  # pylint: disable=invalid-name
        self.told(test, "passed")

    def addSkip(self, test, reason):  # pylint: disable=invalid-name
        if not hasattr(test, "test_case"):
            self.told(test, "skipped", reason)

    def addFailure(self, test, err):  # pylint: disable=invalid-name
        super().addFailure(test, err)
        self.told(test, "FAILED", f"\n{self.failures[-1][1]}")

    def addError(self, test, err):  # pylint: disable=invalid-name
        super().addError(test, err)
        self.told(test, "FAILED", f"\n{self.errors[-1][1]}")

    def addUnexpectedSuccess(self, test):  # pylint: disable=invalid-name
        super().addUnexpectedSuccess(test)
        self.told(test, "FAILED", "it passed, and should have failed")

    def addExpectedFailure(self, test, err):  # pylint: disable=invalid-name
        self.told(test, "passed")

    def addSubTest(self, test, subtest, err):  # pylint: disable=invalid-name
        super().addSubTest(test, subtest, err)
        if err:
            self.of_rows.append(f"{subtest}\n{self._exc_info_to_string(err, subtest)}")

    def stopTest(self, test):  # pylint: disable=invalid-name
        super().stopTest(test)
        if self.of_rows:
            self.told(test, "FAILED", "\n" + "\n".join(self.of_rows))
            self.of_rows = []


def main():
    result = Lines()
    sys.path.insert(0, TESTS)
    unittest.defaultTestLoader.discover(TESTS, top_level_dir=TESTS).run(result)
    count = result.count
    print(f"tests: {count['passed']} passed, {count['FAILED']} failed, {count['skipped']} skipped")
    return 0 if count["passed"] and not count["FAILED"] else 1


if __name__ == "__main__":
    sys.exit(main())
