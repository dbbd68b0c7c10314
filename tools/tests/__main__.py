"""`python3 -m tests`: runs the tests as unittest does, and says at the end what was skipped, and why."""

import sys
import unittest


class Runner(unittest.TextTestRunner):
    """A runner that names what was skipped."""

    def run(self, test: unittest.TestSuite | unittest.TestCase) -> unittest.TestResult:
        """Runs the tests. Those that were skipped for one reason are listed together."""
        result = super().run(test)
        names: dict[str, list[str]] = {}
        for case, reason in result.skipped:
            names.setdefault(reason, []).append(case.id())
        for reason, skipped in names.items():
            print(f"skipped, since {reason}:", *skipped, sep="\n  ", file=sys.stderr)
        return result


unittest.main(module=None, testRunner=Runner)
