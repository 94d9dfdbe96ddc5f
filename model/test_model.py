#!/usr/bin/env python3
"""All tests of the model: python3 model/test_model.py [--seed N] [--only NAME]."""

import argparse
import sys
from pathlib import Path

ROOT = Path(__file__).resolve().parents[1]
sys.path.insert(0, str(ROOT))

from model import test_commands, test_forms, test_gains, test_mappings  # noqa: E402
from model import test_random, test_refusals, test_runs  # noqa: E402
from model.checks import Checks, Options  # noqa: E402

DEFAULT_SEED = 20260
DEFAULT_CASES = 100


def read_options() -> argparse.Namespace:
    """The options of the command line."""
    parser = argparse.ArgumentParser(description="Test the model.", allow_abbrev=False)
    parser.add_argument("--seed", type=int, default=DEFAULT_SEED, help="seed of the first case")
    parser.add_argument("--cases", type=int, default=DEFAULT_CASES, help="cases of a random test")
    parser.add_argument("--only", default="", help="run the tests whose name contains this")
    return parser.parse_args()


def main() -> int:
    """Run the tests and print the counts."""
    arguments = read_options()
    options = Options(arguments.seed, arguments.cases)
    checks = Checks()
    print(f"seeds from {options.seed}, {options.cases} cases a random test")
    modules = (test_runs, test_refusals, test_mappings, test_gains)
    for module in (*modules, test_random, test_forms, test_commands):
        for name, test in sorted(vars(module).items()):
            if name.startswith("test_") and arguments.only in name:
                checks.run(test, options)
    if checks.passed + checks.failed == 0:
        print(f"FAILED: no test has {arguments.only!r} in its name")
        checks.failed = 1
    print(f"{checks.passed} passed, {checks.failed} failed")
    return 1 if checks.failed else 0


if __name__ == "__main__":
    sys.exit(main())
