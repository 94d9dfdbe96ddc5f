"""A plain test runner that counts every check."""

import traceback
from typing import Any, Callable, List, NamedTuple


class Options(NamedTuple):
    """What the command line of the tests says."""

    seed: int
    cases: int


class Checks:
    """Counts checks and prints the failed ones."""

    def __init__(self) -> None:
        self.passed = 0
        self.failed = 0

    def equal(self, name: str, actual: Any, expected: Any) -> None:
        """Check that two values are equal."""
        self.true(name, actual == expected, f"got {actual!r}, expected {expected!r}")

    def true(self, name: str, condition: bool, detail: str = "") -> None:
        """Check that a condition holds."""
        if condition:
            self.passed += 1
            return
        self.failed += 1
        print(f"FAILED {name}: {detail}" if detail else f"FAILED {name}")

    def seeded(self, test: str, seed: int, faults: List[Any]) -> None:
        """Check that a seeded case has no faults; say how to repeat it."""
        self.true(
            f"{test}, seed {seed}",
            not faults,
            f"{len(faults)} faults, the first {faults[:1]}\n"
            f"  repeat: python3 model/test_model.py --only {test} --seed {seed} --cases 1",
        )

    def run(self, test: Callable[["Checks", Options], None], options: Options) -> None:
        """Run one test; an exception counts as a failed check."""
        try:
            test(self, options)
        except Exception:
            self.failed += 1
            print(f"FAILED {test.__name__}: stopped by an exception (--seed {options.seed})")
            print(traceback.format_exc())
