"""Counts what passed and what failed, for the suites in Python; `./check` adds the counts of their last lines."""


class Count:
    """The tries of a script: `count(holds, what)` counts one, and prints what it was if it failed."""

    def __init__(self, sign: str = "FAILED") -> None:
        self.passed = self.failed = 0
        self._sign = sign

    def __call__(self, holds: object, what: str) -> None:
        self.add(bool(holds), 1)
        if not holds:
            print(f"{self._sign} {what}", flush=True)

    def add(self, holds: bool, number: int) -> None:
        """Counts some tries that ended alike."""
        if holds:
            self.passed += number
        else:
            self.failed += number

    def end(self) -> int:
        """Prints the last line. Returns the status of the script."""
        print(f"{self.passed} passed, {self.failed} failed")
        return 1 if self.failed else 0
