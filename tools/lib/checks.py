"""Checks that are counted: each that fails is said with its name, and at the end how many passed."""


class Checks:
    def __init__(self, subject):
        self.subject, self.passed, self.failed, self.skipped = subject, 0, 0, 0

    def holds(self, name, is_so, said=""):
        if is_so:
            self.passed += 1
        else:
            self.failed += 1
            print(f"{self.subject}: {name} fails{': ' * bool(said)}{said}")

    def skip(self, name, why):
        self.skipped += 1
        print(f"{self.subject}: {name} is skipped, since {why}")

    def end(self):
        """Says how many there were, and whether any failed, as an exit status."""
        print(f"{self.subject}: {self.passed} passed, {self.failed} failed, {self.skipped} skipped")
        return 1 if self.failed else 0
