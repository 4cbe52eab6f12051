"""What the tests in Python share: the top of the repository, and a count of what holds."""
from pathlib import Path

ROOT = Path(__file__).resolve().parents[1]


class Counted:
    def __init__(self):
        self.passed = self.failed = 0

    def holds(self, name, condition, said=''):
        """Counts whether a condition holds; where it does not, its name is printed, with the last lines of what was said."""
        if condition:
            self.passed += 1
            return
        self.failed += 1
        print('\n'.join([f'failed: {name}', *str(said).splitlines()[-8:]]))

    def end(self):
        """The last line, and the status."""
        print(f'{self.passed} passed, {self.failed} failed')
        return self.failed > 0
