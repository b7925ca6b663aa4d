"""What was checked: how much passed, and what is wrong."""


class Tally:
    def __init__(self):
        self.passed = 0
        self.wrong = []

    def check(self, holds, otherwise):
        """One check; otherwise says what is wrong and what to do. Gives back whether it holds."""
        if holds:
            self.passed += 1
        else:
            self.wrong.append(otherwise)
        return holds
