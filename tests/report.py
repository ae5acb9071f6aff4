"""What was checked: how much passed, and a sentence for each thing that did not."""


class Report:
    def __init__(self):
        self.passed = 0
        self.failures = []

    def check(self, good, sentence):
        """Counts one check; `sentence` tells what is wrong where it is not good."""
        if good:
            self.passed += 1
        else:
            self.failures.append(sentence)
        return bool(good)
