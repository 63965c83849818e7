"""How many of the overlays that a suite sends are answered, for suites that compare answers with each other: refusals are alike too."""
import re


class Overlays:
    """Counts overlays that were sent, those that were answered by `shapes`, and of these the ones that have a shape or more."""

    def __init__(self):
        self.sent = self.answered = self.filled = 0

    def add(self, requests, replies):
        """Takes lines that were sent, and what the program replied to them, both as bytes."""
        self.sent += len(re.findall(rb"^overlay ", requests, re.MULTILINE))
        shapes = re.findall(rb"^shapes ([0-9]+)$", replies, re.MULTILINE)
        self.answered += len(shapes)
        self.filled += sum(it != b"0" for it in shapes)

    def tell(self, where):
        """Tells the counts, and whether half of the overlays or more are answered, and a quarter or more by a shape."""
        are_answered = 2 * self.answered >= self.sent and 4 * self.filled >= self.sent > 0
        told = f"{where}: {self.sent} overlays sent, {self.answered} answered by shapes, {self.filled} of these by one or more"
        print(told if are_answered else f"{told}: too few", flush=True)
        return are_answered
