"""What the kernel charged for forced idle in a scenario: how many intervals, and each task's total."""

from collections import Counter


class Charges:
    """`totals` has what each task of the scenario was charged, in ns, by its number."""

    def __init__(self):
        self.intervals, self.totals = 0, Counter()

    def copy(self):
        other = Charges()
        other.intervals, other.totals = self.intervals, self.totals.copy()
        return other

    def add(self, charge, numbers):
        """Takes a charge over. `numbers` has the number of each task that it charges, one for each share."""
        self.intervals += 1
        for share, number in zip(charge.shares, numbers):
            self.totals[number] += share.time

    def lines(self, tasks, ended):
        """How the report of a scenario tells them: each of the living tasks, and those that ended in the order of their
        ends."""
        living = [number for number in range(1, tasks + 1) if number not in ended]
        return [f"intervals {self.intervals}",
                *(f"task {number} forced {self.totals[number]}" for number in living),
                *(f"ended {number} forced {self.totals[number]}" for number in ended)]
