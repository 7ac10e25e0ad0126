"""What threshold scans give and access.

It is computed as it is defined, over finished lists: the rows by their sums, the threshold of each place, how deep each ask goes by
these alone, and which rows are shown first by which list. There is no queue and no set of rows seen here.
"""


def key(total, row):
    """A key: the greater sum comes first, and of equal sums the lesser row."""
    return (-total, row)


class Scan:
    """A scan of finished lists of (score, row number), with the weights of their terms, which gives the rows of these keys."""

    def __init__(self, lists, weights, answers):
        self.lists, self.weights, self.answers = lists, weights, answers
        self.size = len(lists[0])
        self.thresholds = [self.threshold(place) for place in range(self.size)]

    def threshold(self, place):
        total = sum(weight * entries[place][0] for weight, entries in zip(self.weights, self.lists))
        return key(total, max(entries[place][1] for entries in self.lists))

    def depth(self, asks):
        """How many places of each list the asks take."""
        if asks == 0:
            return 0
        last = self.answers[asks - 1] if asks <= len(self.answers) else None
        return min(self.size, 1 + sum(1 for t in self.thresholds if last is None or t < last))

    def lookups(self, depth):
        """How many random accesses there are for the rows at these places: of each row one in each list but that which shows it first."""
        first = {}
        for place in range(depth):
            for number, entries in enumerate(self.lists):
                first.setdefault(entries[place][1], number)
        return len(first) * (len(self.lists) - 1)

    def accesses(self, asks):
        """How deep the asks go, and the sorted and the random accesses of all lists."""
        depth = self.depth(asks)
        return depth, depth * len(self.lists), self.lookups(depth)


def by_score(scores):
    """The list of these scores of rows, which count from 1."""
    return sorted(((score, number) for number, score in enumerate(scores, 1)), key=lambda entry: key(*entry))
