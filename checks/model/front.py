"""What the lines `front` of the programs of cases make: tables whose files stand in their names, predicates and rank indexes."""

from queries import Words, read_query
from runs import Run, written


class Front(Run):
    """The catalogue that these statements make."""

    def __init__(self, text=""):
        super().__init__({}, {}, {}, None)
        self.statements(text)

    def fetch(self, name, most):
        return written(name)

    def query(self, text, seed=0):
        """A query over it, whose sample is drawn by the words of a seed."""
        self.seed = seed
        return read_query(Words(text), self)


def blocks_of(query):
    """The block of a query, or both."""
    return getattr(query, "blocks", (query,))


def members(mask):
    """The numbers in a mask, from 0: bit i stands for number i."""
    return frozenset(number for number in range(8) if mask >> number & 1)
