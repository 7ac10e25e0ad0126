"""What a helper ends with where it can't go on. The statuses are those of `ranksql`."""

USAGE, READ, WRITE, TABLE = 2, 3, 4, 6


class Refusal(Exception):
    """A sentence for standard error, and the exit status that says which kind of fault it is."""

    def __init__(self, status, sentence):
        super().__init__(sentence)
        self.status = status
