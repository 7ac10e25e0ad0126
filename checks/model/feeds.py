"""What joins of ranked feeds give and draw.

It is computed as it is defined, over finished lists: the rows in front of the first that rises, their pairs by their sums, and the
asks by the keys of rows merged with the first row of the other side. There are no thresholds and no held pairs here.
"""


MOST = 4294967295  # the greatest score


def front_of(feed):
    """The rows in front of the first whose score is greater than that of the row before it."""
    for place in range(1, len(feed)):
        if feed[place][1] > feed[place - 1][1]:
            return feed[:place]
    return feed


def key(left_score, right_score, left, right):
    """A key of a pair: the greater sum comes first, and of equal sums the lesser numbers."""
    return (-(left_score + right_score), left, right)


def pairs_of(lefts, rights):
    numbered = [(i, l, j, r) for i, l in enumerate(lefts, 1) for j, r in enumerate(rights, 1)]
    return sorted(key(l[1], r[1], i, j) for i, l, j, r in numbered if l[0] == r[0])


def asks_of(lefts, rights, bar):
    """The asks of the join up to a pair, in their order: the side, 0 for the left one, and the number. No bar is behind all keys."""
    if not lefts:
        return [(0, 1)]
    if not rights:
        return [(0, 1), (1, 1)]
    turns = [(key(row[1], rights[0][1], i, 1), 0, i + 1) for i, row in enumerate(lefts, 1)]
    turns += [(key(lefts[0][1], row[1], 1, j), 1, j + 1) for j, row in enumerate(rights, 1)]
    return [(0, 1), (1, 1)] + [(side, number) for k, side, number in sorted(turns) if bar is None or k < bar]


def draws_of(asks):
    return tuple(sum(1 for side, _ in asks if side == one) for one in (0, 1))


def joined(feeds):
    """The pairs with their draws, what stops the join, and the draws up to there."""
    fronts = [front_of(feed) for feed in feeds]
    keys = pairs_of(*fronts)
    given = []
    for place in range(len(keys) + 1):
        asks = asks_of(*fronts, keys[place] if place < len(keys) else None)
        for made, (side, number) in enumerate(asks, 1):
            size = len(fronts[side])
            if number > size and size < len(feeds[side]):
                rows = feeds[side]
                return given, (side + 1, size + 1, rows[size - 1][1], rows[size][1]), draws_of(asks[:made])
        if place < len(keys):
            given.append((*keys[place][1:], *draws_of(asks)))
    return given, (0, 0, 0, 0), draws_of(asks)
