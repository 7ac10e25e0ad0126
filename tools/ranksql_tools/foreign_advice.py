"""What to do about words that have a meaning in SQL and none in the program's language, and about reserved words as names."""

from ranksql_tools.script_place import spelt

JOINS = ("JOIN", "INNER", "LEFT", "RIGHT", "FULL", "OUTER")


def quoted_name(token):
    """What to do where a word of the language stands as a name."""
    return f'`{token.text}` is a word of the language, so it is no name by itself. Write it between double quotes: "{token.text}".'


def foreign_word(place, word=None):
    """What to do about a word out of the profile: the one at the place, or the one behind a NOT there."""
    word = word or place.token.text.upper()
    before = place.near(-1)
    if word in JOINS and place.inside("from") and not before.is_word("FROM") and not before.is_symbol(","):
        return join(place, word)
    if word in ("IS", "NULL") and place.inside("columns"):
        return "A column has a name and a kind, and nothing else. There is no NULL: each cell has a value."
    if word == "NULL" and place.within("cells"):
        return "There is no NULL: each cell has a value. Choose one that means \"missing\", such as -1 or ''."
    is_table = place.inside("from") and (before.is_word("FROM", "AS") or before.is_symbol(","))
    if is_table or before.is_symbol(".") or place.inside("columns", "parameters", "operand", "items", "args", "dot", "table", "predicate", "index") and word not in (
        "ASC", "IN", "BETWEEN", "LIKE", "IS", "EXISTS", "NULL"
    ):
        if "a name" in place.expected:
            return f'`{place.token.text}` is a word of SQL, so it is no name by itself. Write it between double quotes: "{place.token.text}".'
    return SAYS[word](place)


def between(place):
    """BETWEEN low AND high, as two comparisons."""
    index = place.index
    negated = place.near(-1).is_word("NOT") or place.token.is_word("NOT")
    if place.token.is_word("NOT"):
        index += 1
    column = place.operand()
    low, index = value_at(place, index + 1)
    high = None
    if place.tokens[index].is_word("AND"):
        high, index = value_at(place, index + 1)
    if not low or not high:
        low, high = "low", "high"
    if negated:
        return f"There is no BETWEEN. Write ({column} < {low} OR {column} > {high})."
    return f"There is no BETWEEN. Write {column} >= {low} AND {column} <= {high}."


def value_at(place, index):
    """The number, text or column at a place in the tokens, as it is written, and the place behind it."""
    made = ""
    tokens = place.tokens
    if tokens[index].is_symbol("-"):
        made, index = "-", index + 1
    if tokens[index].sort not in ("number", "literal", "word", "quoted"):
        return "", index
    made += tokens[index].text
    index += 1
    if tokens[index].is_symbol(".") and tokens[index + 1].sort in ("word", "quoted"):
        made += "." + tokens[index + 1].text
        index += 2
    return made, index


def membership(place):
    """IN with a list, as a disjunction; IN with a query."""
    index = place.index
    negated = place.near(-1).is_word("NOT") or place.token.is_word("NOT")
    if place.token.is_word("NOT"):
        index += 1
    column, values = place.operand(), []
    index += 1
    if place.tokens[index].is_symbol("("):
        index += 1
        if place.tokens[index].is_word("SELECT"):
            return (
                "Queries don't stand in one another. "
                + ("For NOT IN use EXCEPT: SELECT city FROM hotels EXCEPT SELECT city FROM museums ORDER BY .." if negated else
                   "Name both tables in FROM and join them in WHERE by `=`, with DISTINCT where a row may match several, or use INTERSECT.")
            )
        while len(values) < 40:
            value, index = value_at(place, index)
            if not value:
                break
            values.append(value)
            if not place.tokens[index].is_symbol(","):
                break
            index += 1
    if not values:
        values = ["1", "2"]
    listed = [f"{column} = {value}" for value in values[:3]] + ([".."] if len(values) > 3 else [])
    made = " OR ".join(listed)
    return f"There is no IN. Write {'NOT ' if negated else ''}({made})."


def pattern(place):
    """LIKE, as two comparisons where the pattern is the beginning of a text."""
    index = place.index + (2 if place.token.is_word("NOT") else 1)
    column, wanted = place.operand(), place.tokens[index]
    text = wanted.says if wanted.sort == "literal" else ""
    front = text.rstrip("%")
    if place.token.is_word("NOT") or place.near(-1).is_word("NOT"):
        return "There are no patterns. Make what you look for a column of the file, with 0 and 1, and compare it."
    if text.endswith("%") and front and "%" not in front and "_" not in front and front[-1] < "~" and "'" not in front:
        behind = front[:-1] + chr(ord(front[-1]) + 1)
        if behind[-1] != "'":
            return f"There are no patterns. Texts compare by their bytes, so for this one write {column} >= '{front}' AND {column} < '{behind}'."
    if text and "%" not in text and "_" not in text:
        return f"There are no patterns. This one has no `%`, so write {column} = {wanted.text}."
    return "There are no patterns: only whole texts compare. Make what you look for a column of the file, with 0 and 1, and compare it."


def join(place, word):
    """A join by JOIN .. ON."""
    if word in ("LEFT", "RIGHT", "FULL", "OUTER"):
        return (
            "There are no outer joins: a combination has a row of each table. Name the tables in FROM with a `,` between them and their"
            " condition in WHERE; rows without a match need a row in the file."
        )
    tables, condition = listed_join(place)
    made = f"Tables are joined by a list in FROM, and what stands behind ON joins WHERE: FROM {tables}"
    return made + (f" WHERE {condition}." if condition else ", with the condition in WHERE.")


def listed_join(place):
    """The tables of a FROM with JOIN as a list, and the conditions behind ON joined by AND."""
    start = place.index
    while start > place.start and not place.tokens[start].is_word("FROM"):
        start -= 1
    tables, conditions, current, target = [], [], [], None
    target = tables
    for token in place.tokens[start + 1:start + 80]:
        if token.is_word("WHERE", "ORDER", "LIMIT", "UNION", "SELECT") or token.is_symbol(";") or token.sort == "end":
            break
        if token.is_word("JOIN", "INNER", "CROSS", "NATURAL", "ON") or token.is_symbol(",") and target is tables:
            if current:
                target.append(current)
            current = []
            target = conditions if token.is_word("ON") else tables
            continue
        current.append(token)
    if current:
        target.append(current)
    return ", ".join(map(spelt, tables)), " AND ".join(map(spelt, conditions))


def ascending(place):
    return (
        "Rows come with the greatest score first, always, and ASC isn't there. For the least value first, make a predicate whose score falls"
        " as the value rises: MAX 400 AS 400 - price."
    )


def null(place):
    return (
        "There is no NULL: each cell has a value. Choose a value that means \"missing\", put it into the file (the helper `prepare` does it"
        " by --null), and compare with it: price = -1. An empty text is ''."
    )


def grouped(place):
    return "Rows aren't grouped. DISTINCT keeps the best row of each list of output values; counts and sums have to be columns of the file."


def offset(place):
    return (
        "There is no OFFSET. Print more rows and pass the first ones over, or take a cursor, whose rows go on where they ended:"
        " DECLARE c CURSOR FOR SELECT ..; FETCH 10 FROM c; FETCH 10 FROM c."
    )


def unchanged(place):
    if place.inside("statement", "create"):
        return "Rows are put in by INSERT, and are neither changed nor deleted. Change the file of the table, and run the script again."
    return "This word isn't there: a script only reads files."


def dropped(place):
    return "Nothing has to be dropped: what a script makes is gone with the run. Leave this statement out."


def exists(place):
    if place.near(-1).is_word("IF", "NOT"):
        return "Leave IF NOT EXISTS out. A script makes its tables anew in each run." if place.within("create") else (
            "Queries don't stand in one another. For rows without a match use EXCEPT: SELECT city FROM hotels EXCEPT SELECT city FROM museums ORDER BY .."
        )
    return "Queries don't stand in one another. Name both tables in FROM and join them in WHERE, with DISTINCT, or use INTERSECT."


def common(place):
    if place.inside("statement"):
        return "There is no WITH. Queries don't stand in one another: name all tables in one FROM, and put all conditions into one WHERE."
    return "There is no WITH. Leave it out."


def joined_here(place):
    return "Tables are joined by a list in FROM and conditions in WHERE: FROM hotels h, restaurants r WHERE h.city = r.city."


SAYS = {
    "ASC": ascending, "BETWEEN": between, "IN": membership, "LIKE": pattern, "IS": null, "NULL": null, "GROUP": grouped, "HAVING": grouped,
    "OFFSET": offset, "UPDATE": unchanged, "DELETE": unchanged, "DROP": dropped, "EXISTS": exists, "WITH": common,
    **{word: joined_here for word in JOINS},
}
