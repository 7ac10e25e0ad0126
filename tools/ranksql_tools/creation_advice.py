"""What to do about CREATE and INSERT where they don't parse."""

from ranksql_tools.limits import GREATEST_NUMBER
from ranksql_tools.query_advice import arguments, no_brackets
from ranksql_tools.script_place import closest


def creations(place):
    """CREATE, and what it makes."""
    token, before = place.token, place.near(-1)
    word = token.text.upper()
    if place.inside("create"):
        if word in ("INDEX", "UNIQUE"):
            return "There are rank indexes alone: CREATE RANK INDEX by_cheap ON hotels (cheap(price)), with a predicate that CREATE PREDICATE made."
        view = next((index for index, other in enumerate(place.after()[:4]) if other.is_word("VIEW")), None)
        if view is not None:
            behind = place.near(view + 1)
            name = behind.text if behind.sort in ("word", "quoted") and not behind.is_word("AS", "IF") else "v"
            return (
                f"A view is a cursor here: DECLARE {name} CURSOR FOR SELECT .., and then FETCH 10 FROM {name}. Under the word `view` (ranksql view"
                " SCRIPT) it keeps the first rows of its query as rows are put in. In FROM stand tables alone: there a query has no name."
            )
        if word == "OR" and place.near(1).is_word("REPLACE"):
            return "Leave OR REPLACE out. What a script makes is gone with the run, and a script makes each thing once."
        if word in ("FUNCTION", "PROCEDURE", "AGGREGATE"):
            return "A function of a row is a predicate: CREATE PREDICATE cheap (price INT) MAX 400 AS 400 - price."
        if word in ("TEMP", "TEMPORARY", "OR", "EXTERNAL", "FOREIGN", "VIRTUAL"):
            return f"Leave {word} out. What a script makes is gone with the run, and a table is always the rows of a file."
        if word in ("DATABASE", "SCHEMA"):
            return f"There is no {word}. A script makes its tables anew in each run."
        close = closest(word, ("TABLE", "PREDICATE", "RANK"))
        if close:
            return f"Did you mean {close}?"
        return "What can be made is a TABLE, a PREDICATE or a RANK INDEX."
    if place.inside("kind"):
        return kinds(place)
    if place.within("table", "predicate", "index") and before.is_word("IF"):
        return "Leave IF NOT EXISTS out. A script makes its tables anew in each run."
    if place.inside("columns", "parameters") and place.expected[:1] == [","]:
        if word in ("NOT", "NULL", "PRIMARY", "UNIQUE", "DEFAULT", "CHECK", "REFERENCES", "CONSTRAINT", "AUTO_INCREMENT", "COLLATE"):
            return "A column has a name and a kind, and nothing else. Leave constraints out: there is no NULL and no key."
        if token.is_symbol("("):
            return f"A kind has no length. Write {before.text.upper()} alone."
        if token.sort == "end" or token.is_word("FROM", "MAX"):
            return "A `)` is missing behind the last column."
    if place.inside("columns", "parameters") and token.is_symbol(")"):
        return "Behind the last column there is no `,`." if before.is_symbol(",") else "At least one column stands here, with its kind."
    if place.inside("columns") and place.expected[:1] == ["("]:
        return "Behind the name of a table its columns stand between brackets: (name TEXT, price INT)."
    if place.inside("columns", "parameters") and word in ("PRIMARY", "FOREIGN", "UNIQUE", "CONSTRAINT", "CHECK"):
        return "A table has columns alone, and no keys and constraints."
    if place.inside("table") and "FROM" in place.expected:
        return "A table is made from a CSV file: write FROM 'file.csv' behind the columns."
    if place.inside("file"):
        if token.sort == "quoted":
            return f"The name of the file is a text, between single quotes: '{token.says}'."
        return "The name of the file stands between single quotes: FROM 'hotels.csv'."
    return predicates(place) or indexes(place)


def kinds(place):
    """What stands in the place of a column's kind."""
    token, word = place.token, place.token.text.upper()
    if word in ("VARCHAR", "CHAR", "STRING", "NVARCHAR", "CLOB", "CHARACTER", "UUID", "JSON", "STR"):
        return f"A column of texts is TEXT: write TEXT in the place of {word}, without a length."
    if word in ("BIGINT", "SMALLINT", "TINYINT", "INT8", "INT4", "INT64", "LONG", "SERIAL", "NUMBER", "UNSIGNED"):
        return f"A column of whole numbers is INT: write INT in the place of {word}. It holds up to {GREATEST_NUMBER:,}."
    if word in ("REAL", "FLOAT", "DOUBLE", "DECIMAL", "NUMERIC", "MONEY", "FLOAT8"):
        return (
            f"There are whole numbers alone, so there is no {word}. Write INT, and let the file count in a smaller unit: cents for euros."
            " The helper `prepare` makes such a file."
        )
    if word in ("DATE", "TIME", "TIMESTAMP", "DATETIME"):
        return (
            f"There is no {word}. Write TEXT for dates such as 2024-05-31, which compare as dates do, or INT for numbers such as"
            " 20240531 or days."
        )
    if word in ("BOOL", "BOOLEAN", "BIT"):
        return f"There is no {word}. Write INT, with 0 and 1 in the file, or TEXT."
    if place.within("parameters") and token.is_symbol(",", ")"):
        return f"Each parameter has a kind: write {place.near(-1).text} INT, or {place.near(-1).text} TEXT."
    if token.is_symbol(",", ")"):
        return f"Each column has a kind: write {place.near(-1).text} INT, or {place.near(-1).text} TEXT."
    return "A column is an INT or a TEXT."


def predicates(place):
    """CREATE PREDICATE."""
    token, word = place.token, place.token.text.upper()
    if place.inside("max", "cost"):
        if token.is_symbol("="):
            return f"There is no `=` between {place.near(-1).text.upper()} and its number."
        return f"Behind {place.near(-1).text.upper()} stands a whole number, which is written and not computed."
    if place.inside("parameters") and place.expected[:1] == ["("]:
        return "Behind the name of a predicate its parameters stand between brackets: (price INT)."
    if not place.inside("predicate"):
        return None
    if "MAX" in place.expected:
        if word in ("RETURNS", "RETURN"):
            return "A predicate gives a whole number from 0 to MAX: write MAX 400 in the place of RETURNS."
        return (
            "MAX is missing: the greatest score that the formula can give. It stands first behind the parameters:"
            " CREATE PREDICATE cheap (price INT) MAX 400 AS 400 - price."
        )
    if "AS" in place.expected:
        if token.is_word("MAX"):
            return "MAX stands in front of COST, and each stands once."
        return "Behind MAX, and COST where there is one, stands AS with the formula: MAX 400 COST 3 AS 400 - price."
    return None


def indexes(place):
    """CREATE RANK INDEX."""
    token = place.token
    if not place.within("index"):
        return None
    if token.is_word("ON") and place.near(-1).is_word("INDEX"):
        return "A rank index has a name: CREATE RANK INDEX by_cheap ON hotels (cheap(price))."
    if place.inside("index") and "INDEX" in place.expected:
        return "Write CREATE RANK INDEX."
    if place.inside("call"):
        return no_brackets(place) or (
            f"A rank index is of a predicate, not of a column. Make one, such as CREATE PREDICATE by_{place.near(-1).text}"
            f" ({place.near(-1).text} INT) MAX 1000 AS {place.near(-1).text}, and name it here: (by_{place.near(-1).text}({place.near(-1).text}))."
        )
    if place.inside("index") and token.is_symbol(","):
        return "A rank index is of one predicate. Make another index for the other one."
    if token.is_word("DESC", "ASC"):
        return "A rank index always has the greatest score first. Leave this word out."
    return arguments(place)


def inserts(place):
    """INSERT, and its rows."""
    token, before, word = place.token, place.near(-1), place.token.text.upper()
    if not place.within("insert", "rows"):
        return None
    if "INTO" in place.expected:
        return "Write INSERT INTO, and then the name of the table: INSERT INTO hotels VALUES ('The Old Mill', 'Bath', 95, 71)."
    if place.inside("values"):
        if token.is_symbol("("):
            return "Leave the list of columns out: a row has a value for each column of the table, in their order."
        if token.is_word("SELECT") or word == "DEFAULT":
            return "The rows of an INSERT are written behind VALUES, each with a value for each column of the table."
        return "Behind the name of the table stands VALUES, and then the rows: INSERT INTO hotels VALUES ('The Old Mill', 'Bath', 95, 71)."
    if place.within("cells"):
        return cells(place)
    if place.inside("rows"):
        if token.is_symbol("("):
            return "Between two rows stands a `,`."
        if "(" in place.expected:
            return "Each row stands between brackets: VALUES ('The Old Mill', 'Bath', 95, 71), ('Hostel Nine', 'York', 30, 80)."
        if word in ("ON", "RETURNING"):
            return "Behind the last row an INSERT ends. There are no keys, and nothing is printed."
    return None


def cells(place):
    """The values of a row."""
    token, before = place.token, place.near(-1)
    if token.is_symbol(")"):
        return "Behind the last value there is no `,`." if before.is_symbol(",") else "A row has a value for each column of its table."
    if token.sort == "end" or token.is_symbol(";"):
        return "A `)` is missing behind the last value of the row."
    if token.sort == "quoted":
        return f"A text stands between single quotes: '{token.says}'."
    if token.is_symbol("+") and "a number" in place.expected:
        return "There is no sign `+`. Leave it out."
    if token.sort in ("number", "literal", "word"):
        if "," in place.expected:
            return "Between two values stands a `,`."
        if token.sort == "word":
            return f"A value is a number or a text, and a text stands between single quotes: '{token.text}'."
        return "A `-` stands in front of numbers alone."
    return "A value is a number or a text, and no expression. Compute it beforehand."
