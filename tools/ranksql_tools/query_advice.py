"""What to do about a query that doesn't parse."""

from ranksql_tools.foreign_advice import join, quoted_name
from ranksql_tools.limits import GREATEST_LIMIT
from ranksql_tools.script_parse import COMPARISONS, FOREIGN, RESERVED
from ranksql_tools.script_place import STATEMENTS, behind_statement, closest, spelt


def queries(place):
    """SELECT, FROM, and the order of the parts of a query."""
    token = place.token
    if place.within("declare", "fetch", "close") and not place.within("select"):
        return cursors(place)
    if place.inside("explain", "select") and place.expected == ["ANALYZE", "SELECT"] or place.expected == ["SELECT"]:
        if place.within("second") and token.is_symbol("("):
            return "A block isn't put between brackets. Write SELECT .. UNION SELECT .. ORDER BY .., with one ORDER BY behind both."
        if place.within("second") and token.is_word("ALL", "DISTINCT"):
            return f"ALL stands behind UNION alone. {place.near(-1).text.upper()} always gives each row once."
        if place.within("explain"):
            return "EXPLAIN and EXPLAIN ANALYZE stand directly in front of a query, that is, of SELECT."
        return "Here stands SELECT."
    if place.trail[-1] == "from":
        return sources(place)
    if place.inside("items") or place.within("items") and place.inside("dot"):
        return items(place)
    if place.inside("from"):
        return sources(place)
    return None


def cursors(place):
    token, word = place.token, place.token.text.upper()
    if place.within("fetch"):
        if token.sort == "word" and "a number" in place.expected:
            return "FETCH has the number of rows first: FETCH 10 FROM c."
        return "Write FETCH 10 FROM c, with the number of rows and the name of the cursor."
    if place.within("declare"):
        if "FOR" in place.expected or "CURSOR" in place.expected:
            return "Write DECLARE c CURSOR FOR SELECT .., without other words between them."
    if "a name" in place.expected and word in RESERVED | FOREIGN:
        return quoted_name(token)
    return "Here stands the name of a cursor."


def items(place):
    """The output columns."""
    token, before, behind = place.token, place.near(-1), place.near(1)
    word = token.text.upper()
    if token.is_word("ON") and before.is_word("DISTINCT"):
        return distinct_on(place)
    if token.is_symbol("("):
        if before.is_word("DISTINCT"):
            return "DISTINCT is no function: it keeps the best row of each list of output values. Leave the brackets out."
        if before.is_word("COUNT", "SUM", "AVG", "MIN", "MAX", "TOTAL", "GROUP_CONCAT"):
            return (
                f"Rows aren't grouped, so there is no {before.text.upper()}. What follows SELECT is columns. Count or sum in the file of"
                " the table, or what the program prints, as by wc -l."
            )
        if before.sort == "word" and not before.is_word("SELECT", "DISTINCT"):
            return (
                f"What follows SELECT is columns, and no functions. Make {before.text} a column of the file, or a predicate to rank by:"
                " the score is printed in each row."
            )
        return "What follows SELECT is columns, without brackets and expressions."
    if token.is_word("AS"):
        return "Output columns keep their own names, and no header is printed. Leave AS and the name behind it out."
    if token.is_symbol("*") and before.is_symbol("."):
        return f"There is no `{place.near(-2).text}.*`. Name the columns, or write `*` for all columns of all tables."
    if token.is_symbol("+", "-", "*", "/"):
        return "What follows SELECT is columns, and no expressions. Make it a column of the file, or a predicate to rank by."
    if before.is_symbol("*"):
        return "`*` stands alone, for all columns of all tables. Leave out what follows it, up to FROM."
    if token.sort == "number" and before.is_word("TOP"):
        return f"How many rows are printed stands at the end of the query: LIMIT {token.text}."
    if token.sort == "number":
        return "What follows SELECT is columns. A number can't be put out."
    if token.sort == "literal":
        if "a name" in place.expected and before.is_word("SELECT", "DISTINCT"):
            return "What follows SELECT is columns. A text can't be put out; a name stands between double quotes."
        return "What follows SELECT is columns: a text can't be put out, and a column has no other name."
    if token.is_word("FROM") and before.is_symbol(","):
        return "Behind the last column there is no `,`."
    if token.is_word("FROM"):
        return "Name the columns between SELECT and FROM, or write `*` for all."
    if word == "CASE":
        return "What follows SELECT is columns, and no expressions. A CASE can stand in a predicate to rank by, and in WHERE."
    if word == "ALL" and before.is_word("SELECT"):
        return "Leave ALL out: a query without DISTINCT gives all rows."
    if word in RESERVED and "a name" in place.expected and not behind.sort == "end":
        return quoted_name(token)
    if token.sort == "quoted" or token.sort == "word" and word not in RESERVED | FOREIGN:
        close = closest(word, ("FROM",))
        if close:
            return f"Did you mean {close}?"
        return "Two columns have a `,` between them, and output columns have no other names. Behind the last one stands FROM."
    if "FROM" in place.expected:
        return "A query needs FROM and its tables behind the columns: SELECT name FROM hotels ORDER BY cheap(price)."
    return None


def distinct_on(place):
    """DISTINCT ON, with columns between brackets."""
    rest = place.after()[1:]
    closing = next((index for index, token in enumerate(rest) if token.is_symbol(")")), 0)
    same = spelt(rest[1:closing]) if rest[:1] and rest[0].is_symbol("(") and closing > 1 else "values"
    limit = ", and LIMIT too" if any(token.is_word("LIMIT") for token in place.after()) else ""
    return (
        f"There is no DISTINCT ON: DISTINCT keeps the best row of each list of output values. Leave DISTINCT ON and its brackets out{limit}."
        f" Rows come with the greatest score first, so of the rows with the same {same} the first one is the best."
    )


def sources(place):
    """The tables of FROM."""
    token, before, word = place.token, place.near(-1), place.token.text.upper()
    if token.is_symbol("("):
        if place.near(1).is_word("SELECT"):
            return "Queries don't stand in one another. Name all tables in this FROM, and put the condition of the inner query into WHERE."
        return "FROM names tables that CREATE TABLE made, without brackets."
    if token.sort == "literal":
        return f"FROM names a table. Make it first: CREATE TABLE t (..) FROM '{token.says}', and then SELECT .. FROM t."
    if token.is_symbol("."):
        return "A table has one name, without a schema in front."
    if token.is_word("WHERE", "ORDER") and before.is_symbol(","):
        return "Behind the last table there is no `,`."
    if before.is_word("FROM") and (token.is_word("WHERE", "ORDER", "LIMIT", "UNION") or token.sort in ("end", "number") or token.is_symbol(";", ",")):
        return "FROM names a table that CREATE TABLE made: SELECT name FROM hotels ORDER BY cheap(price)."
    if "a name" in place.expected and word in RESERVED and before.is_word("FROM", "AS"):
        return quoted_name(token)
    return None


def orders(place):
    """ORDER BY, its terms, and LIMIT."""
    word = place.token.text.upper()
    if place.within("terms"):
        says = terms(place)
        if says:
            return says
    if place.within("limit"):
        if word == "ALL":
            return "Without LIMIT all rows are printed. Leave LIMIT ALL out."
        return f"LIMIT has a whole number from 0 to {GREATEST_LIMIT:,}, which is written and not computed."
    if place.inside("order"):
        return "Write ORDER BY."
    if "ORDER" in place.expected:
        return no_order(place)
    if place.inside("behind"):
        return behind_query(place) or behind_statement(place)
    return None


def terms(place):
    """A term of ORDER BY."""
    token, before, behind = place.token, place.near(-1), place.near(1)
    if place.inside("call"):
        if token.is_symbol(".") and before.says in place.predicates:
            return f"{before.text} is a predicate, and its arguments stand between brackets: {before.text}({behind.text})."
        if token.is_symbol("."):
            name = behind.text
            return column_order(name, f"{before.text}.{name}")
        return no_brackets(place) or column_order(before.text, before.text)
    if place.inside("weight") and token.is_symbol("-"):
        return subtracted(place)
    if place.inside("weight"):
        if before.sort == "number" and (token.sort == "end" or token.is_symbol(";", ",") or token.is_word("DESC", "LIMIT", "ASC")):
            return "ORDER BY takes predicates, and not the place of a column. Make a predicate of the column and rank by it: ORDER BY by_price(price)."
        return "Behind a weight stands `*` and a predicate: 2 * cheap(price)."
    if place.inside("args"):
        return arguments(place)
    if token.is_symbol("("):
        return (
            "Terms stand without brackets. ORDER BY is a sum of predicates, each with a weight of its own in front:"
            " 2 * cheap(price) + 2 * liked(rating)."
        )
    if token.is_symbol("-") and before.is_word("BY"):
        return "A term has no sign. For the least value first, make a predicate whose score falls as the value rises: AS 400 - price."
    if token.is_symbol("-") and "a name" not in place.expected:
        return subtracted(place)
    if before.is_symbol(")") and token.says in place.predicates:
        return "Between two terms stands `+`: 2 * cheap(price) + liked(rating)."
    if token.is_symbol("-", "*", "/"):
        return "A term is a predicate with a weight in front, as in 2 * cheap(price). Compute in the predicate's formula."
    if token.sort == "literal":
        return "ORDER BY takes predicates on columns, and no texts."
    if token.is_word("CASE"):
        return "ORDER BY takes predicates. Put the CASE into one: CREATE PREDICATE p (price INT) MAX 2 AS CASE WHEN price < 100 THEN 2 ELSE 0 END."
    if token.is_word("SELECT") and "a name" in place.expected:
        return "ORDER BY takes predicates, and queries don't stand in one another."
    return None


def no_brackets(place):
    """What to do where the arguments of a predicate stand without brackets, or don't stand there."""
    token, before = place.token, place.near(-1)
    scoring = place.predicates.get(before.says)
    if scoring is None:
        name = next((name for name in place.predicates if name.lower() == before.says.lower()), None)
        if name is None:
            return None
        scoring = place.predicates[name]
    given, commas = [], 0
    for other in place.after():
        commas += other.is_symbol(",")
        if commas == len(scoring.made.columns) or other.is_symbol("+", ")") or other.is_word("DESC", "ASC", "LIMIT", *STATEMENTS):
            break
        given.append(other)
    capitals = "" if scoring.made.name.says == before.says else f" Capitals count in names: write {scoring.name}."
    if token.sort in ("word", "quoted", "literal", "number") and given:
        return f"{scoring.name} is a predicate, and its arguments stand between brackets: {scoring.name}({spelt(given)}).{capitals}"
    return (
        f"{scoring.name} is a predicate, and is called on one column, number or text for each of its parameters:"
        f" {scoring.name}({scoring.parameters}).{capitals}"
    )


# A formula that is longer isn't written out.
LONGEST_FORMULA = 60


def subtracted(place):
    """What to do where a score is taken away from another one: a predicate whose score falls is added."""
    says = "Terms are added, and none is taken away."
    rest, weight = place.after()[1:], ""
    if len(rest) > 2 and rest[0].sort == "number" and rest[1].is_symbol("*"):
        weight, rest = f"{rest[0].text} * ", rest[2:]
    scoring = place.predicates.get(rest[0].says) if rest else None
    closing = next((index for index, token in enumerate(rest) if token.is_symbol(")")), None)
    if scoring is None or closing is None or not rest[1].is_symbol("("):
        return f"{says} Make a predicate whose score falls as the value rises, and add it: AS 100 - rating."
    name, most = f"not_{scoring.made.name.says}", scoring.made.most.text
    if not name.isidentifier() or not name.isascii() or name in place.predicates:
        name = "falling"
    columns = ", ".join(f"{column[0].text} {column[1]}" for column in scoring.made.columns)
    cost = f" COST {scoring.made.cost.text}" if scoring.made.cost else ""
    formula = scoring.formula if scoring.formula.isidentifier() else f"({scoring.formula if len(scoring.formula) <= LONGEST_FORMULA else '..'})"
    return (
        f"{says} Make a predicate whose score falls as that of {scoring.name} rises, CREATE PREDICATE {name} ({columns}) MAX {most}{cost} AS"
        f" {most} - {formula}, and add it: + {weight}{name}{spelt(rest[1:closing + 1])}."
    )


def column_order(name, written):
    """What to do where ORDER BY has a column."""
    return (
        f"ORDER BY takes predicates, not columns. Make one, CREATE PREDICATE by_{name} ({name} INT) MAX 1000 AS {name}, with the greatest"
        f" value of {name} behind MAX, and write ORDER BY by_{name}({written})."
    )


def arguments(place):
    """The arguments of a predicate."""
    token, before = place.token, place.near(-1)
    if token.is_symbol(")"):
        return no_arguments(place)
    if token.is_symbol("*") and before.is_symbol("("):
        return "A predicate is called on columns, one after another: cheap(price). There is no COUNT(*) of rows."
    if token.is_symbol("+", "-", "*", "/", "<", ">", "=", "<=", ">=", "<>", "!="):
        return "Arguments are columns, numbers and texts, and no expressions. Give the predicate the columns, and compute in its formula."
    if token.is_symbol("("):
        return "Arguments are columns, numbers and texts. Predicates don't stand in one another: compute in one formula."
    if token.is_word("LIMIT", "DESC") or token.sort == "end" or token.is_symbol(";"):
        return "A `)` is missing behind the arguments of the predicate."
    return None


def no_arguments(place):
    """What to do where nothing stands between the brackets of a call."""
    called = place.near(-2)
    scoring = place.predicates.get(called.says)
    if scoring is None and called.text.upper() in CHANCE:
        return (
            f"There is no {called.text.upper()}: a script prints the same rows in each run. Put random numbers into a column of the file, and"
            " rank by a predicate of it."
        )
    if scoring is None and called.text.upper() in CLOCK:
        return f"There is no {called.text.upper()}: a script prints the same rows in each run. Write the day or the time itself, as a number."
    shown = f"{scoring.name}({scoring.parameters})" if scoring else "cheap(price)"
    return f"A predicate is called on one column at least: {shown}."


CHANCE = ("RANDOM", "RAND", "RANDOMBLOB", "NEWID", "UUID", "GEN_RANDOM_UUID", "UUID_GENERATE_V4", "RANDOMUUID")
CLOCK = ("NOW", "GETDATE", "CURDATE", "CURTIME", "SYSDATE", "CURRENT_DATE", "CURRENT_TIMESTAMP", "LOCALTIME")


def no_order(place):
    """What to do where a query has no ORDER BY."""
    token, behind, word = place.token, place.near(1), place.token.text.upper()
    if place.within("from") or place.within("select"):
        close = misspelt_alias(place)
        if close:
            return close
    if token.is_word("LIMIT"):
        for other in place.after():
            if other.is_word("ORDER"):
                return "LIMIT stands behind ORDER BY, at the end of the query."
        return no_order_at_all()
    if token.is_word(*STATEMENTS):
        return f"{no_order_at_all()} Then a `;` stands in front of {token.text.upper()}."
    if token.is_symbol(";") or token.sort == "end":
        return no_order_at_all()
    if token.is_word("UNION", "INTERSECT", "EXCEPT"):
        return "A query has two blocks at most. Put a row's kind into the condition of one block, with OR, or make two queries."
    if word in ("CROSS", "NATURAL") and behind.is_word("JOIN", "INNER"):
        return join(place, word)
    if token.is_word("ON") or word == "USING":
        return "A condition that joins tables stands in WHERE: FROM hotels h, restaurants r WHERE h.city = r.city."
    return None


def no_order_at_all():
    return (
        "Every query ranks its rows, so ORDER BY is missing. Put it in front of LIMIT, with a predicate: ORDER BY cheap(price) LIMIT 5."
        " For the rows as they stand in the file make a predicate that gives 0 to all."
    )


def behind_query(place):
    """What stands behind a query that is complete."""
    token, before, behind = place.token, place.near(-1), place.near(1)
    word = token.text.upper()
    if not any(other.is_word("SELECT") for other in place.of_statement()):
        return None
    if token.is_symbol(","):
        if before.sort == "number":
            return f"LIMIT has one number, how many rows are printed. To pass rows over, take a cursor: DECLARE c CURSOR FOR .., and FETCH {before.text} FROM c."
        if before.is_word("DESC"):
            return "DESC stands once, behind the last term, and terms are added with `+`: ORDER BY 2 * cheap(price) + liked(rating) DESC."
        return (
            "Terms are added with `+`, not listed: ORDER BY 1000 * cheap(price) + liked(rating). A weight that is great enough lets the"
            " first predicate decide and the second one part its ties."
        )
    if token.is_symbol("*", "/"):
        return "A weight is a whole number in front of its predicate: 2 * cheap(price). There is no division and no weight behind."
    if token.is_symbol("+") and before.is_word("DESC"):
        return "DESC stands once, behind the last term."
    if token.is_symbol("."):
        return "There are whole numbers alone."
    if token.is_word("WHERE"):
        return "WHERE stands in front of ORDER BY: SELECT .. FROM .. WHERE .. ORDER BY .. LIMIT .."
    if token.is_word("UNION", "INTERSECT", "EXCEPT"):
        return "ORDER BY and LIMIT stand once, behind the second block, and rank the rows of both."
    if token.is_word("DESC"):
        return "DESC stands behind the terms, in front of LIMIT, and may be left out."
    if token.is_word("FROM"):
        return "FROM stands behind the output columns, in front of WHERE and ORDER BY."
    if word == "NULLS":
        return "There is no NULL, so leave NULLS FIRST or NULLS LAST out."
    if token.is_word("FETCH") and behind.is_word("FIRST", "NEXT"):
        return "How many rows are printed is said by LIMIT: ORDER BY cheap(price) LIMIT 5."
    if token.is_word("FOR"):
        return "Rows aren't locked. Leave FOR UPDATE out."
    if token.is_word("AND", "OR") or token.is_symbol(*COMPARISONS):
        return "Conditions stand in WHERE, in front of ORDER BY."
    if token.is_symbol(")"):
        return "This `)` closes nothing."
    if token.is_word("AS"):
        return "The score has no name. It is the second value of each row that is printed."
    return None


def misspelt_alias(place):
    """A word in front that was taken for the alias of a table."""
    before = place.near(-1)
    if before.sort != "word" or place.within("where"):
        return None
    if before.is_word("CROSS", "NATURAL", "STRAIGHT_JOIN"):
        return None
    close = closest(before.text.upper(), ("WHERE", "ORDER", "LIMIT", "UNION"))
    return f"`{before.text}` was read as another name of the table. Did you mean {close}?" if close else None
