"""What to do about a script that has no tokens or doesn't parse."""

import re

from ranksql_tools.creation_advice import creations, inserts
from ranksql_tools.foreign_advice import foreign_word, quoted_name
from ranksql_tools.limits import GREATEST_NUMBER, GREATEST_WEIGHT, MOST_DEPTH, MOST_STATEMENTS, MOST_TOKENS
from ranksql_tools.query_advice import CHANCE, orders, queries
from ranksql_tools.script_parse import COMPARISONS, FOREIGN, RESERVED
from ranksql_tools.script_place import STATEMENTS, behind_statement, closest, spelt
from ranksql_tools.script_text import tokens_of

BYTES = {
    "#": "A comment begins with `--`, not with `#`.",
    "`": "A name that isn't a plain word stands between double quotes, as in \"my column\", not between backticks.",
    "[": "A name that isn't a plain word stands between double quotes, as in \"my column\", not between square brackets.",
    "|": "Texts can't be put together by `||`, and OR is written as a word. Put texts together in the file of the table.",
    "&": "Write AND in the place of `&&`.",
    "!": "Write NOT in front of a condition, or `<>` for \"is not equal\".",
    "%": "There is no remainder `%`. For whole numbers from 0 on it is `a - a / 10 * 10`, where 10 is the divisor.",
    "^": "There is no power `^`. Write the product: `a * a`.",
    "?": "There are no parameters `?` in a script. Write the value itself.",
    "$": "There are no parameters `$` in a script. Write the value itself.",
    "@": "There are no variables `@` in a script. Write the value itself.",
    ":": "There are neither casts `::` nor parameters `:` in a script. A column is an INT or a TEXT as CREATE TABLE says.",
    "{": "There are no braces in a script, and no values are filled in. Write the value itself.",
    "}": "There are no braces in a script, and no values are filled in. Write the value itself.",
    "]": "A name that isn't a plain word stands between double quotes, as in \"my column\", not between square brackets.",
    "\\": "A backslash means nothing here. A quote in a text is doubled: 'it''s'. Commands of a database's shell aren't there.",
    "~": "There are no patterns: only `=`, `<>`, `<`, `<=`, `>` and `>=` compare.",
    "\u2018": "This is a typographic quote. A text stands between straight ones: 'York'.",
    "\u2019": "This is a typographic quote. A text stands between straight ones: 'York'.",
    "\u201c": "This is a typographic quote. A text stands between straight single ones, 'York', and a name between double ones.",
    "\u201d": "This is a typographic quote. A text stands between straight single ones, 'York', and a name between double ones.",
    "\u201e": "This is a typographic quote. A text stands between straight single ones, 'York', and a name between double ones.",
    "\u00a0": "This is a blank of a special kind (a no-break space). Put a plain blank in its place.",
    "\u200b": "An invisible character stands here (a zero-width space). Take it out.",
    "\ufeff": "A second byte order mark stands here. Take it out.",
    "\u2013": "This is a dash. Minus is the sign `-` of the keyboard.",
    "\u2014": "This is a dash. A comment begins with two signs `-` of the keyboard: `--`.",
    "\u2212": "This is a minus sign of typography. Write the sign `-` of the keyboard.",
    "\u2264": "Write `<=`.",
    "\u2265": "Write `>=`.",
    "\u2260": "Write `<>`.",
    "\u00d7": "Write `*`.",
    "\u00f7": "Write `/`.",
    "\u20ac": "A number has no unit. Write the digits alone.",
    "\u00a3": "A number has no unit. Write the digits alone.",
}


# A number with a `%` directly behind it, or behind a blank.
PER_CENT = re.compile(rb"(?<![A-Za-z0-9_])([0-9]+)[ \t]?%\Z")
LIMIT_IN_FRONT = re.compile(rb"\bLIMIT\s+[0-9]+[ \t]?\Z", re.IGNORECASE)


def of_bytes(body, place):
    """What to do where a script isn't UTF-8."""
    if body[:2] in (b"\xff\xfe", b"\xfe\xff") or b"\0" in body[:64]:
        return "The script is written in UTF-16. Save it as UTF-8, or: iconv -f UTF-16 -t UTF-8 OLD >NEW."
    sign = body[place:place + 1].decode("cp1252", "replace")
    return (
        f"The script isn't UTF-8 from here on. This byte would be `{sign}` in Latin-1, so the file was likely saved in that. Save it"
        " as UTF-8, or: iconv -f CP1252 -t UTF-8 OLD >NEW."
    )


def of_tokens(body, variant, place):
    """What to do about a fault of the tokens."""
    rest = body[place:].decode("utf-8", "replace")
    if variant == "NumberTooWide":
        return f"This number is greater than {GREATEST_NUMBER:,}, the greatest that there is. Measure in a greater unit."
    if variant == "TooManyTokens":
        return f"A script has {MOST_TOKENS:,} tokens at most. Split it into several scripts."
    if variant == "OpenText":
        if rest.startswith('"'):
            return 'The name that begins with this `"` is never closed. A text stands between single quotes.'
        return "The text that begins with this quote is never closed. An apostrophe in a text is doubled: 'O''Brien'."
    if rest.startswith('""'):
        return "A name has one character at least. An empty text is ''."
    digits = 0
    while rest[digits:digits + 1].isdigit() and rest[digits] < "\x80":
        digits += 1
    return of_number(rest[:digits], rest[digits:digits + 1]) if digits else of_byte(rest[:1], body, place)


def of_number(digits, behind):
    """What to do where a letter stands directly behind a number."""
    if behind in "eE":
        return "Numbers have no exponent. Write all digits of the whole number."
    if behind == "_":
        return "Digits aren't grouped. Write the number without `_`."
    if digits == "0" and behind in "xX":
        return "Numbers are decimal. Write the digits 0 to 9 alone."
    return "A number ends with a digit, and a name begins with a letter. Put a blank between them, or the name between double quotes."


def of_byte(sign, body, place):
    """What to do about a character that begins no token."""
    if sign == "|" and body[place:place + 2] != b"||":
        return "There is no sign `|`. Conditions are joined by the words AND and OR."
    if sign == "%" and PER_CENT.search(body[:place + 1]) and not is_operand(body[place + 1:]):
        return of_per_cent(body, place)
    if sign in BYTES:
        return BYTES[sign]
    if place and body[place - 1:place].isdigit():
        return of_number("", sign)
    if sign.isalpha():
        return f"A name with the letter `{sign}` stands between double quotes, as in \"größe\". A text stands between single quotes."
    return f"The sign `{sign}` means nothing in a script." if sign.isprintable() else (
        f"A character that can't be seen stands here (U+{ord(sign):04X}). Take it out."
    )


def is_operand(rest):
    """Whether a number, a name or a bracket comes next, so that a `%` in front is a remainder."""
    token = tokens_of(rest)[0]
    if token.sort == "word":
        return token.text.upper() not in RESERVED | FOREIGN | {"COST"}
    return token.sort in ("number", "quoted") or token.is_symbol("(")


def of_per_cent(body, place):
    """What to do about a `%` behind a number that isn't a remainder."""
    digits = PER_CENT.search(body[:place + 1])[1].decode()
    if LIMIT_IN_FRONT.search(body[:place]):
        return f"LIMIT has a number of rows, and no share of them. Write the number, as in LIMIT {digits}."
    return (
        f"A number has no unit, so no `%` stands behind it. Write {digits} alone where the column counts in per cent. Weights are whole numbers, of"
        " which the ratio counts: for 50 % and 100 % write 1 and 2."
    )


def of_parse(place, variant):
    """What to do where the parse stops."""
    if variant == "TooDeep":
        if place.within("insert"):
            return f"An INSERT has {MOST_DEPTH} open brackets and `-` at most, so {MOST_DEPTH} rows at most. Write several, each with some of the rows."
        return (
            f"The statement has more than {MOST_DEPTH} operators and open brackets. Compute a part of it in the file of the table, as a column"
            " of its own."
        )
    if variant == "TooManyStatements":
        return f"A script has {MOST_STATEMENTS:,} statements at most. Split it into several scripts."
    for rule in (signs, numbers, statements, creations, inserts, queries, orders, expressions, names, misspelt):
        says = rule(place)
        if says:
            return says
    return f"{expected_here(place)} can stand here."


# ---- signs that stand where none can


def signs(place):
    """Comments, doubled signs and quotes."""
    token, behind, before = place.token, place.near(1), place.near(-1)
    if token.is_symbol("/") and behind.is_symbol("*") and behind.start == token.end:
        return "A comment begins with `--` and ends with its line. There is no `/* .. */`."
    if token.is_symbol("*") and before.is_symbol("/") and before.end == token.start:
        return "A comment begins with `--` and ends with its line. There is no `/* .. */`."
    if token.is_symbol("=") and before.is_symbol("=") and before.end == token.start:
        return "Equality is a single `=`."
    if before.is_symbol("=") and before.end == token.start and token.is_symbol("<", ">"):
        return f"Write `{token.text}=`."
    return None


def numbers(place):
    """Decimals, and digits in groups."""
    token, before, behind = place.token, place.near(-1), place.near(1)
    if token.is_symbol(".") and before.sort == "number" and (behind.sort == "number" or before.end == token.start):
        if place.within("weight"):
            return (
                f"A weight is a whole number from 1 to {GREATEST_WEIGHT:,}. Multiply all weights by one number: 0.5 and 1 become 1 and 2, and"
                " the order stays."
            )
        return (
            "There are whole numbers alone. Count in a smaller unit: for 1.5 write 15 and let the column hold tenths."
            " The helper `prepare` makes such a table from a file."
        )
    if token.is_symbol(".") and behind.sort == "number":
        return "There are whole numbers alone. Count in a smaller unit: for .5 write 5 and let the column hold tenths."
    if token.is_symbol(",") and before.sort == "number" and behind.sort == "number" and len(behind.text) == 3 and place.inside(
        "predicate", "cost", "max", "select", "statement", "behind"
    ) and token.end == behind.start:
        return f"Digits aren't grouped. Write {before.text}{behind.text}."
    if token.is_symbol("-") and place.inside("max", "limit", "fetch", "cost"):
        return "Here stands a number from 0 on, without a sign."
    return None


# ---- statements


def statements(place):
    """The first word of a statement."""
    token = place.token
    if not place.inside("statement"):
        return None
    if token.is_symbol(";"):
        return "A statement may not be empty. Take one of the two `;` away."
    if token.is_symbol("("):
        return "A block isn't put between brackets. Write SELECT .. UNION SELECT .. ORDER BY .., with one ORDER BY behind both."
    word = token.text.upper()
    if word in ("ALTER", "TRUNCATE", "MERGE", "REPLACE", "COPY", "LOAD"):
        return "A table is its file, and is read by CREATE TABLE name (columns) FROM 'file.csv'. Change the file, and run the script again."
    if word in ("BEGIN", "COMMIT", "ROLLBACK", "SET", "USE", "PRAGMA", "GO", "START"):
        return f"There is no statement {word}. Leave it out: a script only reads files, and what it makes is gone with the run."
    if word in ("SHOW", "DESCRIBE"):
        return f"There is no statement {word}. The tables, columns and predicates are those that the script itself makes."
    if word in ("VALUES", "CALL", "PRINT", "ECHO"):
        return f"There is no statement {word}. What is printed is the rows of SELECT and FETCH, and what EXPLAIN says."
    if word in ("OPEN", "MOVE"):
        return "A cursor is opened by DECLARE name CURSOR FOR SELECT .., and FETCH 5 FROM name prints its next rows."
    if token.is_symbol("."):
        return "Commands of a database's shell, such as .mode, aren't there. A table's file is named by CREATE TABLE .. FROM 'file.csv'."
    if word in ("RUN", "PLAIN", "TOP", "RANKSQL"):
        return "This is a word of the command line. The script has statements alone."
    close = closest(word, STATEMENTS)
    if close:
        return f"Did you mean {close}?"
    return "A statement begins with CREATE, INSERT, SELECT, EXPLAIN, DECLARE, FETCH or CLOSE."


# ---- expressions


def expressions(place):
    """Formulas and conditions."""
    token, before, behind = place.token, place.near(-1), place.near(1)
    word = token.text.upper()
    if place.inside("twice"):
        return "A comparison has two sides. Write two, joined by AND: a < b AND b < c."
    if place.inside("when"):
        return (
            f"CASE has a condition behind each WHEN: write CASE WHEN {token.text} = .. THEN .. ELSE .. END."
            if token.sort in ("word", "quoted") else "Behind CASE stands WHEN with a condition."
        )
    if place.inside("else"):
        return "ELSE is missing. A CASE always has one, with the value of all other rows: write ELSE 0 in front of END."
    if place.inside("end"):
        return "END is missing, which closes the CASE." if not token.is_word("WHEN") else "WHEN stands in front of ELSE, which comes last."
    if not place.within("formula", "where"):
        return None
    if token.is_word("NOT") and behind.is_word(*FOREIGN):
        return foreign_word(place, behind.text.upper())
    if token.is_word("SELECT"):
        return "Queries don't stand in one another. Name both tables in FROM and join them in WHERE, or use INTERSECT or EXCEPT."
    if token.is_symbol("(") and before.sort == "word":
        return functions(place)
    if place.within("MIN", "MAX") and token.is_symbol(",", ")") and (place.inside("MIN", "MAX")):
        name = "MAX" if place.inside("MAX") else "MIN"
        if token.is_symbol(")"):
            return f"{name} is the {'greater' if name == 'MAX' else 'lesser'} of two values, {name}(x, y), and not of all rows."
        return f"{name} has two parts. For three write {name}(x, {name}(y, z))."
    if place.inside("ABS") and token.is_symbol(","):
        return "ABS has one part."
    if token.sort == "literal" and before.is_word("DATE", "TIMESTAMP", "TIME", "INTERVAL"):
        return f"Leave {before.text.upper()} out. A column of dates such as 2024-05-31 is TEXT, and texts compare by their bytes, as dates do."
    if place.within("brackets") and ")" in place.expected and (token.sort == "end" or token.is_symbol(";") or token.is_word("ORDER", "LIMIT", *STATEMENTS)):
        return "A `)` is missing."
    if token.is_symbol(")") and ")" not in place.expected and place.expected[:1] != ["("] and "a number" not in place.expected:
        return "This `)` closes nothing."
    if place.within("formula") and token.is_word("FROM", "WHERE"):
        return "A formula computes from its parameters alone, and has no query in it."
    if token.is_symbol(",") and "a number" not in place.expected:
        return "A `,` stands here between the parts of nothing. Conditions are joined by AND and OR, and a decimal number isn't there."
    if "a number" in place.expected and token.is_symbol("+"):
        return "There is no sign `+`. Leave it out."
    if "a number" in place.expected and token.is_word("ALL", "ANY", "SOME", "DISTINCT"):
        return f"There is no {word} in an expression."
    if "a number" in place.expected and (token.is_symbol(*COMPARISONS, "*", "/", ")", ";", ",") or token.is_word(
        "AND", "OR", "ORDER", "THEN", "ELSE", "END", "LIMIT", "WHEN"
    ) or token.sort == "end"):
        return "A number, a text, a column or a part between brackets is missing here."
    return None


def functions(place):
    """A function that isn't there."""
    before = place.near(-1)
    name = before.text.upper()
    there = "In expressions there are ABS(x), MIN(x, y), MAX(x, y) and CASE."
    if name == "GREATEST":
        return "Write MAX(x, y) in the place of GREATEST. It has two parts."
    if name == "LEAST":
        return "Write MIN(x, y) in the place of LEAST. It has two parts."
    if name in ("COALESCE", "IFNULL", "NVL", "NULLIF"):
        return f"There is no {name}, since there is no NULL. Write CASE WHEN price = -1 THEN 0 ELSE price END for a value that means \"missing\"."
    if name in ("IF", "IIF"):
        return f"Write CASE WHEN .. THEN .. ELSE .. END in the place of {name}."
    if name in ("ROUND", "FLOOR", "CEIL", "CEILING", "TRUNC", "TRUNCATE", "CAST", "INT", "INTEGER", "MOD"):
        return f"There is no {name}: all numbers are whole, and `/` cuts a quotient towards zero. {there}"
    if name in CHANCE:
        return f"There is no {name}: a script prints the same rows in each run. Put random numbers into a column of the file."
    if name in ("SQRT", "POWER", "POW", "EXP", "LN", "LOG", "LOG10", "SIN", "COS", "ATAN2"):
        return f"There is no {name}. {there} Compute {name} when the file is made, as a column of its own."
    if name in ("COUNT", "SUM", "AVG", "MAX", "MIN"):
        return f"Rows aren't grouped, so there is no {name} of them. {there}"
    if name in ("LENGTH", "LOWER", "UPPER", "SUBSTR", "SUBSTRING", "TRIM", "CONCAT", "REPLACE", "STRPOS"):
        return f"There is no {name}: texts are only compared. Make what you look for a column of the file."
    return f"There is no function {before.text} in an expression, and predicates are called in ORDER BY alone. {there}"


# ---- names and words


def names(place):
    """A word of the language where a name has to stand."""
    token = place.token
    if "a name" not in place.expected or token.sort != "word":
        return None
    is_clause = token.is_word("FROM", "WHERE", "ORDER", "SELECT", "LIMIT")
    if token.text.upper() in RESERVED and (not is_clause or place.within("create") and not place.within("formula")):
        return quoted_name(token)
    return f"A name is missing in front of {token.text.upper()}."


def misspelt(place):
    """A word that is nearly one that could stand here; and what else could be meant."""
    token = place.token
    says = behind_statement(place)
    if says and place.inside("behind"):
        return says
    if token.sort == "word":
        close = closest(token.text.upper(), [word for word in place.expected if word.isalpha() and word.isupper()])
        if close and close != token.text.upper():
            return f"Did you mean {close}?"
    if "ORDER" in place.expected and place.within("where") and token.sort == "word" and is_second_word(place):
        return unquoted_text(place)
    if "ORDER" in place.expected and token.sort in ("word", "quoted") and place.within("where"):
        return "Between two conditions stands AND or OR, and in front of the terms ORDER BY."
    if "a name" in place.expected and token.sort == "literal":
        return f"Here stands a name, and `{token.text}` is a text. A name stands without quotes or between double ones."
    return None


def is_second_word(place):
    """Whether a word stands behind another one that is compared: a text of several words without its quotes."""
    if place.near(-1).sort != "word" or not place.near(-2).is_symbol(*COMPARISONS) or token_is_clause(place.token):
        return False
    behind = next((token for token in place.after() if token.sort not in ("word", "number") or token_is_clause(token)), None)
    return behind is None or not behind.is_symbol(*COMPARISONS, ".", "(")


def token_is_clause(token):
    """Whether a word begins another part of a query."""
    return token.text.upper() in RESERVED | FOREIGN


def unquoted_text(place):
    """What to do about a text of several words without its quotes."""
    words = [place.near(-1)]
    for token in place.after():
        if token.sort not in ("word", "number") or token_is_clause(token):
            break
        words.append(token)
    column = place.near(-3).text
    if place.near(-4).is_symbol("."):
        column = f"{place.near(-5).text}.{column}"
    return f"A text stands between single quotes: {column} {place.near(-2).text} '{spelt(words)}'."


def expected_here(place):
    """What could stand at the token, as a list."""
    words = []
    signs_of_sums = {"+", "-", "*", "/"}
    rest = list(dict.fromkeys(place.expected))
    if signs_of_sums <= set(rest):
        rest = [word for word in rest if word not in signs_of_sums and word not in COMPARISONS]
        words.append("an operator")
    for word in rest:
        words.append(word if word[0].islower() or word.isupper() else f"`{word}`")
    if not words:
        return "Nothing of this kind"
    made = words[0] if len(words) == 1 else ", ".join(words[:-1]) + " or " + words[-1]
    return made[0].upper() + made[1:]
