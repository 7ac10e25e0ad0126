"""The limits of the program, once for all helpers. docs/FORMATS.md and docs/GRAMMAR.md have them, and
tests/test_limits.py asks the program for each."""

# Of the command line.
GREATEST_SEED = 18_446_744_073_709_551_615
MOST_GENERATED_ROWS = 2_000
GREATEST_K = 1_000_000
# Of a script and its statements.
MOST_SCRIPT_BYTES = 1_048_576
MOST_TOKENS = 100_000
MOST_STATEMENTS = 1_000
MOST_DEPTH = 256
MOST_TABLES = 16
MOST_PREDICATES = 64
MOST_INDEXES = 64
MOST_CURSORS = 64
MOST_PARAMETERS = 8
GREATEST_COST = 65_535
# Of a number, and of a score, which is that of MAX too.
GREATEST_NUMBER = 4_000_000_000_000_000_000
GREATEST_SCORE = 4_294_967_295
# Of a query.
MOST_SOURCES = 6
MOST_CONDITIONS = 32
MOST_TERMS = 8
GREATEST_WEIGHT = 1_000_000
GREATEST_LIMIT = 1_000_000
# Of a table, and of a certificate.
MOST_COLUMNS = 64
MOST_ROWS = 131_072
MOST_TABLE_BYTES = 33_554_432
MOST_CERTIFICATE_ROWS = 8_192
# Every column of every table that FROM can have.
MOST_OUTPUTS = MOST_SOURCES * MOST_COLUMNS
