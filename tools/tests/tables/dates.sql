-- dates.csv: 3 rows of 12 columns, read as UTF-8 with commas between the fields.
CREATE TABLE dates (
    day TEXT, -- dates, as numbers in day_day; 1 cell is empty
    day_day INT, -- days since 1970-01-01, so 2024-02-29 is 19782; 1 cell is empty and -2 here (--null day_day=N sets another number); -1 to 19782
    german TEXT, -- dates, as numbers in german_day
    german_day INT, -- days since 1970-01-01, so 31.12.1999 is 10956; 10956 to 18620
    american TEXT, -- dates, as numbers in american_day
    american_day INT, -- days since 1970-01-01, so 12/31/1999 is 10956; 10956 to 18321
    either TEXT, -- dates, of which it can't be told whether the day or the month stands first: --dates dmy, or mdy
    named TEXT, -- dates, as numbers in named_day
    named_day INT, -- days since 1970-01-01, so Jan 1, 2000 is 10957; 10957 to 11749
    moment TEXT, -- dates, as numbers in moment_second
    moment_second INT, -- seconds since 1970-01-01, so 2024-02-29T12:30:00Z is 1709209800; 0 to 1709209800
    year INT -- 1969 to 2024
) FROM 'dates.table.csv';
-- Scores that these numbers could have, 0 for the least and MAX for the greatest; take away the -- in front:
-- CREATE PREDICATE high_day_day (day_day INT) MAX 19783 AS CASE WHEN day_day = -2 THEN 0 ELSE day_day + 1 END;
-- CREATE PREDICATE high_german_day (german_day INT) MAX 7664 AS german_day - 10956;
-- CREATE PREDICATE high_american_day (american_day INT) MAX 7365 AS american_day - 10956;
-- CREATE PREDICATE high_named_day (named_day INT) MAX 792 AS named_day - 10957;
-- CREATE PREDICATE high_moment_second (moment_second INT) MAX 1709209800 AS moment_second;
-- CREATE PREDICATE high_year (year INT) MAX 55 AS year - 1969;
-- SELECT * FROM dates ORDER BY high_day_day(day_day) LIMIT 10;
