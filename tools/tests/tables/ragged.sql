-- ragged.csv: 4 rows of 3 columns, read as UTF-8 with commas between the fields.
-- 2 rows are shorter than the header, and their last cells are empty (lines 3, 7).
-- 1 row is left out: more fields than the header (line 5).
CREATE TABLE ragged (
    name TEXT,
    a INT, -- 1 cell is empty and -1 here (--null a=N sets another number); 1 to 7
    b INT -- 2 cells are empty and -1 here (--null b=N sets another number); 2 to 8
) FROM 'ragged.table.csv';
-- Scores that these numbers could have, 0 for the least and MAX for the greatest; take away the -- in front:
-- CREATE PREDICATE high_a (a INT) MAX 6 AS CASE WHEN a = -1 THEN 0 ELSE a - 1 END;
-- CREATE PREDICATE high_b (b INT) MAX 6 AS CASE WHEN b = -1 THEN 0 ELSE b - 2 END;
-- SELECT * FROM ragged ORDER BY high_a(a) LIMIT 10;
