-- missing.tsv: 4 rows of 5 columns, read as UTF-8 with tabs between the fields.
CREATE TABLE missing (
    name TEXT,
    temp INT, -- times 100, so 28.25 is 2825; 2 cells are empty or '-' and -500 here (--null temp=N sets another number); -350 to 2825
    snow INT, -- 2 cells are empty or 'NA' and -1 here (--null snow=N sets another number); 0 to 12
    code TEXT,
    note TEXT -- 1 cell is empty
) FROM 'missing.table.csv';
-- Scores that these numbers could have, 0 for the least and MAX for the greatest; take away the -- in front:
-- CREATE PREDICATE high_temp (temp INT) MAX 3175 AS CASE WHEN temp = -500 THEN 0 ELSE temp + 350 END;
-- CREATE PREDICATE high_snow (snow INT) MAX 12 AS CASE WHEN snow = -1 THEN 0 ELSE snow END;
-- SELECT * FROM missing ORDER BY high_temp(temp) LIMIT 10;
