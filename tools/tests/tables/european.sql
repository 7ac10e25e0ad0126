-- european.csv: 3 rows of 4 columns, read as UTF-8 with semicolons between the fields, decimals behind a comma.
CREATE TABLE european (
    Stadt TEXT,
    Einwohner INT, -- without the marks of thousands, as in 1.897.491; 29806 to 1897491
    Flache INT, -- named "Fläche" in the file; times 100, so 414,78 is 41478; 2950 to 41478
    Hohe_in_m INT -- named "Höhe in m" in the file; 151 to 427
) FROM 'european.table.csv';
-- Scores that these numbers could have, 0 for the least and MAX for the greatest; take away the -- in front:
-- CREATE PREDICATE high_Einwohner (Einwohner INT) MAX 1867685 AS Einwohner - 29806;
-- CREATE PREDICATE high_Flache (Flache INT) MAX 38528 AS Flache - 2950;
-- CREATE PREDICATE high_Hohe_in_m (Hohe_in_m INT) MAX 276 AS Hohe_in_m - 151;
-- SELECT * FROM european ORDER BY high_Einwohner(Einwohner) LIMIT 10;
