-- odd_names.csv: 2 rows of 9 columns, read as UTF-8 with commas between the fields.
CREATE TABLE odd_names (
    column_1 INT, -- without a name in the file; 1 to 2
    Order_ INT, -- named "Order" in the file; 2 to 3
    Order__2 INT, -- named "Order" in the file; 3 to 4
    First_Name TEXT, -- named "First Name" in the file
    _2010 INT, -- named "2010" in the file; 4 to 5
    Grosse_cm INT, -- named "Größe (cm)" in the file; 5 to 6
    a_b INT, -- named "a, b" in the file; 6 to 7
    __id INT, -- 7 to 8
    column_9 INT -- named "%" in the file; 8 to 9
) FROM 'odd_names.table.csv';
-- Scores that these numbers could have, 0 for the least and MAX for the greatest; take away the -- in front:
-- CREATE PREDICATE high_column_1 (column_1 INT) MAX 1 AS column_1 - 1;
-- CREATE PREDICATE high_Order_ (Order_ INT) MAX 1 AS Order_ - 2;
-- CREATE PREDICATE high_Order__2 (Order__2 INT) MAX 1 AS Order__2 - 3;
-- CREATE PREDICATE high__2010 (_2010 INT) MAX 1 AS _2010 - 4;
-- CREATE PREDICATE high_Grosse_cm (Grosse_cm INT) MAX 1 AS Grosse_cm - 5;
-- CREATE PREDICATE high_a_b (a_b INT) MAX 1 AS a_b - 6;
-- CREATE PREDICATE high___id (__id INT) MAX 1 AS __id - 7;
-- CREATE PREDICATE high_column_9 (column_9 INT) MAX 1 AS column_9 - 8;
-- SELECT * FROM odd_names ORDER BY high_column_1(column_1) LIMIT 10;
