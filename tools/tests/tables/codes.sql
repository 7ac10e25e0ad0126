-- codes.csv: 3 rows of 8 columns, read as UTF-8 with commas between the fields.
CREATE TABLE codes (
    zip TEXT, -- text, since codes begin with 0: '00501', '02134'; --number zip makes it a number
    price INT, -- without its $; without the marks of thousands, as in $1,234.50; times 100, so $0.99 is 99; 99 to 123450
    share INT, -- without its %; times 10, so 5.5% is 55; 55 to 1000
    id TEXT, -- text, since numbers are beyond 4 * 10^18: '4000000000000000001'
    mixed TEXT, -- text, since 1 cell is no number: 'n.v.', first in row 2; --number mixed takes such cells as empty
    grouped INT, -- without the marks of thousands, as in 1 234 567; 999 to 1234567
    power INT, -- times 1000, so 2.5E-2 is 25; -3000 to 1000000
    sign INT -- -5 to 7
) FROM 'codes.table.csv';
-- Scores that these numbers could have, 0 for the least and MAX for the greatest; take away the -- in front:
-- CREATE PREDICATE high_price (price INT) MAX 123351 AS price - 99;
-- CREATE PREDICATE high_share (share INT) MAX 945 AS share - 55;
-- CREATE PREDICATE high_grouped (grouped INT) MAX 1233568 AS grouped - 999;
-- CREATE PREDICATE high_power (power INT) MAX 1003000 AS power + 3000;
-- CREATE PREDICATE high_sign (sign INT) MAX 12 AS sign + 5;
-- SELECT * FROM codes ORDER BY high_price(price) LIMIT 10;
