-- The first query prints two rows. The second one has a score that is too great, so the run ends with status 7.
CREATE TABLE h (name TEXT, price INT, city INT) FROM 'h.csv';
CREATE PREDICATE cheap (price INT) MAX 100 AS 100 - price;
CREATE PREDICATE dear (price INT) MAX 50 AS price;
SELECT name, price FROM h ORDER BY cheap(price) LIMIT 2;
SELECT name FROM h ORDER BY dear(price);
