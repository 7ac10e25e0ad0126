-- The rows have 10, 8 and 1 of `cheap`, and the answers give them 1, 5 and 0 of `dear`: 11, 13 and 1 in all.
CREATE TABLE t (n INT, v INT) FROM 't.csv';
CREATE PREDICATE cheap (v INT) MAX 10 AS v;
CREATE PREDICATE dear (n INT) MAX 5 COST 1000 AS 2;
CREATE RANK INDEX by_v ON t (cheap(v));
SELECT n FROM t ORDER BY cheap(v) + dear(n) LIMIT 2;
