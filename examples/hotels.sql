-- Hotels, ranked by price and by rating. The file of the table is named from the folder in which the script is run,
-- here the top of the repository.
-- hotels.out is what `./ranksql plain examples/hotels.sql` prints. Under `run` the same rows are printed, and behind them two plans.
CREATE TABLE hotels (name TEXT, city TEXT, price INT, rating INT) FROM 'examples/hotels.csv';

-- A low price scores high: a room for nothing has 400, and one for 400 has 0.
CREATE PREDICATE cheap (price INT) MAX 400 AS 400 - price;

-- The rating, where all from 95 on is the best, and half of what lies below 50.
CREATE PREDICATE liked (rating INT) MAX 100 COST 3 AS
    CASE WHEN rating >= 95 THEN 100
         WHEN rating < 50 THEN rating / 2
         ELSE rating
    END;

-- The hotels in the order of their prices. To make it, the predicate is called once for each hotel. Under `run` a query that
-- ranks by this predicate can take the best rows from the index without a call. Under `plain` no query uses an index: each
-- calls its predicates on every row that satisfies its condition.
CREATE RANK INDEX by_price ON hotels (cheap(price));

-- The five cheapest hotels. The greatest score comes first.
SELECT name, city, price FROM hotels ORDER BY cheap(price) LIMIT 5;

-- Those with the best ratings that cost at most 150, save those of York and Bath.
SELECT name, city, price, rating
FROM hotels
WHERE price <= 150 AND NOT (city = 'York' OR city = 'Bath')
ORDER BY liked(rating)
LIMIT 5;

-- All columns, by both predicates. A point of rating weighs as much as three of price.
SELECT *
FROM hotels AS h
WHERE h.rating > 0
ORDER BY cheap(h.price) + 3 * liked(h.rating) DESC
LIMIT 10;

-- Under `run` EXPLAIN prints the plan of the query, and EXPLAIN ANALYZE the plan with what it did. Under `plain` both look for
-- what is wrong in the query, and print nothing.
EXPLAIN SELECT name, city, price FROM hotels ORDER BY cheap(price) LIMIT 5;
EXPLAIN ANALYZE SELECT name, city, price FROM hotels ORDER BY cheap(price) LIMIT 5;
