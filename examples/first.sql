-- first.out is what `./ranksql plain examples/first.sql` prints, and `./ranksql run examples/first.sql 1` too.
CREATE TABLE hotels (name TEXT, city TEXT, price INT, rating INT) FROM 'examples/hotels.csv';
CREATE PREDICATE cheap (price INT) MAX 400 AS 400 - price;
CREATE PREDICATE liked (rating INT) MAX 100 COST 3 AS rating;
SELECT name, city, price, rating FROM hotels
WHERE price <= 150 AND NOT city = 'York'
ORDER BY cheap(price) + 2 * liked(rating) LIMIT 2;
