-- A table, predicates and rank indexes. The file of the table is named from the folder in which the script is run, here
-- the top of the repository. The script prints nothing: it ends with status 0 where all is made.
-- indexes.out is what `./ranksql plain examples/indexes.sql` prints, and `./ranksql run examples/indexes.sql 1` too.
CREATE TABLE hotels (name TEXT, city TEXT, price INT, rating INT) FROM 'examples/hotels.csv';

CREATE PREDICATE cheap (price INT) MAX 400 AS 400 - price;
CREATE PREDICATE near (price INT, wanted INT) MAX 400 COST 3 AS MAX(0, 400 - ABS(price - wanted));
CREATE PREDICATE in_city (city TEXT, wanted TEXT) MAX 1 AS CASE WHEN city = wanted THEN 1 ELSE 0 END;

CREATE RANK INDEX by_cheap ON hotels (cheap(price));
CREATE RANK INDEX by_near ON hotels (near(hotels.price, 150));
CREATE RANK INDEX by_city ON hotels (in_city(city, 'York'));
