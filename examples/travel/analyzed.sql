-- What the plan of the five best evenings does when it is run, over the tables of evening.sql, which explains the columns and
-- the predicates. `plain` says nothing of it; `run` asks for all rows, puts none of them, and then puts the text of the plan
-- with what each operator has done. docs/PLANS.md explains what it says.
-- analyzed.out is what `./ranksql run examples/travel/analyzed.sql 1` prints.
CREATE TABLE hotels (name TEXT, city TEXT, district TEXT, price INT, east INT, north INT)
    FROM 'examples/travel/hotels.csv';
CREATE TABLE restaurants (name TEXT, city TEXT, district TEXT, rating INT)
    FROM 'examples/travel/restaurants.csv';
CREATE TABLE museums (name TEXT, city TEXT, district TEXT, east INT, north INT)
    FROM 'examples/travel/museums.csv';

CREATE PREDICATE cheap (price INT) MAX 200 AS MIN(200, MAX(0, 300 - price));
CREATE PREDICATE tasty (rating INT) MAX 100 AS rating;
CREATE PREDICATE near (east INT, north INT, to_east INT, to_north INT) MAX 150 COST 3 AS
    MAX(0, 1500 - ABS(east - to_east) - ABS(north - to_north)) / 10;

CREATE RANK INDEX by_price ON hotels (cheap(price));
CREATE RANK INDEX by_rating ON restaurants (tasty(rating));

-- The five best evenings.
EXPLAIN ANALYZE SELECT h.city, h.district, h.name, h.price, r.name, r.rating, m.name
FROM hotels h, restaurants r, museums m
WHERE h.city = r.city AND h.district = r.district AND h.city = m.city
ORDER BY cheap(h.price) + 5 * tasty(r.rating) + near(h.east, h.north, m.east, m.north)
LIMIT 5;

-- The three cheapest hotels of Vienna. The index has those of the other cities, too.
EXPLAIN ANALYZE SELECT name, price FROM hotels WHERE city = 'Vienna' ORDER BY cheap(price) LIMIT 3;
