-- Three plans over the tables of evening.sql, which explains the columns and the predicates. `plain` says nothing of a
-- plan; `run` puts the text of each. docs/PLANS.md explains what it says.
-- plans.out is what `./ranksql run examples/travel/plans.sql 1` prints.
CREATE TABLE hotels (name TEXT, city TEXT, district TEXT, price INT, east INT, north INT)
    FROM 'examples/travel/hotels.csv';
CREATE TABLE restaurants (name TEXT, city TEXT, district TEXT, rating INT)
    FROM 'examples/travel/restaurants.csv';
CREATE TABLE museums (name TEXT, city TEXT, district TEXT, east INT, north INT)
    FROM 'examples/travel/museums.csv';

CREATE PREDICATE cheap (price INT) MAX 200 AS MIN(200, MAX(0, 300 - price));
CREATE PREDICATE tasty (rating INT) MAX 100 AS rating;
CREATE PREDICATE near (east INT, north INT, to_east INT, to_north INT) MAX 150 COST 3 AS
    MAX(0, 1500 - ABS(east - to_east) - ABS(north - to_north)) / 10;

CREATE RANK INDEX by_price ON hotels (cheap(price));
CREATE RANK INDEX by_rating ON restaurants (tasty(rating));

-- The five best evenings.
EXPLAIN SELECT h.city, h.district, h.name, h.price, r.name, r.rating, m.name
FROM hotels h, restaurants r, museums m
WHERE h.city = r.city AND h.district = r.district AND h.city = m.city
ORDER BY cheap(h.price) + 5 * tasty(r.rating) + near(h.east, h.north, m.east, m.north)
LIMIT 5;

-- A cheap hotel in one city, and a good restaurant in another one on the way: no column of the one equals one of the other.
EXPLAIN SELECT h.city, h.name, r.city, r.name
FROM hotels h, restaurants r
WHERE h.city <> r.city
ORDER BY cheap(h.price) + 2 * tasty(r.rating)
LIMIT 5;

-- The three cheapest hotels: an index has them in order.
EXPLAIN SELECT name, price FROM hotels ORDER BY cheap(price) LIMIT 3;
