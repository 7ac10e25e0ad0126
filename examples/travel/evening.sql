-- The best evening in Lisbon, Vienna or Kraków: a cheap hotel, a good restaurant in the same district, and a museum
-- that lies close to the hotel. The files of the tables are named from the folder in which the script is run, here the
-- top of the repository. Names and figures are made up or rounded. The hotels and restaurants are made up. The museums
-- aren't, but their places are only roughly right.
-- evening.out is what `./ranksql plain examples/travel/evening.sql` prints, and `./ranksql run examples/travel/evening.sql 1` too.

-- A price is in euros a night. A place is so many metres east and north of the centre of its city.
CREATE TABLE hotels (name TEXT, city TEXT, district TEXT, price INT, east INT, north INT)
    FROM 'examples/travel/hotels.csv';

-- A rating is from 0 to 100.
CREATE TABLE restaurants (name TEXT, city TEXT, district TEXT, rating INT)
    FROM 'examples/travel/restaurants.csv';

CREATE TABLE museums (name TEXT, city TEXT, district TEXT, east INT, north INT)
    FROM 'examples/travel/museums.csv';

-- A room for 100 or less has 200 points, one for 300 or more has none, and each euro between them takes a point.
CREATE PREDICATE cheap (price INT) MAX 200 AS MIN(200, MAX(0, 300 - price));

-- The rating itself. The file has no other numbers than 0 to 100, so no score is bad.
CREATE PREDICATE tasty (rating INT) MAX 100 AS rating;

-- A way is as long as its parts to the east or west and to the north or south together. No way at all has 150 points,
-- each ten metres take one, and from 1,500 metres on there are none. COST says that a call costs three times as much as
-- one of the others.
CREATE PREDICATE near (east INT, north INT, to_east INT, to_north INT) MAX 150 COST 3 AS
    MAX(0, 1500 - ABS(east - to_east) - ABS(north - to_north)) / 10;

-- Hotels and restaurants in the order of their scores. Under `run` the query takes the best of both from these indexes, and
-- joins them as it goes. It calls `near` with columns of two tables, and an index is of one, so there can be none for it.
CREATE RANK INDEX by_price ON hotels (cheap(price));
CREATE RANK INDEX by_rating ON restaurants (tasty(rating));

-- The five best evenings. A point of rating weighs as much as five euros, and as fifty metres.
SELECT h.city, h.district, h.name, h.price, r.name, r.rating, m.name
FROM hotels h, restaurants r, museums m
WHERE h.city = r.city AND h.district = r.district AND h.city = m.city
ORDER BY cheap(h.price) + 5 * tasty(r.rating) + near(h.east, h.north, m.east, m.north)
LIMIT 5;
