-- DISTINCT and the four set operators, over the tables of the other examples. The files of the tables are named from
-- the folder in which the script is run, here the top of the repository.
-- sets.out is what `./ranksql plain examples/sets.sql` prints, and `./ranksql run examples/sets.sql 1` too.
CREATE TABLE hotels (name TEXT, city TEXT, price INT, rating INT) FROM 'examples/hotels.csv';

CREATE TABLE lodgings (name TEXT, city TEXT, district TEXT, price INT, east INT, north INT)
    FROM 'examples/travel/hotels.csv';

CREATE TABLE restaurants (name TEXT, city TEXT, district TEXT, rating INT)
    FROM 'examples/travel/restaurants.csv';

CREATE TABLE museums (name TEXT, city TEXT, district TEXT, east INT, north INT)
    FROM 'examples/travel/museums.csv';

-- A low price scores high: a room for nothing has 400, and one for 400 has 0.
CREATE PREDICATE cheap (price INT) MAX 400 AS 400 - price;

-- How much one wishes to see a city.
CREATE PREDICATE wished (city TEXT) MAX 3 AS
    CASE WHEN city = 'Kraków' THEN 3
         WHEN city = 'Vienna' THEN 2
         WHEN city = 'Lisbon' THEN 1
         ELSE 0
    END;

-- DISTINCT keeps each row once: the cities that have a museum. A term of ORDER BY may use output columns alone here.
SELECT DISTINCT city FROM museums ORDER BY wished(city);

-- UNION ALL keeps every row of both blocks: the five cheapest rooms of both files of hotels.
SELECT name, city, price FROM hotels
UNION ALL
SELECT name, city, price FROM lodgings
ORDER BY cheap(price)
LIMIT 5;

-- UNION keeps each row of both blocks once: the cities that have a hotel or a museum. Where scores are equal the rows
-- of the left block come first, and the rows of a block stand as in its file.
SELECT city FROM hotels UNION SELECT city FROM museums ORDER BY wished(city) LIMIT 5;

-- INTERSECT keeps the rows of the left block that the right one has too, each once: the districts with a restaurant of
-- at least 90 points and a museum.
SELECT city, district FROM restaurants WHERE rating >= 90
INTERSECT
SELECT city, district FROM museums
ORDER BY wished(city);

-- EXCEPT keeps the rows of the left block that the right one hasn't, each once: the districts with a room for at most
-- 100 and no museum.
SELECT city, district FROM lodgings WHERE price <= 100
EXCEPT
SELECT city, district FROM museums
ORDER BY wished(city);
