-- Restaurants of one city or another, in both of two guides, and in one guide but not in the other. The restaurants are
-- those of evening.sql. Both guides print the ratings of one panel, so a restaurant has the same row in each of them.
-- guides.out is what `./ranksql plain examples/travel/guides.sql` prints, and `./ranksql run examples/travel/guides.sql 1` too.
CREATE TABLE restaurants (name TEXT, city TEXT, district TEXT, rating INT)
    FROM 'examples/travel/restaurants.csv';
CREATE TABLE first_guide (name TEXT, city TEXT, rating INT) FROM 'examples/travel/first_guide.csv';
CREATE TABLE second_guide (name TEXT, city TEXT, rating INT) FROM 'examples/travel/second_guide.csv';
CREATE PREDICATE tasty (rating INT) MAX 100 AS rating;
CREATE RANK INDEX by_rating ON restaurants (tasty(rating));

-- The five best restaurants of Vienna or Kraków.
SELECT name, city, rating FROM restaurants WHERE city = 'Vienna'
UNION
SELECT name, city, rating FROM restaurants WHERE city = 'Kraków'
ORDER BY tasty(rating)
LIMIT 5;

-- The three best that are in both guides.
SELECT name, city, rating FROM first_guide
INTERSECT
SELECT name, city, rating FROM second_guide
ORDER BY tasty(rating)
LIMIT 3;

-- The three best that are in the first guide and not in the second one.
SELECT name, city, rating FROM first_guide
EXCEPT
SELECT name, city, rating FROM second_guide
ORDER BY tasty(rating)
LIMIT 3;
