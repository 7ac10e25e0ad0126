-- A search in pages: the cheap hotels with a good restaurant in their district, five at a time. The tables and the
-- predicates are those of evening.sql, which explains them.
-- pages.out is what `./ranksql plain examples/travel/pages.sql` prints, and `./ranksql run examples/travel/pages.sql 1` too.
CREATE TABLE hotels (name TEXT, city TEXT, district TEXT, price INT, east INT, north INT)
    FROM 'examples/travel/hotels.csv';
CREATE TABLE restaurants (name TEXT, city TEXT, district TEXT, rating INT)
    FROM 'examples/travel/restaurants.csv';

CREATE PREDICATE cheap (price INT) MAX 200 AS MIN(200, MAX(0, 300 - price));
CREATE PREDICATE tasty (rating INT) MAX 100 AS rating;

CREATE RANK INDEX by_price ON hotels (cheap(price));
CREATE RANK INDEX by_rating ON restaurants (tasty(rating));

DECLARE page CURSOR FOR
    SELECT h.city, h.district, h.name, h.price, r.name, r.rating
    FROM hotels h, restaurants r
    WHERE h.city = r.city AND h.district = r.district
    ORDER BY cheap(h.price) + 5 * tasty(r.rating);

-- The first page.
FETCH 5 FROM page;

-- Beside it the best restaurants of Vienna, in a cursor of their own. It doesn't move the other one.
DECLARE vienna CURSOR FOR
    SELECT name, district, rating FROM restaurants WHERE city = 'Vienna' ORDER BY tasty(rating);
FETCH 2 FROM vienna;

-- The second page: the ranks go on.
FETCH 5 FROM page;
CLOSE page;

-- All that is left of the other cursor.
FETCH 1000 FROM vienna;
CLOSE vienna;
