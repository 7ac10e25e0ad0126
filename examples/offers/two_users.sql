-- Offers that arrive while two users page through their answers. A cursor keeps the tables as they were at its DECLARE, so no
-- page shows an offer twice and none is left out; who asks anew finds the new offers.
-- two_users.out is what `./ranksql plain examples/offers/two_users.sql` prints, and `./ranksql run examples/offers/two_users.sql 1` too.
CREATE TABLE offers (title TEXT, town TEXT, price INT, seller INT) FROM 'examples/offers/offers.csv';

-- A low price scores high, and so does a seller whom buyers trust.
CREATE PREDICATE cheap (price INT) MAX 400 AS MAX(0, 400 - price);
CREATE PREDICATE trusted (seller INT) MAX 100 COST 5 AS seller;

CREATE RANK INDEX by_price ON offers (cheap(price));

-- The first user looks for a low price.
DECLARE first_user CURSOR FOR
    SELECT title, town, price FROM offers ORDER BY cheap(price);
FETCH 3 FROM first_user;

-- The second one looks for a low price and a seller to trust, in Porto.
DECLARE second_user CURSOR FOR
    SELECT title, price, seller FROM offers WHERE town = 'Porto' ORDER BY cheap(price) + 3 * trusted(seller);
FETCH 2 FROM second_user;

-- Two offers arrive. The index's predicate is called once for each.
INSERT INTO offers VALUES ('Bike for a doll', 'Porto', 15, 97), ('City bike', 'Braga', 140, 90);

-- The next pages go on over the offers of before.
FETCH 3 FROM first_user;
FETCH 2 FROM second_user;

-- One more, and the same ones asked anew: the new offers stand at their places, behind older ones of the same score.
INSERT INTO offers VALUES ('Folding bike', 'Porto', 180, 96);
SELECT title, town, price FROM offers ORDER BY cheap(price) LIMIT 8;

-- What is left of both.
FETCH 1000 FROM first_user;
FETCH 1000 FROM second_user;
CLOSE first_user;
CLOSE second_user;

-- The second user looks again.
SELECT title, price, seller FROM offers WHERE town = 'Porto' ORDER BY cheap(price) + 3 * trusted(seller) LIMIT 5;
