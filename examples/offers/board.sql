-- A board of offers that stays up to date. Each view keeps the first rows of its query. As offers arrive, the scorer is called for the
-- new ones alone, and each board shows at once what is best now.
-- board.out is what `./ranksql view examples/offers/board.sql` prints.
CREATE TABLE offers (title TEXT, town TEXT, price INT, seller INT) FROM 'examples/offers/offers.csv';

-- A low price scores high, and so does a seller whom buyers trust.
CREATE PREDICATE cheap (price INT) MAX 400 AS MAX(0, 400 - price);
CREATE PREDICATE trusted (seller INT) MAX 100 COST 5 AS seller;
-- Two offers of one town make a better pair the less they differ in price.
CREATE PREDICATE alike (a INT, b INT) MAX 400 COST 20 AS MAX(0, 400 - ABS(a - b));

-- One board for all, one of Porto, and one of pairs of offers of one town: 10, 12 and 17 calls.
DECLARE board CURSOR FOR
    SELECT title, town, price FROM offers ORDER BY cheap(price) LIMIT 3;
DECLARE porto CURSOR FOR
    SELECT title, price, seller FROM offers WHERE town = 'Porto' ORDER BY cheap(price) + 3 * trusted(seller) LIMIT 3;
DECLARE pairs CURSOR FOR
    SELECT a.title, b.title, a.town FROM offers a, offers b
    WHERE a.town = b.town AND a.price < b.price
    ORDER BY alike(a.price, b.price) LIMIT 2;
FETCH 3 FROM board;
FETCH 3 FROM porto;
FETCH 2 FROM pairs;

-- An offer arrives in Porto. It is scored for each board, and paired with the six offers that are there: 1, 2 and 6 calls.
INSERT INTO offers VALUES ('Bike for a doll', 'Porto', 15, 97);
FETCH 3 FROM board;
FETCH 3 FROM porto;
FETCH 2 FROM pairs;

-- Two more, with 2, 2 and 8 calls: the one in Braga isn't on Porto's board, and no pair is made of two offers of one price.
INSERT INTO offers VALUES ('City bike', 'Braga', 330, 90), ('Folding bike', 'Porto', 180, 96);
FETCH 3 FROM porto;
FETCH 2 FROM pairs;

-- A FETCH calls nothing, and its ranks start at 1 again. All in all there are 60 calls; to ask each query anew each time takes 147.
FETCH 3 FROM board;
CLOSE board;
