-- What a rank index says of rows that it isn't read for: over the table of best.sql, which explains the predicates, the same query
-- before and behind an index of its second predicate. Here the MAX of `recent` lies far above all of its scores.
-- tops.out is what `./ranksql run examples/films/tops.sql 1` prints. README.md beside this script says what it shows.
CREATE TABLE films (title TEXT, genre TEXT, year INT, minutes INT, rating INT, votes INT)
    FROM 'examples/films/films.csv';
CREATE PREDICATE liked (rating INT, votes INT) MAX 99 AS rating * MIN(votes, 1000) / 1000;
CREATE PREDICATE recent (year INT) MAX 200 COST 20 AS MAX(0, year - 1950);
CREATE RANK INDEX by_liked ON films (liked(rating, votes));

-- A film whose year isn't looked at may have 200 points for it.
EXPLAIN ANALYZE SELECT title FROM films WHERE minutes <= 120
ORDER BY 2 * liked(rating, votes) + recent(year) LIMIT 10;

CREATE RANK INDEX by_recent ON films (recent(year));

-- It may have 74, the greatest score of the index.
EXPLAIN ANALYZE SELECT title FROM films WHERE minutes <= 120
ORDER BY 2 * liked(rating, votes) + recent(year) LIMIT 10;
