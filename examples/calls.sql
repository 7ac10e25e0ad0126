-- The three best films of at most two hours, by how well they are liked and how recent they are, and then what finding them took.
-- calls.out is what `./ranksql run examples/calls.sql 1` prints. The films are described in examples/films/README.md.
CREATE TABLE films (title TEXT, genre TEXT, year INT, minutes INT, rating INT, votes INT)
    FROM 'examples/films/films.csv';

-- A rating of 0 to 99 counts in full from 1,000 votes on. The index has the films in the order of this score.
CREATE PREDICATE liked (rating INT, votes INT) MAX 99 AS rating * MIN(votes, 1000) / 1000;
CREATE RANK INDEX by_liked ON films (liked(rating, votes));

-- A call of this one costs as much as reading 20 rows.
CREATE PREDICATE recent (year INT) MAX 75 COST 20 AS MAX(0, MIN(75, year - 1950));

SELECT title, year, rating, votes FROM films WHERE minutes <= 120
ORDER BY 2 * liked(rating, votes) + recent(year) LIMIT 3;

EXPLAIN ANALYZE SELECT title, year, rating, votes FROM films WHERE minutes <= 120
ORDER BY 2 * liked(rating, votes) + recent(year) LIMIT 3;
