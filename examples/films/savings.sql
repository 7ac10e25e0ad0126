-- What `run` saves, over the table of best.sql, which explains the predicates: three queries that differ in what an index gives.
-- savings.out is what `./ranksql run examples/films/savings.sql 1` prints. README.md beside this script says what it shows.
CREATE TABLE films (title TEXT, genre TEXT, year INT, minutes INT, rating INT, votes INT)
    FROM 'examples/films/films.csv';
CREATE PREDICATE liked (rating INT, votes INT) MAX 99 AS rating * MIN(votes, 1000) / 1000;
CREATE PREDICATE recent (year INT) MAX 75 COST 20 AS MAX(0, MIN(75, year - 1950));
CREATE RANK INDEX by_liked ON films (liked(rating, votes));

-- Much: the index has the greater part of the score, so few films need the dear call.
EXPLAIN ANALYZE SELECT title FROM films WHERE minutes <= 120
ORDER BY 2 * liked(rating, votes) + recent(year) LIMIT 10;

-- Little: nearly all of the score is the dear predicate's, so the order of the index says nearly nothing, and the plan does without it.
EXPLAIN ANALYZE SELECT title FROM films WHERE minutes <= 120
ORDER BY liked(rating, votes) + 20 * recent(year) LIMIT 10;

-- Nothing: there is no index of the only predicate, so each film that satisfies the condition has to be scored.
EXPLAIN ANALYZE SELECT title FROM films WHERE minutes <= 120
ORDER BY recent(year) LIMIT 10;
