-- The query of best.sql by a threshold scan. It takes a second index, since each predicate of a query needs one: `ta` calls no
-- predicate for a query, and reads the two indexes from the top instead.
-- threshold.out is what `./ranksql ta examples/films/threshold.sql` prints. README.md beside this script says what it shows.
CREATE TABLE films (title TEXT, genre TEXT, year INT, minutes INT, rating INT, votes INT)
    FROM 'examples/films/films.csv';
CREATE PREDICATE liked (rating INT, votes INT) MAX 99 AS rating * MIN(votes, 1000) / 1000;
CREATE PREDICATE recent (year INT) MAX 75 COST 20 AS MAX(0, MIN(75, year - 1950));
CREATE RANK INDEX by_liked ON films (liked(rating, votes));
CREATE RANK INDEX by_recent ON films (recent(year));

-- The best film, and the ten best.
SELECT title, year, minutes, rating, votes FROM films WHERE minutes <= 120
ORDER BY 2 * liked(rating, votes) + recent(year) LIMIT 1;
SELECT title, year, minutes, rating, votes FROM films WHERE minutes <= 120
ORDER BY 2 * liked(rating, votes) + recent(year) LIMIT 10;
