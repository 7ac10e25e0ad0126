-- The ten films that fit an evening best: liked by many, and what a paid service says of each. The files of the tables are
-- named from the folder in which the script is run, here the top of the repository. docs/ASKED.md explains it.
-- best.out is what `./ranksql plain examples/asked/best.sql` prints, and `./ranksql run examples/asked/best.sql 1` too: there the
-- guess is the score.
CREATE TABLE films (title TEXT, genre TEXT, year INT, minutes INT, rating INT, votes INT)
    FROM 'examples/films/films.csv';

-- A rating of 0 to 99 counts in full from 1,000 votes on, and below in the share of 1,000 that the votes are.
CREATE PREDICATE liked (rating INT, votes INT) MAX 99 AS rating * MIN(votes, 1000) / 1000;

-- What the service says is asked for. The formula is the guess by which a plan is chosen, and COST what a call costs in units
-- of reading a row: 50,000 for a call of 50 ms where a row takes a microsecond.
CREATE PREDICATE fits (title TEXT, minutes INT) MAX 50 COST 50000 AS MAX(0, 50 - ABS(minutes - 95));

-- The index calls `liked` once for each film, which costs nothing but time. `fits` has none: it would ask for every film.
CREATE RANK INDEX by_liked ON films (liked(rating, votes));

SELECT title, year, minutes, rating, votes FROM films
WHERE minutes <= 120
ORDER BY 2 * liked(rating, votes) + fits(title, minutes)
LIMIT 10;
