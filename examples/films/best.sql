-- The ten best films of at most two hours: well liked by many, and not too old. The files of the tables are named from
-- the folder in which the script is run, here the top of the repository. README.md beside this script says what the
-- columns are and how the file was made.
-- best.out is what `./ranksql plain examples/films/best.sql` prints, and `./ranksql run examples/films/best.sql 1` too.
CREATE TABLE films (title TEXT, genre TEXT, year INT, minutes INT, rating INT, votes INT)
    FROM 'examples/films/films.csv';

-- A rating of 0 to 99 counts in full from 1,000 votes on, and below in the share of 1,000 that the votes are.
CREATE PREDICATE liked (rating INT, votes INT) MAX 99 AS rating * MIN(votes, 1000) / 1000;

-- Each year from 1950 on is a point. COST says that this call costs twenty times as much as the other.
CREATE PREDICATE recent (year INT) MAX 75 COST 20 AS MAX(0, MIN(75, year - 1950));

-- The index calls `liked` once for each film. A query that ranks by it takes the films from the index, the best first.
CREATE RANK INDEX by_liked ON films (liked(rating, votes));

SELECT title, year, minutes, rating, votes FROM films
WHERE minutes <= 120
ORDER BY 2 * liked(rating, votes) + recent(year)
LIMIT 10;
