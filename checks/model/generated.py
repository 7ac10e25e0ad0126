"""The four files that the word `gen` makes from a number and a number of rows, by their description in docs/FORMATS.md.

    python3 checks/model/generated.py 7 600 /tmp/files

writes them into a folder.
"""

import os
import sys

QUERY = (
    "SELECT h.name, r.name, m.name FROM hotel h, restaurant r, museum m WHERE h.city = r.city AND r.city = m.city "
    "ORDER BY cheap(h.price) + 3 * tasty(r.rating) + 2 * famous(m.fame) LIMIT 10"
)

SCRIPT = f"""\
CREATE TABLE hotel (name TEXT, price INT, city INT) FROM 'hotel.csv';
CREATE TABLE restaurant (name TEXT, city INT, rating INT) FROM 'restaurant.csv';
CREATE TABLE museum (name TEXT, city INT, fame INT) FROM 'museum.csv';
CREATE PREDICATE cheap (price INT) MAX 300 COST 2 AS 340 - price;
CREATE PREDICATE tasty (rating INT) MAX 100 AS rating;
CREATE PREDICATE famous (fame INT) MAX 200 COST 50 AS fame;
CREATE RANK INDEX hotel_cheap ON hotel (cheap(price));
CREATE RANK INDEX restaurant_tasty ON restaurant (tasty(rating));
{QUERY};
EXPLAIN ANALYZE {QUERY};
"""


def generated(number, rows):
    cities = max(1, rows // 10)
    tables = {
        "hotel.csv": ("name,price,city", lambda i: f"h{i},{40 + (37 * i + 11 * number) % 300},{(i + number) % cities}"),
        "restaurant.csv": ("name,city,rating", lambda i: f"r{i},{(3 * i + number) % cities},{(13 * i + 5 * number) % 101}"),
        "museum.csv": ("name,city,fame", lambda i: f"m{i},{(7 * i + number) % cities},{(29 * i + 3 * number) % 201}"),
    }
    files = {name: "".join(line + "\n" for line in [header, *map(row, range(1, rows + 1))]) for name, (header, row) in tables.items()}
    return {**files, "gen.sql": SCRIPT}


def main():
    number, rows, folder = sys.argv[1:]
    for name, text in generated(int(number), int(rows)).items():
        with open(os.path.join(folder, name), "w", encoding="utf-8") as file:
            file.write(text)


if __name__ == "__main__":
    main()
