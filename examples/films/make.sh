#!/usr/bin/env bash
# Makes films.csv: 5,000 films that nobody made. It writes to standard output, and gives the same bytes on each machine:
#
#     examples/films/make.sh >examples/films/films.csv
#
# The numbers are drawn by the generator x -> 16807 x mod (2^31 - 1), from x = 1. README.md says what is drawn for a film.
set -eu
export LC_ALL=C

awk '
    # A number from 0 up to and without n.
    function draw(n) {
        x = (16807 * x) % 2147483647
        return int(x / 2147483647 * n)
    }

    BEGIN {
        x = 1
        first = split("Silent Golden Broken Distant Hidden Crimson Quiet Endless Frozen Paper Northern Hollow Burning Little Wild Last", adjectives, " ")
        second = split("Harbour Garden Letter Winter River Mountain Orchard Lantern Bridge Summer Island Mirror Station Journey Shadow Song", nouns, " ")
        genres = split("comedy drama thriller romance western documentary", kinds, " ")
        print "title,genre,year,minutes,rating,votes"
        for (film = 1; film <= 5000; film++) {
            title = adjectives[1 + draw(first)] " " nouns[1 + draw(second)] " " film
            genre = kinds[1 + draw(genres)]
            year = 1950 + draw(75)
            minutes = 70 + draw(60) + draw(60)
            rating = draw(34) + draw(34) + draw(34)
            votes = draw(10) * draw(10) * draw(10) * (1 + draw(100)) + draw(50)
            print title "," genre "," year "," minutes "," rating "," votes
        }
    }'
