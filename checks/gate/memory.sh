#!/usr/bin/env bash
# Runs the built program on scripts with queries while memory is refused: once for each allocation, which then fails
# alone, and once more where all behind it fail too. Each run has to print the right rows, or whole lines from their head
# and then `memory` with status 1.
# Before that it counts the allocations of runs over a table of 1,000 rows that print more or fewer rows, or call the scorer
# more or less often: a printed row takes its values alone, and a call with numbers none. A row that a condition on texts is
# tested on takes none either.
# The words `feed` and `cert` join two feeds of five rows, `check` reads the certificate, `ta` scans two indexes of four, and `view` keeps
# two views.
# A join by a hash and a union are executed by the program cases_plans, whichever plan `run` would choose. That program
# tells its input line by line, and names the line at which there is no memory, if it had begun with one.
# A test of the program test_units_tests puts rows into a table, which has to stay as it was where one can't join. One of
# test_feeds_tests joins two feeds: it has to give a front of the pairs, and draw no row that the next one doesn't take.
# The program ranksql_ask runs a script whose scores it is told by a file. What it was told it has to keep, whole line by line.
# Scripts may be named: checks/gate/memory.sh NAME.., and with none all are run.
# The programs are ranksql, cases_plans, ranksql_ask, test_units_tests and test_feeds_tests, each as crates/CRATE/out/PROGRAM, or
# those that the variables RANKSQL, PLAN_CASES, RANKSQL_ASK, TABLE_TESTS and FEED_TESTS name. A C compiler is needed: the allocations
# fail by a small library in front of the system's.
set -u -o pipefail
export LC_ALL=C

root=$(cd "$(dirname "$0")/../.." && pwd -P)
program=${RANKSQL:-$root/crates/ranksql/out/ranksql}
cases=${PLAN_CASES:-$root/crates/cases_plans/out/cases_plans}
ask=${RANKSQL_ASK:-$root/crates/ranksql_ask/out/ranksql_ask}
tests=${TABLE_TESTS:-$root/crates/test_units/out/test_units_tests}
feeds=${FEED_TESTS:-$root/crates/test_feeds/out/test_feeds_tests}
if [ ! -x "$program" ]; then
    echo "there is no program $program: ./ranksql builds it" >&2
    exit 1
fi
work=$(mktemp -d) || exit 1
trap 'rm -rf "$work"' EXIT
cd "$work" || exit 1

cat >refuse.c <<'C'
#include <errno.h>
#include <stdio.h>
#include <stdlib.h>

extern void *__libc_malloc(size_t);
extern void *__libc_calloc(size_t, size_t);
extern void *__libc_realloc(void *, size_t);
extern void *__libc_memalign(size_t, size_t);

/* The number of the first allocation that fails, whether later ones fail too, and how many there were. */
static long first, all, count;

static int refused(void) {
    count++;
    if (first == 0 || count < first || (count > first && !all))
        return 0;
    errno = ENOMEM;
    return 1;
}

void *malloc(size_t size) { return refused() ? NULL : __libc_malloc(size); }
void *calloc(size_t items, size_t size) { return refused() ? NULL : __libc_calloc(items, size); }
void *realloc(void *old, size_t size) { return refused() ? NULL : __libc_realloc(old, size); }
void *memalign(size_t align, size_t size) { return refused() ? NULL : __libc_memalign(align, size); }
void *aligned_alloc(size_t align, size_t size) { return memalign(align, size); }
int posix_memalign(void **to, size_t align, size_t size) {
    void *got = memalign(align, size);
    if (got == NULL)
        return ENOMEM;
    *to = got;
    return 0;
}

__attribute__((constructor)) static void begin(void) {
    const char *number = getenv("REFUSE_FIRST");
    first = number == NULL ? 0 : atol(number);
    all = getenv("REFUSE_ALL") != NULL;
    count = 0;
}

__attribute__((destructor)) static void end(void) {
    long total = count;
    const char *name = getenv("REFUSE_COUNT");
    first = 0;
    if (name != NULL) {
        FILE *file = fopen(name, "w");
        if (file != NULL) {
            fprintf(file, "%ld\n", total);
            fclose(file);
        }
    }
}
C
cc -O1 -shared -fPIC -o refuse.so refuse.c || exit 1

printf 'name,price,city\na,40,1\nb,90,1\nc,40,2\n' >h.csv
printf 'x,y\n10,3\n8,9\n5,1\n2,10\n' >t.csv
printf 'v\n3\n1\n3\n4\n' >u.csv
printf 'v\n4\n2\n5\n5\n' >w.csv
printf 'g,v\n1,9\n2,8\n1,7\n3,5\n2,1\n' >a.csv
printf 'g,w\n2,9\n1,6\n3,6\n1,2\n4,1\n' >b.csv
cat >base <<'SQL'
CREATE TABLE h (name TEXT, price INT, city INT) FROM 'h.csv';
CREATE TABLE t (x INT, y INT) FROM 't.csv';
CREATE PREDICATE p (v INT) MAX 10 AS v;
CREATE PREDICATE q (v INT) MAX 10 COST 100 AS v;
CREATE PREDICATE c (v INT) MAX 100 AS v;
CREATE PREDICATE near (a INT, b INT) MAX 100 AS 100 - ABS(a - b);
CREATE RANK INDEX px ON t (p(x));
SQL
cat base - >join.sql <<'SQL'
SELECT x.name, y.name FROM h x, h y WHERE x.city = y.city ORDER BY near(x.price, y.price) LIMIT 3;
SQL
printf '1,100,a,a\n2,100,b,b\n3,100,c,c\n' >join.wanted
cp join.sql nested.sql
cp join.wanted nested.wanted
cat >union.sql <<'SQL'
CREATE TABLE u (v INT) FROM 'u.csv';
CREATE TABLE w (v INT) FROM 'w.csv';
CREATE PREDICATE half (v INT) MAX 10 AS v / 2;
SELECT v FROM u UNION SELECT v FROM w ORDER BY half(v);
SQL
printf '1,2,4\n2,2,5\n3,1,3\n4,1,2\n5,0,1\n' >union.wanted
cat base - >plan.sql <<'SQL'
SELECT x, y FROM t ORDER BY p(x) + q(y) LIMIT 9;
SQL
printf '1,17,8,9\n2,13,10,3\n3,12,2,10\n4,6,5,1\n' >plan.wanted
cat base - >scan.sql <<'SQL'
CREATE RANK INDEX qy ON t (q(y));
SELECT x, y FROM t ORDER BY p(x) + q(y) LIMIT 2; SELECT x, y FROM t WHERE x = 8 ORDER BY p(x) + q(y);
SQL
printf '1,17,8,9\n2,13,10,3\ndepth=3 sorted=6 random=4\n1,17,8,9\ndepth=4 sorted=8 random=4\n' >scan.wanted
cat base - >first.sql <<'SQL'
SELECT x, y FROM t ORDER BY p(x) + q(y) LIMIT 1; EXPLAIN ANALYZE SELECT x, y FROM t ORDER BY p(x) + q(y) LIMIT 1;
SQL
cat >first.wanted <<'LINES'
1,17,8,9
Rank term 2 est=1 cost=204 asked=1 gave=1 calls=3
  RankScan t t term 1 est=2 cost=4 asked=3 gave=3 drawn=3
LINES
cat >tables.sql <<'SQL'
CREATE TABLE a (g INT, v INT) FROM 'a.csv'; CREATE TABLE b (g INT, w INT) FROM 'b.csv'; CREATE PREDICATE p (v INT) MAX 10 AS v;
CREATE RANK INDEX av ON a (p(v)); CREATE RANK INDEX bw ON b (p(w));
SELECT v, w FROM a, b WHERE a.g = b.g ORDER BY p(v) + p(w) LIMIT 9;
EXPLAIN SELECT v, w FROM a, b WHERE a.g = b.g ORDER BY p(v) + p(w) LIMIT 9;
EXPLAIN ANALYZE SELECT v, w FROM a, b WHERE a.g = b.g ORDER BY p(v) + p(w) LIMIT 1;
SQL
cat >tables.wanted <<'LINES'
1,17,8,9
2,15,9,6
3,13,7,6
4,11,9,2
5,11,5,6
6,10,1,9
7,9,7,2
HashRankJoin est=7 cost=47
  RankScan a a term 1 est=5 cost=10
  RankScan b b term 2 est=5 cost=10
NestedRankJoin est=1 cost=9 asked=1 gave=1
  RankScan a a term 1 est=2 cost=4 asked=2 gave=2 drawn=2
  RankScan b b term 2 est=1 cost=2 asked=2 gave=2 drawn=2
LINES
# Every form of a statement, of a condition and of a formula.
cat base - >forms.sql <<'SQL'
CREATE TABLE u (v INT) FROM 'u.csv'; CREATE TABLE w (v INT) FROM 'w.csv';
CREATE PREDICATE half (v INT) MAX 10 AS v / 2;
CREATE PREDICATE far (s TEXT, v INT) MAX 9 AS CASE WHEN s = 'a' OR NOT v < 9 THEN MIN(v, 9) WHEN v > 1 AND s <> 'c' THEN 2 * v ELSE MAX(0, -v) END;
SELECT name, price FROM h WHERE NOT (price = 90 OR city = 2) ORDER BY far(name, city) + 2 * near(price, 40);
SELECT DISTINCT city FROM h ORDER BY p(city);
SELECT v FROM u UNION SELECT v FROM w ORDER BY half(v) LIMIT 2; SELECT v FROM u UNION ALL SELECT v FROM w ORDER BY half(v) LIMIT 3;
SELECT v FROM u INTERSECT SELECT v FROM w ORDER BY half(v); SELECT v FROM u EXCEPT SELECT v FROM w ORDER BY half(v);
SELECT l.name, r.x FROM h l, t r WHERE l.city + 1 = r.x AND r.y >= 3 ORDER BY p(r.y) + c(l.price);
EXPLAIN SELECT DISTINCT v FROM u ORDER BY half(v); EXPLAIN ANALYZE SELECT v FROM u EXCEPT SELECT v FROM w ORDER BY half(v);
DECLARE k CURSOR FOR SELECT x FROM t ORDER BY q(y) LIMIT 3; FETCH 1 FROM k; FETCH 0 FROM k; FETCH 9 FROM k; CLOSE k;
SQL
cat >forms.wanted <<'LINES'
1,201,a,40
1,2,2
2,1,1
1,2,4
2,2,5
1,2,4
2,2,4
3,2,5
1,2,4
1,1,3
2,0,1
1,100,b,2
2,50,a,2
Rank term 1 est=4 cost=12
  Distinct est=4 cost=8
    SeqScan u u est=4 cost=4
Rank term 1 est=8 cost=24 asked=3 gave=2 calls=2
  Except est=8 cost=16 asked=3 gave=2
    SeqScan u u est=4 cost=4 asked=5 gave=4 drawn=4
    SeqScan w w est=4 cost=4 asked=5 gave=4 drawn=4
1,10,2
2,9,8
3,3,10
LINES
cat base - >cursors.sql <<'SQL'
DECLARE k CURSOR FOR SELECT x FROM t ORDER BY p(x) + q(y); DECLARE d CURSOR FOR SELECT x FROM t ORDER BY q(y);
FETCH 2 FROM k; FETCH 1 FROM d; FETCH 2 FROM k; FETCH 5 FROM k; CLOSE k;
SQL
printf '1,17,8\n2,13,10\n1,10,2\n3,12,2\n4,6,5\n' >cursors.wanted
cp cursors.sql ready.sql
cp cursors.wanted ready.wanted
# Rows that join a table with two indexes, and one with texts, while a cursor is open.
cat base - >grows.sql <<'SQL'
CREATE PREDICATE named (s TEXT) MAX 1 AS CASE WHEN s >= 'c' THEN 1 ELSE 0 END;
CREATE RANK INDEX qy ON t (q(y)); CREATE RANK INDEX hn ON h (named(name));
DECLARE k CURSOR FOR SELECT x, y FROM t ORDER BY p(x) + q(y); FETCH 1 FROM k;
INSERT INTO t VALUES (9, 10), (1, 1), (10, 0); INSERT INTO h VALUES ('d', 70, 2), ('a', -1, 3);
FETCH 2 FROM k; SELECT x, y FROM t ORDER BY p(x) + q(y) LIMIT 3; SELECT name, city FROM h ORDER BY named(name) LIMIT 3;
SQL
printf '1,17,8,9\n2,13,10,3\n3,12,2,10\n1,19,9,10\n2,17,8,9\n3,13,10,3\n1,1,c,2\n2,1,d,2\n3,0,a,1\n' >grows.wanted
cp grows.sql grown.sql
cp grows.wanted grown.wanted
cat >front <<'LINES'
front CREATE TABLE h (name TEXT, price INT, city INT) FROM 'name,price,city\na,40,1\nb,90,1\nc,40,2\n'; CREATE PREDICATE near (a INT, b INT) MAX 100 AS 100 - ABS(a - b);
LINES
{
    cat front
    printf 'ask R%d(H(S%d,S%d)) 3 ' 1 1 2
    echo 'SELECT x.price, y.price FROM h x, h y WHERE x.city = y.city ORDER BY near(x.price, y.price) LIMIT 3'
} >hashed.sql
cat hashed.sql - >hashed.wanted <<'LINES'
  1 3 [1, 1, 0, 0, 0, 0] 100 [Int(40), Int(40)]; calls near 40 40
  1 3 [2, 2, 0, 0, 0, 0] 100 [Int(90), Int(90)]; calls near 40 90, near 90 40, near 90 90
  1 3 [3, 3, 0, 0, 0, 0] 100 [Int(40), Int(40)]; calls near 40 40
  counts 3 3 5 0, 5 5 0 0, 4 3 0 3, 4 3 0 3; limit Some(3)
LINES
{
    cat front
    # (the operator of term 1, written R and 1, over a union)
    rank=R
    echo "ask ${rank}1(O(S1,S1)) 5 SELECT city FROM h UNION SELECT price FROM h ORDER BY near(city, 40)"
} >united.sql
cat united.sql - >united.wanted <<'LINES'
  2 1 [1, 0, 0, 0, 0, 0] 100 [Int(40)]; calls near 1 40, near 2 40, near 40 40
  1 1 [3, 0, 0, 0, 0, 0] 62 [Int(2)]; calls near 90 40
  1 1 [1, 0, 0, 0, 0, 0] 61 [Int(1)]
  2 1 [2, 0, 0, 0, 0, 0] 50 [Int(90)]
  none
  counts 5 4 4 0, 5 4 0 0, 4 3 0 3, 4 3 0 3; limit None
LINES
cat >asked.sql <<'SQL'
CREATE TABLE t (x INT, y INT) FROM 't.csv';
CREATE PREDICATE p (v INT) MAX 10 AS v;
CREATE PREDICATE q (v INT, s TEXT) MAX 10 COST 1000 AS v;
CREATE RANK INDEX px ON t (p(x));
SELECT x FROM t ORDER BY p(x) + q(y, 'a') LIMIT 2;
SQL
printf '1,17,8\n2,13,10\n' >asked.wanted
# The two feeds that checks/gate/program.sh joins.
printf 'key,score\na,9\nb,8\na,7\nc,5\nb,1\n' >fl.csv
printf 'key,score\nb,9\na,6\nc,6\na,2\nd,1\n' >fr.csv
printf '1,17,b,8,9\n2,15,a,9,6\n3,13,a,7,6\n4,11,a,9,2\n5,11,c,5,6\n6,10,b,1,9\n7,9,a,7,2\nleft=6 right=6\n' >feed.wanted
# All pairs of these feeds, behind all rows and both ends.
cat >cert.wanted <<'CERT'
cert,1,9
left,9,a
left,8,b
left,7,a
left,5,c
left,1,b
left,end,end
right,9,b
right,6,a
right,6,c
right,2,a
right,1,d
right,end,end
pair,2,1
pair,1,2
pair,3,2
pair,1,4
pair,4,3
pair,5,1
pair,3,4
CERT
cp cert.wanted c.csv
printf 'yes\n' >check.wanted
# Two views, which rows join, one of a table with itself.
cat base - >views.sql <<'SQL'
DECLARE k CURSOR FOR SELECT x FROM t ORDER BY p(x) + q(y) LIMIT 2; FETCH 5 FROM k;
DECLARE n CURSOR FOR SELECT x.name, y.name FROM h x, h y WHERE x.city = y.city ORDER BY near(x.price, y.price) LIMIT 3;
INSERT INTO t VALUES (9, 10), (9, 8); FETCH 5 FROM k; INSERT INTO h VALUES ('d', 90, 1); FETCH 3 FROM n;
SQL
printf '1,17,8\n2,13,10\n1,19,9\n2,17,8\n1,100,a,a\n2,100,b,b\n3,100,b,d\n' >views.wanted
printf '3\n9\n1\n10\n' >answers
printf 'q,3,a,3\nq,9,a,9\nq,1,a,1\nq,10,a,10\n' >kept
: >nothing
printf 'memory\n' >memory

# Runs a script where allocations fail from this one on, or this one alone. Most scripts are run by plans.
# run NAME NUMBER [all]
run() {
    local words=("$program" plain "$1.sql") input=/dev/null
    case $1 in
        plan | first | tables | forms | nested | cursors | grows | rows | index | calls) words=("$program" run "$1.sql" 1) ;;
        scan) words=("$program" ta scan.sql) ;;
        feed) words=("$program" feed fl.csv fr.csv 9) ;;
        cert) words=("$program" cert fl.csv fr.csv 9) ;;
        check) words=("$program" check c.csv) ;;
        views) words=("$program" view views.sql) ;;
        hashed | united) words=("$cases") input=$1.sql ;;
        asked) words=("$ask" q scores /dev/null answers run asked.sql 1) ;;
    esac
    rm -f scores
    timeout 60 env LD_PRELOAD="$work/refuse.so" REFUSE_FIRST="$2" ${3:+REFUSE_ALL=1} REFUSE_COUNT="$work/count" \
        "${words[@]}" >out 2>err <"$input"
}

# Whether the file out is whole lines from the head of what is wanted.
are_whole_lines() {
    cmp -s out <(head -n "$(wc -l <out)" "$1.wanted")
}

# Whether the file of known scores is whole lines from the head of those that are to be kept.
keeps_scores() {
    [ ! -e scores ] || cmp -s scores <(head -n "$(wc -l <scores)" kept)
}

# Whether the run did all, or lacked memory and told so.
# is_right NAME STATUS
is_right() {
    case $1.$2 in
        asked.0) cmp -s out asked.wanted && cmp -s scores kept && { cmp -s err nothing || grep -qx 'calls=[0-9]* questions=4 known=0' err; } ;;
        asked.1) are_whole_lines asked && keeps_scores && [ "$(head -n 1 err)" = memory ] ;;
        *.0) cmp -s out "$1.wanted" && cmp -s err nothing ;;
        hashed.1 | united.1) are_whole_lines "$1" && grep -qxE '(line [12]: )?there is no memory' err ;;
        hashed.3 | united.3) are_whole_lines "$1" && grep -qx "line [12]: the line can't be read" err ;;
        *.1) are_whole_lines "$1" && cmp -s err memory ;;
        *) false ;;
    esac
}

failures=0
# try_each NAME [all]
try_each() {
    local name=$1 all=${2:-} number=0 total status done=0 cut=0
    run "$name" 0
    if ! is_right "$name" $?; then
        echo "FAILED  $name with all its memory"
        failures=$((failures + 1))
        return
    fi
    total=$(cat count)
    if [ "$total" -lt 30 ]; then
        echo "FAILED  $name: only $total allocations are seen, so those of the program do not go through the library"
        failures=$((failures + 1))
        return
    fi
    while [ "$number" -lt "$total" ]; do
        number=$((number + 1))
        run "$name" "$number" "$all"
        status=$?
        if ! is_right "$name" "$status"; then
            echo "FAILED  $name, allocation $number of $total${all:+ and all later ones}: status $status"
            head -c 300 out err | sed 's/^/        /'
            failures=$((failures + 1))
        elif [ "$status" -eq 0 ]; then
            done=$((done + 1))
        elif [ -s out ]; then
            cut=$((cut + 1))
        fi
    done
    echo "$name: each of $total allocations${all:+ and all later ones} refused: $done runs did all," \
        "the others told the want of memory, $cut of them behind a row"
}

# Runs a test of a program with each allocation refused. Those that make what it begins with come first, and the test lacks memory
# then; whichever of the others is refused, it passes, and there are at least so many of them.
# try_test PROGRAM TEST LEAST [all]
try_test() {
    local program=$1 test=$2 least=$3 all=${4:-} number=0 total status lacked=0 passed=0
    "${refuse[@]}" REFUSE_FIRST=0 "$program" "$test" >out 2>err || {
        echo "FAILED  $test with all its memory"
        failures=$((failures + 1))
        return
    }
    total=$(cat count)
    while [ "$number" -lt "$total" ]; do
        number=$((number + 1))
        "${refuse[@]}" REFUSE_FIRST="$number" ${all:+REFUSE_ALL=1} "$program" "$test" >out 2>err
        status=$?
        if [ "$status" -eq 0 ]; then
            passed=$((passed + 1))
        elif [ "$passed" -eq 0 ] && grep -qE '^error: (Memory|AllocFailed)' err; then
            lacked=$((lacked + 1))
        else
            echo "FAILED  $test, allocation $number of $total${all:+ and all later ones}: status $status"
            head -c 300 err | sed 's/^/        /'
            failures=$((failures + 1))
        fi
    done
    if [ "$passed" -lt "$least" ]; then
        echo "FAILED  $test: only $passed allocations are of what it tries"
        failures=$((failures + 1))
    fi
    echo "$test: each of $total allocations${all:+ and all later ones} refused: $lacked left it nothing to begin with, behind the others it passed"
}

growth=columns::keeps_the_rows_where_memory_ends
join=memory::gives_a_front_where_memory_ends
refuse=(timeout 60 env LD_PRELOAD="$work/refuse.so" REFUSE_COUNT="$work/count")

awk 'BEGIN {
    print "title,rating,year"
    for (row = 1; row <= 1000; row++)
        printf "Film %d,%d,%d\n", row, row * 7919 % 1000, 1950 + row * 31 % 75
}' >films.csv

# How many allocations a query over the films takes, and how many rows it prints.
# count_query NAME INDEX ORDER LIMIT
count_query() {
    cat >"$1.sql" <<SQL
CREATE TABLE films (title TEXT, rating INT, year INT) FROM 'films.csv';
CREATE PREDICATE level (rating INT) MAX 2 AS 1;
CREATE PREDICATE rated (rating INT) MAX 999 AS rating;
CREATE PREDICATE recent (year INT) MAX 75 COST 20 AS year - 1950;
$2
SELECT title, year FROM films ORDER BY $3 LIMIT $4;
SQL
    run "$1" 0 || {
        echo "FAILED  $1 with all its memory"
        exit 1
    }
    printed=$(wc -l <out)
    [ "$printed" -eq "$4" ] || {
        echo "FAILED  $1 prints $printed rows"
        exit 1
    }
    allocations=$(cat count)
}

# What a query over the films takes whose condition looks at texts, beyond one whose condition looks at numbers. Both conditions
# hold of each film, so as many rows are tested, and as many are kept.
# compare_conditions NAME WORD [SEED]
compare_conditions() {
    local name=$1 numbers
    shift
    for of in numbers texts; do
        {
            head -n 2 rows.sql
            case $of in
                numbers) echo "SELECT year FROM films WHERE rating <> 1000 AND rating + 1 > 0 ORDER BY level(rating) LIMIT 1;" ;;
                texts) echo "SELECT year FROM films WHERE title <> 'Film' AND title > 'E' ORDER BY level(rating) LIMIT 1;" ;;
            esac
        } >tested.sql
        LD_PRELOAD="$work/refuse.so" REFUSE_FIRST=0 REFUSE_COUNT="$work/count" "$program" "$1" tested.sql ${2:+"$2"} >out 2>err
        if [ "$(wc -l <out)" -ne 1 ] || [ -s err ]; then
            echo "FAILED  $name prints $(wc -l <out) rows"
            exit 1
        fi
        [ "$of" = numbers ] && numbers=$(cat count)
    done
    local more=$(($(cat count) - numbers))
    echo "$name: $more allocations more for conditions on texts"
    if [ "$more" -gt "$MOST_GROWN" ] || [ "$more" -lt "-$MOST_GROWN" ]; then
        echo "FAILED  $name: a tested row takes memory"
        failures=$((failures + 1))
    fi
}

# What a query over the films takes beyond another one, less what the values of its rows take: a list and a text for each.
# A kept list that grows is moved now and then to a place of twice the size, which is the most that may be left.
# compare NAME INDEX ORDER LIMIT ORDER LIMIT
compare() {
    local few few_rows more
    count_query "$1" "$2" "$3" "$4"
    few=$allocations few_rows=$4
    count_query "$1" "$2" "$5" "$6"
    more=$((allocations - few))
    local values=$((2 * ($6 - few_rows)))
    echo "$1: $more allocations more, $values of them for the values of rows"
    if [ "$more" -lt "$values" ] || [ "$more" -gt $((values + MOST_GROWN)) ]; then
        echo "FAILED  $1: that is not within $MOST_GROWN of those for values"
        failures=$((failures + 1))
    fi
}

MOST_GROWN=40
compare rows '' 'rated(rating)' 10 'rated(rating)' 100
compare index 'CREATE RANK INDEX by_rated ON films (rated(rating));' '2 * rated(rating) + recent(year)' 10 '2 * rated(rating) + recent(year)' 100
compare calls '' 'level(rating)' 10 'level(rating) + recent(year)' 10
compare_conditions tested_plainly plain
compare_conditions tested_by_plans run 1

names=(join union ready grown plan first tables forms nested cursors grows scan feed cert check views)
if [ $# -gt 0 ]; then
    names=("$@")
elif [ -x "$cases" ]; then
    names+=(hashed united)
else
    echo "there is no program $cases: the join by a hash and the union are left out"
fi
if [ $# -eq 0 ]; then
    if [ -x "$ask" ]; then
        names+=(asked)
    else
        echo "there is no program $ask: the script whose scores are asked for is left out"
    fi
fi
for name in "${names[@]}"; do
    try_each "$name"
    try_each "$name" all
done
if [ $# -eq 0 ]; then
    if [ -x "$tests" ]; then
        try_test "$tests" "$growth" 100
        try_test "$tests" "$growth" 100 all
    else
        echo "there is no program $tests: rows that join a table are left out"
    fi
    if [ -x "$feeds" ]; then
        try_test "$feeds" "$join" 20
        try_test "$feeds" "$join" 20 all
    else
        echo "there is no program $feeds: the join of two feeds is left out"
    fi
fi
if [ "$failures" -gt 0 ]; then
    echo "$failures runs failed"
    exit 1
fi
echo "every run ended as it must"
