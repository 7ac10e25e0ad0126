#!/usr/bin/env bash
# Tries the built program as a user would: files, line ends, words and streams of every kind. The expected values were
# worked out by hand from the description of the command. It prints a line for each case, and ends with 1 where one
# fails. The program is crates/ranksql/out/ranksql, or the one that the variable RANKSQL names.
set -u -o pipefail
export LC_ALL=C

root=$(cd "$(dirname "$0")/../.." && pwd -P)
built=$root/crates/ranksql/out/ranksql
program=${RANKSQL:-$built}
if [ ! -x "$program" ]; then
    echo "there is no program $program: ./ranksql builds it" >&2
    exit 1
fi
# The usage line is what the program says without words; documents.py compares it with docs/FORMATS.md.
usage=$("$program" 2>&1 >/dev/null </dev/null)
work=$(mktemp -d) || exit 1
trap 'rm -rf "$work"' EXIT
mkdir "$work/said" "$work/in"
cd "$work/in" || exit 1
failures=0

passed() {
    echo "ok      $1"
}

failed() {
    echo "FAILED  $1"
    failures=$((failures + 1))
}

# Compares what a case gave, in the files status, out and err, with what is wanted.
# compare NAME STATUS OUTPUT ERROR
compare() {
    printf '%s' "$3" >"$work/said/out.wanted"
    printf '%s' "$4" >"$work/said/err.wanted"
    if [ "$(cat "$work/said/status")" = "$2" ] && cmp -s "$work/said/out" "$work/said/out.wanted" &&
        cmp -s "$work/said/err" "$work/said/err.wanted"; then
        passed "$1"
        return
    fi
    failed "$1"
    echo "        status $(cat "$work/said/status"), wanted $2"
    diff <(head -c 2000 "$work/said/out.wanted") <(head -c 2000 "$work/said/out") | sed 's/^/        output: /' | cat -v
    diff "$work/said/err.wanted" "$work/said/err" | sed 's/^/        error: /' | cat -v
}

# Runs the program on the words behind `--`.
# expect NAME STATUS OUTPUT ERROR -- WORD..
expect() {
    local name=$1 status=$2 out=$3 err=$4
    shift 5
    timeout 60 "$program" "$@" >"$work/said/out" 2>"$work/said/err" </dev/null
    echo $? >"$work/said/status"
    compare "$name" "$status" "$out" "$err"
}

# The file f.csv of these bytes, written as printf writes its format.
file() {
    # shellcheck disable=SC2059
    printf "$1" >f.csv
}

# The file f.csv of a header `number,name` and so many rows, whose numbers are the last digits of the row's number.
file_of_rows() {
    awk -v rows="$1" 'BEGIN { print "number,name"; for (row = 1; row <= rows; row++) print row % 1000 ",r" row }' >f.csv
}

# A header line or a row of so many fields.
fields() {
    awk -v count="$1" -v what="$2" 'BEGIN { for (i = 1; i <= count; i++) printf "%s%s", (i > 1 ? "," : ""), what (what == "c" ? i : ""); print "" }'
}

# ---- the happy path
cp "$root/crates/ranksql/data/h.csv" h.csv
expect 'the first two rows' 0 $'1,90,b,90,1\n2,40,a,40,1\n' '' -- top h.csv price 100 2
expect 'fewer rows than asked for, a tie to the earlier row' 0 $'1,90,b,90,1\n2,40,a,40,1\n3,40,c,40,2\n' '' -- top h.csv price 100 1000000
expect 'another column' 0 $'1,2,c,40,2\n2,1,a,40,1\n3,1,b,90,1\n' '' -- top h.csv city 2 3
expect 'no row is asked for' 0 '' '' -- top h.csv price 100 0
expect 'the hotels of the example' 0 $'1,400,Castello di Montalto,Florence,400,97\n2,395,Grand Hotel Miramar,Nice,395,93\n3,395,Caf\xc3\xa9 Royal Hotel,London,395,90\n' '' \
    -- top "$root/examples/hotels.csv" price 400 3
expect 'the best rated hotels' 0 $'1,100,Maison Saint-Clair,Bordeaux,176,100\n2,97,Castello di Montalto,Florence,400,97\n3,95,Palazzo Contarini,Venice,372,95\n4,94,Villa Magnolia,Como,358,94\n' '' \
    -- top "$root/examples/hotels.csv" rating 100 4
file 'n,t\n3,three\n4294967295,most\n0,zero\n'
expect 'the greatest maximum' 0 $'1,4294967295,4294967295,most\n2,3,3,three\n3,0,0,zero\n' '' -- top f.csv n 4294967295 10
file 'n,t\n'
expect 'a header and no row' 0 '' '' -- top f.csv n 1 5
file 'n\n1\n2'
expect 'no line feed at the end' 0 $'1,2,2\n2,1,1\n' '' -- top f.csv n 2 5
file 'n,t\n+07,a\n-0,b\n000000000000000000000000000005,c\n'
expect 'signs and leading zeros' 0 $'1,7,7,a\n2,5,5,c\n3,0,0,b\n' '' -- top f.csv n 9 5

# ---- the file
expect 'a missing file' 3 '' $'read: nope.csv: missing\n' -- top nope.csv price 100 2
expect 'a file with no name' 3 '' $'read: : missing\n' -- top '' price 100 2
mkdir DIR
expect 'a folder in place of a file' 3 '' $'read: DIR: failed\n' -- top DIR price 100 2
expect 'a file below a file' 3 '' $'read: h.csv/x: failed\n' -- top h.csv/x price 100 2
cp h.csv 'DIR/a b.csv'
expect 'a blank in the name of a file in a folder' 0 $'1,90,b,90,1\n' '' -- top 'DIR/a b.csv' price 100 1
cp h.csv ./-h.csv
expect 'a name that begins with a hyphen' 0 $'1,90,b,90,1\n' '' -- top -h.csv price 100 1
if [ "$(id -u)" -ne 0 ]; then
    cp h.csv secret.csv
    chmod 000 secret.csv
    expect 'a file that may not be read' 3 '' $'read: secret.csv: failed\n' -- top secret.csv price 100 2
fi
{ printf 'n,t\n5,' && head -c 33554425 /dev/zero | tr '\0' x && printf '\n'; } >f.csv
timeout 60 "$program" top f.csv n 9 1 2>"$work/said/err" | wc -c | tr -d ' ' >"$work/said/out"
echo "${PIPESTATUS[0]}" >"$work/said/status"
compare 'a file of 33,554,432 bytes' 0 $'33554432\n' ''
printf '\n' >>f.csv
expect 'a file of one byte more' 3 '' $'read: f.csv: too long\n' -- top f.csv n 9 1
expect 'a file with no end' 3 '' $'read: /dev/zero: too long\n' -- top /dev/zero n 9 1
expect 'an empty device' 6 '' $'table: /dev/null: NoHeader\n' -- top /dev/null n 9 1
timeout 60 "$program" top /dev/stdin price 100 1 <h.csv >"$work/said/out" 2>"$work/said/err"
echo $? >"$work/said/status"
compare 'standard input by its name' 0 $'1,90,b,90,1\n' ''
# shellcheck disable=SC2002
cat h.csv | timeout 60 "$program" top /dev/stdin price 100 1 >"$work/said/out" 2>"$work/said/err"
echo "${PIPESTATUS[1]}" >"$work/said/status"
compare 'a pipe by its name' 0 $'1,90,b,90,1\n' ''

# ---- the form of the table
file ''
expect 'an empty file' 6 '' $'table: f.csv: NoHeader\n' -- top f.csv n 9 1
file '\n\r\n\n'
expect 'blank lines alone' 6 '' $'table: f.csv: NoHeader\n' -- top f.csv n 9 1
file 'n,t\r\n1,a\r\n2,b\r\n'
expect 'lines that end with CR LF' 0 $'1,2,2,b\n2,1,1,a\n' '' -- top f.csv n 9 5
file 'n,t\r1,a\r2,b\r'
expect 'lines that end with CR' 0 $'1,2,2,b\n2,1,1,a\n' '' -- top f.csv n 9 5
file '\n\nn,t\n\n1,a\n\r\n\n2,b\n\n'
expect 'blank lines between rows' 0 $'1,2,2,b\n2,1,1,a\n' '' -- top f.csv n 9 5
file 'n,t\n1,a"b\n2,"c,""d"""\n3,"e\nf"\n4,"g"h\n'
expect 'quotes' 0 $'1,4,4,gh\n2,3,3,"e\nf"\n3,2,2,"c,""d"""\n4,1,1,"a""b"\n' '' -- top f.csv n 9 5
file 'n,t\n1, a \n2,\n'
expect 'blanks in a field, and an empty field' 0 $'1,2,2,\n2,1,1, a \n' '' -- top f.csv n 9 5
file 'n,t\n1,"a\n2,b\n'
expect 'a quote that is never closed' 0 $'1,1,1,"a\n2,b\n"\n' '' -- top f.csv n 9 5
file 'n,t\n"1,a\n2,b\n'
expect 'a quote that is never closed in the first field' 6 '' $'table: f.csv: FieldCount row 1 found 1\n' -- top f.csv n 9 5
file 'n,t\n1,a\n2\n3,c\n'
expect 'a short row' 6 '' $'table: f.csv: FieldCount row 2 found 1\n' -- top f.csv n 9 5
file 'n,t\n1,a,x\n'
expect 'a long row' 6 '' $'table: f.csv: FieldCount row 1 found 3\n' -- top f.csv n 9 5
file 'n,n\n1,9\n5,0\n'
expect 'a column name that occurs twice' 0 $'1,5,5,0\n2,1,1,9\n' '' -- top f.csv n 9 5
expect 'no such column' 6 '' $'table: f.csv: NoColumn\n' -- top f.csv N 9 5
expect 'no such column, the empty name' 6 '' $'table: f.csv: NoColumn\n' -- top f.csv '' 9 5
file '"a ""b"", c",t\n1,x\n'
expect 'a column name with quotes and a comma' 0 $'1,1,1,x\n' '' -- top f.csv 'a "b", c' 9 5
file ',t\n1,x\n'
expect 'a column with no name' 0 $'1,1,1,x\n' '' -- top f.csv '' 9 5
file '\xef\xbb\xbfn,t\n1,a\n'
expect 'a byte order mark' 0 $'1,1,1,a\n' '' -- top f.csv n 9 5
file '\xef\xbb\xbf\xef\xbb\xbfn,t\n1,2\n'
expect 'two byte order marks, and the first column' 6 '' $'table: f.csv: NoColumn\n' -- top f.csv n 9 5
expect 'two byte order marks, and the second column' 0 $'1,2,1,2\n' '' -- top f.csv t 9 5
expect 'two byte order marks, and the mark in the name' 0 $'1,1,1,2\n' '' -- top f.csv $'\xef\xbb\xbfn' 9 5
{ fields 64 c && fields 64 7; } >f.csv
expect '64 columns' 0 "1,7,$(fields 64 7)"$'\n' '' -- top f.csv c64 9 5
{ fields 65 c && fields 65 7; } >f.csv
expect '65 columns' 6 '' $'table: f.csv: TooManyColumns found 65\n' -- top f.csv c1 9 5
file_of_rows 131072
expect '131,072 rows' 0 $'1,999,999,r999\n2,999,999,r1999\n3,999,999,r2999\n' '' -- top f.csv number 1000 3
file_of_rows 131073
expect '131,073 rows' 6 '' $'table: f.csv: TooManyRows\n' -- top f.csv number 1000 3

# ---- the cells
for number in x '' ' 5' '5 ' 5.0 1e3 --5 + - 0x10 4000000000000000001 -4000000000000000001 18446744073709551616; do
    printf 't,n\na,1\nb,%s\n' "$number" >f.csv
    expect "the cell '$number' is no number" 6 '' $'table: f.csv: NotInt row 2 column 2\n' -- top f.csv n 4294967295 5
done
file 'n\n4000000000000000000\n'
expect 'the greatest number of a cell' 7 '' $'score: n rows 1: 4000000000000000000 is not in 0..10\n' -- top f.csv n 10 5
file 'n\n1\n-4000000000000000000\n'
expect 'the least number of a cell' 7 '' $'score: n rows 2: -4000000000000000000 is not in 0..10\n' -- top f.csv n 10 5
file 'n,t\n10,a\n11,b\n-1,c\n'
expect 'a number above the maximum' 7 '' $'score: n rows 2: 11 is not in 0..10\n' -- top f.csv n 10 5
expect 'a number below 0' 7 '' $'score: n rows 3: -1 is not in 0..11\n' -- top f.csv n 11 5
expect 'a number above the maximum where no row is asked for' 7 '' $'score: n rows 2: 11 is not in 0..10\n' -- top f.csv n 10 0
file 'n\n4294967296\n'
expect 'a number above the greatest maximum' 7 '' $'score: n rows 1: 4294967296 is not in 0..4294967295\n' -- top f.csv n 4294967295 5
file 'n,t\n11,a\nx,b\n'
expect 'the table is read before a score is looked at' 6 '' $'table: f.csv: NotInt row 2 column 1\n' -- top f.csv n 10 5
file 'n,t\n1,a\nx,\xff\n3\n'
expect 'the first cell that is refused' 6 '' $'table: f.csv: NotInt row 2 column 1\n' -- top f.csv n 10 5
expect 'the same from another column' 6 '' $'table: f.csv: NotInt row 1 column 2\n' -- top f.csv t 10 5
file 'n,t\n1,a\n2,\xc3\x28\n'
expect 'a text that is not UTF-8' 6 '' $'table: f.csv: NotUtf8 row 2 column 2\n' -- top f.csv n 10 5
file 'n,t\n1,a\n2,\xed\xa0\x80\n'
expect 'a text with a surrogate' 6 '' $'table: f.csv: NotUtf8 row 2 column 2\n' -- top f.csv n 10 5
file 'n,t\n\xff,a\n'
expect 'a number that is not UTF-8' 6 '' $'table: f.csv: NotInt row 1 column 1\n' -- top f.csv n 10 5
file 'n,\xff\n1,a\n'
expect 'a header that is not UTF-8' 6 '' $'table: f.csv: NotUtf8 row 0 column 2\n' -- top f.csv n 10 5
printf 'n,t\n1,a\0b\n' >f.csv
timeout 60 "$program" top f.csv n 9 1 2>"$work/said/err" | tr '\0' @ >"$work/said/out"
echo "${PIPESTATUS[0]}" >"$work/said/status"
compare 'a text with a byte 0' 0 $'1,1,1,a@b\n' ''

# ---- scripts
# The file s.sql of these bytes, written as printf writes its format.
script() {
    # shellcheck disable=SC2059
    printf -- "$1" >s.sql
}

# So many times the same text.
repeated() {
    awk -v count="$1" -v what="$2" 'BEGIN { for (i = 0; i < count; i++) printf "%s", what }'
}

# Runs `plain s.sql` on a script that is refused.
# refused NAME TEXT
refused() {
    expect "$1" 5 '' "script: $2"$'\n' -- plain s.sql
}

expect 'a missing script' 3 '' $'read: nope.sql: missing\n' -- plain nope.sql
expect 'a folder in place of a script' 3 '' $'read: DIR: failed\n' -- plain DIR
script ''
expect 'an empty script' 0 '' '' -- plain s.sql
script '-- only this'
expect 'a comment alone' 0 '' '' -- plain s.sql
script '\xef\xbb\xbf \r\n'
expect 'a byte order mark and blanks' 0 '' '' -- plain s.sql
repeated 1048576 ' ' >s.sql
expect 'a script of 1,048,576 bytes' 0 '' '' -- plain s.sql
printf ' ' >>s.sql
expect 'a script of one byte more' 3 '' $'read: s.sql: too long\n' -- plain s.sql
expect 'a script with no end' 3 '' $'read: /dev/zero: too long\n' -- plain /dev/zero
script 'SELECT \xff'
refused 'a script that is not UTF-8' 'NotUtf8 at 7'
script '\xef\xbb\xbf$\xff'
refused 'places count from behind the mark' 'NotUtf8 at 1'
script '\xef\xbb\xbf$'
refused 'a mark and a byte that begins no token' 'lex BadByte at 0'
script '\xef\xbb\xbf\xef\xbb\xbf'
refused 'two marks' 'lex BadByte at 0'
script "SELECT 'a"
refused 'a text that is never closed' 'lex OpenText at 7'
script 4000000000000000001
refused 'a number that is too great' 'lex NumberTooWide at 0'
repeated 100001 ';' >s.sql
refused '100,001 tokens' 'lex TooManyTokens at 100000'
script 'SELECT SELECT; $'
refused 'the tokens come before the parse' 'lex BadByte at 15'
script 'SELECT'
refused 'a statement that breaks off' 'parse Expected at 6'
script 'CLOSE a; SELECT'
refused 'the whole script is parsed first' 'parse Expected at 15'
script 'SELECT * FROM h ORDER BY p(price) ASC;'
refused 'a word out of the language' 'parse NotInProfile at 34'
repeated 1001 'CLOSE a;' >s.sql
refused '1,001 statements' 'parse TooManyStatements at 8000'
repeated 1000 'CLOSE a;' >s.sql
expect '1,000 statements' 9 '' $'session: Unknown a\n' -- plain s.sql
{ printf 'CREATE PREDICATE p (v INT) MAX 10 AS ' && repeated 255 '(' && printf v && repeated 255 ')' && printf ';'; } >s.sql
expect 'a formula as deep as may be' 0 '' '' -- plain s.sql
{ printf 'CREATE PREDICATE p (v INT) MAX 10 AS ' && repeated 256 '(' && printf v && repeated 256 ')' && printf ';'; } >s.sql
refused 'a formula that is too deep' 'parse TooDeep at 292'
script 'CLOSE a;'
expect 'a name under which no cursor is open' 9 '' $'session: Unknown a\n' -- plain s.sql

# ---- tables, predicates and rank indexes
printf 'x,y\n10,3\n8,9\n5,1\n2,10\n' >t.csv
base='CREATE TABLE h (name TEXT, price INT, city INT) FROM '"'h.csv'"';
CREATE TABLE t (x INT, y INT) FROM '"'t.csv'"';
CREATE PREDICATE p (v INT) MAX 10 AS v;
CREATE PREDICATE near (a INT, b INT) MAX 100 AS 100 - ABS(a - b);
CREATE RANK INDEX px ON t (p(x));
'
script "$base"
expect 'tables, predicates and an index' 0 '' '' -- plain s.sql
script "${base}CREATE RANK INDEX n ON h (near(h.price, -7)); CREATE RANK INDEX m ON h (near(price, city))"
expect 'indexes of two arguments' 0 '' '' -- plain s.sql
script "${base}CREATE RANK INDEX hx ON h (p(price));"
expect 'a score that is too great' 7 '' $'score: p rows 1: 40 is not in 0..10\n' -- plain s.sql
script "${base}CREATE PREDICATE less (v INT) MAX 9 AS v - 50; CREATE RANK INDEX l ON h (less(price));"
expect 'a score below 0' 7 '' $'score: less rows 1: -10 is not in 0..9\n' -- plain s.sql
script "CREATE TABLE n (x INT) FROM 'nope.csv';"
expect 'a table of a missing file' 3 '' $'read: nope.csv: missing\n' -- plain s.sql
script "CREATE TABLE n (x INT) FROM 'DIR';"
expect 'a table of a folder' 3 '' $'read: DIR: failed\n' -- plain s.sql
script "CREATE TABLE n (x INT, z INT) FROM 't.csv';"
expect 'a table of other columns' 6 '' $'table: t.csv: HeaderDiffers column 2\n' -- plain s.sql
script "CREATE TABLE h (name INT, price INT, city INT) FROM 'h.csv';"
expect 'a table of other kinds' 6 '' $'table: h.csv: NotInt row 1 column 1\n' -- plain s.sql
script "CREATE TABLE t (x INT, x INT) FROM 'nope.csv';"
refused 'a name twice' 'bind NameTwice at 23'
script "CREATE TABLE t (x INT, y INT) FROM 't.csv'; CREATE TABLE t (x INT, y INT) FROM 'nope.csv';"
refused 'a name that is taken' 'catalogue NameTaken at 57'
script 'CREATE PREDICATE r (v INT) MAX 1 AS 1 + (v * v * v);'
refused 'a formula that is too wide' 'bind TooWide at 41'
script 'CREATE PREDICATE r (v INT) MAX 1 AS v / (1 + 1);'
refused 'a divisor that is no number' 'bind BadDivisor at 41'
script "CREATE PREDICATE r (v INT) MAX 1 AS CASE WHEN v = 'a' THEN 1 ELSE 0 END;"
refused 'a number and a text' 'bind WrongKind at 46'

# ---- the examples, each beside a file of what it prints
scripts=0
while IFS= read -r script; do
    scripts=$((scripts + 1))
    wanted=$root/${script%.sql}.out
    if [ ! -r "$wanted" ]; then
        failed "the example $script has no file ${script%.sql}.out of what it prints"
        continue
    fi
    # Only `run` says something of a plan, only `ta` of accesses, and only `view` keeps its cursors up to date. All else is the same under
    # `plain` and `run`.
    words=(plain run)
    case $script in
        */plans.sql | */analyzed.sql | */savings.sql | */tops.sql | examples/calls.sql) words=(run) ;;
        */threshold.sql) words=(ta) ;;
        */board.sql) words=(view) ;;
        *) ! grep -q '^EXPLAIN' "$root/$script" || words=(plain) ;;
    esac
    # The command gives no line feeds at the end, so a mark goes behind them.
    text=$(cat "$wanted" && echo .)
    for word in "${words[@]}"; do
        seed=()
        [ "$word" != run ] || seed=(1)
        (cd "$root" && timeout 60 "$program" "$word" "$script" "${seed[@]}" >"$work/said/out" 2>"$work/said/err" </dev/null)
        echo $? >"$work/said/status"
        compare "the example $script under $word" 0 "${text%.}" ''
    done
done < <(cd "$root" && find examples -name '*.sql' | sort)
[ "$scripts" -gt 0 ] || failed 'there are no examples'

# docs/PLANS.md shows what these scripts print, and their queries.
while IFS= read -r line; do
    grep -qxF -e "    $line" "$root/docs/PLANS.md" || failed "PLANS.md doesn't have the line: $line"
done < <(cd "$root/examples/travel" && cat plans.out analyzed.out && sed -s -n '/^EXPLAIN/,/;$/p' plans.sql analyzed.sql)
while IFS= read -r line; do
    grep -qxF -e "    $line" "$root/docs/FORMATS.md" || failed "FORMATS.md doesn't have the line: $line"
done < <(tail -n 7 "$root/checks/gate/gen_7_600.out")

# docs/GRAMMAR.md shows what guides.sql prints.
while IFS= read -r line; do
    grep -qxF -e "    $line" "$root/docs/GRAMMAR.md" || failed "GRAMMAR.md doesn't have the line: $line"
done <"$root/examples/travel/guides.out"

# The queries that the program cases_plans plans, with tables in files: EXPLAIN has to print the text that stands there, and
# `run` the rows of `plain`.
mkdir planned
awk '
    $0 == "front" { front = "" }
    /^front ./ { front = front substr($0, 7) "\n" }
    !/^  / { number = 0 }
    /^plan [0-9]+ SELECT / && !/ DISTINCT | UNION | INTERSECT | EXCEPT / {
        number = ++count
        script = ""
        rest = front
        for (table = 1; match(rest, /FROM \047[^\047]*\047/); table++) {
            file = "planned/" number "-" table ".csv"
            text = substr(rest, RSTART + 6, RLENGTH - 7)
            gsub(/\\n/, "\n", text)
            printf "%s", text >file
            close(file)
            script = script substr(rest, 1, RSTART - 1) "FROM \047" file "\047"
            rest = substr(rest, RSTART + RLENGTH)
        }
        query = $0
        sub(/^plan [0-9]+ /, "", query)
        print $2 >("planned/" number ".seed")
        print script rest query ";" >("planned/" number ".sql")
        print script rest "EXPLAIN " query ";" >("planned/" number "-explain.sql")
        printf "" >("planned/" number ".plan")
    }
    /^  / && number { print substr($0, 3) >>("planned/" number ".plan") }
' "$root/crates/cases_plans/stdout"
queries=0
while [ -e "planned/$((queries + 1)).sql" ]; do
    queries=$((queries + 1))
    seed=$(cat "planned/$queries.seed")
    timeout 60 "$program" run "planned/$queries-explain.sql" "$seed" >"$work/said/out" 2>&1 </dev/null
    cmp -s "$work/said/out" "planned/$queries.plan" || failed "EXPLAIN under run of the query $(tail -n 1 "planned/$queries.sql")"
    timeout 60 "$program" plain "planned/$queries.sql" >"$work/said/out.wanted" 2>&1 </dev/null
    timeout 60 "$program" run "planned/$queries.sql" "$seed" >"$work/said/out" 2>&1 </dev/null
    cmp -s "$work/said/out" "$work/said/out.wanted" || failed "run and plain print other rows for $(tail -n 1 "planned/$queries.sql")"
done
[ "$queries" -ge 50 ] || failed "cases_plans has only $queries queries"
passed "the plans and the rows of $queries queries"

# The statements that docs/GRAMMAR.md shows in blocks and in its table of statements stand in these scripts, line by line.
# A statement of a cursor stands in none.
grammar=$root/docs/GRAMMAR.md
lines=0
while IFS= read -r line; do
    lines=$((lines + 1))
    grep -rqxF --include='*.sql' -e "$line" "$root/examples" || failed "no example has the line of GRAMMAR.md: $line"
done < <(
    sed -nE 's/^    ((CREATE|INSERT|SELECT|FROM|WHERE|ORDER BY|LIMIT) .*)$/\1/p' "$grammar"
    # shellcheck disable=SC2016
    sed -nE 's/^\| [^|`]+ \| `((CREATE|INSERT|SELECT|EXPLAIN) [^|`]+)` \|$/\1;/p' "$grammar"
)
[ "$lines" -gt 0 ] || failed 'GRAMMAR.md shows no statements'

# Scripts of its last table, which are refused, beside the lines that tell so.
rows=0
while IFS='`' read -r _ text _ line _; do
    rows=$((rows + 1))
    printf '%s' "$text" >s.sql
    expect "the script '$text' of GRAMMAR.md" 5 '' "$line"$'\n' -- plain s.sql
done < <(
    # shellcheck disable=SC2016
    grep -E '^\| `[^`]+` \| `script: [^`]+` \|$' "$grammar"
)
[ "$rows" -gt 0 ] || failed 'GRAMMAR.md shows no refused scripts'

# ---- queries
script "${base}SELECT x FROM t ORDER BY p(x); SELECT y, x FROM t WHERE y < 9 ORDER BY p(y) + 2 * p(x) LIMIT 1;"
expect 'two queries' 0 $'1,10,10\n2,8,8\n3,5,5\n4,2,2\n1,23,3,10\n' '' -- plain s.sql
script "${base}SELECT x FROM t ORDER BY p(x) LIMIT 1;"
timeout 60 "$program" plain /dev/stdin <s.sql >"$work/said/out" 2>"$work/said/err"
echo $? >"$work/said/status"
compare 'a script from standard input' 0 $'1,10,10\n' ''
# shellcheck disable=SC2002
cat s.sql | timeout 60 "$program" plain /dev/stdin >"$work/said/out" 2>"$work/said/err"
echo "${PIPESTATUS[1]}" >"$work/said/status"
compare 'a script from a pipe' 0 $'1,10,10\n' ''
script "CREATE TABLE t (x INT, y INT) FROM '/dev/stdin'; CREATE PREDICATE p (v INT) MAX 10 AS v; SELECT x, y FROM t ORDER BY p(y) LIMIT 2;"
# shellcheck disable=SC2002
cat t.csv | timeout 60 "$program" plain s.sql >"$work/said/out" 2>"$work/said/err"
echo "${PIPESTATUS[1]}" >"$work/said/status"
compare 'a table of a script from a pipe' 0 $'1,10,2,10\n2,9,8,9\n' ''
script "${base}SELECT x.name, y.name FROM h x, h y WHERE x.city = y.city ORDER BY near(x.price, y.price) LIMIT 3;"
expect 'a table that is joined with itself' 0 $'1,100,a,a\n2,100,b,b\n3,100,c,c\n' '' -- plain s.sql
script "${base}SELECT DISTINCT city FROM h ORDER BY p(city);"
expect 'distinct values' 0 $'1,2,2\n2,1,1\n' '' -- plain s.sql
script "${base}SELECT city FROM h UNION ALL SELECT y FROM t WHERE y < 4 ORDER BY p(city);"
expect 'all rows of two blocks' 0 $'1,3,3\n2,2,2\n3,1,1\n4,1,1\n5,1,1\n' '' -- plain s.sql
script "${base}SELECT city FROM h EXCEPT SELECT y FROM t ORDER BY p(city);"
expect 'values that the right block lacks' 0 $'1,2,2\n' '' -- plain s.sql
script "${base}SELECT x FROM t WHERE 1 = 2 ORDER BY p(x); SELECT x FROM t ORDER BY p(x) LIMIT 0;"
expect 'queries without a row' 0 '' '' -- plain s.sql
script "${base}EXPLAIN SELECT x FROM t ORDER BY p(x); EXPLAIN ANALYZE SELECT price FROM h ORDER BY p(price);"
expect 'plans' 0 '' '' -- plain s.sql
script "${base}SELECT x FROM t ORDER BY p(x) LIMIT 1; SELECT x.name FROM h x, h y ORDER BY near(x.city, y.price) + near(y.price, -50);"
expect 'a bad score behind a query' 7 $'1,10,10\n' $'score: near rows 2: -40 is not in 0..100\n' -- plain s.sql
script "${base}CREATE PREDICATE less (a INT, b INT) MAX 99 AS a - b; SELECT y.name FROM h x, t z, h y ORDER BY less(y.price, x.price);"
expect 'a bad score of two tables' 7 '' $'score: less rows 2 1: -50 is not in 0..99\n' -- plain s.sql
front="${base}SELECT DISTINCT name FROM h ORDER BY "
script "${front}near(price, 1);"
refused 'a column that DISTINCT drops' "bind DistinctNeedsOutput at ${#front}"
front="${base}SELECT name FROM h WHERE "
script "${front}name = 3 ORDER BY p(city);"
refused 'a text and a number in a query' "bind WrongKind at ${#front}"
front="${base}EXPLAIN SELECT "
script "${front}z FROM h ORDER BY p(city);"
refused 'a column that is not there in a plan' "bind NoColumn at ${#front}"
# Cursors: the rows come in parts, and the ranks go on.
script "${base}DECLARE c CURSOR FOR SELECT x FROM t ORDER BY p(x); FETCH 1 FROM c; SELECT y FROM t ORDER BY p(x) LIMIT 1; FETCH 2 FROM c; FETCH 9 FROM c; CLOSE c;"
expect 'a cursor and a query' 0 $'1,10,10\n1,10,3\n2,8,8\n3,5,5\n4,2,2\n' '' -- plain s.sql
expect 'a cursor and a query by plans' 0 $'1,10,10\n1,10,3\n2,8,8\n3,5,5\n4,2,2\n' '' -- run s.sql 1
script "${base}DECLARE c CURSOR FOR SELECT x FROM t ORDER BY p(x); FETCH 1 FROM c; DECLARE c CURSOR FOR SELECT y FROM t ORDER BY p(x);"
expect 'a cursor whose name is taken' 9 $'1,10,10\n' $'session: NameTaken c\n' -- run s.sql 1
for number in $(seq 65); do echo "DECLARE c$number CURSOR FOR SELECT x FROM t ORDER BY p(x);"; done >many.sql
script "$base"
cat many.sql >>s.sql
expect 'a cursor more than may be open' 9 '' $'session: Full c65\n' -- run s.sql 1
script "${base}DECLARE c CURSOR FOR SELECT DISTINCT city FROM h ORDER BY p(city); FETCH 1 FROM c; FETCH 9 FROM c;"
expect 'a cursor over DISTINCT' 0 $'1,2,2\n2,1,1\n' '' -- run s.sql 1
script "${base}DECLARE c CURSOR FOR SELECT x FROM t ORDER BY p(x); FETCH 1 FROM c; CREATE TABLE n (x INT) FROM 'nope.csv'; FETCH 1 FROM c;"
expect 'a missing table between two FETCHes' 3 $'1,10,10\n' $'read: nope.csv: missing\n' -- run s.sql 1

# ---- queries by plans
script "${base}SELECT x, y FROM t WHERE y < 9 ORDER BY p(y) + 2 * p(x) LIMIT 1; SELECT x FROM t ORDER BY p(x);"
expect 'two queries by plans' 0 $'1,23,10,3\n1,10,10\n2,8,8\n3,5,5\n4,2,2\n' '' -- run s.sql 0
expect 'the greatest seed' 0 $'1,23,10,3\n1,10,10\n2,8,8\n3,5,5\n4,2,2\n' '' -- run s.sql 18446744073709551615
(cd "$root" && timeout 60 "$program" run examples/films/best.sql 1 >"$work/said/out" 2>"$work/said/err" </dev/null)
echo $? >"$work/said/status"
text=$(cat "$root/examples/films/best.out" && echo .)
compare 'the films of the example by a plan' 0 "${text%.}" ''
(cd "$root" && timeout 60 "$program" run examples/travel/evening.sql 1 >"$work/said/out" 2>"$work/said/err" </dev/null)
echo $? >"$work/said/status"
text=$(cat "$root/examples/travel/evening.out" && echo .)
compare 'the evenings of the example by a plan' 0 "${text%.}" ''
script "${base}SELECT x.name, y.name FROM h x, h y WHERE x.city = y.city ORDER BY near(x.price, y.price) LIMIT 3;"
expect 'a table that is joined with itself by a plan' 0 $'1,100,a,a\n2,100,b,b\n3,100,c,c\n' '' -- run s.sql 1
# ---- threshold scans
both="${base}CREATE PREDICATE q (v INT) MAX 10 AS v; CREATE RANK INDEX qy ON t (q(y));"
script "${both}SELECT x, y FROM t ORDER BY p(x) + q(y) LIMIT 1; SELECT x, y FROM t ORDER BY p(x) + q(y) LIMIT 2;"
expect 'two queries by threshold scans' 0 $'1,17,8,9\ndepth=2 sorted=4 random=3\n1,17,8,9\n2,13,10,3\ndepth=3 sorted=6 random=4\n' '' -- ta s.sql
script "${both}SELECT x FROM t ORDER BY p(x) + q(y) LIMIT 0; INSERT INTO t VALUES (9, 9); SELECT x FROM t WHERE y > 3 ORDER BY p(x) + q(y) LIMIT 1;"
expect 'a row that joins between two threshold scans' 0 $'depth=0 sorted=0 random=0\n1,18,9\ndepth=2 sorted=4 random=4\n' '' -- ta s.sql
script "${both}SELECT x FROM t ORDER BY q(y) LIMIT 1; SELECT x FROM t ORDER BY near(x, y);"
expect 'a query without an index for a threshold scan' 5 $'1,10,2\ndepth=1 sorted=1 random=0\n' $'script: ta NotEligible statement 9\n' -- ta s.sql
script "${both}EXPLAIN SELECT z FROM t ORDER BY p(x);"
expect 'EXPLAIN of a threshold scan' 5 '' $'script: ta NotEligible statement 8\n' -- ta s.sql
front="${both}SELECT DISTINCT "
script "${front}z FROM t ORDER BY p(x);"
expect 'a column that is not there under ta' 5 '' "script: bind NoColumn at ${#front}"$'\n' -- ta s.sql
expect 'a seed for ta' 2 '' "$usage"$'\n' -- ta s.sql 1

# ---- kept views
script "${base}DECLARE k CURSOR FOR SELECT x FROM t ORDER BY p(x) + p(y) LIMIT 2; FETCH 5 FROM k; INSERT INTO t VALUES (9, 10), (9, 8); FETCH 5 FROM k;"
expect 'a view that grows' 0 $'1,17,8\n2,13,10\n1,19,9\n2,17,8\n' '' -- view s.sql
script "${base}DECLARE n CURSOR FOR SELECT x.name, y.name FROM h x, h y WHERE x.city = y.city ORDER BY near(x.price, y.price) LIMIT 2; FETCH 5 FROM n; INSERT INTO h VALUES ('d', 40, 1); FETCH 5 FROM n;"
expect 'a new pair before an older one of its score' 0 $'1,100,a,a\n2,100,b,b\n1,100,a,a\n2,100,a,d\n' '' -- view s.sql
script "${base}EXPLAIN SELECT x FROM t ORDER BY p(x);"
expect 'EXPLAIN of a view' 5 '' $'script: view NotEligible statement 6\n' -- view s.sql
front="${base}DECLARE k CURSOR FOR SELECT DISTINCT "
script "${front}z FROM t ORDER BY p(x);"
expect 'a column that is not there under view' 5 '' "script: bind NoColumn at ${#front}"$'\n' -- view s.sql
script "${front}x FROM t ORDER BY p(x);"
expect 'a view with DISTINCT' 5 '' $'script: view NotEligible statement 6\n' -- view s.sql
script "${base}DECLARE k CURSOR FOR SELECT x FROM t ORDER BY p(x); CLOSE k; FETCH 1 FROM k;"
expect 'a view that was closed' 9 '' $'session: Unknown k\n' -- view s.sql
expect 'a seed for view' 2 '' "$usage"$'\n' -- view s.sql 1

# ---- two ranked feeds
printf 'key,score\na,9\nb,8\na,7\nc,5\nb,1\n' >fl.csv
printf 'key,score\nb,9\na,6\nc,6\na,2\nd,1\n' >fr.csv
printf 'key,score\nb,9\na,6\nc,7\n' >fr2.csv
expect 'the first pair of two feeds' 0 $'1,17,b,8,9\nleft=2 right=2\n' '' -- feed fl.csv fr.csv 1
expect 'two pairs of two feeds' 0 $'1,17,b,8,9\n2,15,a,9,6\nleft=4 right=2\n' '' -- feed fl.csv fr.csv 2
expect 'all pairs of two feeds' 0 $'1,17,b,8,9\n2,15,a,9,6\n3,13,a,7,6\n4,11,a,9,2\n5,11,c,5,6\n6,10,b,1,9\n7,9,a,7,2\nleft=6 right=6\n' '' -- feed fl.csv fr.csv 9
expect 'no pair is asked for' 0 $'left=0 right=0\n' '' -- feed fl.csv fr.csv 0
expect 'a row out of order behind those that are drawn' 0 $'1,17,b,8,9\n2,15,a,9,6\nleft=4 right=2\n' '' -- feed fl.csv fr2.csv 2
expect 'a row out of order behind two pairs' 6 $'1,17,b,8,9\n2,15,a,9,6\n' $'table: fr2.csv: OutOfOrder row 3 before 6 got 7\n' -- feed fl.csv fr2.csv 9
printf 'key,score\na,4294967296\n' >high.csv
expect 'a left score that is too great, before the right file is opened' 7 '' $'score: score rows 1: 4294967296 is not in 0..4294967295\n' -- feed high.csv nope.csv 1
expect 'a right file that is not there' 3 '' $'read: nope.csv: missing\n' -- feed fl.csv nope.csv 0
expect 'a feed with another header' 6 '' $'table: h.csv: HeaderDiffers column 1\n' -- feed fl.csv h.csv 1
expect 'a feed joined with itself' 0 $'1,18,a,9,9\nleft=1 right=1\n' '' -- feed fl.csv fl.csv 1
expect 'a K beyond 1,000,000' 2 '' "$usage"$'\n' -- feed fl.csv fr.csv 1000001
(cd "$root" && timeout 60 "$program" feed examples/feeds/restaurants.csv examples/feeds/hotels.csv 5 >"$work/said/out" 2>"$work/said/err" </dev/null)
echo $? >"$work/said/status"
text=$(cat "$root/examples/feeds/best.out" && echo .)
compare 'the guides of the example' 0 "${text%.}" ''

# ---- certificates
printf 'cert,1,1\nleft,9,a\nleft,8,b\nright,9,b\nright,6,a\npair,2,1\n' >c.csv
expect 'the certificate of the first pair' 0 $'cert,1,1\nleft,9,a\nleft,8,b\nright,9,b\nright,6,a\npair,2,1\n' '' -- cert fl.csv fr.csv 1
expect 'a certificate that proves its answer' 0 $'yes\n' '' -- check c.csv
grep -v 'right,6,a' c.csv >c2.csv
expect 'a right row that could still come' 0 $'no Right\n' '' -- check c2.csv
sed 's/pair,2,1/pair,1,1/' c.csv >c3.csv
expect 'a pair of rows with other texts' 0 $'no Pairs\n' '' -- check c3.csv
sed 's/right,6,a/right,10,a/' c.csv >c4.csv
expect 'a score that rises' 0 $'no Order side 2 row 2\n' '' -- check c4.csv
printf 'left,9,a\n' >c5.csv
expect 'a file that is no certificate' 6 '' $'table: c5.csv: CertForm record 1\n' -- check c5.csv
expect 'a certificate of a feed out of order' 6 '' $'table: fr2.csv: OutOfOrder row 3 before 6 got 7\n' -- cert fl.csv fr2.csv 9
expect 'a certificate without its file' 3 '' $'read: nope.csv: missing\n' -- check nope.csv
expect 'check with a number' 2 '' "$usage"$'\n' -- check c.csv 1
(cd "$root" && timeout 60 "$program" cert examples/feeds/restaurants.csv examples/feeds/hotels.csv 5 >"$work/said/out" 2>"$work/said/err" </dev/null)
echo $? >"$work/said/status"
text=$(cat "$root/examples/feeds/best.cert" && echo .)
compare 'the certificate of the example' 0 "${text%.}" ''
for of in best:yes 'changed:no Right'; do
    (cd "$root" && timeout 60 "$program" check "examples/feeds/${of%%:*}.cert" >"$work/said/out" 2>"$work/said/err" </dev/null)
    echo $? >"$work/said/status"
    compare "the check of ${of%%:*}.cert" 0 "${of#*:}"$'\n' ''
done

# The index of the example calls its predicate for each of the 5,000 films. examples/films/README.md counts the other calls. Those under
# `run` are also what checks/model/runs.py tells.
# count NAME WANTED WORD..
count() {
    (cd "$root" && timeout 60 "$counter" "${@:3}" >/dev/null 2>"$work/said/err" </dev/null)
    echo $? >"$work/said/status"
    : >"$work/said/out"
    compare "$1" 0 '' "calls $2"$'\n'
}
counter=$root/crates/count_calls/out/count_calls
if [ -x "$counter" ]; then
    sed 's/^LIMIT 10;/LIMIT 1;/' "$root/examples/films/best.sql" >one.sql
    count 'the calls of the films, plainly' 8680 plain examples/films/best.sql
    count 'the calls of the films by a plan' 5576 run examples/films/best.sql 1
    count 'the calls of the first film by a plan' 5534 run "$work/in/one.sql" 1
    # README.md says these: of each query 3,680 plainly; by a plan 31 behind the 512 of a sample, and there EXPLAIN ANALYZE makes as many again.
    count 'the calls of the first example of README.md, plainly' 8680 plain examples/calls.sql
    count 'the calls of the first example of README.md by a plan' 6086 run examples/calls.sql 1
    count 'the calls of a small table, plainly' 46 plain examples/first.sql
    count 'the calls of a small table by a plan' 122 run examples/first.sql 1
    # 83 calls make the indexes. 1,260 combinations satisfy the condition, and plainly each has three calls.
    count 'the calls of the evenings, plainly' 3863 plain examples/travel/evening.sql
    count 'the calls of the evenings by a plan' 1092 run examples/travel/evening.sql 1
    count 'the same with another seed' 828 run examples/travel/evening.sql 2
    # 10,000 calls make the indexes, and the samples take 1,024. The plan before the index of the second predicate has 3,071, and that
    # behind it 64.
    count 'the calls of the films before and behind an index' 14159 run examples/films/tops.sql 1
    count 'the calls of the smallest generated input' 12 gen 0 1
fi
printf 'x,y\n10,10\n8,99\n' >far.csv
far="CREATE TABLE t (x INT, y INT) FROM 'far.csv'; CREATE PREDICATE p (v INT) MAX 10 AS v; SELECT x, y FROM t ORDER BY p(x) + p(y)"
script "$far;"
expect 'a bad score behind the first row of a plan' 7 $'1,20,10,10\n' $'score: p rows 2: 99 is not in 0..10\n' -- run s.sql 1
expect 'the same bad score before any row' 7 '' $'score: p rows 2: 99 is not in 0..10\n' -- plain s.sql
script "$far LIMIT 1;"
expect 'a bad score of a row that is not needed' 0 $'1,20,10,10\n' '' -- run s.sql 1
script "${base}SELECT DISTINCT city, x FROM h, t ORDER BY p(x) LIMIT 3; SELECT DISTINCT city FROM h ORDER BY p(city);"
expect 'DISTINCT by plans' 0 $'1,10,1,10\n2,10,2,10\n3,8,1,8\n1,2,2\n2,1,1\n' '' -- run s.sql 1
script "${base}SELECT city FROM h UNION SELECT y FROM t ORDER BY p(city); SELECT x FROM t EXCEPT SELECT city FROM h ORDER BY p(x);"
expect 'set operators by plans' 0 $'1,10,10\n2,9,9\n3,3,3\n4,2,2\n5,1,1\n1,10,10\n2,8,8\n3,5,5\n' '' -- run s.sql 1
script "${base}EXPLAIN ANALYZE SELECT x FROM t INTERSECT SELECT y FROM t ORDER BY p(x);"
expect 'the plan of a set operator, and what it did' 0 $'Rank term 1 est=8 cost=24 asked=2 gave=1 calls=1\n  Intersect est=8 cost=16 asked=2 gave=1\n    SeqScan t t est=4 cost=4 asked=5 gave=4 drawn=4\n    SeqScan t t est=4 cost=4 asked=5 gave=4 drawn=4\n' '' -- run s.sql 1
front="${base}EXPLAIN ANALYZE SELECT DISTINCT "
script "${front}nope FROM t ORDER BY p(x);"
expect 'a column that is not there in a plan of DISTINCT' 5 '' "script: bind NoColumn at ${#front}"$'\n' -- run s.sql 1
script "${base}EXPLAIN SELECT x.name, y.name FROM h x, h y WHERE x.city = y.city ORDER BY near(x.price, y.price) LIMIT 3;"
expect 'the plan of a query' 0 $'Rank term 1 est=3 cost=25\n  NestedRankJoin est=5 cost=20\n    SeqScan h x est=3 cost=3\n    SeqScan h y est=3 cost=3\n' '' -- run s.sql 1
script "${base}EXPLAIN ANALYZE SELECT x.name, y.name FROM h x, h y WHERE x.city = y.city ORDER BY near(x.price, y.price) LIMIT 3;"
expect 'the plan of a query, and what it did' 0 $'Rank term 1 est=3 cost=25 asked=3 gave=3 calls=5\n  NestedRankJoin est=5 cost=20 asked=5 gave=5\n    SeqScan h x est=3 cost=3 asked=4 gave=3 drawn=3\n    SeqScan h y est=3 cost=3 asked=4 gave=3 drawn=3\n' '' -- run s.sql 1
script "$far LIMIT 1; EXPLAIN ANALYZE ${far##*; };"
expect 'a bad score of a plan that is analyzed' 7 $'1,20,10,10\n' $'score: p rows 2: 99 is not in 0..10\n' -- run s.sql 1
front="${base}SELECT "
script "${front}z FROM h ORDER BY p(city);"
expect 'a column that is not there' 5 '' "script: bind NoColumn at ${#front}"$'\n' -- run s.sql 1
expect 'a missing script of plans' 3 '' $'read: nope.sql: missing\n' -- run nope.sql 00000000000000000007

# One table under six names, of which 10^9 plans and more are valid; and two of the greatest tables, whose product isn't looked at.
printf 'v\n1\n' >o.csv
front="CREATE TABLE o (v INT) FROM 'o.csv'; CREATE PREDICATE p (v INT) MAX 10 AS v;"
script "$front SELECT a.v FROM o a, o b, o c, o d, o e, o f ORDER BY p(a.v) + p(b.v) + p(c.v) + p(d.v) + p(e.v) + p(f.v) + p(a.v) + p(b.v);"
expect 'six entries and eight terms' 0 $'1,8,1\n' '' -- run s.sql 1
awk 'BEGIN { print "v"; for (row = 1; row <= 131072; row++) print 1 }' >o.csv
script "$front CREATE RANK INDEX oi ON o (p(v)); EXPLAIN ANALYZE SELECT a.v FROM o a, o b ORDER BY p(a.v) + p(b.v) LIMIT 1;"
expect 'the plan of the product of two of the greatest tables, and what it did' 0 $'NestedRankJoin est=17179869184 cost=34360262656 asked=1 gave=1\n  RankScan o a term 1 est=131072 cost=262144 asked=1 gave=1 drawn=1\n  RankScan o b term 2 est=131072 cost=262144 asked=1 gave=1 drawn=1\n' '' -- run s.sql 1

# ---- generated tables
# The files of these names are not looked at.
printf 'no table\n' | tee hotel.csv restaurant.csv museum.csv gen.sql >/dev/null
text='1,360,h1,r1,m1
Rank term 2 est=1 cost=59 asked=2 gave=1 calls=1
  Rank term 3 est=1 cost=58 asked=2 gave=1 calls=1
    NestedRankJoin est=1 cost=8 asked=2 gave=1
      RankScan hotel h term 1 est=1 cost=2 asked=2 gave=1 drawn=1
      NestedRankJoin est=1 cost=4 asked=2 gave=1
        SeqScan restaurant r est=1 cost=1 asked=2 gave=1 drawn=1
        SeqScan museum m est=1 cost=1 asked=2 gave=1 drawn=1
'
expect 'generated tables of one row, and the plan' 0 "$text" '' -- gen 0 1
expect 'the same by numbers of 20 digits' 0 "$text" '' -- gen 00000000000000000000 00000000000000000001
# What is wanted was worked out by another program, checks/model/runs.py.
text=$(cat "$root/checks/gate/gen_7_600.out" && echo .)
expect 'generated tables of 600 rows, and the plan' 0 "${text%.}" '' -- gen 7 600
timeout 60 "$program" gen 7 600 >/dev/full 2>"$work/said/err"
echo $? >"$work/said/status"
: >"$work/said/out"
compare 'a full device under generated tables' 4 '' $'write\n'
if command -v python3 >/dev/null 2>&1; then
    mkdir generated
    python3 "$root/checks/model/generated.py" 7 600 generated
    (cd generated && timeout 60 "$program" plain gen.sql >"$work/said/out" 2>"$work/said/err" </dev/null)
    echo $? >"$work/said/status"
    compare 'the same tables from files, plainly' 0 "$(head -n 10 "$root/checks/gate/gen_7_600.out")"$'\n' ''
    (cd generated && timeout 60 "$program" run gen.sql 7 >"$work/said/out" 2>"$work/said/err" </dev/null)
    echo $? >"$work/said/status"
    compare 'the same tables from files, by a plan' 0 "${text%.}" ''
fi
rm hotel.csv restaurant.csv museum.csv gen.sql

# ---- the words of the command line
expect 'no words' 2 '' "$usage"$'\n' --
for words in --help -h top TOP plain 'plain s.sql s.sql' 'PLAIN s.sql' run 'run s.sql' 'run s.sql 1 2' 'RUN s.sql 1' 'run s.sql x' \
    'run s.sql -1' 'run s.sql 18446744073709551616' 'run s.sql 000000000000000000001' gen 'gen 1' 'gen 1 1 1' 'gen 4294967296 1' 'gen 1 0' \
    'gen 1 2001' 'gen x 1' 'gen 1 -1' 'GEN 1 1' 'gen 000000000000000000001 1' 'gen 1 000000000000000000001' 'top h.csv' 'top h.csv price 100' 'top h.csv price 100 2 3' 'TOP h.csv price 100 2' \
    'top h.csv price 0 2' 'top h.csv price 4294967296 2' 'top h.csv price 100 1000001' 'top h.csv price x 2' \
    'top h.csv price 100 x' 'top h.csv price -1 2' 'top h.csv price +100 2' 'top h.csv price 100 2.0' \
    'top h.csv price 000000000000000000100 2' 'top h.csv price 100 000000000000000000002' \
    'top h.csv price 18446744073709551716 2'; do
    # shellcheck disable=SC2086
    expect "the words '$words'" 2 '' "$usage"$'\n' -- $words
done
expect 'an empty number' 2 '' "$usage"$'\n' -- top h.csv price '' 2
expect 'numbers of 20 digits' 0 $'1,90,b,90,1\n' '' -- top h.csv price 00000000000000000100 00000000000000000001
expect 'a word that is not UTF-8' 2 '' "$usage"$'\n' -- top h.csv $'pr\xffce' 100 2
expect 'a file name that is not UTF-8' 2 '' "$usage"$'\n' -- top $'h\xff.csv' price 100 2
expect 'a word too many, which is not UTF-8' 2 '' "$usage"$'\n' -- plain s.sql $'\xff'

# ---- the streams
file_of_rows 100000
timeout 60 "$program" top f.csv number 1000 1000000 2>"$work/said/err" | head -n 1 >"$work/said/out"
status=${PIPESTATUS[0]}
case $status in 0 | 4) echo fine ;; *) echo "$status" ;; esac >"$work/said/status"
[ "$status" = 4 ] && error=$'write\n' || error=''
compare 'a reader that leaves after a line' fine $'1,999,999,r999\n' "$error"
timeout 60 "$program" top f.csv number 1000 1000000 >/dev/full 2>"$work/said/err"
echo $? >"$work/said/status"
: >"$work/said/out"
compare 'a full device' 4 '' $'write\n'
timeout 60 "$program" top f.csv number 1000 0 >/dev/full 2>"$work/said/err"
echo $? >"$work/said/status"
compare 'a full device, and nothing to write' 0 '' ''
timeout 60 "$program" top h.csv price 100 2 >&- 2>"$work/said/err"
echo $? >"$work/said/status"
compare 'standard output is closed' 4 '' $'write\n'
script "${base}SELECT x FROM t ORDER BY p(x);"
timeout 60 "$program" plain s.sql >/dev/full 2>"$work/said/err"
echo $? >"$work/said/status"
: >"$work/said/out"
compare 'a full device under a query' 4 '' $'write\n'
timeout 60 "$program" run s.sql 1 >/dev/full 2>"$work/said/err"
echo $? >"$work/said/status"
compare 'a full device under a query by a plan' 4 '' $'write\n'
script "${base}DECLARE c CURSOR FOR SELECT x FROM t ORDER BY p(x); FETCH 2 FROM c;"
timeout 60 "$program" run s.sql 1 >/dev/full 2>"$work/said/err"
echo $? >"$work/said/status"
: >"$work/said/out"
compare 'a full device under a FETCH' 4 '' $'write\n'
script "CREATE TABLE f (number INT, name TEXT) FROM 'f.csv'; CREATE PREDICATE n (v INT) MAX 999 AS v; DECLARE c CURSOR FOR SELECT name FROM f ORDER BY n(number); FETCH 1 FROM c; FETCH 100000 FROM c;"
timeout 60 "$program" run s.sql 1 2>"$work/said/err" | head -n 1 >"$work/said/out"
status=${PIPESTATUS[0]}
case $status in 0 | 4) echo fine ;; *) echo "$status" ;; esac >"$work/said/status"
[ "$status" = 4 ] && error=$'write\n' || error=''
compare 'a reader that leaves after the first FETCH' fine $'1,999,r999\n' "$error"
: >"$work/said/out"
timeout 60 "$program" top nope.csv price 100 2 >"$work/said/out" 2>&-
echo $? >"$work/said/status"
: >"$work/said/err"
compare 'standard error is closed' 3 '' ''
timeout 60 "$program" top nope.csv price 100 2 >"$work/said/out" 2>/dev/full
echo $? >"$work/said/status"
compare 'standard error is full' 3 '' ''
timeout 60 "$program" top h.csv price 100 1 >"$work/said/out" 2>"$work/said/err" <&-
echo $? >"$work/said/status"
compare 'standard input is closed' 0 $'1,90,b,90,1\n' ''

# ---- memory: a file of 26 MB where the program has 20 MB
awk 'BEGIN { print "number,name"; for (row = 1; row <= 131072; row++) printf "%d,%0193d\n", row % 1000, row }' >f.csv
(
    ulimit -v 20000
    exec timeout 60 "$program" top f.csv number 1000 5
) >"$work/said/out" 2>"$work/said/err"
echo $? >"$work/said/status"
compare 'too little memory for the table' 1 '' $'memory\n'

# ---- the script at the top
if [ "$program" = "$built" ]; then
    ln -s "$root/ranksql" "$work/link"
    mkdir "$work/bin"
    ln -s ../link "$work/bin/hotels"
    program=$root/ranksql
    expect 'the script, in the folder of the caller' 0 $'1,90,b,90,1\n' '' -- top h.csv price 100 1
    expect 'the script, with the status of the program' 7 '' $'score: price rows 1: 40 is not in 0..1\n' -- top h.csv price 1 1
    expect 'the script, with words as they are' 3 '' $'read: a  b*: missing\n' -- top 'a  b*' '' 1 1
    program=$work/bin/hotels
    expect 'the script through symbolic links' 0 $'1,90,b,90,1\n' '' -- top h.csv price 100 1
    cd "$root" && program=./ranksql
    expect 'the script in its own folder' 0 $'1,400,Castello di Montalto,Florence,400,97\n' '' -- top examples/hotels.csv price 400 1
fi

if [ "$failures" -gt 0 ]; then
    echo "$failures cases failed"
    exit 1
fi
echo "every case passed"
