#!/bin/bash
# Measures `places try` beside the sqlite3 shell on the same visits, and fails only where their replies differ
# or a program fails. The program is the proved one, built first where it is missing or old, or the one named:
#     bench/visits.sh [PROGRAM]
fail() {
    printf '%s\n' "visits.sh: $1" >&2
    exit 1
}

bench=$(CDPATH='' cd -- "$(dirname -- "$0")" && pwd -P) || fail 'the folder of the benchmark was not found'
home=$(dirname -- "$bench")
work=$(mktemp -d) || fail 'no folder to work in could be made'
trap 'rm -rf -- "$work"' EXIT
trap 'exit 1' HUP INT TERM

# How often each measurement is taken; the run of the least wall time is shown.
runs=3

install_tools() {
    command -v sqlite3 >/dev/null 2>&1 && [ -x /usr/bin/time ] && return
    { apt-get update && apt-get install -y sqlite3 time; } >&2 || fail 'sqlite3 and time were not installed'
}

build_places() {
    "$home/places" try </dev/null || fail 'places was not built'
}

# ---- the inputs

visits() {
    python3 "$bench/script.py" "$1" "$2"
}

# A visit that counts, and then ten that add nothing: the frecency ends at -1.
worn_page() {
    awk 'BEGIN { for (i = 0; i <= 10; i++) printf "visit\thttps://worn.example/\t%d\t%d\n", i ? 9 : 1, i }'
}

# The statements of each line as text, in one transaction.
parsed_sql() {
    cat "$bench/schema.sql"
    echo 'BEGIN;'
    python3 "$bench/statements.py" "$bench/line.sql" "$1"
    echo 'COMMIT;'
    cat "$bench/answers.sql"
}

# The statements as a trigger, which the shell prepares once and runs for each line that it imports.
prepared_sql() {
    cat "$bench/schema.sql"
    echo 'CREATE VIEW script (command, url, visit_type, visit_date) AS SELECT NULL, NULL, NULL, NULL;'
    echo 'CREATE TRIGGER line INSTEAD OF INSERT ON script BEGIN'
    cat "$bench/line.sql"
    printf 'END;\n.mode tabs\n.import "%s" script\n' "$1"
    cat "$bench/answers.sql"
}

make_sql() {
    parsed_sql "$work/script" >"$work/parsed.sql" || fail 'the statements were not written'
    prepared_sql "$work/script" >"$work/prepared.sql" || fail 'the trigger was not written'
}

# ---- the runs

# Runs a command on an input, and adds a line to its times: seconds of wall and user time, and KiB of peak memory.
run_once() {
    local name=$1 input=$2 TIMEFORMAT='%3R %3U'
    shift 2
    { time /usr/bin/time -f '%M' -o "$work/peak" "$@" <"$input" >"$work/$name.out" 2>&3; } 3>&2 2>"$work/time" \
        || fail "$name failed"
    echo "$(cat "$work/time") $(cat "$work/peak")" >>"$work/$name.times"
}

run_sqlite() {
    run_once "$1" "$work/$1.sql" sqlite3 -batch -bail -init /dev/null :memory:
}

run_both() {
    run_once places "$work/script" "$program" try
    run_sqlite prepared
    same prepared
}

run_each() {
    run_both
    run_sqlite parsed
    same parsed
}

# The replies of both stand line by line the same: the visit, its page, and the page's frecency.
same() {
    cmp -s "$work/places.out" "$work/$1.out" && return
    diff "$work/places.out" "$work/$1.out" | head -n 6 >&2
    fail "the replies of places and of sqlite3 ($1) differ"
}

# ---- what is printed

row() {
    sort -n "$work/$1.times" | head -n 1 | awk -v name="$2" -v lines="$lines" -v pages="$pages" '{
        printf "%-26s %6d %6d %8.3f %8.3f %9.1f %13.0f\n", name, lines, pages, $1, $2, $3 / 1024, $1 / lines * 1000000
    }'
}

row_behind() {
    sort -n "$work/$1.times" | head -n 1 | cat - "$work/$1.before" | awk -v name="$2" -v lines="$lines" -v pages="$pages" '
        NR == 1 { wall = $1; user = $2; peak = $3 }
        NR == 2 { printf "%-26s %6d %6d %8.3f %8.3f %9.1f %13.0f\n", name, lines, pages, wall - $1, user - $2, peak / 1024,
            (wall - $1) / lines * 1000000 }'
}

measure() {
    lines=$1 pages=$2
    visits "$lines" "$pages" >"$work/script" || fail 'the script was not written'
    make_sql
    rm -f -- "$work"/*.times
    for _ in $(seq "$runs"); do
        run_each
    done
    row places 'places try'
    row parsed 'sqlite3, text of each line'
    row prepared 'sqlite3, prepared once'
}

# The same lines behind a visit to each of so many pages. The lines before them are run alone too, and what these take
# is taken off.
measure_on() {
    lines=$1 pages=$2
    visits "$3" "$3" >"$work/before" || fail 'the script was not written'
    cp -- "$work/before" "$work/script"
    make_sql
    rm -f -- "$work"/*.times
    for _ in $(seq "$runs"); do
        run_both
    done
    for name in places prepared; do
        sort -n "$work/$name.times" | head -n 1 >"$work/$name.before"
    done
    visits "$lines" "$pages" | cat "$work/before" - >"$work/script" || fail 'the script was not written'
    make_sql
    rm -f -- "$work"/*.times
    for _ in $(seq "$runs"); do
        run_both
    done
    row_behind places "places try, on $3 pages"
    row_behind prepared "prepared once, on $3"
}

# A small script with fifty visits to each page, of which a sample leaves most out.
check() {
    { visits 400 8 && worn_page; } >"$work/script" || fail 'the script was not written'
    make_sql
    run_each
    echo 'replies agree: 411 lines to 9 pages'
}

machine() {
    printf 'processors: %s, %s\n' "$(nproc)" "$(sed -n 's/^model name[^:]*: //p' /proc/cpuinfo | head -n 1)"
    printf 'memory: %s MiB\n' "$(awk '/^MemTotal/ { printf "%d", $2 / 1024 }' /proc/meminfo)"
    printf 'load: %s\n' "$(cut -d ' ' -f 1-3 /proc/loadavg)"
    printf 'kit: %s\n' "$(rt version 2>/dev/null || echo none)"
    printf 'sqlite3: %s\n' "$(sqlite3 --version | cut -d ' ' -f 1)"
}

install_tools
if [ $# -gt 0 ]; then
    program=$1
else
    build_places
    program=$home/out/places
fi
machine
check
printf '%-26s %6s %6s %8s %8s %9s %13s\n' '' lines pages 'wall, s' 'user, s' 'peak, MiB' 'wall/line, us'
measure 5000 500
measure 10000 1000
measure 20000 2000
measure_on 20000 2000 100000
echo 'replies agree at each size'
