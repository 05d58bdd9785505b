#!/usr/bin/env bash
# Measures what a pair of calls costs, and a call on a shared map or atomic: here, in Go and in Rust's std, in turns. Prints
# two tables in Markdown, in nanoseconds. It takes some three minutes once the program is proved and built, on a machine that
# should do nothing else meanwhile.
#
# It needs rt; go, 1.24 or later for a sync.Map that is a hash trie, with golang.org/x/sync below GOPATH (Debian's
# golang-golang-x-sync-dev has it below /usr/share/gocode); and rustc. OTHER=PROGRAM adds a column of another build of
# the measuring program, for what it takes on words.
set -euo pipefail

TURNS=${TURNS:-7}
ROUNDS=100000        # pairs of each thread here
JOINED_ROUNDS=5000   # where a flight's work takes microseconds
NATIVE_ROUNDS=500000 # and in Go and Rust, whose pairs are shorter; half as many calls on a map
STORES=50000         # stores and deletes of all threads together on a map on words: each takes 2 KB while the map is made
CYCLES=16384         # rounds of each thread where 4,096 keys are stored and deleted: twice
HOWS='one two-own four-own two-shared four-shared eight-shared'

PAIRS='mutex read write group once pool sema sema-one flight flight-joined'
# notes, clock and callers of each column
COLUMNS=('front machine 4' 'front standing 4' 'empty machine 4' 'empty standing 4' 'front machine 64' 'empty standing 64')
PAIR_HEADS='front, clock|front|empty, clock|empty|front, clock, of 64|empty, of 64|Go|Rust'
PAIR_COLUMNS='0 1 2 3 4 5 go rust'

CALLS='load store churn path wide mix add'
CALL_HEADS="plain|words|${OTHER:+other|}Go|RwLock|Mutex|BTreeMap"
CALL_COLUMNS="plain trie ${OTHER:+other} go rwlock mutex btree"

here=$(cd "$(dirname "${BASH_SOURCE[0]}")" && pwd)
crate=$here/../../crates/measure
measure=$crate/out/measure
work=$(mktemp -d)
trap 'rm -rf "$work"' EXIT

build() {
    # Without words the program prints its usage, and ends with status 2.
    (cd "$crate" && rt run) >"$work/build.log" 2>&1 || true
    if ! grep -q 'rt: running out/measure' "$work/build.log"; then
        cat "$work/build.log" >&2
        exit 1
    fi
    (cd "$here" && GO111MODULE=off GOPATH=${GOPATH:-/usr/share/gocode} GOCACHE="$work/cache" \
        go build -o "$work/go" measure.go && rustc -O -o "$work/rust" measure.rs)
}

threads_of() { # HOW
    case $1 in
    one) echo 1 ;;
    two-*) echo 2 ;;
    four-*) echo 4 ;;
    eight-*) echo 8 ;;
    esac
}

pairs_here() {
    local column pair how notes clock callers threads rounds
    for column in "${!COLUMNS[@]}"; do
        read -r notes clock callers <<<"${COLUMNS[$column]}"
        for pair in $PAIRS; do
            for how in $HOWS; do
                threads=$(threads_of "$how")
                rounds=$([ "$pair" = flight-joined ] && echo "$JOINED_ROUNDS" || echo "$ROUNDS")
                echo "$column $pair $how" \
                    "$("$measure" "$pair" "$how" "$notes" "$clock" "$((threads > callers ? threads : callers))" "$rounds")"
            done
        done
    done
}

# The rounds of each of so many threads: as many as the stores and deletes of all of them allow.
rounds_of() { # CALL THREADS
    case $1 in
    load | add) echo "$ROUNDS" ;;
    store | mix) echo $((STORES / $2)) ;;
    churn) echo $((STORES / $2 / 2)) ;;
    path) echo $((STORES / $2 / 4)) ;;
    wide) echo "$CYCLES" ;;
    esac
}

calls_here() { # COLUMN PROGRAM PREFIX
    local call how threads word
    for call in $CALLS; do
        word=$3-$call
        case $word in
        plain-path) continue ;;
        trie-add) word=word-add ;;
        esac
        for how in $HOWS; do
            threads=$(threads_of "$how")
            echo "$1 $call $how $("$2" "$word" "$how" empty standing 8 "$(rounds_of "$call" "$threads")")"
        done
    done
}

# All measurements once, a line each: the column, the pair or the call, its callers, nanoseconds.
turn() {
    "$work/go" "$NATIVE_ROUNDS" | sed 's/^/go /'
    "$work/rust" "$NATIVE_ROUNDS"
    pairs_here
    calls_here plain "$measure" plain
    calls_here trie "$measure" trie
    [ -z "${OTHER:-}" ] || calls_here other "$OTHER" trie
}

# A table of these columns and rows. A cell is the least number of its measurements, or of threads that share an object the
# middle one, where the table asks for it.
table() { # FIRST-HEAD HEADS COLUMNS ROWS best|middle
    sort -k 1,3 -k 4,4n "$work/results" | awk -v first="$1" -v heads="$2" -v columns="$3" -v rows="$4" -v which="$5" -v hows="$HOWS" '
        { key = $1 " " $2 " " $3; count[key]++; at[key, count[key]] = $4 }
        function cell(column, row, how,    key, place) {
            key = column " " row " " how
            if (!(key in count)) return " |"
            place = which == "middle" && how ~ /shared/ ? int((count[key] + 1) / 2) : 1
            return sprintf(" %.*f |", at[key, place] < 10 ? 1 : 0, at[key, place])
        }
        END {
            head_count = split(heads, head, "|"); row_count = split(rows, row); how_count = split(hows, how)
            column_count = split(columns, column)
            line = "| " first " | Threads |"; rule = "|---|---|"
            for (i = 1; i <= head_count; i++) { line = line " " head[i] " |"; rule = rule "---|" }
            print line; print rule
            for (i = 1; i <= row_count; i++)
                for (j = 1; j <= how_count; j++) {
                    line = "| " row[i] " | " how[j] " |"
                    for (k = 1; k <= column_count; k++) line = line cell(column[k], row[i], how[j])
                    print line
                }
        }'
}

build
load=$(cut -d ' ' -f 1 /proc/loadavg)
start=$SECONDS
for _ in $(seq "$TURNS"); do
    turn >>"$work/results"
done
table Pair "$PAIR_HEADS" "$PAIR_COLUMNS" "$PAIRS" best
echo
table Call "$CALL_HEADS" "$CALL_COLUMNS" "$CALLS" middle
echo
echo "$(sed -n 's/^model name.*: //p' /proc/cpuinfo | head -n 1), $(nproc) processors, load $load before;" \
    "$(go version | cut -d ' ' -f 3), $(rustc --version | cut -d ' ' -f 1-2), $(rt version | head -n 1);" \
    "$TURNS turns in $((SECONDS - start)) seconds."
