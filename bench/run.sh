#!/usr/bin/env bash
# Measures `solve` and `prove` over the queries of rows.py, beside the same elimination and walk in plain C (peer.c).
#   RUNS   how many runs of each, of which the least counts; 7 if not set
#   PEER   a further program that reads the same text and prints `steps N` and `walk us N`
set -eu
here=$(cd "$(dirname "$0")" && pwd)
folder=$here/../crates/bench_rows
ours=$folder/out/bench_rows
runs=${RUNS:-7}
work=$(mktemp -d)
trap 'rm -rf "$work"' EXIT

# our program; building it proves it and all that it stands on
[ -x "$ours" ] || (cd "$folder" && rt run < stdin > "$work/build.log" 2>&1) || true
[ -x "$ours" ] || { tail -n 20 "$work/build.log" >&2; exit 1; }

# the user time of our program over a file, with that many rounds of solving or, with the word `walk`, of walks, in ms
user_ms() {
    local one TIMEFORMAT=%3U
    one=$( { time "$ours" "${@:2}" < "$1" > /dev/null; } 2>&1 | tr -d .)
    echo $((10#$one))
}

# the least of what a command prints in some runs
least() { for _ in $(seq "$runs"); do "$@"; done | sort -n | head -n 1; }

# the microseconds of one round over a file: the slope from one round to many
ours_us() {
    local one many
    one=$(least user_ms "$1" 1 "${@:3}")
    many=$(least user_ms "$1" $(($2 + 1)) "${@:3}")
    echo $(((many - one) * 1000 / $2))
}

walk_us() { "$2" 1 "${@:3}" < "$1" 2> /dev/null | sed -n 's/^walk us //p'; }

# a line for a peer, with our time beside it; nothing where the peer does not take the file
beside() {
    local steps
    steps=$("$3" 1 "${@:4}" < "$1" 2> /dev/null | sed -n 's/^steps //p') || return 0
    [ -n "$steps" ] || return 0
    least walk_us "$1" "${@:3}" | awk -v ours="$2" -v steps="$steps" -v name="$(basename "$3")" '{
        printf "  %-8s %8d us, %6d steps; ours %.1f times\n", name, $1, steps, ours / $1
        if (steps > 0) printf "           %.3f us a step; ours %.3f us a step\n", $1 / steps, ours / steps }'
}

measure() {
    local size=$1 variables=$2 rounds=$3 file=$work/$1 us
    shift 3
    python3 "$here/rows.py" "$size" > "$file"
    gcc -O2 -DVARIABLES="$variables" -o "$work/peer" "$here/peer.c"
    us=$(ours_us "$file" "$rounds" "$@")
    echo "$size: $("$ours" 1 "$@" < "$file" | paste -sd ' ')"
    echo "  ours     $us us"
    beside "$file" "$us" "$work/peer" "$@"
    [ -z "${PEER:-}" ] || beside "$file" "$us" "$PEER" "$@"
}

measure small 3 50
measure middle 20 20
measure large 190 3
measure halves 2 10 walk
measure cases 1 50 walk
