#!/bin/sh
# Prints what is asked of each figure of speed beside what is had, in one table. Usage: bench/goals.sh CRATE [ROUNDS]
# CRATE is the folder of quick_cache 0.7.0, with its Cargo.toml. ROUNDS is how often both caches take turns, 7 if left out.
# A figure is the median of the rounds' ratios to the crate, or bytes, or instructions of the proved cache alone. It wants a
# machine with nothing else running.
set -e
here=$(cd "$(dirname "$0")" && pwd)
crate=$(cd "$1" && pwd)
rounds=${2:-7}
had=$(mktemp)
trap 'rm -f "$had"' EXIT

# A line for each figure: its name, and the figure behind the last bar.
{
    "$here/unsync/run.sh" "$crate" "$rounds" |
        awk -F ' *[|] *' 'NF == 7 && $3 ~ /^[0-9]/ { print $2 ", " $3 "|" $6 } NF == 4 && $2 ~ /^[0-9]/ { print "bytes an entry, " $2 "|" $3 }'
    OPERATIONS=${OPERATIONS:-200000} ROUNDS=10 "$here/threads/run.sh" "$crate" "$rounds" |
        awk -F ' *[|] *' '$4 ~ /^[0-9]/ { print "shared " $2 ", " $3 ", threads: " $4 "|" $7 }'
    "$here/threads/loads.sh" 15 | awk -F ' *[|] *' '$2 ~ /^ReadThrough/ { print "`" $2 "` beside `get`|" $5 }'
    COUNT=1 "$here/unsync/run.sh" "$crate" | awk -F ' *[|] *' '$3 ~ /^[0-9]/ { print "instructions, " $2 "|" $3 }'
} > "$had"

# What is asked at most of each.
awk -F '|' '
    NR == FNR { figures[$1] = $2; next }
    FNR == 1 { print "| What | Asked | Had |\n|---|---|---|" }
    {
        if (!($2 in figures)) { print "no figure: " $2; missing = 1; next }
        is_over = figures[$2] + 0 > $1 + 0
        over += is_over
        printf "| %s | %s | %s%s |\n", $2, $1, figures[$2], (is_over ? ", more" : "")
    }
    END { printf "\n%d of %d are more than asked.\n", over, FNR; exit missing }' "$had" - <<'END'
1.05|hits by `get`, 1000
1.05|hits by `get`, 10000
0.95|hits by `get`, 100000
0.85|hits by a load, 1000
0.85|hits by a load, 10000
0.85|hits by a load, 100000
0.88|fresh keys by `get` and `insert`, 1000
0.88|fresh keys by `get` and `insert`, 10000
0.95|fresh keys by `get` and `insert`, 100000
1.2|the same, with growth, 100000
0.9|fresh keys by a load, 1000
0.9|fresh keys by a load, 10000
0.9|fresh keys by a load, 100000
1.15|a third ghosts by `get` and `insert`, 10000
1.05|removal and insert, 1000
1.05|removal and insert, 10000
1.2|removal and insert, 100000
80|bytes an entry, 1000
80|bytes an entry, 10000
80|bytes an entry, 100000
80|bytes an entry, 1000000
3.2|hits by `run`, 10000
1.1|fresh keys by `run`, 10000
1.2|shared get, 16384, threads: 1
1.2|shared get, 16384, threads: 4
1.2|shared get, 262144, threads: 1
1.2|shared get, 262144, threads: 4
1.4|shared insert, 16384, threads: 1
1.4|shared insert, 16384, threads: 4
1.25|`ReadThrough::get` beside `get`
400|instructions, fresh keys by `get` and `insert`
390|instructions, removal and insert
60|instructions, hits by `get`
END
