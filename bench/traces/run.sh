#!/bin/sh
# Makes each trace of docs/HIT-RATIOS.md, its table and its chart. Needs awk, and qcsim as `rt run`
# builds it.
set -eu
cd "$(dirname "$0")"
qcsim=${QCSIM:-../../crates/qcsim/out/qcsim}
charts=${CHARTS:-../../docs/hit-ratios}
capacities='100 200 500 1000 2000 5000 10000'
trace=$(mktemp)
trap 'rm -f "$trace"' EXIT
mkdir -p "$charts"

# NAME, the chart's title, and what trace.awk is told
made() {
  name=$1
  title=$2
  shift 2
  awk -v keys=1000000 -v items=20000 "$@" -f trace.awk > "$trace"
  echo "$name"
  "$qcsim" --file "$trace" $capacities
  "$qcsim" --file "$trace" --svg --title "$title" $capacities > "$charts/$name.svg"
}

made zipf-0.7 "Zipf's law, skew 0.7" -v kind=zipf -v skew=0.7
made zipf-0.9 "Zipf's law, skew 0.9" -v kind=zipf -v skew=0.9
made zipf-1.1 "Zipf's law, skew 1.1" -v kind=zipf -v skew=1.1
made scans "Zipf's law, skew 0.9, with scans" -v kind=scans -v skew=0.9 -v every=10000 -v scan=5000
made loop "A loop of 20,000 keys" -v kind=loop
made shift "A hot set that shifts" -v kind=shift -v skew=0.9 -v every=100000
made window "A window that moves on" -v kind=window
made backup "A database and its backup" -v kind=backup -v skew=0.9 -v every=1 -v scan=2
