#!/bin/sh
# Plots the output of the benchmarks with gnuplot: time over points and time over workers, beside the rivals.
#
#     plots.sh [FOLDER]
#
# FOLDER (bench/out) contains the output of `tree.sh N` as tree-N.txt for several N, and that of `threads.sh` as threads.txt;
# missing output is measured first. Writes points.svg and workers.svg into docs/pictures. Skips, and reports that, if there
# is no gnuplot.
set -eu
here=$(cd "$(dirname "$0")" && pwd)
folder=${1:-$here/out}
pictures="$here/../docs/pictures"
command -v gnuplot >/dev/null || { echo "skipped: no gnuplot here"; exit 0; }
mkdir -p "$folder"
for calls in 25000 50000 100000 200000; do
    [ -s "$folder/tree-$calls.txt" ] || "$here/tree.sh" "$calls" 3 >"$folder/tree-$calls.txt"
done
[ -s "$folder/threads.txt" ] || "$here/threads.sh" >"$folder/threads.txt"

# calls, and whole seconds of program and rival, of the runs of one kind by one worker
points() {
    for file in "$folder"/tree-*.txt; do
        calls=$(basename "$file" .txt)
        awk -v kind="$1" -v calls="${calls#tree-}" '$1 == kind && $2 == 1 { print calls, $3, $4 }' "$file"
    done | sort -n
}

# workers, and wall seconds of program, mutex and fair lock, of one kind
workers() {
    tr -d '()' <"$folder/threads.txt" | awk -v kind="$1" '$1 == kind { print $2, $3, $5, $7 }'
}

room=$(mktemp -d)
trap 'rm -rf "$room"' EXIT
for kind in build churn ask mixed; do points "$kind" >"$room/points-$kind"; done
for kind in small churn mixed; do workers "$kind" >"$room/workers-$kind"; done
cd "$room"
gnuplot <<'PLOT'
set terminal svg size 860,380 font 'sans-serif,13' background '#ffffff'
set grid
set key outside right top
set ytics format '%g'
set logscale xy
set xlabel 'calls'
set xrange [20000:250000]
set xtics (25000, 50000, 100000, 200000)
set ylabel 'seconds, whole run by one worker'
set output 'points.svg'
plot 'points-build' using 1:2 with linespoints lc '#1f5f99' pt 7 title 'build: hullbook', \
     'points-build' using 1:3 with linespoints lc '#1f5f99' dt 2 pt 6 title 'build: rival', \
     'points-mixed' using 1:2 with linespoints lc '#1e8449' pt 7 title 'mixed: hullbook', \
     'points-mixed' using 1:3 with linespoints lc '#1e8449' dt 2 pt 6 title 'mixed: rival', \
     'points-ask' using 1:2 with linespoints lc '#c0392b' pt 7 title 'ask: hullbook', \
     'points-ask' using 1:3 with linespoints lc '#c0392b' dt 2 pt 6 title 'ask: rival'
set xlabel 'workers'
set xrange [0.8:80]
set xtics (1, 2, 4, 8, 16, 64)
set ylabel 'seconds, whole run'
set output 'workers.svg'
plot 'workers-mixed' using 1:2 with linespoints lc '#1f5f99' pt 7 title 'mixed: hullbook', \
     'workers-mixed' using 1:3 with linespoints lc '#1f5f99' dt 2 pt 6 title 'mixed: mutex', \
     'workers-mixed' using 1:4 with linespoints lc '#1f5f99' dt 3 pt 4 title 'mixed: fair lock', \
     'workers-small' using 1:2 with linespoints lc '#c0392b' pt 7 title 'small: hullbook', \
     'workers-small' using 1:3 with linespoints lc '#c0392b' dt 2 pt 6 title 'small: mutex', \
     'workers-small' using 1:4 with linespoints lc '#c0392b' dt 3 pt 4 title 'small: fair lock'
PLOT
mv points.svg workers.svg "$pictures/"
echo "docs/pictures/points.svg, docs/pictures/workers.svg"
