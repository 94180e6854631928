#!/bin/sh
# The program beside the rival on generated scripts: whole runs, serving only, and peak memory, for one worker and for
# four. Serving only is a whole run minus one whose journal has one line: that reads the script, takes the lock for
# each call and writes a report, and serves nothing.
#
# tree.sh [CALLS [ROUNDS [BITS [OTHER]]]]: so many calls (200000), the least of so many rounds (5), coordinates of at most
# 2^BITS in size (20; 40 is the whole range). OTHER is a build of the program from another commit: its whole runs are
# taken in the same turns, and the ratio to them is printed too. The rival multiplies in 128 bits for any range.
. "$(dirname "$0")/tools.sh"
calls=${1:-200000}
rounds=${2:-5}
bits=${3:-20}
names='hullbook rival'
if [ -n "${4:-}" ]; then
    ln -s "$(realpath "$4")" "$room/other"
    names="$names other"
fi
echo "coordinates to 2^$bits, $calls calls"
echo "kind    workers   whole s   rival s   ratio   serving s   rival s   ratio   peak MB   rival MB   other s   ratio"
for kind in build churn ask mixed; do
    for workers in 1 4; do
        "$room/generate" "$kind" "$calls" "$workers" 7 "$bits" >"$room/script"
        if [ "$workers" = 1 ]; then
            "$hullbook" run "$room/script" --capacity "$calls" >"$room/ours"
            "$room/rival" run "$room/script" --capacity "$calls" | cmp - "$room/ours"
        fi
        # shellcheck disable=SC2046 # the numbers are separated by spaces
        set -- $(race "$rounds" "$names" run "$room/script" --capacity "$calls")
        ours=$1
        rival=$2
        other=${3:-}
        # shellcheck disable=SC2046
        set -- $(race "$rounds" 'hullbook rival' run "$room/script" --capacity 1)
        serving="$ours - $1"
        rival_serving="$rival - $2"
        memory=$(peak 1 "$hullbook" run "$room/script" --capacity "$calls")
        rival_memory=$(peak 1 "$room/rival" run "$room/script" --capacity "$calls")
        calc "%-7s %7d %9.3f %9.3f %7.2f %11.3f %9.3f %7.2f %9.1f %10.1f" \
            "\"$kind\", $workers, $ours, $rival, $ours / $rival, $serving, $rival_serving, ($serving) / ($rival_serving), $memory / 1024, $rival_memory / 1024"
        if [ -n "$other" ]; then
            calc " %9.3f %7.2f" "$other, $ours / $other"
        fi
        echo
    done
done
