#!/bin/sh
# Threads: the built program beside the rival under std's mutex, which serves any running thread, and under a fair lock of the
# rival's own, which serves first come, first served as the program's does. For 1, 2, 4, 8, 16 and 64 workers it prints wall
# and processor seconds of each, the ratios of wall times, and the program's processor time over that of the fewest workers.
#
#     threads.sh [CALLS [ROUNDS [BUSY [KINDS [WORKERS]]]]]
#
# CALLS calls in all (60000), made from a seed; the least of ROUNDS rounds taken in turn (3), beside BUSY processes that spin
# (none); scripts of KINDS ("small churn mixed"; see generate.rs) for each of WORKERS. A run is stopped after 20 s, and counts
# as 20.
. "$(dirname "$0")/tools.sh"
calls=${1:-60000}
rounds=${2:-3}
busy=${3:-0}
kinds=${4:-small churn mixed}
counts=${5:-1 2 4 8 16 64}

spinning=
trap 'rm -rf "$room"; [ -z "$spinning" ] || kill $spinning' EXIT
while [ "$busy" -gt 0 ]; do
    sh -c 'while :; do :; done' &
    spinning="$spinning $!"
    busy=$((busy - 1))
done

# the least wall seconds and its processor seconds, of the rounds in a file
least() {
    sort -n "$1" | head -n 1 | cut -d ' ' -f 1,3
}

echo "kind    workers   program (processor)   mutex (processor)    fair (processor)   of mutex   of fair   processor of one"
for kind in $kinds; do
    one=
    for workers in $counts; do
        "$room/generate" "$kind" "$calls" "$workers" 7 >"$room/script"
        rm -f "$room"/*.times
        left=$rounds
        while [ "$left" -gt 0 ]; do
            "$room/measure" 1 timeout 20 "$hullbook" run "$room/script" --capacity "$calls" >>"$room/program.times"
            "$room/measure" 1 timeout 20 "$room/rival" run "$room/script" --capacity "$calls" >>"$room/mutex.times"
            "$room/measure" 1 timeout 20 "$room/rival" fair "$room/script" --capacity "$calls" >>"$room/fair.times"
            left=$((left - 1))
        done
        # wall and processor seconds of the three
        set -- $(least "$room/program.times") $(least "$room/mutex.times") $(least "$room/fair.times")
        one=${one:-$2}
        calc "%-7s %7d %9.3f (%9.3f) %7.3f (%9.3f) %7.3f (%9.3f) %9.2f %9.2f %18.2f\n" \
            "\"$kind\", $workers, $1, $2, $3, $4, $5, $6, $1 / $3, $1 / $5, $2 / $one"
    done
done
