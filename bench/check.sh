#!/bin/sh
# The checker beside the run that wrote its journal, on generated scripts of CALLS calls (200000 if none is given) by
# one worker, and on one of a million: whole runs of `run --journal` and of `check`, in processor seconds, and their ratio.
. "$(dirname "$0")/tools.sh"
calls=${1:-200000}
rounds=${2:-3}
processor() {
    "$room/measure" "$@" | cut -d ' ' -f 3
}
echo "kind        run s   check s   ratio   check peak MB"
measure_kind() {
    kind=$1
    calls=$2
    "$room/generate" "$kind" "$calls" 1 7 >"$room/script"
    "$hullbook" run "$room/script" --capacity "$calls" --journal >"$room/journal"
    [ "$("$hullbook" check "$room/journal")" = legal ]
    run=$(processor "$rounds" "$hullbook" run "$room/script" --capacity "$calls" --journal)
    check=$(processor "$rounds" "$hullbook" check "$room/journal")
    memory=$(peak 1 "$hullbook" check "$room/journal")
    calc "%-8s %8.3f %9.3f %7.2f %15.1f\n" "\"$kind\", $run, $check, $check / $run, $memory / 1024"
}
for kind in build churn ask mixed small parabola circle squares comb seesaw; do
    measure_kind "$kind" "$calls"
done
measure_kind mixed 1000000
