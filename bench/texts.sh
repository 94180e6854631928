#!/bin/sh
# Reading and writing texts: a script and a journal of LINES lines (a million if none is given), made from a seed.
# Prints lines and megabytes per second of the built program, beside the rival's on the same files. Reading only is a run
# on a text whose last line is wrong: it is read whole and refused. `upgrade` reads a journal and keeps all its lines; `check`
# keeps none of them, and judges each as it is read.
. "$(dirname "$0")/tools.sh"
lines=${1:-1000000}
rounds=${2:-3}

# NAME FILE SECONDS RIVAL_SECONDS
row() {
    bytes=$(wc -c <"$2")
    calc "%-34s %6.2f s %8.2f Mlines/s %7.1f MB/s    rival %6.2f s    ratio %.2f\n" \
        "\"$1\", $3, $lines / $3 / 1e6, $bytes / $3 / 1e6, $4, $3 / $4"
}

"$room/generate" count "$lines" 1 7 >"$room/counts"
"$room/generate" small "$lines" 1 7 >"$room/small"
for script in counts small; do
    "$hullbook" run "$room/$script" --capacity "$lines" >"$room/$script.report"
    "$hullbook" run "$room/$script" --capacity "$lines" --journal >"$room/$script.journal"
    "$room/rival" run "$room/$script" --capacity "$lines" | cmp - "$room/$script.report"
    { cat "$room/$script" && echo x; } >"$room/$script.refused"
    sed '$d' "$room/$script.journal" >"$room/$script.cut"

    run=$(seconds "$rounds" "$hullbook" run "$room/$script" --capacity "$lines")
    read=$(seconds "$rounds" "$hullbook" run "$room/$script.refused")
    read_journal=$(seconds "$rounds" "$hullbook" upgrade "$room/$script.cut")
    check=$(seconds "$rounds" "$hullbook" check "$room/$script.journal")
    rival=$(seconds "$rounds" "$room/rival" run "$room/$script" --capacity "$lines")
    rival_read=$(seconds "$rounds" "$room/rival" read "$room/$script")
    rival_parse=$(seconds "$rounds" "$room/rival" parse "$room/$script.journal")
    row "$script: read the script" "$room/$script" "$read" "$rival_read"
    row "$script: read, serve, write" "$room/$script.report" "$run" "$rival"
    row "$script: serve and write" "$room/$script.report" "$(calc %.4f "$run - $read")" "$(calc %.4f "$rival - $rival_read")"
    row "$script: read and keep the journal" "$room/$script.journal" "$read_journal" "$rival_parse"
    row "$script: read and check it" "$room/$script.journal" "$check" "$rival_parse"
done
