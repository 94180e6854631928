#!/bin/sh
# Runs the program again and again, each time with another of its requests for memory refused, until there is none left to refuse. The results
# must go through these stages in order, and leave none out:
#   words      memory was refused while the words were read:      `hullbook: memory`, status 4
#   text       .. to the reader:                                  `hullbook: line L: fault 10`, status 4, L never decreasing
#              .. to the reader of a journal before a script:     `hullbook: journal: line L: fault 10`, counted on from there
#   engine     .. after the text:                                 `hullbook: memory`, status 4
#   answers    .. to one call of the script, or to its list:      status 0, and one reply is `nomemory`
#   whole      nothing that the run needs was refused:            the output with enough memory
# `check` judges each line as it is read, so for it the reader and the engine are refused alternately, from the first call on. With status 4
# nothing is written to standard output. A journal with a refused call is legal. The last line is 'N passed, M failed'.
set -u
here=$(cd "$(dirname "$0")" && pwd)
. "$here/../lib.sh"
preloaded "$here" refuse || exit 1
program=$(linked_program hullbook) || { echo 'the program is not linked here'; said program FAILED; end; }

# how many runs in a row have to come out whole: then no request is left
enough=20
# the line of a script after which a journal is read
after=0
# whether the engine works while the text is read
mixed=0

# the stage of a run that has ended with this status
stage_of() {
    if [ "$1" = 4 ] && [ ! -s "$room/output" ]; then
        awk -v after="$after" '
            /^hullbook: memory$/ { print "memory" }
            /^hullbook: line [0-9]+: fault 10$/ { print "text " $3 + 0 }
            /^hullbook: journal: line [0-9]+: fault 10$/ { print "text " after + $4 }' "$room/error"
    elif [ "$1" = 0 ] && [ ! -s "$room/error" ]; then
        if cmp -s "$room/output" "$room/whole"; then
            echo whole
        elif [ "$(grep -c ' = nomemory$' "$room/output")" = 1 ] && is_legal; then
            echo answers
        fi
    fi
}

# whether what was written is no journal, or a legal one
is_legal() {
    ! grep -q '^hullbook journal' "$room/output" || [ "$("$program" check "$room/output")" = legal ]
}

# the stages of a run with its first request refused, its second, and so on
stages() {
    number=0
    row=0
    while [ "$row" -lt "$enough" ] && [ "$number" -lt 2000 ]; do
        number=$((number + 1))
        REFUSED_REQUEST=$number LD_PRELOAD="$room/refuse.so" "$program" "$@" >"$room/output" 2>"$room/error"
        stage=$(stage_of $?)
        [ "$stage" = whole ] && row=$((row + 1)) || row=0
        echo "$number ${stage:-else}"
    done
}

# counts the runs that came in their stage: LAST is the last line for which the reader asks for memory, WANTED has the
# stages that have to come, counted from 0
judge() {
    awk -v last="$1" -v wanted="$2" -v name="$3" -v mixed="$mixed" '
        function report(what) { print name ", request " $1 " refused: " what; failed++ }
        $2 == "memory" { stage = at == 0 ? 0 : 2 }
        $2 == "text" { stage = mixed && at == 2 ? 2 : 1; seen[1] = 1 }
        $2 == "answers" { stage = 3 }
        $2 == "whole" { stage = 4 }
        $2 == "else" { report("no stage"); next }
        stage < at { report("a stage again: " $2); next }
        $2 == "text" && ($3 < line || $3 < 1 || $3 > last) { report("line " $3 " after line " line); next }
        { at = stage; line = $2 == "text" ? $3 : line; seen[stage] = 1; passed++ }
        END {
            if (line != last) { print name ": line " last " never came"; failed++ }
            for (s = 0; s <= 4; s++) if (index(wanted, s) && !(s in seen)) { print name ": stage " s " never came"; failed++ }
            print passed + 0, failed + 0
        }'
}

# tries the words after NAME, LAST and WANTED on the program
try() {
    name=$1
    last=$2
    wanted=$3
    shift 3
    "$program" "$@" >"$room/whole"
    results=$(stages "$@" | judge "$last" "$wanted" "$name")
    echo "$results" | sed '$d'
    counts=$(echo "$results" | tail -n 1)
    echo "$name: $counts"
    passed=$((passed + ${counts% *}))
    failed=$((failed + ${counts#* }))
}

printf '0 add 0 0\n0 add 4 0\n0 add 2 3\n0 add 2 1\n0 remove 2 3\n0 vertices\n0 area\n' >"$room/script"
"$program" run "$room/script" --journal >"$room/journal"
# A script is put together after its last line; the list in line 7 is the last thing of the journal that takes memory.
try report 8 01234 run "$room/script"
try journal 8 01234 run "$room/script" --journal
mixed=1
try check 7 0124 check "$room/journal"
mixed=0
try 'whole check' 7 0124 check "$room/journal" --explain
try upgrade 7 014 upgrade "$room/journal"
try compact 7 0124 compact "$room/journal"
after=8
try after 15 01234 run "$room/script" --after "$room/journal"
try 'journal after' 15 01234 run "$room/script" --after "$room/journal" --journal
# What is put together after a last line without a newline is in the line after it.
printf '0 count' >"$room/short"
try unfinished 2 0124 run "$room/short"
end
