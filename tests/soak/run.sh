#!/bin/sh
# A soak: runs the program on random scripts of 2, 5, 16 and 64 workers with all calls, short and long ones, and checks their journals.
#
#     run.sh [ROUNDS [SEED]]    one round and seed 1 if not given, which the gate runs
#
# The last line but one has the number of calls; the last line is 'N passed, M failed'. A run that has not ended after LIMIT seconds counts
# as hanging.
#
# For each number of workers there are two scripts: one of a few long phases, and one of a thousand short ones. In the report of each, each
# worker's calls are in the order of the script, each ledger counts its worker's calls, and their sum counts all. The journal of the first
# is tested too: `check` finds it legal, it has a line for each call, and each worker's lines are its calls in the order of the script.
#
# Then each script runs once more under a library that delays threads at random around their sleeps and wake-ups (delay.c), and its report
# is tested in the same way.
#
# Last comes a crowd: 64 workers and one phase with so many calls that each worker has many left when the last one has started. With the
# delays at least half of the workers must go to sleep a hundred times each. (In a short phase they need not: on one core a worker makes
# all its calls before the next one starts.)
set -u
here=$(cd "$(dirname "$0")" && pwd)
. "$here/../lib.sh"
rounds=${1:-1}
seed=${2:-1}
program=${HULLBOOK:-$("$top/tools/program.sh" --path hullbook)}
# the program under the shim, if it is here
linked=$(linked_program hullbook) && is_there cc && preloaded "$here" delay || linked=
[ "$linked" ] || skip 'runs whose threads are delayed' 'program that is linked here, or no cc'
limit=${LIMIT:-120}

# A script of so many workers, phases and calls, drawn by Park and Miller's generator (1988) from the seed.
script() {
    awk -v workers="$1" -v seed="$2" -v phases="$3" -v calls="$4" '
        function draw(n) { seed = (seed * 16807) % 2147483647; return seed % n }
        function near() { return draw(41) - 20 }
        function far() { return draw(2000001) - 1000000 }
        function point() { return draw(8) ? near() " " near() : far() " " far() }
        function call(    kind) {
            kind = draw(100)
            if (kind < 40) return "add " point()
            if (kind < 65) return "remove " point()
            if (kind < 75) return "extreme " near() " " far()
            if (kind < 85) return "place " point()
            if (kind < 92) return "tangents " point()
            if (kind < 94) return "vertices"
            return kind < 97 ? "area" : "count"
        }
        BEGIN {
            seed = (seed * 7919 + workers) % 2147483646 + 1
            for (phase = 0; phase < phases; phase++) {
                if (phase) print "join"
                for (n = 0; n < calls / phases; n++) print draw(workers) " " call()
            }
        }'
}

# the first difference of two files, or ok
same() {
    cmp -s "$1" "$2" && echo ok || diff "$1" "$2" | head -n 2 | tr '\n' ' '
}

# runs the program on words, and reports if it hangs or fails: NAME WORDS..
run() {
    name=$1
    shift
    timeout -k 1 "$limit" "$@" >"$room/output" 2>"$room/error"
    status=$?
    case $status in
    0) ;;
    124 | 137) said "$name" "HANGS: it has not ended after $limit seconds" ;;
    *) said "$name" "status $status: $(cat "$room/error")" ;;
    esac
}

# judges the report of a script: NAME WORKERS
judge() {
    grep -v '^ledger\|^sum' "$room/output" | sed 's/ = .*//' >"$room/chosen"
    said "$1, answers" "$(same "$room/chosen" "$room/calls")"
    grep '^ledger' "$room/output" >"$room/chosen"
    awk -v workers="$2" '{ count[$1]++ } END { for (k = 0; k < workers; k++) print "ledger " k " " count[k] + 0 }' \
        "$room/calls" >"$room/wanted"
    said "$1, ledgers" "$(same "$room/chosen" "$room/wanted")"
    sum=$(tail -n 1 "$room/output")
    [ "$sum" = "sum $calls journal $calls capacity 65536" ] && said "$1, sum" ok || said "$1, sum" "$sum"
    made=$((made + calls))
}

# judges the journal of a script: NAME
judge_journal() {
    mv "$room/output" "$room/journal"
    verdict=$("$program" check "$room/journal" 2>&1)
    [ "$verdict" = legal ] && said "$1, check" ok || said "$1, check" "$verdict"
    grep ' = ' "$room/journal" | sed 's/^[0-9]* //; s/ = .*//' | sort -s -n -k 1,1 >"$room/chosen"
    said "$1, journal" "$(same "$room/chosen" "$room/calls")"
    made=$((made + calls))
}

# whether at least half of 64 workers went to sleep a hundred times each, by what the shim reported
slept_enough() {
    sleepers=$(od -An -tu1 -w1 -v "$room/sleeps" | sort -n | uniq -c | awk '$1 >= 100' | wc -l)
    [ "$sleepers" -ge 32 ] && echo ok || echo "only $sleepers workers went to sleep a hundred times"
}

made=0
# tries WORKERS SEED PHASES CALLS
try() {
    name="seed $2, $1 workers, $3 phases"
    script "$1" "$2" "$3" "$4" >"$room/script"
    grep -v '^join' "$room/script" | sort -s -n -k 1,1 >"$room/calls"
    calls=$(($(wc -l <"$room/calls")))
    run "$name, report" "$program" run "$room/script"
    judge "$name" "$1"
    if [ "$3" -lt 100 ]; then
        run "$name, journal" "$program" run "$room/script" --journal
        judge_journal "$name"
    fi
    [ "$linked" ] || return
    run "$name, delayed" env LD_PRELOAD="$room/delay.so" "$linked" run "$room/script"
    judge "$name, delayed" "$1"
}

# a crowd of 64 workers: SEED
crowd() {
    name="seed $1, crowd"
    script 64 "$1" 1 60000 >"$room/script"
    sort -s -n -k 1,1 "$room/script" >"$room/calls"
    calls=60000
    run "$name" env LD_PRELOAD="$room/delay.so" "$linked" run "$room/script" 9>"$room/sleeps"
    judge "$name" 64
    said "$name, sleeps" "$(slept_enough)"
}

round=0
while [ "$round" -lt "$rounds" ]; do
    for workers in 2 5 16 64; do
        try "$workers" $((seed + round)) 4 16000
        try "$workers" $((seed + round)) 1000 12000
    done
    [ -z "$linked" ] || crowd $((seed + round))
    round=$((round + 1))
done
echo "$made calls were made, on scripts drawn from seed $seed on, $rounds of each kind"
end
