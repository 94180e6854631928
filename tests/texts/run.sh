#!/bin/sh
# Hostile texts for the program: the most lines that a script may have, a list whose announced length is too great, journals that end too
# early while memory is refused, and randomly broken texts (fuzz.rs, which says what must hold for each).
#
#     run.sh [TEXTS [SEED]]    how many texts are broken (6000 if not given, some ten seconds), and the seed (the clock if not given)
#
# The last line is 'N passed, M failed'.
set -u
here=$(cd "$(dirname "$0")" && pwd)
. "$here/../lib.sh"
texts=${1:-6000}
seed=${2:-$(date +%s)}
program=$("$top/tools/program.sh" --path hullbook) || exit

# the words behind NAME, STATUS, OUTPUT and ERROR on the program: whether it ends with this status and writes these lines
try() {
    name=$1
    printf '%b' "$3" >"$room/wanted.output"
    printf '%b' "$4" >"$room/wanted.error"
    wanted=$2
    shift 4
    "$program" "$@" >"$room/output" 2>"$room/error"
    status=$?
    if [ "$status" = "$wanted" ] && cmp -s "$room/output" "$room/wanted.output" && cmp -s "$room/error" "$room/wanted.error"; then
        said "$name" ok
    else
        said "$name" "status $status, $(head -c 200 "$room/output") $(head -c 200 "$room/error")"
    fi
}

# ---- a script has at most 33554432 lines

none='ledger 0 0\nsum 0 journal 0 capacity 65536\n'
head -c 33554432 /dev/zero | tr '\0' '\n' >"$room/lines"
try 'as many lines as a script may have' 0 "$none" '' run "$room/lines"
cp "$room/lines" "$room/more"
printf '#' >>"$room/more"
try 'a byte behind them' 2 '' 'hullbook: line 33554433: fault 1\n' run "$room/more"
printf '\n' >>"$room/lines"
try 'a line more' 2 '' 'hullbook: line 33554433: fault 1\n' run "$room/lines"
rm -f "$room/lines" "$room/more"

# ---- no memory is asked for a list that is announced too long

# each needs the program that takes the C library as a shared object, and a C compiler
by_preloading() {
if ! linked=$(linked_program hullbook) || ! is_there cc; then
    skip 'requests for memory of long lists and cut journals' 'program that is linked here, or no cc'
    return
fi
preloaded "$here" requests || exit 1
preloaded "$here/../memory" refuse || exit 1
released=$program
program=$linked

# the requests of `check` on a journal with this reply in line 2
requests_for() {
    printf 'hullbook journal 1 first 0 limit 8 capacity 8\n0 0 vertices = %s\nend 1\n' "$2" >"$room/journal"
    : >"$room/$1"
    REQUESTS="$room/$1" LD_PRELOAD="$room/requests.so" "$program" check "$room/journal" >/dev/null 2>"$room/$1.error"
}
requests_for long 'list 1048577'
requests_for none 'list -------'
requests_for some 'list 1 3 3 4'
requests_for read 'list 2 3 3 4 4'
fault='hullbook: line 2: fault 2'
if [ "$(cat "$room/long.error" "$room/none.error")" != "$fault
$fault" ]; then
    said 'a list too long' "$(cat "$room/long.error" "$room/none.error")"
elif [ ! -s "$room/long" ] || ! cmp -s "$room/long" "$room/none"; then
    said 'a list too long' "asks for $(tr '\n' ' ' <"$room/long")and one of no number for $(tr '\n' ' ' <"$room/none")"
elif [ "$(wc -l <"$room/some")" -le "$(wc -l <"$room/long")" ] || [ "$(wc -l <"$room/read")" -le "$(wc -l <"$room/long")" ]; then
    said 'a list too long' 'a list that is read asks for no more: the requests are not told'
else
    said 'a list too long' ok
fi

# ---- a journal without its last newline, each request for memory refused in turn

# The outcomes of `check` with its first request refused, its second, and so on, until none is left to refuse: before the
# text, then in lines 1 to 9 that never fall where the reader's request was refused, and else the fault of the text, which is
# told before memory that was refused to the replay.
printf 'hullbook journal 1 first 0 limit 8 capacity 8\n0 0 add 0 0 = added\n1 0 add 4 0 = added\n2 0 add 2 3 = added\n' >"$room/journal"
printf '3 0 add 2 1 = added\n4 0 remove 2 3 = removed\n5 0 vertices = list 3 0 0 4 0 2 1\n6 0 area = area 4\nend 7' >>"$room/journal"
number=0
row=0
while [ "$row" -lt 20 ] && [ "$number" -lt 2000 ]; do
    number=$((number + 1))
    REFUSED_REQUEST=$number LD_PRELOAD="$room/refuse.so" "$program" check "$room/journal" >"$room/output" 2>"$room/error"
    outcome="$?:$(cat "$room/output")$(sed 's/^hullbook: //' "$room/error")"
    [ "$outcome" = '2:line 9: fault 6' ] && row=$((row + 1)) || row=0
    echo "$outcome"
done >"$room/outcomes"
why=$(awk '
    $0 == "4:memory" && at == 0 { next }
    /^4:line [1-9]: fault 10$/ { n = substr($2, 1, 1); at = 1; seen++; ended = 0; if (n < line) exit; line = n; next }
    $0 == "2:line 9: fault 6" && at == 1 { ended++; next }
    { print "request " NR " refused: " $0; exit }
    END { if (seen < 3 || ended < 20) print seen + 0 " faults 10, " ended + 0 " faults 6" }' "$room/outcomes")
said 'a journal cut short while memory is refused' "${why:-ok}"

program=$released
}
by_preloading

# ---- texts broken by chance

if command -v rustc >/dev/null 2>&1; then
    if rustc --edition 2021 -O -o "$room/fuzz" "$here/fuzz.rs" && mkdir "$room/fuzz.room" \
        && "$room/fuzz" "$program" "$room/fuzz.room" "$texts" "$seed"; then
        said "$texts texts broken by chance" ok
    else
        said "$texts texts broken by chance" "see above; again by $0 $texts $seed"
    fi
else
    skip 'texts broken by chance' rustc
fi
end
