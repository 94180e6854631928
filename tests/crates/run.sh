#!/bin/sh
# Runs the #[test] functions of all crates, or of those named, without proving them: compiled with checks that stop at the first bad access
# or overflow. It needs the toolchain. `rt ci` proves the tests and runs them again. The last line is 'N passed, M failed'.
#
#     tests/crates/run.sh [CRATE..]
set -u
here=$(cd "$(dirname "$0")" && pwd)
. "$here/../lib.sh"
# the seconds that a test may take, compiled with checks, on a busy machine
seconds=300

# runs the tests of a crate: their number has to be that of its sources
try_crate() {
    wanted=$(cat $(find "$top/crates/$1/src" -name '*.rt') | grep -c '#\[test\]')
    (cd "$top/crates/$1" && rt try --test --seconds $seconds) >"$room/$1.log" 2>&1 </dev/null
    result=$(sed -n 's/^test result: [a-zA-Z]*\. \([0-9]*\) passed; \([0-9]*\) failed.*/\1 \2/p' "$room/$1.log" | head -n 1)
    echo "${result:-0 1} $wanted" >"$room/$1.result"
}

# takes crates one by one until none is left
work() {
    for crate in $crates; do
        mkdir "$room/$crate.taken" 2>/dev/null && try_crate "$crate"
    done
}

crates=${*:-$(grep -rlF '#[test]' "$top"/crates/*/src --include='*.rt' | sed "s#^$top/crates/##; s#/.*##" | sort -u)}
# the longest first
for crate in hullbook polygon_tests book_tests set_tests explorer; do
    case " $(echo $crates) " in *" $crate "*) crates="$crate $(echo " $(echo $crates) " | sed "s/ $crate / /")" ;; esac
done
for worker in $(seq "$(getconf _NPROCESSORS_ONLN)"); do work & done
wait
for crate in $crates; do
    read -r well ill wanted <"$room/$crate.result"
    passed=$((passed + well))
    failed=$((failed + ill))
    echo "$crate: $well passed, $ill failed, of $wanted"
    if [ "$ill" -gt 0 ]; then
        echo "$crate: FAILED"
        grep -v '\.\.\. ok$' "$room/$crate.log" | tail -n 20
    elif [ "$well" -ne "$wanted" ]; then
        said "$crate" "FAILED, $well tests of $wanted ran"
    fi
done
end
