#!/bin/sh
# Tests that a hull that threads share does in C what hull_shared.h promises: compiles the programs of this folder and of examples/shared
# against what is installed, and runs them: every code, each request for memory refused; threads that make mixed calls, with one, two or all of them admitted at a time, also delayed between the steps of waiting, whose journal `hullbook check`
# judges; eight threads of which one drains the journal, and eight that keep none; up to 64 at hulls with few lines that drain themselves; and
# all by valgrind. The last line is 'N passed, M failed'.
#
#     tests/shared/shared.sh [CALLS]    each thread makes so many calls, 64 of them a tenth: 20000 if not given; `.ci/run --all-mutants` takes 100000
set -u
here=$(cd "$(dirname "$0")" && pwd)
. "$here/../lib.sh"
. "$here/../libraries.sh"
examples=$top/examples/shared
calls=${1:-20000}

codes() {
    # shellcheck disable=SC2046 # the flags are separated by spaces
    build "$here/codes.c" $(wrap malloc realloc) && "$room/codes"
    count "every code, and each request for memory refused" $?
    # shellcheck disable=SC2046
    build "$here/reader_codes.c" -lhull $(wrap malloc realloc) && "$room/reader_codes"
    count "every code of a reader, and each request for memory refused" $?
    for archive in hull hull_shared; do
        # shellcheck disable=SC2046
        build "$here/blocks.c" "$prefix/lib/lib$archive.a" $(wrap madvise) && "$room/blocks"
        count "blocks of memory of lib$archive.a, large and small" $?
    done
}

# the flags of a compiler that docs/SHARED.md names
flags_of_guide() {
    libraries=$(sed -n 's/.*`cc x\.c \$(pkg-config --cflags --libs \([a-z_ ]*\))` links.*/\1/p' "$top/docs/SHARED.md")
    # shellcheck disable=SC2086 # they are separated by spaces
    if is_there pkg-config; then
        PKG_CONFIG_PATH=$prefix/lib/pkgconfig pkg-config --cflags --libs $libraries
    else
        printf '%s ' "-I$prefix/include" "-L$prefix/lib" $(printf -- '-l%s ' $libraries) -lpthread
    fi
}

documents() {
    build "$examples/first.c" && "$room/first" "$room/first.journal" >"$room/said" && "$room/first" "$room/first.journal" >>"$room/said" &&
        cmp "$room/said" "$examples/first.txt" && in_segments "$room/first.journal"
    count "examples/shared/first.c continues its file" $?
    sed -n '/^size_t capacity = 4096;/,/^```/{/^```/!p;}' "$top/docs/SHARED.md" >"$room/pieces.inc"
    # shellcheck disable=SC2046 # the flags are separated by spaces
    build "$here/pieces.c" -I"$room" $(wrap malloc realloc) && "$room/pieces" >"$room/output"
    count "the loop for pieces of docs/SHARED.md: $(cat "$room/output")" $?
    awk -v room="$room" '/^```c$/ { inside = 1; n++; next } /^```$/ { inside = 0 }
        inside { print >(room (/^static void/ ? "/functions.inc" : "/listing." n ".inc")) }' "$top/docs/SHARED.md"
    # shellcheck disable=SC2046
    "${CC:-cc}" -std=gnu11 -Wall -Wextra -Werror "$here/listings.c" -I"$room" $(flags_of_guide) -o "$room/listings" && (cd "$room" && ./listings)
    count "the listings of docs/SHARED.md, linked as it says" $?
    build "$examples/threads.c" && "$room/threads" >"$room/journal" && legal "$room/journal"
    count "examples/shared/threads.c writes a legal journal" $?
}

# threads over one hull: how many, of how many calls each, and how many inside at once
storm() {
    "$room/storm" "$1" "$2" "$3" >"$room/journal" && [ "$(wc -l <"$room/journal")" -eq $(($1 * $2 + 2)) ] &&
        legal "$room/journal"
    count "$1 threads of $2 calls, $3 inside: each number once and rising, and the journal legal" $?
}

storms() {
    build "$here/storm.c"
    count "storm.c compiles" $?
    for threads in 2 4 8 64; do
        for inside in 1 2 "$threads"; do
            each=$calls
            [ "$threads" -ne 64 ] || each=$((calls / 10))
            storm "$threads" "$each" "$inside"
        done
    done
    build_slow "$here/storm.c"
    count "storm.c compiles with threads that are delayed" $?
    for inside in 1 2 8; do storm 8 $((calls / 100)) "$inside"; done
    build_by_pthreads "$here/storm.c"
    count "storm.c compiles without futex" $?
    for inside in 1 8; do storm 8 $((calls / 100)) "$inside"; done
}

# whether hullbook says that the segments of these numbers are one legal journal, in this order
judged() {
    for number in "$@"; do
        set -- "$@" "$room/segments/segment.$number"
        shift
    done
    "$hullbook" check "$@" >"$room/verdict" 2>&1
}

# whether it says that the second of them is illegal at its first line
breaks() {
    ! judged "$@" && [ "$(cat "$room/verdict")" = "illegal 2 in $room/segments/segment.$2" ]
}

# how many lines all segments have
lines() {
    cat "$room/segments"/segment.* | grep -cv '^hullbook\|^end'
}

# eight threads, one of which drains the hull each time that a tenth of the calls of one thread were made, also with no
# journal; and segments that are missing, doubled or exchanged
drains() {
    rm -rf "$room/segments" && mkdir "$room/segments" && build "$here/drains.c"
    count "drains.c compiles" $?
    "$room/drains" 8 "$calls" $((calls / 10)) "$room/segments" >"$room/said" && judged $(seq "$(cat "$room/said")") &&
        [ "$(lines)" -ge $((8 * calls)) ]
    count "the segments that one of 8 threads drains, $(cat "$room/said") of them, are one legal journal" $?
    breaks 1 3 4 && breaks 1 1 2 && breaks 1 3 2
    count "a segment that is missing, doubled or exchanged is illegal at its first line" $?
    "$room/drains" 8 "$calls" 1 - >"$room/said"
    count "8 threads of $calls calls without a journal" $?
    rm -rf "$room/segments" && mkdir "$room/segments"
    "$room/drains" 8 "$calls" $((calls / 10)) "$room/segments" 8 >"$room/said" && judged $(seq "$(cat "$room/said")") &&
        [ "$(lines)" -ge $((8 * calls)) ]
    count "the same in strict order: $(cat "$room/said") segments" $?
}

# threads, none of which drains, over a hull of few lines, whose gate drains by itself: THREADS CALLS CAPACITY INSIDE
full() {
    rm -rf "$room/segments" && mkdir "$room/segments"
    "$room/full" "$1" "$2" "$3" "$room/segments" "$4" >"$room/said" && judged $(seq "$(cat "$room/said")")
    count "$1 threads of $2 calls at $3 lines, which drain by themselves, $4 inside: all served, $(cat "$room/said") segments, one legal journal" $?
}

full_hulls() {
    build "$here/full.c"
    count "full.c compiles" $?
    for inside in 1 64; do
        full 4 "$calls" "$calls" "$inside"
        full 64 $((calls / 10)) 2000 "$inside"
        full 8 $((calls / 10)) 200 "$inside"
        full 2 $((calls / 100)) 1 "$inside"
    done
    build_slow "$here/full.c"
    for inside in 1 8; do full 8 $((calls / 100)) 200 $inside; done
    build_by_pthreads "$here/full.c"
    for inside in 1 8; do full 8 $((calls / 100)) 200 $inside; done
}

# the orders that threads have by a gate are those that helgrind is informed of; without that it finds what it takes for races
by_helgrind() {
    build "$here/full.c" && mkdir -p "$room/segments"
    valgrind --tool=helgrind -q --error-exitcode=9 "$room/full" 4 100 50 "$room/segments" >"$room/said" 2>"$room/output"
    count "helgrind finds nothing in full.c" $?
    build "$here/full.c" -DHULL_SHARED_UNWATCHED "$top/c/gate.c"
    valgrind --tool=helgrind -q --error-exitcode=9 "$room/full" 4 100 50 "$room/segments" >"$room/said" 2>"$room/output"
    came "and much if it is informed of nothing" $? 9
}

memory() {
    if ! is_there valgrind; then skip "memory by valgrind" valgrind; return; fi
    for name in codes threads reader_codes first; do
        by_valgrind "$name" "$room/$name" "$room/valgrind.journal"
    done
    by_helgrind
}

install_libraries
codes
documents
memory
storms
drains
full_hulls
end
