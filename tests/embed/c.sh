#!/bin/sh
# Tests that the library of sets does in C what hull.h and hull_exchange.h promise: compiles the programs of this folder and of examples/embed
# against what is installed, and runs them, some also with valgrind's memory check. The last line is 'N passed, M failed'.
set -u
here=$(cd "$(dirname "$0")" && pwd)
. "$here/../lib.sh"
. "$here/../libraries.sh"
examples=$top/examples/embed

# compiles a program in C: NAME FLAGS..; NAME.c is of the examples or of this folder
compile() {
    source=$examples/$1.c
    [ -f "$source" ] || source=$here/$1.c
    output=$room/$1
    shift
    # shellcheck disable=SC2046 # the flags are separated by spaces
    cc -std=c11 -Wall -Wextra -Werror -O2 -g "$@" "$source" $(flags) -o "$output"
}

# whether a manual page has each call that a header has, but for those that others are made of: NAME HEADER..
page_has_calls() {
    page=$top/man/$1.3
    shift
    missing=$(sed -n 's/^[a-z][a-z0-9_ ]*[ *]\(hull_[a-z_]*\)(.*/\1/p' "$@" | sort -u |
        grep -vE '_or_null$|_faults?$|_refusal$|^hull_(array|storage_new|storage_free|distance_bounds_scaled|is_equal_double|with_point|are_doubles)$' |
        grep -vE '_with_line$|^hull_shared_call_into$' |
        while read -r name; do grep -q "$name[^a-z_]\|$name\$" "$page" || echo "$name"; done)
    [ -z "$missing" ] || { echo "not on $page: $missing"; return 1; }
}

programs() {
    # shellcheck disable=SC2046 # the flags are separated by spaces
    attempt "codes.c compiles" compile codes -O1 $(wrap malloc calloc realloc)
    attempt "every code of every function" "$room/codes" "$here/lattice.txt"
    for name in first placement motions; do
        attempt "examples/embed/$name.c compiles by what is installed" compile "$name"
        attempt "examples/embed/$name.c writes examples/embed/$name.txt" writes "$examples/$name.txt" "$room/$name"
    done
    attempt "grid.c compiles" compile grid
    attempt "each 40th pair of polygons of a small grid, by all vertices and edges" "$room/grid" "${long:-40}"
    attempt "rays.c compiles" compile rays
    attempt "rays and segments to all polygons of a small grid, by all edges" "$room/rays" 2
    attempt "checked.c compiles" compile checked -Wl,--wrap=malloc
    attempt "a checked build reports arrays that are no convex polygon" "$room/checked"
    attempt "replay.c compiles" compile replay
    random_calls
    replays C "$room/replay"
    attempt "comma.c compiles" compile comma
    attempt "well-known text has points in any locale" "$room/comma"
    attempt "full.c compiles" compile full
    attempt "as many points as there may be" "$room/full"
    # shellcheck disable=SC2046
    attempt "prepared.c compiles" compile prepared $(wrap malloc realloc)
    attempt "prepared hulls answer as others do" "$room/prepared"
    attempt "gathered.c compiles" compile gathered $(wrap malloc realloc)
    attempt "hulls whose vertices are gathered answer as others do, and keep them" "$room/gathered"
    # shellcheck disable=SC2046
    attempt "sizes.c compiles" compile sizes $(wrap malloc realloc free)
    attempt "how much memory points take in four orders, and after most are removed" "$room/sizes"
    # shellcheck disable=SC2046
    attempt "refusals.c compiles" compile refusals $(wrap malloc realloc free)
    attempt "each request for memory refused in turn" "$room/refusals"
    # shellcheck disable=SC2046
    attempt "growing.c compiles" compile growing $(wrap malloc realloc free)
    attempt "growing hulls answer as sets do" "$room/growing"
}

# whether a file that includes a header has no warning, checked or not: COMPILER HEADER
header_is() {
    for standard in c99 c11 c17 c2x; do
        for variant in -UHULL_CHECKED -DHULL_CHECKED; do
            echo "#include \"$2\"" | "$1" -x c "-std=$standard" $variant -I"$prefix/include" -pedantic -Wall -Wextra -Werror \
                -Wpedantic -Wconversion -Wsign-conversion -Wshadow -Wcast-qual -Wfloat-equal -fsyntax-only - || return 1
        done
    done
}

# whether the header says in one error that it needs 64 bits
is_stopped() {
    printf '#include <stdint.h>\n#undef UINTPTR_MAX\n#define UINTPTR_MAX UINT32_MAX\n#include "hull.h"\n' >"$room/narrow.c"
    ! cc -I"$prefix/include" -fsyntax-only "$room/narrow.c" 2>"$room/said" && [ "$(grep -c 'error:' "$room/said")" -eq 1 ] && grep -q '64-bit pointers' "$room/said"
}

# both archives, whole, in one shared object
both_archives() {
    cc -shared -o "$room/both.so" -Wl,--whole-archive "$prefix/lib/libhull.a" "$prefix/lib/libhull_shared.a" -Wl,--no-whole-archive -lpthread
}

headers() {
    attempt "both archives whole are one shared object" both_archives
    for header in hull hull_shared hull_service hull_exchange; do
        for compiler in gcc clang; do
            if ! is_there $compiler; then skip "$header.h by $compiler" $compiler; continue; fi
            attempt "$header.h is C99 to C23 by $compiler, checked or not" header_is $compiler "$header.h"
        done
    done
    attempt "a build for 32 bits stops at one error" is_stopped
    attempt "hull(3) has every call" page_has_calls hull "$prefix/include/hull.h" "$prefix/include/hull_exchange.h" "$prefix/include/hull_common.h"
    attempt "hull_shared(3) has every call" page_has_calls hull_shared "$prefix/include/hull_shared.h" "$prefix/include/hull_service.h"
}

# writes a program with the lines of docs/PLANNERS.md: a planner's, a packer's, a collision check's
planners() {
    { printf '#include <assert.h>\n#include "hull.h"\nint main(void) {\n'; listings c '{' '}'; printf 'return 0;\n}\n'; } >"$room/planners.c"
    [ "$(grep -cx '{' "$room/planners.c")" -eq 3 ]
}

documents() {
    sed -n '/^```c$/,/^```$/{/^```/!p;}' "$top/README.md" >"$room/readme.c"
    for standard in c99 c11; do
        # shellcheck disable=SC2046 # the flags are separated by spaces
        attempt "the README's program is $standard" \
            cc -std=$standard -pedantic -Wall -Wextra -Werror "$room/readme.c" $(flags) -o "$room/readme"
        attempt "the README's program says that (5, 5) is inside" sh -c "'$room/readme' | grep -qx '(5, 5) is inside: 1'"
    done
    attempt "docs/PLANNERS.md has three listings in C" planners
    # shellcheck disable=SC2046
    attempt "they compile" cc -std=c11 -Wall -Wextra -Werror -O2 -UNDEBUG "$room/planners.c" $(flags) -o "$room/planners"
    attempt "they are true" "$room/planners"
}

# the C of ours by sanitizers; the proved code is linked as it is
sanitized() {
    # shellcheck disable=SC2046,SC2086 # the flags are separated by spaces
    attempt "codes.c compiles with sanitizers" compile codes -O0 $sanitizers "$top/c/exports.c" \
        $(wrap malloc calloc realloc)
    attempt "sanitizers find nothing in codes" "$room/codes" "$here/lattice.txt" brief
}

memory() {
    if ! is_there valgrind; then skip "memory by valgrind" valgrind; return; fi
    for name in first placement motions; do by_valgrind "$name" "$room/$name"; done
    by_valgrind growing "$room/growing" 997
    by_valgrind codes "$room/codes" "$here/lattice.txt" brief
}

long=${1:+13}
install_libraries
programs
memory
sanitized
headers
documents
end
