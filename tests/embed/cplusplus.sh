#!/bin/sh
# Tests that hull.hpp does what it promises: compiles the programs in C++ of this folder, of tests/shared and of the examples against what is
# installed, and runs them, also with valgrind's memory check. The last line is 'N passed, M failed'.
set -u
here=$(cd "$(dirname "$0")" && pwd)
. "$here/../lib.sh"
. "$here/../libraries.sh"
examples=$top/examples/embed

# compiles a program in C++17 that may share hulls: OUTPUT FILE FLAGS..
compile() {
    output=$room/$1
    shift
    # shellcheck disable=SC2046 # the flags are separated by spaces
    c++ -std=c++17 -pedantic -Wall -Wextra -Werror "$@" $(flags) -lhull_shared -lpthread -o "$output"
}

tests() {
    attempt "the tests of hull.hpp compile" compile hull_tests.o -c "$here/hull_tests.cpp"
    attempt "they link" compile hull_tests "$room/hull_tests.o"
    attempt "the tests of hull.hpp" "$room/hull_tests" "$here/lattice.txt" "$room/journal"
    attempt "its threads leave a legal journal" legal "$room/journal"
    # shellcheck disable=SC2046 # the flags are separated by spaces
    attempt "hull_answers.cpp compiles" compile hull_answers "$here/hull_answers.cpp" $(wrap fsync hull_shared_call_into hull_shared_journal_sync malloc calloc realloc)
    attempt "each answer of hull.hpp beside that of hull.h" "$room/hull_answers"
    attempt "overlaps.c compiles" overlaps_object
    # shellcheck disable=SC2046 # the flags are separated by spaces
    attempt "the tests of hull.hpp link with calls that are slowed down" compile overlap_tests "$room/hull_tests.o" "$room/overlaps.o" $(slow_calls)
    attempt "calls on one shared hull from several threads of C++ wait for each other" "$room/overlap_tests" "$here/lattice.txt"
    attempt "segments.cpp compiles" compile segments "$shared/segments.cpp"
    attempt "segments of a journal, and a hull that continues the first" "$room/segments" "$room/taken"
    attempt "both are one legal journal" "$hullbook" check "$room/taken.1" "$room/taken.2"
    attempt "replay.cpp compiles" compile replay "$here/replay.cpp"
    random_calls
    replays C++ "$room/replay"
    attempt "examples/embed/planner.cpp compiles by what is installed" compile planner -O2 "$examples/planner.cpp"
    attempt "examples/embed/planner.cpp writes examples/embed/planner.txt" writes "$examples/planner.txt" "$room/planner"
}

memory() {
    if ! is_there valgrind; then skip "memory by valgrind in C++" valgrind; return; fi
    by_valgrind "the tests of hull.hpp" "$room/hull_tests" "$here/lattice.txt" "$room/threads_journal" 997
    by_valgrind hull_answers.cpp "$room/hull_answers"
}

# whether a file that includes a header has no warning: COMPILER HEADER STANDARD..
header_is() {
    compiler=$1 included=$2
    shift 2
    for standard in "$@"; do
        echo "#include \"$included\"" | "$compiler" -x c++ "-std=$standard" -Wold-style-cast -I"$prefix/include" -pedantic -Wall -Wextra -Werror \
            -Wpedantic -Wconversion -Wsign-conversion -Wshadow -Wcast-qual -Wfloat-equal -fsyntax-only - || return 1
    done
}

# a header by a compiler of C++: HEADER FLAGS..
is_cplusplus() {
    header=$1
    shift
    c++ -x c++ -pedantic -Wall -Wextra -Werror -fsyntax-only "$@" "$prefix/include/$header"
}

# whether a compiler that takes the header for C++14 says in one error what is wanted
wants_17() {
    ! is_cplusplus hull.hpp -std=c++14 2>"$room/said" && [ "$(grep -c 'error' "$room/said")" -le 2 ] && grep -q 'needs C++17' "$room/said"
}

# whether a program without exceptions that adds a point out of range ends by abort, and says why
aborts() {
    printf '#include "hull.hpp"\nint main() { hull::Hull().add({HULL_COORDINATE_MAX + 1, 0}); }\n' >"$room/aborts.cpp"
    compile aborts -fno-exceptions "$room/aborts.cpp" || return 1
    (ulimit -c 0; "$room/aborts") >"$room/said" 2>&1
    [ $? -eq 134 ] && grep -qx 'hull: a coordinate is out of range' "$room/said"
}

headers() {
    for compiler in g++ clang++; do
        if ! is_there $compiler; then skip "the headers by $compiler" $compiler; continue; fi
        for header in hull.h hull_shared.h hull_service.h hull_exchange.h; do
            attempt "$header is C++11 to C++23 by $compiler" header_is $compiler $header c++11 c++14 c++17 c++20 c++2b
        done
        attempt "hull.hpp is C++17 to C++23 by $compiler" header_is $compiler hull.hpp c++17 c++20 c++2b
    done
    attempt "hull.hpp is C++17 without exceptions" is_cplusplus hull.hpp -std=c++17 -fno-exceptions
    attempt "hull.hpp says that it needs C++17" wants_17
    attempt "without exceptions a failure ends the program, and says why" aborts
    sed -n '/^```c$/,/^```$/{/^```/!p;}' "$top/README.md" >"$room/readme.c"
    attempt "the README's program is C++17" compile readme -x c++ "$room/readme.c" -x none
}

install_libraries
if ! is_there c++; then skip "C++" c++; end; fi
begin_beside headers headers
tests
memory
join_beside headers
end
