#!/bin/sh
# Tests each question of polygons in each language, by all vertices and edges (answers/ask.py), those of two polygons also of large coordinates
# (random_polygons.cpp), and pairs of polygons that are near. The last line is 'N passed, M failed'.
#
#     tests/embed/answers.sh [PAIRS]    so many pairs of large coordinates, 20,000 if not given
set -u
here=$(cd "$(dirname "$0")" && pwd)
. "$here/../lib.sh"
. "$here/../libraries.sh"

# pairs of random polygons, if the integers are there by which they are judged
random_polygons() {
    if ! echo '#include <boost/multiprecision/cpp_int.hpp>' | c++ -fsyntax-only -x c++ - 2>"$room/output"; then
        skip "pairs of random polygons of coordinates to 2^40" "c++ with libboost-dev"
        return
    fi
    # shellcheck disable=SC2046 # the flags are separated by spaces
    attempt "random_polygons.cpp compiles" c++ -std=c++17 -O1 -Wall -Wextra -Werror "$here/random_polygons.cpp" $(flags) -o "$room/random_polygons"
    attempt "$1 pairs of random polygons of coordinates to 2^40, by all vertices and edges" "$room/random_polygons" "$1" 1
    tail -n 1 "$room/output"
}

install_libraries
random_polygons "${1:-20000}"
if ! is_there python3; then skip "answers" python3; end; fi
if is_there rustc; then attempt "rust/hull compiles" rust -O --crate-type rlib --crate-name hull "$top/rust/hull/src/lib.rs"; fi
attempt "each question of polygons in each language, by all vertices and edges" python "$here/answers/ask.py" "$top" "$prefix" "$room"
tail -n 1 "$room/output"
attempt "the pairs of 100 lists of polygons that are near, by a question for each" python "$here/random_pairs.py" 100 1
end
