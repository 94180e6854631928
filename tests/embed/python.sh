#!/bin/sh
# Tests that the module for Python does what it promises, of sets and of shared hulls: runs its tests and the examples with what is installed, by
# the interpreters that are here. The last line is 'N passed, M failed'.
#
#     tests/embed/python.sh [long]    with `long`, by each version of the interpreter that is here, and else by python3, the oldest and the
#                                     newest; and eight threads make 10,000 calls each, and else 2,000
set -u
here=$(cd "$(dirname "$0")" && pwd)
. "$here/../lib.sh"
. "$here/../libraries.sh"
long=${1:-}
calls=${1:+10000}

# the version of an interpreter, as 3.11
version_of() {
    "$1" -c 'import sys; print("%d.%d" % sys.version_info[:2])'
}

# the interpreters from 3.8 on that are here, one of each version, the oldest first: python3, that of the system, and those of pyenv
pythons() {
    for interpreter in python3 /usr/bin/python3 "$HOME"/.pyenv/versions/3.*/bin/python3; do
        ! "$interpreter" -c 'import sys; sys.exit(sys.version_info < (3, 8))' 2>/dev/null || echo "$(version_of "$interpreter") $interpreter"
    done | sort -s -t . -k 1,1n -k 2,2n -u | cut -d ' ' -f 2
}

# the tests by an interpreter; those of threads and of lives, which take long, only by python3
tests_by() {
    interpreter=$1
    numbered=$(version_of "$interpreter")
    attempt "the tests of python/hull.py by $interpreter ($numbered)" python "$here/hull_tests.py"
    attempt "limits of python/hull.py by $interpreter ($numbered)" python "$here/limits_tests.py"
    [ "$interpreter" = python3 ] || [ "$long" ] || return
    attempt "hulls end after their last user by $interpreter ($numbered)" python -W ignore "$here/lives_tests.py"
}

# a shared object that is slowed down, counts overlaps and refuses memory: NAME FLAGS..
slowed() {
    object=$1
    shift
    # shellcheck disable=SC2046 # the flags are separated by spaces
    cc -shared -fPIC -O2 -g -Wall -Wextra -Werror "$@" -I"$prefix/include" -I"$top/python" -o "$room/slow_$object.so" \
        "$top/python/${object}_calls.c" "$here/overlaps.c" \
        $(sed -n 's/^SLOW([a-z0-9_]*, \([a-z_]*\),.*/-Wl,--wrap=\1/p' "$here/overlaps.c") $(wrap malloc calloc realloc) \
        -Wl,--whole-archive "$prefix/lib/lib$object.a" -Wl,--no-whole-archive -lpthread
}

# python3 with those
python_slowed() {
    HULL_LIBRARY=$room/slow_hull.so HULL_SHARED_LIBRARY=$room/slow_hull_shared.so python "$@"
}

threads() {
    attempt "the tests of a shared hull in Python, and the journal of eight threads of ${calls:-2000} calls" passes "${calls:-2000}" python "$shared/shared_tests.py"
    attempt "examples/shared/threads.py writes examples/shared/threads.txt and a legal journal" writes_with_journal "$top/examples/shared/threads.txt" \
        python "$top/examples/shared/threads.py"
    attempt "libhull.so slowed down compiles" slowed hull
    attempt "libhull_shared.so slowed down compiles" slowed hull_shared -DSHARED
    attempt "calls on one hull from several threads wait for each other" python_slowed "$here/hull_tests.py" Locks
    attempt "calls on one shared hull, seat and segment do" python_slowed "$shared/shared_tests.py" Locks
    attempt "refused memory is reported" python_slowed "$here/lives_tests.py" Refusals
}

# whether all names that a shared object needs are in GNU's C library for its processor: FILE TOOLS, the prefix of the tools for it
needs_what_is_there() {
    "$top/tools/product.sh" put "$1" "$room/object.so" || return 1
    nm -D "$("${2}gcc" -print-file-name=libc.so.6)" | sed -n 's/^[0-9a-f]* [A-Za-z] \([^@]*\).*/\1/p' | sort -u >"$room/names"
    nm -D --undefined-only "$room/object.so" | sed -n 's/^ *U //p' | sort -u >"$room/needed"
    [ -s "$room/needed" ] && ! comm -13 "$room/names" "$room/needed" | grep .
}

objects() {
    for processor in x86_64 aarch64; do
        tools=$processor-linux-gnu-
        [ "$processor" != "$(uname -m)" ] || tools=
        if ! is_there "${tools}gcc"; then skip "the shared objects for $processor" "${tools}gcc"; continue; fi
        for object in hull hull_shared; do
            attempt "lib$object.so needs nothing that the C library for $processor does not have" needs_what_is_there "$processor/lib$object.so" "$tools"
        done
    done
}

# writes a program with the lines of docs/PLANNERS.md
planners() {
    { echo 'import hull'; listings python 'listed = True' ''; } >"$room/planners.py"
    [ "$(grep -cx 'listed = True' "$room/planners.py")" -eq 3 ]
}

# whether the program of a page prints what the comments beside its lines say: PAGE
program_of_page() {
    sed -n '/^```python$/,/^```$/{/^```/!p;}' "$top/$1" >"$room/page.py"
    python "$room/page.py" >"$room/page.txt" && [ "$(cat "$room/page.txt")" = "INSIDE
((80, 0), (80, 60))" ]
}

# whether the lines of docs/SHARED.md keep a journal in a file
journal_of_page() {
    { echo 'from hull import SharedHull'; sed -n '/^```python$/,/^```$/{/^```/!p;}' "$top/docs/SHARED.md"; } >"$room/shared.py"
    (cd "$room" && python shared.py) && grep -q ' add 3 4 = added$' "$room/zone.journal"
}

documents() {
    for page in README.md python/README.md; do attempt "the program of $page" program_of_page "$page"; done
    attempt "the lines of docs/SHARED.md keep a journal" journal_of_page
    attempt "examples/embed/places.py writes examples/embed/places.txt" writes "$top/examples/embed/places.txt" python "$top/examples/embed/places.py"
    attempt "docs/PLANNERS.md has three listings in Python" planners
    attempt "they are true" python "$room/planners.py"
}

modules() {
    if with numpy; then
        attempt "examples/embed/places.py with numpy" writes "$top/examples/embed/places.txt" python "$top/examples/embed/places.py"
        attempt "the tests of arrays of numpy, by $interpreter" python "$here/hull_tests.py" Arrays
    else
        skip "arrays of numpy" "python3 with numpy"
    fi
    if with mypy; then
        attempt "examples in Python by mypy --strict" env MYPYPATH="$prefix/lib/hull" MYPY_CACHE_DIR="$room/mypy" \
            "$interpreter" -m mypy --strict "$top/examples/embed/places.py" "$top/examples/shared/threads.py"
        attempt "python/hull.py by mypy --strict" env MYPY_CACHE_DIR="$room/mypy" "$interpreter" -m mypy --strict "$top/python/hull.py"
    else
        skip "annotations" mypy
    fi
}

install_libraries
if ! is_there python3; then skip "Python" python3; end; fi
all=$(pythons)
[ "$long" ] || all=$(echo "$all" | sed -n '1p;$p')
others=
for interpreter in $all; do
    [ "$interpreter" != python3 ] || continue
    numbered=$(version_of "$interpreter")
    others="$others $numbered"
    begin_beside "$numbered" tests_by "$interpreter"
done
tests_by python3
random_calls
replays Python python "$here/replay.py"
threads
objects
documents
modules
# shellcheck disable=SC2086 # the versions are separated by spaces
join_beside $others
end
