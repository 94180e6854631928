#!/bin/sh
# Tests the examples for planners over other libraries (libccd, OMPL), and those for more points than one machine holds, by processes (Dask, MPI),
# as far as these are here. The last line is 'N passed, M failed'.
set -u
here=$(cd "$(dirname "$0")" && pwd)
. "$here/../lib.sh"
. "$here/../libraries.sh"
examples=$top/examples/embed
large=$top/examples/large

# whether a header of another library is there: HEADER COMPILER FLAGS..
has_header() {
    header=$1
    shift
    echo "#include <$header>" | "$@" -E - >/dev/null 2>&1
}

beside_libccd() {
    if ! has_header ccd/ccd.h cc; then skip "a support function for libccd" libccd-dev; return; fi
    # shellcheck disable=SC2046 # the flags are separated by spaces
    attempt "examples/embed/gjk.c compiles beside libccd" \
        cc -std=c11 -Wall -Wextra -Werror -O2 "$examples/gjk.c" $(flags) -lccd -lm -o "$room/gjk"
    attempt "examples/embed/gjk.c writes examples/embed/gjk.txt" writes "$examples/gjk.txt" "$room/gjk"
}

# whether the planner among obstacles that move plans as it should, with snapshots, with a mutex, and with copies
moves() {
    "$room/moving" 2>"$room/output" | cmp - "$top/examples/shared/moving.txt" && "$room/moving" mutex && "$room/moving" copies
}

beside_ompl() {
    ompl=$(pkg-config --cflags ompl eigen3 2>/dev/null) || ompl=
    # shellcheck disable=SC2086 # the flags are separated by spaces
    if ! is_there c++ || ! has_header ompl/base/MotionValidator.h c++ $ompl -std=c++20 -x c++; then skip "planners beside OMPL" libompl-dev; return; fi
    # shellcheck disable=SC2046,SC2086
    attempt "examples/embed/sampling.cpp compiles beside OMPL" c++ $ompl -std=c++17 -Wall -Wextra -O2 \
        "$examples/sampling.cpp" $(flags) -lhull_shared -lompl -lpthread -o "$room/sampling"
    attempt "examples/embed/sampling.cpp writes examples/embed/sampling.txt" writes "$examples/sampling.txt" "$room/sampling"
    # shellcheck disable=SC2046,SC2086
    attempt "examples/shared/moving.cpp compiles beside OMPL" c++ $ompl -std=c++20 -Wall -Wextra -O2 \
        "$top/examples/shared/moving.cpp" $(flags) -lhull_shared -lompl -lpthread -o "$room/moving"
    attempt "examples/shared/moving.cpp plans among obstacles that move" moves
}

# the same answer by Dask's scheduler, also if a worker is killed that has polygons: NAME ARGUMENTS..
by_dask() {
    wanted=$large/$1.txt
    shift
    writes "$wanted" python "$large/blocks.py" "$@" 2>"$room/output_of_workers" || { cat "$room/output_of_workers"; return 1; }
    case " $* " in *' --kill '*) grep -q 'is killed that holds [1-9]' "$room/output_of_workers" ;; esac
}

in_workers() {
    if ! with "numpy, distributed"; then skip "polygons by Dask's workers" "python3 with numpy and distributed (python3-distributed)"; return; fi
    attempt "examples/large/blocks.py by one process" by_dask square 2000000 --block 65536 --workers 0
    attempt "examples/large/blocks.py by three workers" by_dask square 2000000 --block 65536 --workers 3
    attempt "examples/large/blocks.py with a worker that is killed in the middle" by_dask square 2000000 --block 65536 --workers 3 --kill
    attempt "examples/large/blocks.py with points that are all vertices" by_dask parabola 262144 --shape parabola --block 16384 --workers 3 --kill
}

by_mpi() {
    processes=$1
    wanted=$large/$2.txt
    shift 2
    OMPI_ALLOW_RUN_AS_ROOT=1 OMPI_ALLOW_RUN_AS_ROOT_CONFIRM=1 OMPI_MCA_rmaps_base_oversubscribe=1 \
        writes "$wanted" mpirun -n "$processes" "$room/reduce" "$@"
}

reduced() {
    if ! is_there mpicc || ! is_there mpirun; then skip "polygons reduced by MPI" "mpicc (libopenmpi-dev, openmpi-bin)"; return; fi
    # shellcheck disable=SC2046 # the flags are separated by spaces
    attempt "examples/large/reduce.c compiles" mpicc -std=c11 -Wall -Wextra -Werror -O2 "$large/reduce.c" $(flags) -o "$room/reduce"
    for processes in 1 3 4; do
        attempt "examples/large/reduce.c by $processes processes" by_mpi "$processes" square 2000000 square 1 65536
        attempt "examples/large/reduce.c by $processes, with points that are all vertices" by_mpi "$processes" parabola 262144 parabola 1 16384
    done
}

install_libraries
beside_libccd
beside_ompl
in_workers
reduced
end
