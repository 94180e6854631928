#!/bin/sh
# This library in C++ beside its peers, in one process, in turns: changes beside CGAL's Delaunay hierarchy and vertices kept in an
# array, the polygon of any points beside CGAL's convex hull, questions about a set that does not change beside sort and chain,
# CGAL, GEOS and Boost, shapes two at a time beside Box2D and libccd, and the indices of the vertices beside SciPy. Needs c++ and the
# headers of the peers (Debian: libcgal-dev libgeos-dev libboost-dev libbox2d-dev libccd-dev python3-scipy), and reports if they
# are not there.
#
# run.sh [ROUNDS]: the least of so many rounds (3 if none is given)
set -eu
here=$(cd "$(dirname "$0")" && pwd)
top=$(cd "$here/../.." && pwd)
room=$(mktemp -d)
trap 'rm -rf "$room"' EXIT
if ! echo '#include <CGAL/version.h>' | c++ -fsyntax-only -x c++ - 2>/dev/null; then
    echo 'skipped: there is no c++ with the headers of CGAL'
    exit 0
fi
"$top/bin/install" --library "$room"
c++ -std=c++17 -O2 -DNDEBUG -frounding-math -I"$room/include" "$here/changes.cpp" -L"$room/lib" -lhull -lgmp -lmpfr -o "$room/changes"
for points in 1000 100000 1000000; do
    "$room/changes" square "$points" "${1:-3}"
done
for points in 1000 10000; do
    for shape in parabola circle spike outermost outwards inwards spiral; do
        "$room/changes" "$shape" "$points" "${1:-3}"
    done
done
for points in 10000 100000; do
    for shape in square disk parabola circle; do
        "$room/changes" added "$shape" "$points" "${1:-3}"
    done
done
for points in 1000 10000 100000; do
    for shape in parabola circle square; do
        "$room/changes" listed "$shape" "$points" "${1:-3}"
    done
done
c++ -std=c++17 -O2 -DNDEBUG -frounding-math -I"$room/include" "$here/polygon_of.cpp" -L"$room/lib" -lhull -lgmp -lmpfr -o "$room/polygon_of"
for points in 1000 100000 1000000; do
    "$room/polygon_of" "$points" "${1:-3}"
done
c++ -std=c++17 -O2 -I"$room/include" "$here/memory.cpp" -L"$room/lib" -lhull -o "$room/memory"
"$room/memory" 1000000
if printf '%s\n' '#include <box2d/box2d.h>' '#include <ccd/ccd.h>' | c++ -fsyntax-only -x c++ - 2>/dev/null; then
    c++ -std=c++17 -O2 -I"$room/include" "$here/shapes.cpp" -L"$room/lib" -lhull -lbox2d -lccd -o "$room/shapes"
    "$room/shapes" 4 "${1:-3}"
    "$room/shapes" 8 "${1:-3}"
else
    echo 'skipped: shapes two at a time, since there are no headers of Box2D and libccd'
fi
python=$(command -v /usr/bin/python3 || command -v python3 || :)
if [ -n "$python" ] && "$python" -c 'import scipy' 2>/dev/null; then
    PYTHONPATH=$room/lib/hull "$python" "$here/indices.py" "${1:-3}"
else
    echo 'skipped: which input a vertex is, since there is no SciPy'
fi
if ! printf '%s\n' '#include <boost/geometry.hpp>' '#include <geos_c.h>' | c++ -fsyntax-only -x c++ - 2>/dev/null; then
    echo 'skipped: a set that stands, since there are no headers of GEOS and Boost'
    exit 0
fi
if printf '%s\n' '#include <ccd/ccd.h>' | c++ -fsyntax-only -x c++ - 2>/dev/null; then
    c++ -std=c++17 -O2 -DNDEBUG -I"$room/include" "$here/two_polygons.cpp" -L"$room/lib" -lhull -lgeos_c -lccd -o "$room/two_polygons"
    for vertices in 8 100 1000 10000 100000; do
        "$room/two_polygons" "$vertices" "${1:-3}"
    done
else
    echo 'skipped: two polygons of many vertices, since there are no headers of libccd'
fi
c++ -std=c++17 -O2 -DNDEBUG -frounding-math -I"$room/include" "$here/standing.cpp" -L"$room/lib" -lhull -lgmp -lmpfr -lgeos_c \
    -lpthread -o "$room/standing"
for points in 1000 100000 1000000; do
    "$room/standing" square "$points" "${1:-3}"
done
for points in 1000 100000; do
    "$room/standing" parabola "$points" "${1:-3}"
done
