"""Which points are the vertices, of arrays of numpy: hull.Polygon.of and its indices beside SciPy's ConvexHull (Qhull).

    indices.py [ROUNDS]

Each line shows milliseconds, the least of the rounds, in which the two come in turns, in processor time; a ratio above 1 means that the
library is the faster one. SciPy's vertices must be the same, except for those that its rounding merges, which are counted.
"""
import sys
import time

import hull
import numpy
from scipy.spatial import ConvexHull


def ours(points):
    return hull.Polygon.of(points).indices(points)


def theirs(points):
    return ConvexHull(points).vertices


def main():
    rounds = int(sys.argv[1]) if len(sys.argv) > 1 else 5
    chance = numpy.random.default_rng(7)
    for count in (100, 1000, 100_000, 1_000_000):
        for shape in ("square", "disc"):
            points = chance.integers(-(1 << 39), 1 << 39, (count, 2))
            if shape == "disc":
                turn = chance.random(count) * 2 * numpy.pi
                points = (numpy.stack([numpy.cos(turn), numpy.sin(turn)], axis=1) * (1 << 39)).astype(numpy.int64)
            least = {ours: 1e9, theirs: 1e9}
            found = {}
            for _ in range(rounds):
                for ask in (ours, theirs):
                    begin = time.process_time()
                    found[ask] = ask(points)
                    least[ask] = min(least[ask], time.process_time() - begin)
            missing = len(set(found[ours]) ^ set(map(int, found[theirs])))
            print(f"{shape} of {count:9,}: {least[ours] * 1e3:9.2f} ms, SciPy {least[theirs] * 1e3:9.2f} ms: {least[theirs] / least[ours]:5.2f}; "
                  f"{len(found[ours])} vertices, {missing} of them in one of the two alone")


main()
