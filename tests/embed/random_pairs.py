"""Compares the pairs of random polygons that are near one another, of coordinates to 2^40, with a question for each pair: random_pairs.py TIMES
SEED. Prints how many pairs there were.
"""
import random
import sys
from fractions import Fraction

from hull import Polygon, pairs_within_distance

LIMIT = 1 << 40


def main(times, seed):
    numbers, found = random.Random(seed), 0
    for _ in range(times):
        reach = numbers.choice((3, 40, 1 << 20, 1 << 31, 1 << 38))
        at = [numbers.randint(reach - LIMIT, LIMIT - reach) for _ in "xy"]

        def near():
            return tuple(c + numbers.randint(-reach, reach) for c in at)

        polygons = [Polygon.of([near() for _ in range(numbers.randint(0, 4))]) for _ in range(12)]
        distance = Fraction(numbers.randint(0, reach), numbers.randint(1, 9))
        pairs = [(i, j) for i in range(12) for j in range(i + 1, 12) if polygons[i].within_distance(polygons[j], distance)]
        assert pairs_within_distance(polygons, distance) == pairs, (polygons, distance)
        found += len(pairs)
    print(f"{found} pairs")
    assert found > times


main(int(sys.argv[1]), int(sys.argv[2]))
