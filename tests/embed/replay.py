"""Makes the calls of random_calls.py on a hull of python/hull.py and on its polygon: replay.py FILE. Prints how many it made."""
import sys

from hull import Hull, TooMany


def flat(points):
    return [number for point in points or () for number in point]


def answers(hull, word, x, y):
    """Returns the answer of the hull, and that of its polygon if it has such a question."""
    if word == "add":
        try:
            return [[hull.add(x, y)]]
        except TooMany:
            return [[0]]
    if word == "remove":
        left = hull.remove(x, y)
        return [[-1 if left is None else left]]
    if word == "multiplicity":
        return [[hull.multiplicity(x, y)]]
    both = hull, hull.polygon()
    if word == "place":
        return [[it.place(x, y).name.lower()] for it in both]
    if word == "tangents":
        return [flat(it.tangents(x, y)) for it in both]
    if word == "extreme":
        farthest = [it.extreme(x, y) for it in both]
        return [list(point or ()) for point in farthest]
    return [flat(it.vertices()) for it in both] if word == "vertices" else [[it.doubled_area()] for it in both]


made, hull = 0, Hull(limit=40)
with open(sys.argv[1], encoding="ascii") as file:
    for line in file:
        word, *words = line.split()
        if word == "move":
            hull = Hull(limit=40)
            continue
        numbers = [int(it) if it.lstrip("-").isdigit() else it for it in words]
        for answer in answers(hull, word, *numbers[:2]):
            assert answer == numbers[2:], (line, answer)
        made += 1
print(made, "calls")
