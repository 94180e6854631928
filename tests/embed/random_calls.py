"""Writes random calls on a hull with their answers, with which each language is tested: random_calls.py CALLS SEED.

The answers are computed from all points for each question anew (the chain of Andrew, 1979), with nothing of the library. A line is a call's
word, its coordinates and its answer: of `add` and `multiplicity` the multiplicity (0 if there are too many); of `remove` the multiplicity
that is left (-1 if the point was not there); of `place` `inside`, `on` or `outside`; of `tangents` and `extreme` points, or nothing; of
`vertices` all vertices; of `area` twice the area. A line `move S X Y` begins anew with the hull of no points, on a grid of steps S from
(X, Y).
"""
import random
import sys

LIMIT, SIDE = 40, 12
WORDS = "add add add remove remove place place tangents extreme multiplicity vertices area".split()


def orientation(a, b, c):
    return (b[0] - a[0]) * (c[1] - a[1]) - (b[1] - a[1]) * (c[0] - a[0])


def half(points):
    chain = []
    for point in points:
        while len(chain) > 1 and orientation(chain[-2], chain[-1], point) <= 0:
            chain.pop()
        chain.append(point)
    return chain[:-1]


def vertices(held):
    points = sorted(held)
    return points if len(points) < 2 else half(points) + half(points[::-1])


def edges(ring):
    return list(zip(ring, ring[1:] + ring[:1]))


def is_between(p, a, b):
    return min(a[0], b[0]) <= p[0] <= max(a[0], b[0]) and min(a[1], b[1]) <= p[1] <= max(a[1], b[1])


def place(ring, p):
    turns = [(orientation(a, b, p), a, b) for a, b in edges(ring)]
    if any(turn == 0 and is_between(p, a, b) for turn, a, b in turns):
        return "on"
    return "inside" if len(ring) > 2 and all(turn > 0 for turn, _, _ in turns) else "outside"


def tangents(ring, p):
    if not ring or place(ring, p) != "outside":
        return ()
    found = []
    for sign in (1, -1):
        best = ring[0]
        for c in ring[1:]:
            turn = sign * orientation(p, best, c)
            if turn > 0 or turn == 0 and (c[0] - p[0]) ** 2 + (c[1] - p[1]) ** 2 > (best[0] - p[0]) ** 2 + (best[1] - p[1]) ** 2:
                best = c
        found.append(best)
    return found


def extreme(ring, d):
    return [max(sorted(ring), key=lambda c: d[0] * c[0] + d[1] * c[1])] if ring else ()


def answer(held, word, p):
    if word == "add":
        if p not in held and len(held) == LIMIT:
            return [0]
        held[p] = held.get(p, 0) + 1
        return [held[p]]
    if word == "remove":
        if p not in held:
            return [-1]
        held[p] -= 1
        return [held[p]] if held[p] else [held.pop(p)]
    if word == "multiplicity":
        return [held.get(p, 0)]
    ring = vertices(held)
    if word in ("place", "tangents", "extreme"):
        found = {"place": place, "tangents": tangents, "extreme": extreme}[word](ring, p)
        return [found] if word == "place" else [number for point in found for number in point]
    return [number for c in ring for number in c] if word == "vertices" else [sum(a[0] * b[1] - a[1] * b[0] for a, b in edges(ring))]


def main(calls, seed):
    numbers, held = random.Random(seed), {}
    for call in range(calls):
        if call % 500 == 0:
            step = numbers.choice((1, 7, 1 << 20, (1 << 40) // SIDE))
            x, y = (numbers.randint(-(1 << 40), (1 << 40) - step * SIDE) if step < 1 << 30 else -(1 << 39) for _ in "xy")
            held.clear()
            print("move", step, x, y)
        word = numbers.choice(WORDS)
        p = tuple(at + step * numbers.randrange(SIDE) for at in (x, y))
        if word == "extreme":
            p = numbers.randint(-9, 9), numbers.choice((-1, 1)) * numbers.randint(1, 9)
        print(word, *p, *answer(held, word, p))


main(int(sys.argv[1]), int(sys.argv[2]))
