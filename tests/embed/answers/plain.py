"""The questions of polygons, answered slowly and plainly from all vertices and edges, in integers and fractions; nothing of the library takes part.

A polygon is a tuple of vertices, and a function has the name of its question. It returns what the class `Polygon` of python/hull.py returns,
with words in the place of constants. Of a question with several right answers it returns what all have in common, and IS_RIGHT judges an
answer, which is a word and points, whether it is one of them.
"""
import functools
import math
from fractions import Fraction


def orientation(a, b, c):
    return (b[0] - a[0]) * (c[1] - a[1]) - (b[1] - a[1]) * (c[0] - a[0])


def product(a, b):
    return a[0] * b[0] + a[1] * b[1]


def way(a, b):
    return b[0] - a[0], b[1] - a[1]


def square(a, b):
    return product(way(a, b), way(a, b))


def hull_of(points):
    """The vertices of any points, counterclockwise from the first by x and then y (Andrew, 1979)."""
    points, chains = sorted(set(points)), []
    for there in (points, points[::-1]):
        chain = []
        for point in there:
            while len(chain) > 1 and orientation(chain[-2], chain[-1], point) <= 0:
                chain.pop()
            chain.append(point)
        chains += chain[:-1]
    return tuple(chains or points)


def edges(polygon):
    return list(zip(polygon, polygon[1:] + polygon[:1])) if len(polygon) > 1 else []


def on_segment(a, b, p):
    return orientation(a, b, p) == 0 and all(min(a[i], b[i]) <= p[i] <= max(a[i], b[i]) for i in (0, 1))


@functools.lru_cache(maxsize=1 << 14)
def place(polygon, p):
    if p in polygon or any(on_segment(a, b, p) for a, b in edges(polygon)):
        return "on"
    return "inside" if len(polygon) > 2 and all(orientation(a, b, p) > 0 for a, b in edges(polygon)) else "outside"


def covers(polygon, p):
    return place(polygon, p) != "outside"


def tangents(polygon, p):
    if not polygon or covers(polygon, p):
        return None
    left = [v for v in polygon if all(orientation(p, v, w) <= 0 for w in polygon)]
    right = [v for v in polygon if all(orientation(p, v, w) >= 0 for w in polygon)]
    return tuple(max(points, key=lambda it: square(p, it)) for points in (left, right))


def extreme(polygon, direction):
    return max(sorted(polygon), key=lambda it: product(it, direction), default=None)


def doubled_area(polygon):
    return sum(orientation(polygon[0], a, b) for a, b in edges(polygon))


def nearest(polygon, p):
    if not polygon or covers(polygon, p):
        return () if polygon else None
    seen = [(a, b) for a, b in edges(polygon) if orientation(a, b, p) < 0 < product(way(a, b), way(a, p)) < square(a, b)]
    feet = [(Fraction(orientation(a, b, p) ** 2, square(a, b)), (a, b)) for a, b in seen]
    return min(feet + [(square(v, p), (v,)) for v in polygon])[1]


def bounding_box(polygon):
    return tuple(tuple(pick(v[i] for v in polygon) for i in (0, 1)) for pick in (min, max)) if polygon else None


def width_along(polygon, direction):
    products = [product(v, direction) for v in polygon]
    return max(products) - min(products) if products else None


def diameter(polygon):
    """The squared diameter."""
    return max((square(a, b) for a in polygon for b in polygon), default=None)


def least_width(polygon):
    """The squared width."""
    widths = (max(Fraction(orientation(a, b, v) ** 2, square(a, b)) for v in polygon) for a, b in edges(polygon))
    return min(widths, default=None)


def to_segment(a, b, p):
    """The squared distance of p and the segment from a to b."""
    far, whole = product(way(a, b), way(a, p)), square(a, b)
    return Fraction(orientation(a, b, p) ** 2, whole) if 0 < far < whole else Fraction(square(a, p) if far <= 0 else square(b, p))


def cross(a, b, c, d):
    return orientation(a, b, c) * orientation(a, b, d) < 0 and orientation(c, d, a) * orientation(c, d, b) < 0


@functools.lru_cache(maxsize=4096)
def squared_distance(one, other):
    if not one or not other:
        return None
    if any(covers(one, p) for p in other) or any(covers(other, p) for p in one) or any(cross(*e, *f) for e in edges(one) for f in edges(other)):
        return Fraction(0)
    segments = [(e, p) for e in edges(one) or [one * 2] for p in other] + [(e, p) for e in edges(other) or [other * 2] for p in one]
    return min(to_segment(*e, p) for e, p in segments)


def intersects(one, other):
    return squared_distance(one, other) == 0


def contains(one, other):
    return all(covers(one, p) for p in other)


def contains_inside(one, other):
    return all(place(one, p) == "inside" for p in other)


def is_divided(one, other):
    """Whether a line has them on its two sides: one through vertices of both."""
    for s in one:
        for t in other:
            x, y = s[1] - t[1], t[0] - s[0]
            for turned in ((x, y), (-x, -y)):
                if (x or y) and max(product(p, turned) for p in one) <= min(product(p, turned) for p in other):
                    return True
    return False


def relation(one, other):
    inside, outside = contains(one, other), contains(other, one)
    if inside or outside:
        return "equal" if inside and outside else "covers" if inside else "within"
    return "disjoint" if squared_distance(one, other) else "touching" if is_divided(one, other) else "overlapping"


def within_distance(one, other, length):
    squared = squared_distance(one, other)
    return squared is not None and squared <= length * length


def witness(one, other):
    """Whether they intersect."""
    return intersects(one, other) if one and other else None


def distance(one, other):
    """The squared distance."""
    return squared_distance(one, other)


def bounds(squared):
    """The doubles next to the root of a fraction."""
    if squared is None:
        return None
    root = math.isqrt((squared.numerator << 200) // squared.denominator)
    low = root / (1 << 100)
    while Fraction(low) ** 2 > squared:
        low = math.nextafter(low, 0)
    while Fraction(math.nextafter(low, math.inf)) ** 2 <= squared:
        low = math.nextafter(low, math.inf)
    return low, low if Fraction(low) ** 2 == squared else math.nextafter(low, math.inf)


def distance_bounds(one, other):
    return bounds(squared_distance(one, other))


def of_segment(question):
    """A question of a polygon and a segment, as that of two polygons."""
    return lambda polygon, a, b, *more: question(polygon, tuple(sorted({a, b})), *more)


def of_point(question):
    return lambda polygon, p, *more: question(polygon, (p,), *more)


intersects_segment, relation_to_segment, separation_from_segment = of_segment(intersects), of_segment(relation), of_segment(witness)
squared_distance_to_segment, squared_distance_to_point = of_segment(squared_distance), of_point(squared_distance)
distance_bounds_to_segment, distance_bounds_to_point = of_segment(distance_bounds), of_point(distance_bounds)
within_distance_of_segment, within_distance_of_point = of_segment(within_distance), of_point(within_distance)


def crossings(polygon, a, step):
    """How far along the line through a, in steps, the points are at which it is on the boundary: of an edge on the line both ends."""
    b = a[0] + step[0], a[1] + step[1]
    for p, q in edges(polygon) or [polygon * 2]:
        s, t = orientation(a, b, p), orientation(a, b, q)
        if s != t and min(s, t) <= 0 <= max(s, t):
            cut = Fraction(s, s - t)
            at = p[0] + (q[0] - p[0]) * cut, p[1] + (q[1] - p[1]) * cut
            yield Fraction(product(way(a, at), step), product(step, step))
        elif s == t == 0:
            yield from (Fraction(product(way(a, c), step), product(step, step)) for c in (p, q))


def parts(polygon, a, step):
    """How far along the ray from a it is in the polygon: the first and the last part; None if it misses."""
    found = [it for it in crossings(polygon, a, step) if it >= 0] if polygon else []
    found += [Fraction(0)] if covers(polygon, a) else []
    return (min(found), max(found)) if found else None


def raycast(polygon, a, step):
    """How far along it is."""
    found = parts(polygon, a, step)
    return found and found[0]


def raycast_exit(polygon, a, step):
    found = parts(polygon, a, step)
    return found and found[1]


def raycast_segment(polygon, a, b):
    if a == b:
        return Fraction(0) if covers(polygon, a) else None
    found = raycast(polygon, a, way(a, b))
    return None if found is None or found > 1 else found


def first_meeting(one, other, step):
    """How much of the way it has gone."""
    if not one or not other:
        return None
    differences = hull_of([way(q, p) for p in one for q in other])
    if step == (0, 0):
        return Fraction(0) if covers(differences, (0, 0)) else None
    return raycast_segment(differences, (0, 0), step)


def is_diameter(squared, word, points, polygon):
    return square(*points) == squared and {*points} <= {*polygon}


def is_strip(squared, word, points, polygon):
    a, b, c = points
    return (a, b) in edges(polygon) and c in polygon and Fraction(orientation(a, b, c) ** 2, square(a, b)) == squared


def is_separated(vertex, direction, one, other):
    far = product(vertex, direction)
    return vertex in one and max(map(abs, direction)) <= 1 << 41 and all(product(v, direction) <= far for v in one) and all(
        product(v, direction) > far for v in other)


def is_separation(intersecting, word, points, polygon, a, b):
    return not intersecting and is_separated(*points, polygon, (a, b))


def is_witness(intersecting, word, points, one, other):
    if word == "disjoint":
        return not intersecting and is_separated(*points, one, other)
    shown = {"covered": lambda p: p in other and covers(one, p), "within": lambda p: p in one and covers(other, p),
             "crossing": lambda a, b, c, d: {a, b} <= {*one} and {c, d} <= {*other} and cross(a, b, c, d)}
    return intersecting and shown[word](*points)


def is_distance(squared, word, points, one, other):
    if word == "zero":
        return squared == 0
    if word == "vertices":
        return square(*points) == squared and points[0] in one and points[1] in other
    (p, *edge), (whole, part) = (points, (other, one)) if word == "vertex and edge" else ((points[2], *points[:2]), (one, other))
    return p in part and tuple(edge) in edges(whole) and 0 < product(way(*edge), way(edge[0], p)) < square(*edge) and to_segment(*edge, p) == squared


def is_hit(part, word, points, polygon, a, step):
    """(`part` is as far as the answer says, which is tested before)"""
    at = a[0] + step[0] * part, a[1] + step[1] * part
    if word == "edge":
        return points in edges(polygon) and on_segment(*points, at)
    return covers(polygon, a) and part == 0 if word == "start" else points == (at,) and at in polygon


def is_hit_of_segment(part, word, points, polygon, a, b):
    return is_hit(part, word, points, polygon, a, way(a, b))


def is_motion(part, word, points, one, other, step):
    if word == "start":
        return part == 0 and intersects(one, other)
    *feature, vertex = points
    moves = word.endswith("by theirs")
    moving, waiting = (other, one) if moves else (one, other)
    along = step if moves else (-step[0], -step[1])
    return vertex in moving and is_hit(part, word.partition(" ")[0], tuple(feature), waiting, vertex, along)


IS_RIGHT = {
    "diameter": is_diameter, "least_width": is_strip, "separation_from_segment": is_separation, "witness": is_witness, "distance": is_distance,
    "raycast": is_hit, "raycast_exit": is_hit, "raycast_segment": is_hit_of_segment, "first_meeting": is_motion,
}
