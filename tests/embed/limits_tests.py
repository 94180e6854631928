"""Tests the module hull at its limits: numbers at both ends of each range and beyond, blocks and lengths that do not fit, floats that are
rounded, hulls that differ only by multiplicities, and what shared hulls, seats and readers do when they are full, released or late."""
import copy
import itertools
import pickle
import random
import sys
import threading
import time
import unittest
import weakref
from array import array
from decimal import Decimal
from fractions import Fraction

import hull
from hull import FloatHull, Hull, Polygon, SharedHull

FAR = hull.COORDINATE_LIMIT
SQUARE = [(0, 0), (10, 0), (10, 10), (0, 10)]
CALLS = {"place": 2, "tangents": 2, "extreme": 2, "add": 2, "remove": 2, "multiplicity": 2, "nearest_held": 2, "nearest": 2, "width_along": 2,
        "intersects_segment": 4,
         "separation_from_segment": 4, "squared_distance_to_point": 2, "relation_to_segment": 4, "raycast": 4, "raycast_exit": 4,
         "raycast_segment": 4, "rotate": 2,
         "squared_distance_to_segment": 4, "distance_bounds_to_segment": 4, "distance_bounds_to_point": 2}


class Numbers(unittest.TestCase):
    """Each operand of each call, one by one or in arrays."""

    def test_arrays_of_one_dimension(self):
        for wrong in (array("q", (1, 2)), b"ab", bytearray(b"ab"), memoryview(b"ab")):
            self.assertRaisesRegex(ValueError, r"has shape \(n, 2\), a point in each row, and this one of integers has \(2,\)$", Hull, wrong)
        self.assertEqual((len(Hull(b"")), len(Hull(array("q")))), (0, 0))

    def test_each_operand(self):
        for it in (Hull(SQUARE), Polygon(SQUARE)):
            for name, count in ((name, count) for name, count in CALLS.items() if hasattr(it, name)):
                call = getattr(it, name)
                for at in range(count):
                    for value in (FAR, -FAR) if name != "rotate" else ():
                        call(*(value if k == at else 1 for k in range(count)))
                    for value in (FAR + 1, -FAR - 1, 1 << 64, -(1 << 70)):
                        with self.assertRaises(hull.OutOfRange, msg=f"{name} {at} {value}"):
                            call(*(value if k == at else 1 for k in range(count)))
                    for value in (1.0, True, "1", None):
                        with self.assertRaises(TypeError, msg=f"{name} {at} {value}"):
                            call(*(value if k == at else 1 for k in range(count)))

    def test_arrays_at_the_ends(self):
        right = [(FAR, -FAR), (-FAR, FAR)]
        for points in (right, memoryview(array("q", (FAR, -FAR, -FAR, FAR))).cast("B").cast("q", (2, 2)), iter(right), dict.fromkeys(right, 1),
                set(right)):
            self.assertEqual(sorted(Hull(points)), sorted(right))
        for wrong in (FAR + 1, -FAR - 1, 1 << 63, -(1 << 63) - 1):
            for pair in ((wrong, 0), (0, wrong)):
                for call in (Hull, Polygon.of, Polygon, Polygon(SQUARE).place_all, Polygon(SQUARE).tangents_all, Polygon(SQUARE).extreme_all,
                        Hull().add_all, Hull().remove_all):
                    self.assertRaises(hull.OutOfRange, call, [(1, 1), pair])
        self.assertEqual(Hull(limit=hull.POINT_LIMIT).limit(), hull.POINT_LIMIT)
        for limit in (0, hull.POINT_LIMIT + 1, -1):
            self.assertRaises(ValueError, Hull, (), limit)

    def test_polygons_that_move_to_the_ends(self):
        self.assertEqual(Polygon([(-FAR, FAR)]).translate(2 * FAR, -2 * FAR).vertices(), [(FAR, -FAR)])
        self.assertEqual(Polygon([(FAR, 0)]).rotate(0, -1).vertices(), [(0, -FAR)])
        for way in ((2 * FAR + 1, 0), (0, -2 * FAR - 1), (1, 0)):
            self.assertRaises(hull.OutOfRange, Polygon([(FAR, 0)]).translate, *way)
        for way in ((FAR + 1, 0), (0, -FAR - 1)):
            self.assertRaises(hull.OutOfRange, Polygon(SQUARE).first_meeting, Polygon([(99, 0)]), *way)

    def test_wide_numbers(self):
        corners = [(-FAR, -FAR), (FAR, -FAR), (FAR, FAR), (-FAR, FAR)]
        for it in (Hull(corners), Polygon(corners)):
            self.assertEqual(it.doubled_area(), 1 << 83)
        self.assertEqual((Polygon(corners).width_along(FAR, 3), Hull(corners).nearest_held(FAR, 0)), ((FAR + 3) << 41, ((FAR, -FAR), FAR * FAR)))
        chance = random.Random(3)
        for _ in range(60):
            polygon = Polygon.of([(chance.randint(-FAR, FAR), chance.randint(-FAR, FAR)) for _ in range(7)])
            x, y, dx, dy = (chance.randint(-FAR, FAR) for _ in range(4))
            for hit in (polygon.raycast(x, y, dx, dy), polygon.raycast_exit(x, y, dx, dy)):
                if hit and len(hit[1]) == 2:
                    (ax, ay), (bx, by) = hit[1]
                    self.assertEqual((bx - ax) * (y + hit[0] * dy - ay), (by - ay) * (x + hit[0] * dx - ax))
            self.assertEqual(polygon.squared_distance_to_segment(x, y, x, y), polygon.squared_distance_to_point(x, y))
            lower, upper = polygon.distance_bounds_to_point(x, y)
            self.assertTrue(Fraction(lower) ** 2 <= polygon.squared_distance_to_point(x, y) <= Fraction(upper) ** 2)


class Sets(unittest.TestCase):
    """Points with multiplicities, in blocks, compared and merged."""

    def test_blocks_of_items(self):
        for count in (0, 1, 1023, 1024, 1025, 2048, 3000):
            points = [(k // 7, FAR - 6 + k % 7) for k in range(count)]
            self.assertEqual(list(Hull(points).items()), [(point, 1) for point in points], count)
        ends = [(k, y) for k in range(600) for y in (-FAR, FAR)]
        self.assertEqual(list(Hull(ends)), ends)
        self.assertEqual(list(Hull([(-FAR, -FAR), (FAR, FAR)])), [(-FAR, -FAR), (FAR, FAR)])
        shifted = [(k, y) for k in range(512) for y in (0, FAR)] + [(512, -FAR), (512, 3)]  # a block that ends at the greatest y
        self.assertEqual(list(Hull(shifted)), shifted)

    def test_multiplicities(self):
        once, twice = Hull([(1, 2), (3, 4)]), Hull([(1, 2), (3, 4), (3, 4)])
        self.assertEqual((once == twice, once == Hull([(3, 4), (1, 2)]), once == [(1, 2), (3, 4)]), (False, True, False))
        self.assertEqual((list(twice.add_all([(3, 4), (9, 9)])), twice.remove_all([(3, 4)] * 5 + [(1, 2), (7, 7)])), ([3, 1], 4))
        self.assertEqual(list(Hull(limit=2).add_all([(0, 0), (1, 1), (2, 2), (0, 0)])), [1, 1, 0, 2])
        self.assertEqual(Hull().load_items([((0, 0), 65535), ((0, 1), 1)]), 2)
        for wrong in (0, 65536, -1):
            self.assertRaises(ValueError, Hull().load_items, [((0, 0), wrong)])
        most = Hull({(5, 5): 65535})
        self.assertRaises(hull.TooMany, most.add, 5, 5)
        self.assertEqual(((5, 5) in most, (5, FAR + 1) in most, (4, 5) in most), (True, False, False))
        self.assertEqual((most.copy() == most, most.copy().limit(), most.clear(), len(most)), (True, hull.POINT_LIMIT, None, 0))

    def test_merging_more_than_multiplicities(self):
        parts = [Polygon([(k % 11, k % 7)]) for k in range(hull.MULTIPLICITY_LIMIT + 10)]
        self.assertEqual(hull.merge(parts).vertices(), [(0, 0), (10, 0), (10, 6), (0, 6)])
        self.assertEqual(hull.merge([Polygon([(5, 5)])] * (hull.MULTIPLICITY_LIMIT + 10)).vertices(), [(5, 5)])
        self.assertRaises(TypeError, hull.merge, [Polygon(SQUARE), SQUARE])
        self.assertEqual(hull.merge([]).vertices(), [])


class Lengths(unittest.TestCase):
    """Distances that the library takes, and those that it does not."""

    def test_lengths(self):
        cells = [Polygon([(13 * x, 17 * y), (13 * x + 3, 17 * y), (13 * x + 3, 17 * y + 4), (13 * x,
                17 * y + 4)]) for x in range(4) for y in range(4)]
        pairs = list(itertools.combinations(range(len(cells)), 2))
        lengths = [0, 9, 10, Fraction(99999, 10000), 10.000000001, 0.1, 13, 1e300, 2 ** 64, 2 ** 64 - 1, Fraction(10 ** 12 - 1, 10 ** 11),
                Fraction(10 ** 12 + 1, 10 ** 11),
                   Fraction(10 * 2 ** 32 - 1, 2 ** 32), Fraction(10, 1), Fraction(165 * 10 ** 11 + 1, 10 ** 12), Fraction(13 * 10 ** 10 - 1,
                   10 ** 10), Decimal("12.99999999999")]
        for length in lengths:
            exact = Fraction(length)
            near = [(i, j) for i, j in pairs if cells[i].squared_distance(cells[j]) <= exact * exact]
            self.assertEqual(hull.pairs_within_distance(cells, length), near, length)
            self.assertEqual([cells[0].within_distance(it, length) for it in cells], [cells[0].squared_distance(it) <= exact * exact for it in cells])
            for x, y in ((3, 14), (13, 4), (1, 1), (16, 0)):
                squared = cells[0].squared_distance_to_point(x, y)
                self.assertEqual(cells[0].within_distance_of_point(x, y, length), squared <= exact * exact)
                self.assertEqual(cells[0].within_distance_of_segment(x, y, x + 1, y + 90, length), cells[0].squared_distance_to_segment(x, y, x + 1,
                        y + 90) <= exact * exact)
        m = 1 << 19  # an edge whose length is a whole number above 2^32: distances from it have such denominators
        edge, length = Polygon([(0, 0), (2 * m - 1, 2 * m * (m - 1))]), 2 * m * (m - 1) + 1
        for point in ((1, 1), (2, 1), (5, 3), (1000, 1)):
            cross = Fraction(abs((2 * m - 1) * point[1] - 2 * m * (m - 1) * point[0]), length)
            self.assertTrue(cross.denominator >= 2 ** 32 and edge.within_distance_of_point(*point, cross))
            self.assertTrue(edge.within_distance(Polygon([point]), cross) and hull.pairs_within_distance([edge, Polygon([point])], cross) == [(0, 1)])
            less = cross - Fraction(1, 10 ** 40)
            self.assertFalse(edge.within_distance_of_point(*point, less) or edge.within_distance(Polygon([point]), less))
            self.assertEqual(hull.pairs_within_distance([edge, Polygon([point])], less), [])
        for wrong in (-1, -0.5, float("nan"), float("inf"), Fraction(-1, 10 ** 30)):
            self.assertRaises(hull.OutOfRange, hull.pairs_within_distance, cells, wrong)
            self.assertRaises(hull.OutOfRange, cells[0].within_distance, cells[1], wrong)
        for wrong in ("3", None, 3j, [3]):
            self.assertRaisesRegex(TypeError, f"a distance is a number, and not {type(wrong).__name__}$", cells[0].within_distance, cells[1], wrong)
        self.assertRaises(TypeError, cells[0].within_distance, cells[1], "1")

    def test_features(self):
        line, square = Polygon([(0, 0), (4, 4)]), Polygon(SQUARE)
        self.assertEqual(line.raycast(7, 7, -1, -1), (3, ((4, 4),)))
        self.assertEqual((square.raycast(3, 3, 1, 0), square.raycast(-5, 5, 1, 0)[1]), ((0, ()), ((0, 10), (0, 0))))
        self.assertEqual((square.extreme_d(0, 0), square.extreme_d(-0.5, 0.25), Hull(SQUARE).extreme_d(0.0, -0.0)), ((0, 0), (0, 10), (0, 0)))
        meeting = square.first_meeting(Polygon([(20, 5)]), -20, 0)
        self.assertEqual((meeting.part, meeting.vertex, meeting.moves, meeting.at), (Fraction(1, 2), (20, 5), True, ((10, 0), (10, 10))))
        meeting = square.first_meeting(Polygon([(20, -90), (21, 0), (20, 90)]), -20, 0)
        self.assertEqual((meeting.part, meeting.moves, meeting.vertex[0]), (Fraction(1, 2), False, 10))
        self.assertEqual(square.first_meeting(Polygon([(5, 5)]), 1, 1)[1:], ((), None, False))
        none = Polygon([])
        self.assertEqual([none.raycast(0, 0, 1, 0), none.nearest(0, 0), none.bounding_box(), none.diameter(), none.least_width(),
                none.witness(square), none.distance(square)], [None] * 7)
        texts = [Polygon.of(SQUARE[:count]).wkt() for count in range(4)]
        self.assertEqual(texts, ["POLYGON EMPTY", "POINT (0 0)", "LINESTRING (0 0, 10 0)", "POLYGON ((0 0, 10 0, 10 10, 0 0))"])


class Named(Hull):
    """A hull with attributes, which refers to itself, and that can't be made without a name."""

    def __init__(self, name, points):
        super().__init__(points, limit=9)
        self.name, self.itself = name, self


class Slotted(Hull):
    """A hull with slots, of which one is private and one is not set."""

    __slots__ = ("mark", "__private", "unset")

    def __init__(self, mark):
        super().__init__([(1, 2)])
        self.mark, self.__private = mark, [mark]

    def private(self):
        return self.__private


class Stated(Hull):
    """A hull that says itself what is copied of what it adds."""

    __slots__ = ("word",)

    def __getstate__(self):
        return self.word + "!"

    def __setstate__(self, state):
        self.word = state


class Growing(hull.GrowingHull):
    pass


class Area(Polygon):
    pass


class Shot(hull.Snapshot):
    pass


class Scaled(FloatHull):
    pass


def copies_of(thing):
    """Returns copies of a hull or of a polygon, made in each way."""
    made = [thing.copy()] if hasattr(thing, "copy") else []
    return [*made, copy.copy(thing), copy.deepcopy(thing), *(pickle.loads(pickle.dumps(thing, protocol)) for protocol in range(6))]


class Subclasses(unittest.TestCase):
    """Copies and pickles are of the class of the original, with what it adds."""

    def test_attributes(self):
        zone = Named("zone", [(0, 0), (0, 0), (5, 1)])
        for other in copies_of(zone):
            self.assertEqual((type(other), other.name, other, other.limit(), other is zone), (Named, "zone", zone, 9, False))
            other.add(7, 7)
            self.assertEqual((len(other), len(zone)), (3, 2))
        deep = copy.deepcopy(zone)
        self.assertTrue(copy.copy(zone).itself is zone and deep.itself is deep)

    def test_slots(self):
        for other in copies_of(Slotted("mark")):
            self.assertEqual((type(other), other.mark, other.private(), list(other), hasattr(other, "unset")), (Slotted, "mark", ["mark"], [(1, 2)], False))

    def test_states(self):
        zone = Stated(SQUARE)
        zone.word = "word"
        for other in copies_of(zone):
            self.assertEqual((type(other), other.word, other), (Stated, "word!", zone))

    def test_each_class(self):
        for kind in (Growing, Area, Shot, Scaled):
            thing = kind(SQUARE)
            if kind is Shot:
                thing.line = 7
            self.assertEqual([(type(other), other, getattr(other, "line", 7)) for other in copies_of(thing)],
                             [(kind, thing, 7)] * len(copies_of(thing)))
            thing.word = ["word"]
            self.assertEqual([other.word for other in copies_of(thing)], [["word"]] * len(copies_of(thing)))
            self.assertTrue(copy.copy(thing).word is thing.word and copy.deepcopy(thing).word is not thing.word)


class Floats(unittest.TestCase):
    """Numbers of each kind on the lattice, and how many were rounded."""

    def test_numbers_of_each_kind(self):
        for number, power, wanted in ((Fraction(1, 2), 0, (0, 1)), (Fraction(3, 2), 0, (2, 1)), (Fraction(1, 4), 0, (0, 1)), (Fraction(3, 4), 0, (1,
                1)), (Fraction(-1, 2), 0, (0, 1)),
                                      (Fraction(-3, 2), 0, (-2, 1)), (Fraction(1, 2), 1, (1, 0)), (Fraction(2 * FAR + 1, 2), 0, (FAR,
                                              1)), (Fraction(-2 * FAR - 1, 2), 0, (-FAR, 1)),
                                      (Fraction(FAR), 0, (FAR, 0)), (Decimal("0.5"), 0, (0, 1)), (Decimal("2.5"), 0, (2, 1)), (10 ** 30, -60,
                                              (867361737988, 1)), (FAR, 0, (FAR, 0)), (0, 99, (0, 0)),
                                      (5e-324, 1074, (1, 0)), (5e-324, 1073, (0, 1)), (-5e-324, 0, (0, 1)), (Fraction(1, 10 ** 400), 5, (0, 1)), (1,
                                              -2, (0, 1)), (3, -2, (1, 1)), (2, -2, (0, 1))):
            made = hull.from_floats([(number, 0), (0, number)], power)
            self.assertEqual((made.points, made.rounded), ([(wanted[0], 0), (0, wanted[0])], 2 * wanted[1]), (number, power))
        below = (1 << 60) - 1  # of a fraction whose two numbers have 41 bits more, and that is a coordinate
        self.assertEqual(hull.from_floats([(Fraction(FAR * below + (1 << 58), below), 0)], 0), ([(FAR, 0)], 1))
        for number, power in ((Fraction(FAR + 1), 0), (FAR + 1, 0), (1, 41), (Fraction(1, 2), 42), (float("nan"), 0), (float("inf"), -9999),
                (Decimal("Infinity"), 0), (Decimal("NaN"), 0),
                              (1e300, 0), (10 ** 400, 0), (Fraction(2 * FAR + 2, 2), 0)):
            self.assertRaises(hull.OutOfRange, hull.from_floats, [(0, number)], power)

    def test_directions(self):
        self.assertEqual(hull.direction_of(-1, 0.5), ((-(1 << 39), 1 << 38), False))
        self.assertEqual(hull.direction_of(0.5, -1), ((1 << 38, -(1 << 39)), False))
        self.assertEqual((hull.direction_of(0, 0), hull.direction_of(-3, -5e-324)), (((0, 0), False), ((-3 << 38, 0), True)))
        for wrong in (float("nan"), float("-inf")):
            for pair in ((wrong, 1), (1, wrong)):
                self.assertRaises(hull.OutOfRange, hull.direction_of, *pair)
        for wrong in (10 ** 400, -10 ** 400, Fraction(10 ** 400, 3)):
            self.assertRaises(hull.OutOfRange, hull.direction_of, wrong, 1)
            self.assertRaises(hull.OutOfRange, Hull(SQUARE).extreme_d, 1, wrong)
        self.assertEqual(hull.to_floats([(1, -3)], 2), [(0.25, -0.75)])

    def test_decimals_with_far_exponents(self):
        for exponent in (1500, 99999999, 999999999999999999):
            for sign in ("", "-"):
                great, small = Decimal(f"{sign}1e{exponent}"), Decimal(f"{sign}1e-{exponent}")
                self.assertRaises(hull.OutOfRange, hull.from_floats, [(great, 0)], 20)
                self.assertRaises(hull.OutOfRange, hull.direction_of, great, 1)
                self.assertEqual(hull.from_floats([(small, 0)], 20), ([(0, 0)], 1))
        self.assertEqual(hull.from_floats([(Decimal("3e1500"), 0)], -4981), ([(round(Fraction(3 * 10 ** 1500, 2 ** 4981)), 0)], 1))
        one, other = Polygon([(0, 0)]), Polygon([(FAR, 1)])
        for length, wanted in (("1e1500", True), ("1e99999999", True), ("1e-1500", False), ("1e-99999999", False), ("0e99999999", False)):
            self.assertEqual((one.within_distance(other, Decimal(length)), one.within_distance_of_point(FAR, 1, Decimal(length))), (wanted, wanted))
            self.assertTrue(one.within_distance(one, Decimal(length)))
            self.assertEqual(hull.pairs_within_distance([one, other], Decimal(length)), [(0, 1)] if wanted else [])
        for length in ("-1e99999999", "-1e-99999999", "NaN", "sNaN", "Infinity"):
            self.assertRaises(hull.OutOfRange, one.within_distance, other, Decimal(length))

    def test_hulls_in_floats(self):
        zone = FloatHull([(0, 0), (1, 0), (1, 1), (0, 1), (0.1, 0.5)], power=4)
        self.assertEqual((zone.rounded, len(zone), zone.area(), (1, 1) in zone, (1.01, 1) in zone, (1e300, 0) in zone), (1, 5, 1.0, True, False,
                False))
        self.assertEqual((zone.add(0.3, 0.7), zone.rounded, zone.remove(0.3, 0.7), zone.remove(9, 9)), (1, 3, 0, None))
        self.assertEqual((zone.extreme(-1, 0.001), zone.vertices(), zone.distance_to_point(4, 5)), ((0, 1), [(0, 0), (1, 0), (1, 1), (0, 1)], 5.0))
        self.assertEqual((zone.distance(FloatHull([(1, 3)], power=4)), zone.distance(FloatHull(power=4)), zone.tangents(2, 0.5)), (2.0, None, ((1,
                0), (1, 1))))
        self.assertRaises(ValueError, zone.distance, FloatHull([(1, 3)], power=5))
        self.assertEqual((FloatHull(power=2).area(), FloatHull([(0, 0), (3, 0), (3, 5)], power=2).area(), zone.wkt()), (0, 7.5,
                "POLYGON ((0.0 0.0, 1.0 0.0, 1.0 1.0, 0.0 1.0, 0.0 0.0))"))

    def test_copies_in_floats(self):
        zone = FloatHull([(0, 0), (0.1, 1), (0.1, 1)], power=4, limit=5)
        copies = [zone.copy(), copy.copy(zone), copy.deepcopy(zone), *(pickle.loads(pickle.dumps(zone, protocol)) for protocol in range(6))]
        for other in copies:
            self.assertEqual((other, list(other.hull.items()), other.hull.limit(), other.power, other.rounded),
                             (zone, list(zone.hull.items()), 5, 4, zone.rounded))
            other.add(3, 3)
            self.assertNotEqual(other, zone)
        self.assertEqual((len(zone), len(copies[0]), zone == FloatHull(zone, power=5), zone == zone.hull), (2, 3, False, False))
        self.assertIs(weakref.ref(zone)(), zone)
        self.assertRaises(TypeError, hash, zone)
        self.assertRaisesRegex(TypeError, "the other one is a FloatHull, and not Hull", zone.distance, zone.hull)

    def test_arrays_of_numpy(self):
        try:
            import numpy
        except ImportError:
            self.skipTest("there is no numpy")
        made = hull.from_floats(numpy.array([[0.5, 5e-324], [1.25, -2.0]]), 1)
        self.assertEqual((made.points.tolist(), made.rounded), ([[1, 0], [2, -4]], 2))
        self.assertEqual(hull.from_floats(numpy.array([[5e-324, 64.0]]), -5).rounded, 1)
        self.assertEqual((hull.from_floats(numpy.array([[1e-20, 0], [-1e-20, 3]]), 0).rounded, sorted(Hull(numpy.array([[FAR, -FAR], [-FAR,
                FAR]])))), (2, [(-FAR, FAR), (FAR, -FAR)]))
        for kind in ("int64", "int32", "uint8", "int16", ">i8", "<i4"):
            self.assertEqual(list(Hull(numpy.array([[1, 2], [3, 4]], dtype=kind))), [(1, 2), (3, 4)], kind)
            self.assertEqual(list(Hull(memoryview(numpy.array([[1, 2], [3, 4]], dtype=kind)))), [(1, 2), (3, 4)], kind)
        for wrong in (numpy.array([[FAR + 1, 0]]), numpy.array([[0, -FAR - 1]]), numpy.array([[2 ** 63, 0]], dtype="uint64")):
            for call in (Hull, Polygon, Polygon(SQUARE).place_all):
                self.assertRaises(hull.OutOfRange, call, wrong)
        self.assertRaises(TypeError, Hull, numpy.array([[0.5, 1]]))
        self.assertRaises(ValueError, Hull, numpy.array([[1, 2, 3]]))
        square, asked = Polygon(SQUARE), numpy.array([[5, 5], [10, 5], [20, 5]])
        self.assertEqual(square.place_all(asked).tolist(), [int(square.place(*it)) for it in asked.tolist()])
        points, seen = square.tangents_all(asked)
        self.assertEqual((seen.tolist(), points[2].tolist(), points[0].tolist()), ([False, False, True], [[10, 0], [10, 10]], [[0, 0], [0, 0]]))
        self.assertEqual(square.extreme_all(asked).tolist(), [list(square.extreme(*it)) for it in asked.tolist()])
        self.assertEqual(hull.to_floats(numpy.array([[1, -3]]), 2).tolist(), [[0.25, -0.75]])


class Shared(unittest.TestCase):
    """Shared hulls that are full, seats that are released, readers, texts in pieces, and times."""

    def test_limits(self):
        for words in ((0, 1), (1, 0), (1, hull.SEAT_LIMIT + 1), (1 << 32, 1), (-1, 1), (1, 1 << 32)):
            self.assertRaises(ValueError, SharedHull, *words)
        for limit, first in ((0, 0), (hull.POINT_LIMIT + 1, 0), (5, 1 << 64), (5, -1)):
            self.assertRaises(ValueError, SharedHull, 5, 1, limit, first)
        with SharedHull(5, hull.SEAT_LIMIT, 5, (1 << 64) - 1) as shared:
            for wrong in (hull.SEAT_LIMIT, -1, 1 << 40):
                self.assertRaises(hull.NoSeat, shared.acquire_seat, wrong)
            with shared.acquire_seat(hull.SEAT_LIMIT - 1) as seat:
                self.assertEqual((seat.add(1, 1), seat.turn(), seat.count(), seat.turn()), (1, (1 << 64) - 1, 1, 0))
                self.assertRaises(hull.NoSeat, shared.acquire_seat, hull.SEAT_LIMIT - 1)
            self.assertRaises(ValueError, seat.count)

    def test_leaving_with_seats(self):
        shared = SharedHull(5, 2)
        seat = shared.acquire_seat(1)
        with self.assertRaisesRegex(hull.SeatsOut, "seats of the hull are acquired: 1$"):
            with shared:
                pass
        with self.assertRaises(KeyError):  # of two exceptions the first
            with shared:
                raise KeyError
        seat.release()
        with shared:
            pass
        self.assertRaises(ValueError, shared.acquire_seat, 0)

    def test_full(self):
        shared = SharedHull(2, 2)
        with shared.acquire_seat(0) as seat, shared.acquire_seat(1) as other:
            first = seat.drain()
            seat.add(1, 1), seat.add(2, 2)
            self.assertRaises(hull.JournalFull, seat.add, 3, 3)
            self.assertEqual((seat.last_segment() is first, other.last_segment(), seat.turn()), (True, None, 2))
            other.release()
            self.assertRaises(ValueError, other.drain)
            second = seat.drain()
            self.assertTrue(seat.last_segment() is second and seat.add(1, 1) == 2)
            self.assertEqual([line.split(" ", 2)[-1] for line in second][1:-1], ["add 1 1 = added", "add 2 2 = added", "count = count 2"])
        answering = SharedHull(1, 1, answers=True)
        with answering.acquire_seat(0) as seat:
            self.assertEqual((seat.add(1, 1), seat.count(), seat.turn(), seat.vertices()), (1, 1, 0, [(1, 1)]))
            self.assertRaises(hull.JournalFull, seat.add, 1, 2)
        bare = SharedHull(None, 1, first=7)
        with bare.acquire_seat(0) as seat:
            self.assertEqual([seat.add(1, 1) for _ in range(50)], list(range(1, 51)))
        self.assertEqual(bare.close().splitlines()[0], "hullbook journal 3 first 57 limit 1048576 capacity 1")

    def test_times(self):
        shared = SharedHull(1, 2, waits=True)
        with shared.acquire_seat(0) as seat, shared.acquire_seat(1) as other:
            seat.count()
            for seconds, least, most in ((0, 0, 60), (0.2, 0.19, 60), (1e-9, 0, 60)):
                seat.wait_at_most(seconds)
                begun = time.monotonic()
                self.assertRaises((hull.JournalFull, hull.Busy), seat.count)
                self.assertTrue(least <= time.monotonic() - begun <= most, seconds)
            for wrong in (-1, float("nan")):
                self.assertRaises(ValueError, seat.wait_at_most, wrong)
            for seconds in (None, 1e30, float("inf"), 100):
                seat.wait_at_most(seconds)
                thread = threading.Timer(0.05, other.drain)
                thread.start()
                self.assertEqual(seat.count(), 0)
                thread.join()
                self.assertEqual(shared.stats().held, 1)
        self.assertEqual((shared.stats().out, shared.stats().seat, shared.stats().seat_for, shared.stats().drainer, shared.stats().designated), (0,
                None, 0, None, None))

    def test_pieces(self):
        shared = SharedHull(20000, 1)
        with shared.acquire_seat(0) as seat:
            for k in range(3000):
                seat.add(k, k * k)
            self.assertEqual((len(seat.vertices()), seat.turn() - 3000 <= 1), (3000, True))
            before = seat.turn()
            self.assertEqual((len(seat.vertices()), seat.turn(), seat.vertex_count()), (3000, before + 1, 3000))
            segment = seat.drain()
            for k in range(500):
                seat.place(k, k)
        text = segment.text()
        for size in (1, 100, 1 << 16, 1 << 24):
            self.assertEqual("".join(segment.pieces(size)), text)
        self.assertTrue(all(len(it) <= 1000 or it.count("\n") == 1 for it in segment.pieces(1000))
                and all(it.endswith("\n") for it in segment.pieces(1000)))
        self.assertEqual(list(segment), text.splitlines())
        self.assertEqual("".join(shared.close_in_pieces(50)), shared.close())

    def test_readers(self):
        shared = SharedHull(50, 1, readers=1, first=5)
        with shared.acquire_reader() as reader:
            self.assertRaises(hull.NoSeat, shared.acquire_reader)
            self.assertEqual((reader.is_newest(), reader.snapshot().line, reader.snapshot().vertices(), reader.is_newest()), (False, None, [], True))
            with shared.acquire_seat(0) as seat:
                for point in SQUARE:
                    seat.add(*point)
                before = reader.snapshot()
                self.assertEqual((before.line, before.vertices(), reader.snapshot() is before), (8, SQUARE, True))
                seat.remove(10, 10), seat.add(9, 9)
                self.assertEqual((reader.is_newest(), reader.snapshot().vertices()[2], reader.snapshot().line, before.vertices()[2]), (False, (9, 9),
                        10, (10, 10)))
            with self.assertRaisesRegex(hull.SeatsOut, "a reader of the hull is acquired"):
                shared.close()
        self.assertRaises(ValueError, reader.snapshot)
        shared.close()

    def test_texts_that_cannot_be_continued(self):
        head = "hullbook journal 3 first 5 limit 3 capacity 9\n"
        for text, seats, words in (("", 1, "^line 1: fault \\d+: the text is not a journal$"), (f"{head}5 0 add 0 = added\nend 1\n", 1,
                "^line 2: fault \\d+: "),
                                   (f"{head}5 0 add 0 0 = again 2\nend 1\n", 1, "^line 2: the journal is not a legal history$"),
                                   (f"{head}5 7 add 0 0 = added\nend 1\n", 2, "^the journal has lines by 8 seats$"),
                                   ("hullbook journal 2 first 5 limit 3 capacity 9\nend 0\n", 1, "before version 3 do not count points$")):
            for given in (text, text.encode()):
                with self.assertRaisesRegex(hull.JournalFault, words):
                    SharedHull.reopen(given, 4, seats)
        again = SharedHull.reopen(f"{head}5 1 add 0 0 = added\nend 1\n", 4, 2)
        with again.acquire_seat(1) as seat:
            self.assertEqual((seat.add(0, 0), seat.turn()), (2, 6))
        for capacity, seats in ((0, 1), (1, 0), (1 << 32, 1), (1, -1)):
            self.assertRaises(ValueError, SharedHull.reopen, f"{head}end 0\n", capacity, seats)


if __name__ == "__main__":
    sys.dont_write_bytecode = True
    unittest.main()
