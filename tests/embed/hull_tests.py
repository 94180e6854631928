"""Each method of python/hull.py, each of its answers and each of its faults."""
import ast
import copy
import ctypes
import math
import os
import pickle
import random
import struct
import sys
import threading
import types
import unittest
from array import array
from collections import Counter
from collections.abc import Sequence
from decimal import Decimal
from fractions import Fraction

try:
    import numpy
except ImportError:
    numpy = None

import hull as hull_module
from hull import COORDINATE_LIMIT, MULTIPLICITY_LIMIT, POINT_LIMIT, GrowingHull, Hull, OutOfRange, Place, TooMany, ZeroDirection
from hull import from_floats, to_floats, wkt

SQUARE = [(0, 0), (10, 0), (10, 10), (0, 10), (4, 4)]
LATTICE = os.path.join(os.path.dirname(os.path.abspath(__file__)), "lattice.txt")


def columns(points):
    """The points as an array in two columns, as one of numpy shows its memory."""
    return memoryview(array("q", [number for point in points for number in point])).cast("B").cast("q", (len(points), 2))


class Calls(unittest.TestCase):
    def setUp(self):
        self.hull = Hull(limit=6)
        self.assertEqual(list(self.hull.add_all(SQUARE)), [1] * 5)

    def test_limits(self):
        for limit in (0, -1, POINT_LIMIT + 1, 1 << 32):
            self.assertRaises(ValueError, Hull, limit=limit)
        self.assertEqual((Hull().limit(), Hull(limit=1).limit()), (POINT_LIMIT, 1))

    def test_changes(self):
        self.assertEqual(self.hull.add(4, 4), 2)
        self.assertEqual(self.hull.add(COORDINATE_LIMIT, -COORDINATE_LIMIT), 1)
        self.assertRaises(TooMany, self.hull.add, 1, 1)
        self.assertEqual((self.hull.multiplicity(4, 4), self.hull.multiplicity(1, 1)), (2, 0))
        self.assertTrue((0, 10) in self.hull and (1, 1) not in self.hull)
        self.assertEqual([self.hull.remove(4, 4) for _ in range(3)], [1, 0, None])
        self.assertEqual(len(self.hull), 5)
        self.hull.clear()
        self.assertEqual((len(self.hull), self.hull.limit()), (0, 6))

    def test_greatest_multiplicity(self):
        times = self.hull.add_all([(4, 4)] * MULTIPLICITY_LIMIT)
        self.assertEqual(list(times), [*range(2, MULTIPLICITY_LIMIT + 1), 0])
        self.assertRaises(TooMany, self.hull.add, 4, 4)

    def test_questions(self):
        self.assertEqual([self.hull.place(x, 5) for x in (5, 10, 11)], [Place.INSIDE, Place.ON, Place.OUTSIDE])
        self.assertEqual((self.hull.extreme(1, 0), self.hull.extreme(0, 1)), ((10, 0), (0, 10)))
        self.assertEqual(self.hull.tangents(20, 5), ((10, 0), (10, 10)))
        self.assertIsNone(self.hull.tangents(5, 5))
        self.assertEqual(self.hull.vertices(), [(0, 0), (10, 0), (10, 10), (0, 10)])
        self.assertEqual((self.hull.doubled_area(), len(self.hull)), (200, 5))

    def test_questions_of_none(self):
        none = Hull()
        self.assertEqual((none.place(0, 0), none.extreme(1, 0), none.tangents(0, 0)), (Place.OUTSIDE, None, None))
        self.assertEqual((none.vertices(), none.doubled_area(), len(none)), ([], 0, 0))
        self.assertEqual((none.place_all([]), list(none.add_all([])), none.remove_all([])), (b"", [], 0))

    def test_load(self):
        hull = self.hull
        self.assertEqual(hull.load([(9, 9), (1, 2), (9, 9)]), 2)
        self.assertEqual((hull.multiplicity(9, 9), hull.multiplicity(1, 2), hull.multiplicity(4, 4)), (2, 1, 0))
        far = COORDINATE_LIMIT + 1
        for points, fault in (([(x, 0) for x in range(7)], TooMany), ([(0, 0)] * 65536, TooMany), ([(0, 0), (0, far)], OutOfRange)):
            self.assertRaises(fault, hull.load, points)
            self.assertEqual(hull.vertices(), [(1, 2), (9, 9)])
        self.assertEqual((hull.load(columns(SQUARE)), hull.doubled_area(), hull.limit()), (5, 200, 6))
        self.assertEqual((hull.load([]), len(hull)), (0, 0))
        self.assertEqual(Hull(SQUARE).vertices(), [(0, 0), (10, 0), (10, 10), (0, 10)])
        self.assertEqual(Hull([(0, 0)] * 65535, limit=1).multiplicity(0, 0), 65535)
        self.assertRaises(TooMany, Hull, SQUARE, limit=4)

    def test_items(self):
        hull, far = self.hull, COORDINATE_LIMIT
        hull.add(4, 4)
        self.assertEqual(list(hull), sorted(SQUARE))
        self.assertEqual(dict(hull.items()), {point: 2 if point == (4, 4) else 1 for point in SQUARE})
        for other in (hull.copy(), copy.copy(hull), copy.deepcopy(hull), pickle.loads(pickle.dumps(hull))):
            self.assertEqual((list(other.items()), other.limit(), other.vertices()), (list(hull.items()), 6, hull.vertices()))
            other.clear()
        self.assertEqual(len(hull), 5)
        wide = Hull([(x, y * far) for x in range(-700, 700) for y in (-1, 1)] + [(far, far)])
        self.assertEqual((len(list(wide)), list(wide)[-1], list(Hull())), (2801, (far, far), []))
        for points in ([(7, y) for y in range(2000)], [(x, y) for x in range(3) for y in range(700)],
                       [(x, far) for x in range(far - 1023, far + 1)], [(x, far) for x in range(1024)]):
            wide = Hull(points)  # pieces that end inside a column, with the last of one, and with the last of all
            self.assertEqual((list(wide), list(wide.copy())), (points, points))
        self.assertEqual((hull.load_items([((0, 0), 3), ((0, 1), 1)]), hull.multiplicity(0, 0)), (2, 3))
        for wrong in ([((0, 1), 1), ((0, 0), 1)], [((0, 0), 1)] * 2, [((0, 0), 0)], [((0, 0), 65536)], [((far + 1, 0), 1)]):
            self.assertRaises(ValueError, hull.load_items, wrong)
            self.assertEqual(list(hull.items()), [((0, 0), 3), ((0, 1), 1)])
        self.assertRaises(TooMany, hull.load_items, [((x, 0), 1) for x in range(7)])
        self.assertEqual((hull.load_items([]), len(hull)), (0, 0))

    def test_many_questions(self):
        self.assertEqual(self.hull.extreme_all([(1, 0), (0, 1), (-1, -1)]), [(10, 0), (0, 10), (0, 0)])
        seen = [((10, 0), (10, 10)), None, ((0, 10), (0, 0))]
        self.assertEqual(self.hull.tangents_all([(20, 5), (5, 5), (-9, 5)]), seen)
        self.assertEqual(self.hull.tangents_all(columns([(20, 5), (5, 5), (-9, 5)])), seen)
        self.assertRaises(ZeroDirection, self.hull.extreme_all, [(1, 0), (0, 0)])
        none = Hull()
        self.assertEqual((none.extreme_all([(1, 0)] * 2), none.tangents_all([(1, 0)] * 2)), ([None] * 2, [None] * 2))
        self.assertEqual((self.hull.extreme_all([]), self.hull.tangents_all([])), ([], []))

    def test_membership(self):
        self.assertTrue((4, 4) in self.hull and (5, 4) not in self.hull and (COORDINATE_LIMIT + 1, 0) not in self.hull)
        for wrong in (3, (1, 2, 3), "ab", (0.5, 1), (True, 0)):
            self.assertRaises((TypeError, ValueError), self.hull.__contains__, wrong)

    def test_what_is_printed(self):
        self.assertEqual(repr(self.hull), "<Hull of 5 points, limit 6>")
        self.assertEqual(repr(Hull()), "<Hull of 0 points, limit 1048576>")

    def test_version(self):
        self.assertRegex(hull_module.__version__, r"^\d+\.\d+\.\d+$")
        with open(hull_module.__file__, encoding="utf-8") as file:
            ast.parse(file.read(), feature_version=(3, 8))

    def test_other_arrays(self):
        for code in "bBhHiIlLqQ":
            numbers = array(code, [number for point in SQUARE for number in point])
            points = memoryview(numbers).cast("B").cast(code, (5, 2))
            self.assertEqual(list(self.hull.place_all(points)), [13] * 4 + [12], code)
            least, most = (-5, 120) if code.islower() else (200, 255)
            ends = memoryview(array(code, (least, most, most, least))).cast("B").cast(code, (2, 2))
            self.assertEqual(list(Hull(ends)), [(least, most), (most, least)], code)
        for number in (1 << 63, (1 << 64) - 5):
            too_great = memoryview(array("Q", [0, number])).cast("B").cast("Q", (1, 2))
            self.assertRaises(OutOfRange, self.hull.place_all, too_great)
        for kind in "c_int8 c_int16 c_int32 c_int64 c_uint8 c_uint16 c_uint32 c_uint64 c_long c_size_t".split():
            points = (getattr(ctypes, kind) * 2 * 5)(*SQUARE)
            self.assertEqual(list(self.hull.place_all(points)), [13] * 4 + [12], kind)
            least = -3 if kind.startswith(("c_int", "c_long")) else 3
            self.assertEqual(list(Hull((getattr(ctypes, kind) * 2 * 1)((least, 100)))), [(least, 100)], kind)
        for swapped in (ctypes.c_int32.__ctype_be__, ctypes.c_int16.__ctype_be__, ctypes.c_int64.__ctype_le__):
            self.assertEqual(list(self.hull.place_all((swapped * 2 * 5)(*SQUARE))), [13] * 4 + [12])
            self.assertEqual(list(Hull((swapped * 2 * 1)((-3, 300)))), [(-3, 300)])
        for order in "@=<>!":  # (of which no exporter of the standard library has the last)
            view = types.SimpleNamespace(shape=(1, 2), format=f"{order}h", itemsize=2, tobytes=lambda: struct.pack(f"{order}2h", -3, 300))
            self.assertEqual(list(hull_module._flat_of_memory(view)), [-3, 300], order)
        self.assertRaises(OutOfRange, self.hull.place_all, (ctypes.c_uint64 * 2 * 1)((0, (1 << 64) - 5)))
        self.assertRaises(TypeError, self.hull.place_all, (ctypes.c_double * 2 * 1)((0, 1)))
        floats = memoryview(array("d", [0.0, 1.0])).cast("B").cast("d", (1, 2))
        self.assertRaisesRegex(TypeError, r"shape \(1, 2\) is of format 'd'", self.hull.place_all, floats)
        transposed = memoryview(array("q", range(6))).cast("B").cast("q", (2, 3))
        self.assertRaisesRegex(ValueError, r"\(n, 2\).*\(2, 3\); its transpose has", self.hull.place_all, transposed)
        for wrong in ([(True, False)], [(0, 1.0)], [0, 1], array("q", (0, 1)), b"abcd", [(0, 1, 2)], 7, None):
            self.assertRaises((TypeError, ValueError), self.hull.place_all, wrong)

    def test_floats(self):
        self.assertEqual(from_floats([(0.5, -3), (0.1, 2.0)], 20), ([(1 << 19, -3 << 20), (104858, 2 << 20)], 1))
        self.assertEqual(from_floats([(2.5, 3.5), (-0.5, -1.5)], 0), ([(2, 4), (0, -2)], 4))
        self.assertEqual(from_floats([(5e-324, 1e-300)], -5), ([(0, 0)], 2))
        self.assertEqual(from_floats([(5e-324, 0)], 1100), ([(1 << 26, 0)], 0))
        for wrong in (float("nan"), float("inf"), -1e308, 1.0000001):
            self.assertRaises(OutOfRange, from_floats, [(0, wrong)], 40)
        self.assertEqual(to_floats([(1, -3)], 2), [(0.25, -0.75)])
        # whole numbers and fractions that no float is
        self.assertEqual(from_floats([(2 ** 59 + 1, 2 ** 59)], -20), ([(1 << 39, 1 << 39)], 1))
        self.assertEqual(from_floats([(2 ** 2000 + 1, 3 * 2 ** 2000)], -2001), ([(1, 2)], 2))
        self.assertEqual(from_floats([(-2 ** 61 - 1, 2 ** 61 + 2 ** 20)], -21), ([(-1 << 40, 1 << 40)], 2))
        self.assertEqual(from_floats([(Fraction(1, 3), Decimal("0.5")), (Decimal("0.50000000000000000000001"), True)], 0),
                         ([(0, 0), (1, 1)], 3))
        for wrong in (2 ** 61 + 2 ** 21, 1 << 5000, Decimal("Infinity"), Decimal("NaN"), Fraction(2 ** 90)):
            self.assertRaises(OutOfRange, from_floats, [(0, wrong)], -21)
        for wrong in ("1", None, 1j):
            self.assertRaises(TypeError, from_floats, [(0, wrong)], 0)

    def test_lattice(self):
        """The table of tests/embed/lattice.txt, which all languages are tried by."""
        with open(LATTICE, encoding="ascii") as file:
            cases = [line.split() for line in file if not line.startswith("#")]
        for bits, power, wanted, how in cases:
            (number,) = struct.unpack(">d", bytes.fromhex(bits))
            numbers = [number] if numpy is None else [number, numpy.float64(number)]
            for given in numbers:
                if how == "none":
                    self.assertRaises(OutOfRange, from_floats, [(given, 0)], int(power))
                else:
                    self.assertEqual(from_floats([(given, 0)], int(power)), ([(int(wanted), 0)], how == "rounded"), bits)
            if how == "exact" and abs(int(power)) < 900:
                self.assertEqual(to_floats([(int(wanted), 0)], int(power)), [(number, 0)])
        self.assertGreater(len(cases), 40)

    def test_fractions_near_the_limit(self):
        top = COORDINATE_LIMIT
        for numbers, power, wanted in (((Fraction(top - 1), Fraction(top)), 0, ((top - 1, top), 0)),
                                       ((Fraction(top, 3), Decimal(-top)), 0, (((top + 1) // 3, -top), 1)),
                                       ((Fraction(2 * top - 1, 2), -top * 4), -2, ((top // 4, -top), 1)),
                                       ((Fraction(top << 42, (1 << 42) - 1), 0), 0, ((top, 0), 1))):
            self.assertEqual(from_floats([numbers], power), ([wanted[0]], wanted[1]))
        self.assertRaises(OutOfRange, from_floats, [(Fraction(2 * top + 2, 2), 0)], 0)

    def test_floats_in_and_out(self):
        hull = hull_module.FloatHull([(0.5, 0), (2.5, 0), (2.5, 1.25), (0.1, 1)], power=8)
        self.assertEqual((len(hull), hull.rounded, hull.power, hull.add(0.5, 0)), (4, 1, 8, 2))
        self.assertEqual(hull.vertices()[0], (26 / 256, 1.0))
        self.assertEqual((hull.place(1, 0.5), hull.place(3, 0.5), hull.extreme(1, 0.1)), (Place.INSIDE, Place.OUTSIDE, (2.5, 1.25)))
        self.assertEqual((hull.remove(0.1, 1), hull.area(), (0.5, 0) in hull, (0.5, 0.001) in hull), (0, 1.25, True, False))
        self.assertEqual((hull.distance_to_point(1, 0.1), hull.distance_to_point(2.5, 5.25), hull.distance_to_point(-2.5, -4)), (0, 4.0, 5.0))
        self.assertEqual(hull.tangents(1.5, -7), ((0.5, 0.0), (2.5, 0.0)))
        self.assertEqual(hull.distance(hull_module.FloatHull([(2.5, 2.25)], power=8)), 1.0)
        self.assertEqual(hull.wkt(), "POLYGON ((0.5 0.0, 2.5 0.0, 2.5 1.25, 0.5 0.0))")
        self.assertEqual((sorted(hull), repr(hull)), ([(0.5, 0.0), (2.5, 0.0), (2.5, 1.25)], "<FloatHull of 3 points, steps of 2**-8>"))
        none = hull_module.FloatHull()
        self.assertEqual((none.distance_to_point(1, 1), none.extreme(1, 0), none.tangents(1, 1), none.area()), (None, None, None, 0))
        self.assertRaises(ValueError, hull.distance, none)

    def test_text(self):
        self.assertEqual((wkt([]), wkt([(1, -2)]), wkt([(0, 0), (3, 4)], 2)),
                         ("POLYGON EMPTY", "POINT (1 -2)", "LINESTRING (0.0 0.0, 0.75 1.0)"))
        self.assertEqual(self.hull.wkt(), "POLYGON ((0 0, 10 0, 10 10, 0 10, 0 0))")

    def test_collections(self):
        counted = Counter({(3, 4): 2, (0, 9): 1, (-5, 1): 65535})
        hull = Hull(counted)
        self.assertEqual((dict(hull.items()), hull == Hull(list(counted)), hull == hull.copy()), (dict(counted), False, True))
        self.assertEqual((hull.load(Counter()), hull == Hull(), hull != Hull(), hull == 0), (0, True, False, False))
        self.assertRaises(TypeError, hash, hull)
        self.assertRaises(ValueError, hull.load, Counter({(0, 0): 0}))
        polygon, twin = self.hull.polygon(), Hull(SQUARE).polygon()
        self.assertEqual((len(polygon), list(polygon)), (4, [(0, 0), (10, 0), (10, 10), (0, 10)]))
        self.assertTrue((10, 0) in polygon and (4, 4) not in polygon)
        self.assertTrue(polygon == twin and hash(polygon) == hash(twin) and polygon != Hull().polygon() and polygon != 4)
        for other in (copy.copy(polygon), copy.deepcopy(polygon), pickle.loads(pickle.dumps(polygon))):
            self.assertEqual(other, polygon)
        of_version_2 = (b"\x80\x02chull\n_outline_again\nq\x00carray\narray\nq\x01X\x01\x00\x00\x00qq\x02]q\x03(K\x00K\x00K\x03K\x00K\x00K\x04e"
                        b"\x86q\x04Rq\x05\x85q\x06Rq\x07.")
        self.assertEqual(pickle.loads(of_version_2), hull_module.Polygon([(0, 0), (3, 0), (0, 4)]))

    def test_distances(self):
        polygon = hull_module.Polygon([(0, 0), (8, 0), (0, 6)])
        self.assertEqual([polygon.squared_distance_to_point(x, y) for x, y in [(1, 1), (-3, -4), (8, 6), (4, -5)]],
                         [0, 25, Fraction(48 * 48, 100), 25])
        point, none = hull_module.Polygon([(8, 6)]), hull_module.Polygon([])
        self.assertEqual((polygon.squared_distance(point), point.squared_distance(polygon)), (Fraction(48 * 48, 100),) * 2)
        self.assertEqual((polygon.squared_distance(polygon), point.squared_distance(hull_module.Polygon([(5, 2)]))), (0, 25))
        self.assertEqual((none.squared_distance(point), none.squared_distance_to_point(1, 1)), (None, None))

    def test_what_is_public(self):
        public = {name for name, value in vars(hull_module).items() if not name.startswith("_")
                  and getattr(value, "__module__", hull_module.__name__) == hull_module.__name__}
        self.assertEqual({name for name in public if not isinstance(getattr(hull_module, name), types.ModuleType)} - set(hull_module.__all__),
                         {"Any", "Pair", "Item", "Points", "Floats"} & public)
        for name in hull_module.__all__:
            value = getattr(hull_module, name)
            functions = [value] if isinstance(value, types.FunctionType) else [
                function for key, function in vars(value).items() if not key.startswith("_")
                and isinstance(function, types.FunctionType)] if isinstance(value, type) and not issubclass(value, tuple) else []
            for function in functions:
                words = set(function.__code__.co_varnames[:function.__code__.co_argcount]) - {"self"}
                self.assertEqual(words | {"return"}, set(function.__annotations__), function)

    def test_polygon(self):
        vertices = []
        for step in range(20):
            hull, polygon = Hull(vertices), Hull(vertices).polygon()
            self.assertEqual(polygon.vertices(), hull.vertices())
            grid = [(x, y) for x in range(-6, 7) for y in range(-6, 7)]
            self.assertEqual(polygon.place_all(grid), hull.place_all(grid))
            self.assertEqual(polygon.tangents_all(grid), hull.tangents_all(grid))
            grid.remove((0, 0))
            self.assertEqual(polygon.extreme_all(grid), hull.extreme_all(grid))
            self.assertEqual((polygon.doubled_area(), polygon.wkt()), (hull.doubled_area(), hull.wkt()))
            vertices.append((step * 7 % 11 - 5, step * step % 11 - 5))
        self.assertEqual(polygon.place(0, 0), hull.place(0, 0))
        self.assertEqual(polygon.extreme(1, 0), hull.extreme(1, 0))
        self.assertEqual(polygon.tangents(9, 9), hull.tangents(9, 9))
        for points in ([(1, 0), (0, 0)], [(0, 0), (2, 0), (1, 0)], [(0, 0), (0, 1), (1, 0)], [(1, 1), (1, 1)]):
            self.assertRaises(ValueError, hull_module.Polygon, points)
        self.assertRaises(OutOfRange, hull_module.Polygon, [(0, COORDINATE_LIMIT + 1)])
        self.assertRaises(ZeroDirection, polygon.extreme, 0, 0)
        self.assertRaises(OutOfRange, polygon.place, COORDINATE_LIMIT + 1, 0)

    def test_polygons_of_points(self):
        of, ring = hull_module.Polygon.of, [(0, 0), (10, 0), (10, 10), (0, 10)]
        for first in range(4):
            shifted = ring[first:] + ring[:first]
            for points in (shifted, shifted[::-1], shifted + [(5, 5)], shifted * 2, columns(shifted)):
                self.assertEqual(list(of(points)), ring)
        parabola = [(x * 7 % 500, (x * 7 % 500) ** 2) for x in range(500)]
        self.assertEqual((list(of(parabola)), list(of([])), of([(1, 2)] * 65535)), (sorted(parabola), [], hull_module.Polygon([(1, 2)])))
        self.assertRaises(OutOfRange, of, [(0, COORDINATE_LIMIT + 1)])
        self.assertRaises(TooMany, of, [(1, 2)] * 65536)

    def test_segments_and_points(self):
        polygon = hull_module.Polygon([(0, 0), (10, 0), (10, 10), (0, 10)])
        self.assertTrue(polygon.intersects_segment(-5, 5, 5, 15))
        self.assertFalse(polygon.intersects_segment(-5, 6, 5, 16))
        self.assertIsNone(polygon.separation_from_segment(-5, 5, 5, 15))
        self.assertEqual(polygon.separation_from_segment(-5, 6, 5, 16), ((0, 10), (-10, 10)))
        self.assertEqual(polygon.nearest(12, -3), ((10, 0),))
        self.assertEqual(polygon.nearest(3, -3), ((0, 0), (10, 0)))
        self.assertEqual(polygon.nearest(3, 10), ())
        self.assertEqual(polygon.bounding_box(), ((0, 0), (10, 10)))
        none = hull_module.Polygon([])
        self.assertFalse(none.intersects_segment(0, 0, 1, 1))
        self.assertEqual((none.separation_from_segment(0, 0, 1, 1), none.nearest(0, 0), none.bounding_box()), (None, None, None))
        far = COORDINATE_LIMIT + 1
        self.assertRaises(OutOfRange, polygon.intersects_segment, 0, 0, far, 0)
        self.assertRaises(OutOfRange, polygon.separation_from_segment, far, 0, 0, 0)
        self.assertRaises(OutOfRange, polygon.nearest, 0, 1 << 70)

    def test_polygons_are_merged(self):
        Polygon, merge = hull_module.Polygon, hull_module.merge
        blocks = [[(x * y % 23, x + y) for x in range(first, first + 9)] for first in range(12) for y in (1, 7)]
        whole = Polygon.of([point for block in blocks for point in block])
        self.assertEqual(merge(map(Polygon.of, blocks)), whole)
        halves = merge(map(Polygon.of, blocks[:5])), merge(map(Polygon.of, blocks[5:]))
        self.assertEqual((merge(halves), merge([whole]), merge([whole] * 3)), (whole,) * 3)
        none, point = Polygon([]), Polygon([(3, 4)])
        self.assertEqual((merge([]), merge([none, none]), merge([none, point])), (none, none, point))
        self.assertEqual(merge([point] * (2 * MULTIPLICITY_LIMIT + 1)), point)
        self.assertRaises(TypeError, merge, [point, [(0, 0)]])
        self.assertEqual(whole, merge([whole]))

    def test_more_vertices_are_merged_than_a_polygon_has(self):
        half = POINT_LIMIT // 2
        low, high = (hull_module.Polygon([(x, x * x) for x in range(first, first + half)]) for first in (0, half))
        both = hull_module.merge([low, high, low, high])
        self.assertEqual((len(both), both.place(half, half * half)), (POINT_LIMIT, Place.ON))
        again = pickle.loads(pickle.dumps(both))
        self.assertTrue(again == both and len(pickle.dumps(both)) < 16 * POINT_LIMIT + 1000)
        self.assertRaises(TooMany, hull_module.merge, [both, hull_module.Polygon([(-1, 1)])])

    def test_distance_bounds(self):
        Polygon, Relation = hull_module.Polygon, hull_module.Relation
        polygon, none, beside = Polygon([(0, 0), (10, 0), (10, 10), (0, 10)]), Polygon([]), Polygon([(12, 0), (15, 3), (12, 6)])
        self.assertEqual((polygon.distance_bounds(beside), polygon.distance_bounds(polygon)), ((2.0, 2.0), (0.0, 0.0)))
        self.assertEqual(polygon.distance_bounds_to_point(13, 14), (5.0, 5.0))
        self.assertEqual(polygon.squared_distance_to_segment(16, 10, 13, 14), Fraction(576, 25))
        low, high = polygon.distance_bounds_to_point(11, 11)
        self.assertTrue(low < high == math.sqrt(2) and Fraction(low) ** 2 < 2 < Fraction(high) ** 2)
        self.assertEqual(polygon.distance_bounds_to_segment(13, 14, 13, 20), (5.0, 5.0))
        self.assertEqual((none.distance_bounds(polygon), polygon.distance_bounds(none), none.distance_bounds_to_point(0, 0)), (None, None, None))
        self.assertIsNone(none.squared_distance_to_segment(0, 0, 1, 1))
        self.assertTrue(polygon.within_distance_of_segment(13, 14, 13, 20, 5) and polygon.within_distance_of_point(13, 14, 5.0))
        self.assertTrue(polygon.within_distance_of_point(13, 14, 2 ** 64))
        self.assertFalse(polygon.within_distance_of_segment(13, 14, 13, 20, 4.999))
        self.assertFalse(polygon.within_distance_of_point(13, 14, Fraction(2 ** 40 - 1, 2 ** 39)))
        self.assertFalse(none.within_distance_of_point(0, 0, 5) or none.within_distance_of_point(0, 0, 2 ** 64))
        self.assertIs(polygon.relation_to_segment(10, 12, 10, 3), Relation.TOUCHING)
        self.assertIs(polygon.relation_to_segment(9, 9, 2, 2), Relation.COVERS)
        self.assertIs(none.relation_to_segment(9, 9, 2, 2), Relation.WITHIN)
        far = COORDINATE_LIMIT + 1
        for ask in (polygon.distance_bounds_to_segment, polygon.squared_distance_to_segment, polygon.relation_to_segment):
            self.assertRaises(OutOfRange, ask, 0, 0, far, 0)
            self.assertRaises(OutOfRange, ask, 0, -far, 0, 0)
        self.assertRaises(OutOfRange, polygon.within_distance_of_point, far, 0, 1)
        self.assertRaises(OutOfRange, polygon.within_distance_of_point, 0, 0, -1)

    def test_raycasts(self):
        polygon, line, none = (hull_module.Polygon(vertices) for vertices in ([(0, 0), (10, 0), (10, 10), (0, 10)], [(0, 0), (4, 4)], []))
        self.assertEqual(polygon.raycast(-2, 1, 3, 1), (Fraction(2, 3), ((0, 10), (0, 0))))
        self.assertEqual(polygon.raycast_segment(14, 3, -6, 3), (Fraction(1, 5), ((10, 0), (10, 10))))
        self.assertEqual((polygon.raycast(3, 3, 1, 0), line.raycast(7, 7, -1, -1)), ((0, ()), (3, ((4, 4),))))
        self.assertEqual(polygon.raycast_exit(-2, 1, 3, 1), (4, ((10, 0), (10, 10))))
        self.assertEqual((line.raycast_exit(7, 7, -1, -1), none.raycast_exit(0, 0, 1, 0)), ((7, ((0, 0),)), None))
        misses = polygon.raycast(-2, 1, -3, 1), polygon.raycast_segment(14, 3, 11, 3), none.raycast(0, 0, 1, 0), none.raycast_segment(0, 0, 1, 0)
        self.assertEqual(misses, (None,) * 4)
        self.assertRaises(ZeroDirection, polygon.raycast, 0, 0, 0, 0)
        self.assertRaises(OutOfRange, polygon.raycast, 0, 0, 0, COORDINATE_LIMIT + 1)
        self.assertRaises(OutOfRange, polygon.raycast_segment, 0, -COORDINATE_LIMIT - 1, 0, 0)

    def test_two_polygons(self):
        Polygon, Shows = hull_module.Polygon, hull_module.Shows
        polygon, none = Polygon([(0, 0), (10, 0), (10, 10), (0, 10)]), Polygon([])
        small, beside, across = Polygon([(2, 2), (4, 2), (3, 4)]), Polygon([(12, 0), (15, 3), (12, 6)]), Polygon([(-5, 5), (15, 6)])
        self.assertTrue(polygon.intersects(small) and polygon.contains(small))
        self.assertFalse(small.contains(polygon) or polygon.intersects(beside) or none.intersects(polygon) or none.contains(polygon))
        self.assertTrue(polygon.contains(none))
        Relation, flush = hull_module.Relation, Polygon([(10, 3), (14, 3), (14, 5)])
        relations = [polygon.relation(other) for other in (small, beside, flush, across, polygon)]
        self.assertEqual(relations, [Relation.COVERS, Relation.DISJOINT, Relation.TOUCHING, Relation.OVERLAPPING, Relation.EQUAL])
        self.assertIs(small.relation(polygon), Relation.WITHIN)
        self.assertTrue(polygon.contains_inside(small))
        self.assertFalse(polygon.contains_inside(polygon) or polygon.contains_inside(flush))
        for distance in (2, 2.0, Fraction(2001, 1000), 2 ** 64, Fraction(2 ** 40 + 1, 2 ** 39)):
            self.assertTrue(polygon.within_distance(beside, distance))
        for distance in (1.999999, Fraction(1999, 1000), Fraction(2 ** 40 - 1, 2 ** 39)):
            self.assertFalse(polygon.within_distance(beside, distance))
        self.assertFalse(polygon.within_distance(none, 5) or polygon.within_distance(none, 2 ** 64))
        for distance in (-1, float("nan"), float("inf")):
            self.assertRaises(OutOfRange, polygon.within_distance, beside, distance)
        covered, within, crossing = polygon.witness(small), small.witness(polygon), polygon.witness(across)
        self.assertTrue(covered.shows is Shows.COVERED and len(covered.points) == 1 and covered.points[0] in small.vertices())
        self.assertTrue(within.shows is Shows.WITHIN and within.points[0] in small.vertices())
        self.assertEqual((crossing.shows, crossing.points[2:]), (Shows.CROSSING, ((-5, 5), (15, 6))))
        self.assertEqual(polygon.witness(beside), (Shows.DISJOINT, ((10, 10), (10, 0))))
        self.assertEqual((polygon.witness(none), none.witness(polygon), none.diameter(), none.width_along(1, 0)), (None,) * 4)
        point = Polygon([(13, 5)])
        self.assertEqual((polygon.distance(small), polygon.distance(none), none.distance(polygon)), (((), ()), None, None))
        self.assertEqual(polygon.distance(beside), (((10, 0),), ((12, 0),)))
        self.assertEqual(polygon.distance(point), (((10, 0), (10, 10)), ((13, 5),)))
        self.assertEqual(point.distance(polygon), (((13, 5),), ((10, 0), (10, 10))))
        self.assertRaises(TypeError, polygon.distance, [(0, 0)])
        self.assertEqual(beside.least_width(), ((12, 6), (12, 0), (15, 3)))
        self.assertEqual((none.least_width(), Polygon([(3, 4)]).least_width()), (None, None))
        (px, py), (qx, qy) = polygon.diameter()
        self.assertEqual((px - qx) ** 2 + (py - qy) ** 2, 200)
        self.assertEqual(polygon.width_along(3, 4), 70)
        self.assertRaises(ZeroDirection, polygon.width_along, 0, 0)
        self.assertRaises(OutOfRange, polygon.width_along, COORDINATE_LIMIT + 1, 0)
        self.assertRaises(TypeError, polygon.intersects, [(0, 0)])

    def test_motions(self):
        Polygon = hull_module.Polygon
        polygon, none = Polygon([(0, 0), (10, 0), (10, 10), (0, 10)]), Polygon([])
        small, beside = Polygon([(2, 2), (4, 2), (3, 4)]), Polygon([(12, 0), (15, 3), (12, 6)])
        self.assertEqual(polygon.first_meeting(beside, -8, 4), (Fraction(1, 4), ((10, 0), (10, 10)), (12, 0), True))
        self.assertEqual(beside.first_meeting(polygon, 8, -4)[0], Fraction(1, 4))
        self.assertEqual(polygon.first_meeting(small, 1, 1), (0, (), None, False))
        self.assertEqual((polygon.first_meeting(beside, 0, 9), polygon.first_meeting(beside, 0, 0), polygon.first_meeting(none, 1, 1)), (None,) * 3)
        self.assertRaises(OutOfRange, polygon.first_meeting, beside, COORDINATE_LIMIT + 1, 0)
        self.assertRaises(TypeError, polygon.first_meeting, [(0, 0)], 1, 1)
        self.assertEqual((beside.translate(-8, 4).vertices(), none.translate(1, 1).vertices()), ([(4, 4), (7, 7), (4, 10)], []))
        for way in ((COORDINATE_LIMIT, 0), (0, 1 << 70)):
            self.assertRaises(OutOfRange, beside.translate, *way)
        self.assertEqual((small.rotate(0, 1).vertices(), none.rotate(1, 1).vertices()), ([(-4, 3), (-2, 2), (-2, 4)], []))
        self.assertRaises(ZeroDirection, small.rotate, 0, 0)
        self.assertRaises(OutOfRange, small.rotate, COORDINATE_LIMIT, 1)
        held = Hull([(9, 9), (-9, 9)])
        self.assertEqual((held.nearest_held(0, 5), held.nearest_held(1, 9), Hull().nearest_held(1, 1)), (((-9, 9), 97), ((9, 9), 64), None))
        self.assertRaises(OutOfRange, held.nearest_held, COORDINATE_LIMIT + 1, 0)
        by_chance = random.Random(5)
        for _ in range(200):
            one, other = (Polygon.of([(by_chance.randrange(-9, 9) + at, by_chance.randrange(-9, 9)) for _ in range(5)]) for at in (0, 25))
            dx, dy = by_chance.randrange(-40, 1), by_chance.randrange(-9, 9)
            met = one.first_meeting(other, dx, dy)

            def meet(part):
                large = [Polygon.of([(x * part.denominator, y * part.denominator) for x, y in shape.vertices()]) for shape in (one, other)]
                return large[0].intersects(large[1].translate(dx * part.numerator, dy * part.numerator))

            self.assertFalse(any(meet(Fraction(k, 97)) for k in range(98) if met is None or Fraction(k, 97) < met.part))
            self.assertTrue(met is None or meet(met.part))

    def test_many_polygons(self):
        Polygon, pairs_within_distance, by_chance = hull_module.Polygon, hull_module.pairs_within_distance, random.Random(3)

        def point(most):
            return by_chance.randrange(-most, most), by_chance.randrange(-most, most)

        def polygon(points, size, most):
            x, y = point(most)
            return Polygon.of([(x + dx, y + dy) for dx, dy in (point(size) for _ in range(points))])

        for _ in range(30):
            size, most = by_chance.choice([1, 3, 10]), by_chance.choice([4, 30])
            all = [polygon(by_chance.randrange(8), size, most) for _ in range(by_chance.randrange(30))]
            for distance in (0, 1, Fraction(5, 2), 3.5, Fraction(1, 3 ** 30), 2 ** 70):
                pairs = [(i, j) for j in range(len(all)) for i in range(j) if all[i].within_distance(all[j], distance)]
                self.assertEqual(pairs_within_distance(all, distance), sorted(pairs))
            segments = [(point(40), point(40)) for _ in range(30)]
            points = [point(5) for _ in range(30)]
            for one in all[:4]:
                self.assertEqual(one.relations(all), [one.relation(other) for other in all])
                self.assertEqual(list(one.intersects_segments(segments)), [one.intersects_segment(*a, *b) for a, b in segments])
            hull = Polygon.of(points + [(9, 9)])
            self.assertEqual(hull.indices(points), [points.index(c) if c in points else None for c in hull.vertices()])
        self.assertRaises(TypeError, pairs_within_distance, [[(0, 0)]])
        self.assertRaises(OutOfRange, pairs_within_distance, [], -1)
        self.assertRaises(OutOfRange, hull.intersects_segments, [((0, 0), (0, COORDINATE_LIMIT + 1))])
        self.assertRaises(ValueError, hull.intersects_segments, [((0, 0),)])
        self.assertEqual((hull.intersects_segments([]), hull.indices([]), Polygon([]).indices([(1, 1)])), (b"", [None] * len(hull), []))

    def test_sequences_that_make_their_polygons(self):
        """What a call looks at stays until it ends, and is what was handed over, whatever the caller's sequence does meanwhile."""
        Polygon, pairs_within_distance = hull_module.Polygon, hull_module.pairs_within_distance

        def square(k):
            return Polygon([(3 * k, 0), (3 * k + 2, 0), (3 * k + 2, 2), (3 * k, 2)])

        class Made(Sequence):
            """Polygons to which only the caller refers."""

            def __len__(self):
                return 300

            def __getitem__(self, k):
                if k >= 300:
                    raise IndexError(k)
                return square(k)

        class Lying(list):
            def __len__(self):
                return 5 + list.__len__(self)

        near = [(k, k + 1) for k in range(299)]
        one = Polygon([(0, 0), (1000, 0), (1000, 1)])
        for polygons in (Made(), Lying(Made()), tuple(Made())):
            for distance in (1, Fraction(1) + Fraction(1, 1 << 40)):
                self.assertEqual(pairs_within_distance(polygons, distance), near)
            self.assertEqual(one.relations(polygons), [one.relation(other) for other in Made()])
        for wrong in ([square(0), None], Lying([square(0), (1, 2)])):
            self.assertRaises(TypeError, pairs_within_distance, wrong)
            self.assertRaises(TypeError, one.relations, wrong)

    def test_polygons_that_other_threads_change(self):
        """A list whose elements are exchanged, and polygons that are made anew: each answer is one of those before and after."""
        Polygon, pairs_within_distance = hull_module.Polygon, hull_module.pairs_within_distance
        many, few = [(x, x * x) for x in range(3000)], [(5000, 0), (5001, 0), (5000, 1)]
        both = [Polygon(many), Polygon(few)]
        changing, polygons, ends = Polygon(many), [Polygon(many) for _ in range(4)], []
        areas = {polygon.doubled_area() for polygon in both}
        relations = {both[0].relation(polygon) for polygon in both}
        places = {tuple(polygon.indices(many)) for polygon in both}
        pairs = [[], *([(i, j)] for j in range(3) for i in range(j)), [(0, 1), (0, 2), (1, 2)]]

        def change():
            while not ends:
                for vertices in (few, many):
                    changing.__init__(vertices)
                    with self.assertRaises(ValueError):
                        changing.__init__([(0, 0), (0, 0)])
                    polygons[1] = Polygon(vertices)
                    polygons[:] = [Polygon(many) for _ in range(len(vertices) % 3 + 2)]

        threads = [threading.Thread(target=change) for _ in range(2)]
        for thread in threads:
            thread.start()
        try:
            for _ in range(100):
                self.assertIn(changing.doubled_area(), areas)
                self.assertIn(both[0].relation(changing), relations)
                self.assertIn(tuple(changing.indices(many)), places)
                self.assertIn(changing.translate(0, 0), both)
                self.assertIn(changing.rotate(1, 0), both)
                self.assertIn(pairs_within_distance([both[0], changing, both[1]], 0), pairs)
                self.assertTrue(set(both[0].relations(polygons)) <= {*relations, hull_module.Relation.EQUAL})
        finally:
            ends.append(True)
            for thread in threads:
                thread.join()

    def test_lengths_of_any_size(self):
        Polygon = hull_module.Polygon
        one, other, none = Polygon([(0, 0)]), Polygon([(COORDINATE_LIMIT, 0)]), Polygon([])
        for length in (10 ** 400, Fraction(10 ** 400, 3), Decimal(10) ** 400, COORDINATE_LIMIT):
            self.assertTrue(one.within_distance(other, length) and one.within_distance_of_point(COORDINATE_LIMIT, 5, length + 1))
            self.assertFalse(one.within_distance(none, length))
            self.assertEqual(hull_module.pairs_within_distance([one, none, other], length), [(0, 2)])
        self.assertFalse(one.within_distance(other, COORDINATE_LIMIT - Fraction(1, 10 ** 400)))
        for wrong in (-10 ** 400, math.inf, -math.inf, math.nan, Decimal("inf"), Decimal("nan"), -1):
            self.assertRaises(OutOfRange, one.within_distance, other, wrong)
            self.assertRaises(OutOfRange, hull_module.pairs_within_distance, [one], wrong)
        for wrong in ("1", None, 1j, [1]):
            self.assertRaises(TypeError, one.within_distance, other, wrong)

    def test_relations_to_segments(self):
        Relation, polygon = hull_module.Relation, hull_module.Polygon([(0, 0), (10, 0), (10, 10), (0, 10)])
        for relation, segments in ((Relation.COVERS, [(0, 0, 10, 0), (2, 2, 9, 9), (5, 0, 5, 5), (10, 5, 10, 5)]),
                                   (Relation.TOUCHING, [(10, 3, 10, 12), (10, 10, 12, 12)]),
                                   (Relation.OVERLAPPING, [(5, 5, 20, 5), (-5, 5, 20, 5)]), (Relation.DISJOINT, [(20, 20, 30, 30)])):
            for segment in segments:
                self.assertEqual(polygon.relation_to_segment(*segment), relation)

    def test_segments_have_two_ends(self):
        polygon = hull_module.Polygon([(0, 0), (10, 0), (10, 10)])
        for wrong in ([((0, 0), (1, 1), (2, 2)), ((3, 3),)], [((0, 0),)], [((0, 0), (1, 1), (2, 2))]):
            self.assertRaises(ValueError, polygon.intersects_segments, wrong)

    def test_text_of_floats(self):
        for vertices in ([(0.5, 1)], [(0, 0), (1, 2.75)], [(True, 1)], [("1", 2)]):
            self.assertRaises(TypeError, wkt, vertices)

    def test_directions_of_floats(self):
        direction_of, top = hull_module.direction_of, 1 << 39
        self.assertEqual(direction_of(1.0, -0.5), ((top, -top // 2), False))
        self.assertEqual(direction_of(0, -0.0), ((0, 0), False))
        self.assertEqual(direction_of(1.0, 2.0 ** -40), ((top, 0), True))
        self.assertEqual(direction_of(1.0, 3 * 2.0 ** -40), ((top, 2), True))
        self.assertEqual(direction_of(sys.float_info.max, 1), ((2 * top, 0), True))
        self.assertEqual(direction_of(5e-324, -5e-324), ((top, -top), False))
        for words in ((math.nan, 0), (0, math.nan), (math.inf, 0), (1, -math.inf)):
            self.assertRaises(OutOfRange, direction_of, *words)
        polygon = hull_module.Polygon([(0, 0), (10, 0), (10, 10), (0, 10)])
        self.assertEqual((polygon.extreme_d(0.5, 0.25), polygon.extreme_d(0, 0)), ((10, 10), (0, 0)))
        self.assertEqual(hull_module.Polygon([]).extreme_d(1, 1), None)
        self.assertEqual(Hull([(0, 5), (3, -2), (7, 9)]).extreme_d(0, 0), (0, 5))  # the first by x, not by y
        self.assertEqual(Hull([(1, 2)]).extreme_d(1e300, -1e-300), (1, 2))

    def test_polygon_by_threads(self):
        polygon = Hull([(x, x * x) for x in range(-500, 500)]).polygon()
        asked = [(x, 250000 - 900 * x) for x in range(-500, 500)]
        wanted, answers = polygon.place_all(asked), []
        threads = [threading.Thread(target=lambda: answers.append([polygon.place_all(asked) for _ in range(20)])) for _ in range(4)]
        for thread in threads:
            thread.start()
        for thread in threads:
            thread.join()
        self.assertEqual(answers, [[wanted] * 20] * 4)

    def test_area_in_two_words(self):
        hull = Hull()
        hull.add_all([(x * COORDINATE_LIMIT, y * COORDINATE_LIMIT) for x in (-1, 1) for y in (-1, 1)])
        self.assertEqual(hull.doubled_area(), 1 << 83)

    def test_faults(self):
        far = COORDINATE_LIMIT + 1
        hull = self.hull
        for call in (hull.add, hull.remove, hull.place, hull.tangents, hull.extreme, hull.multiplicity):
            for x, y in ((far, 0), (0, -far), (1 << 64, 0), (0, 5 - (1 << 64))):
                self.assertRaises(OutOfRange, call, x, y)
            self.assertRaises(TypeError, call, 0.5, 0)
        self.assertRaises(ZeroDirection, self.hull.extreme, 0, 0)
        for points in ([(1, 1), (far, 0)], [(1, 1), (0, 1 << 64)], columns([(1, 1), (0, -far)])):
            for call in (self.hull.add_all, self.hull.remove_all, self.hull.place_all):
                self.assertRaises(OutOfRange, call, points)
        self.assertNotIn((1, 1), self.hull)

    def test_arrays(self):
        points = [(x, y) for x in range(-2, 13) for y in range(-2, 13)]
        wanted = bytes(self.hull.place(*point) for point in points)
        self.assertEqual(self.hull.place_all(points), wanted)
        self.assertEqual(self.hull.place_all(columns(points)), wanted)
        self.assertEqual(self.hull.remove_all(columns(points)), 5)
        self.assertEqual(len(self.hull), 0)
        self.hull.add_all([(4, 4)] * 2)
        self.assertEqual([self.hull.remove_all([(4, 4), (5, 5)]) for _ in range(3)], [1, 1, 0])
        self.assertEqual(list(self.hull.add_all(points)), [1] * 6 + [0] * (len(points) - 6))

    def test_threads(self):
        hull = Hull()
        threads = [threading.Thread(target=lambda: [hull.add(n, n * n) for n in range(2000)]) for _ in range(4)]
        for thread in threads:
            thread.start()
        for thread in threads:
            thread.join()
        self.assertEqual((len(hull), hull.multiplicity(7, 49)), (2000, 4))


class Growing(unittest.TestCase):
    def grows_as_a_set(self, points, asked):
        """A growing hull of the points answers as a set of them."""
        points, hull, grown = list(points), Hull(), GrowingHull()
        for x, y in points:
            before = hull.place(x, y)
            hull.add(x, y)
            self.assertIs(grown.add(x, y), before)
        self.assertEqual((grown.vertices(), list(grown), grown.doubled_area()), (hull.vertices(), hull.vertices(), hull.doubled_area()))
        self.assertEqual((GrowingHull(points[::-1]), grown.polygon(), grown.wkt(2)), (grown, hull.polygon(), hull.wkt(2)))
        for x, y in asked:
            self.assertEqual((grown.place(x, y), grown.tangents(x, y)), (hull.place(x, y), hull.tangents(x, y)))
            self.assertEqual(grown.extreme(x, y or 1), hull.extreme(x, y or 1))
        self.assertEqual((grown.place_all(asked), grown.tangents_all(asked)), (hull.place_all(asked), hull.tangents_all(asked)))
        self.assertEqual(grown.extreme_all([(x, y or 1) for x, y in asked]), hull.extreme_all([(x, y or 1) for x, y in asked]))

    def test_a_grid(self):
        grid, around = [(x, y) for x in range(4) for y in range(4)], [(x, y) for x in range(-1, 5) for y in range(-1, 5)]
        for subset in range(0, 1 << 16, 97):
            order = [(5 * i + subset) % 16 for i in range(16)]
            self.grows_as_a_set((grid[i] for i in order if subset >> i & 1), around)
        for subset in range(0, 1 << 16, 7):
            points = [grid[i] for i in range(16) if subset >> i & 1]
            self.assertEqual(GrowingHull(points).vertices(), hull_module.Polygon.of(points).vertices())

    def test_at_random(self):
        numbers = random.Random(1)
        for size in (3, 10 ** 6, COORDINATE_LIMIT):
            points = [(numbers.randint(-size, size), numbers.randint(-size, size)) for _ in range(300)]
            self.grows_as_a_set(points, points[:100])
        far = COORDINATE_LIMIT
        self.grows_as_a_set([(far, far), (-far, -far), (far, -far), (0, 0), (-far, far), (1, 1)], [(0, far), (far, 0), (1, 0)])
        parabola = [(x, x * x) for x in range(-3000, 3000)]
        numbers.shuffle(parabola)
        self.assertEqual(GrowingHull(parabola).vertices(), sorted(parabola))

    def test_replies(self):
        hull = GrowingHull()
        self.assertEqual((hull.vertices(), list(hull), hull.extreme(1, 0), hull.tangents(0, 0), hull.doubled_area()), ([], [], None, None, 0))
        self.assertEqual(list(hull.add_all([(0, 0), (8, 0), (4, 0), (0, 8), (1, 1)])), [14, 14, 13, 14, 12])
        self.assertEqual((list(hull.add_all(columns([(0, 0), (9, 0)]))), hull.add_all([])), ([13, 14], b""))
        self.assertEqual((Place(hull.add_all([(0, 9)])[0]), hull.extreme_d(0.5, 1), repr(hull)), (Place.OUTSIDE, (0, 9), "<GrowingHull of 3 vertices>"))
        self.assertEqual(hull_module.to_floats(hull.vertices(), 1), [(0, 0), (4.5, 0), (0, 4.5)])

    def test_refusals(self):
        hull, far = GrowingHull(SQUARE), COORDINATE_LIMIT + 1
        self.assertRaises(OutOfRange, hull.add, far, 0)
        self.assertRaises(OutOfRange, hull.add_all, [(99, 99), (0, -far)])
        self.assertRaises(OutOfRange, GrowingHull, [(0, far)])
        self.assertRaises(ZeroDirection, hull.extreme, 0, 0)
        self.assertRaises(TypeError, hull.add, 0.5, 0)
        self.assertRaises(AttributeError, getattr, hull, "remove")
        self.assertRaises(TypeError, hash, hull)
        self.assertEqual(hull.doubled_area(), 200)

    def test_copies(self):
        hull = GrowingHull(SQUARE)
        for other in (hull.copy(), copy.copy(hull), copy.deepcopy(hull), pickle.loads(pickle.dumps(hull))):
            self.assertEqual((other == hull, other != GrowingHull(), other == 7), (True, True, False))
            other.add(99, 99)
            self.assertNotEqual(other, hull)
        self.assertEqual(hull.vertices(), [(0, 0), (10, 0), (10, 10), (0, 10)])


@unittest.skipUnless(hasattr(hull_module._LIBRARY, "hull_overlaps"), "the library counts no overlaps")
class Locks(unittest.TestCase):
    """By a library that is slowed down, and counts the calls on a hull that begin while another is under way (overlaps.c)."""

    def race(self, *calls):
        """The calls at once, each in a thread of its own, which no two of may make at one time."""
        failed = []

        def run(call):
            try:
                for n in range(50):
                    call(n)
            except Exception as fault:  # what a thread raises is lost otherwise
                failed.append(fault)

        threads = [threading.Thread(target=run, args=(call,)) for call in calls]
        for thread in threads:
            thread.start()
        for thread in threads:
            thread.join()
        self.assertEqual((failed, hull_module._LIBRARY.hull_overlaps()), ([], 0))

    def test_calls_one_by_one(self):
        hull = Hull()
        self.race(lambda n: hull.add(n, n), lambda n: hull.place(n, n), lambda n: hull.limit(), lambda n: hull.clear())

    def test_many_calls_at_once(self):
        hull = Hull()
        self.race(lambda n: hull.add_all([(n, n)]), lambda n: hull.place_all([(n, n)]), lambda n: hull.load([(n, n)] * 3))

    def test_items_and_copies(self):
        hull = Hull([(1, 2)])
        self.race(lambda n: list(hull.items()), lambda n: hull.copy(), lambda n: hull.load_items([((n, n), 3)]))

    def test_vertices_of_one_moment(self):
        hull = Hull()

        def are_those_of_a_parabola(_):
            vertices = hull.vertices()
            assert vertices == [(n, n * n) for n in range(len(vertices))], vertices

        self.race(lambda n: hull.add(n, n * n), are_those_of_a_parabola)

    def test_growing_hulls(self):
        hull = GrowingHull()
        self.race(lambda n: hull.add(n, n * n), lambda n: hull.add_all([(n, -n)]), lambda n: hull.place(n, n), lambda n: hull.vertices())

    def test_memory_refused_to_growing_hulls(self):
        points, refused = [(x, x * x) for x in range(3000)], 0
        for request in range(100):
            hull_module._LIBRARY.hull_refuse(request)
            try:
                hull = GrowingHull()
                missing = [point for point, place in zip(points, hull.add_all(points)) if place == 0]
                self.assertTrue(len(missing) <= 1)
                self.assertEqual([hull.add(*point) for point in missing], [Place.OUTSIDE] * len(missing))
                self.assertEqual(hull.vertices(), points)
                refused += len(missing)
            except MemoryError:
                refused += 1
        hull_module._LIBRARY.hull_refuse(-1)
        self.assertTrue(5 < refused < 90, refused)

    def test_refused_memory(self):
        hull, refused = Hull([(x, x * x) for x in range(9)]), 0
        for request in range(99):
            hull_module._LIBRARY.hull_refuse(request)
            try:
                twin = hull.copy()
                self.assertEqual((twin.vertices(), twin.polygon().vertices()), (hull.vertices(), hull.vertices()))
            except MemoryError:
                refused += 1
            hull_module._LIBRARY.hull_refuse(-1)
        self.assertTrue(3 < refused < 90, refused)


@unittest.skipIf(numpy is None, "there is no numpy")
class Arrays(unittest.TestCase):
    def setUp(self):
        self.hull = Hull(SQUARE)
        self.square = numpy.array(SQUARE, dtype=numpy.int64)

    def test_points(self):
        hull = Hull()
        self.assertEqual(hull.add_all(self.square).tolist(), [1] * 5)
        self.assertEqual(hull.place_all(self.square[::-1]).tolist(), [12, 13, 13, 13, 13])
        self.assertEqual(hull.place_all(numpy.asfortranarray(self.square)).tolist(), [13, 13, 13, 13, 12])
        self.assertEqual(Hull(self.square[:0]).vertices(), [])
        self.assertEqual((hull.load(self.square), hull.remove_all(self.square)), (5, 5))

    def test_types(self):
        for kind in "int8 int16 int32 int64 uint8 uint16 uint32 uint64 >i4 >i8 <u2".split():
            points = self.square.astype(kind)
            self.assertEqual(self.hull.place_all(points).tolist(), [13, 13, 13, 13, 12], kind)
        for points in (numpy.array([[0, 1 << 63]], dtype=numpy.uint64), numpy.array([[-(1 << 63), 0]])):
            self.assertRaises(OutOfRange, self.hull.place_all, points)

    def test_refused(self):
        for points, message in (
                (self.square.astype(float), r"shape \(5, 2\) is of float64; from_floats takes floats"),
                (self.square > 3, r"shape \(5, 2\) is of bool"), (self.square.astype(object), "is of object"),
                (numpy.ma.masked_equal(self.square, 10), "no mask")):
            self.assertRaisesRegex(TypeError, message, self.hull.place_all, points)
        for points, message in (
                (self.square.T, r"of int64 has \(2, 5\); its transpose has"), (self.square[0], r"has \(2,\)"),
                (self.square.reshape(5, 2, 1), r"has \(5, 2, 1\)"), (self.square[:, :1], r"has \(5, 1\)")):
            self.assertRaisesRegex(ValueError, message, self.hull.place_all, points)

    def test_results_can_be_written(self):
        polygon, growing = self.hull.polygon(), hull_module.GrowingHull()
        for result in (self.hull.place_all(self.square), polygon.place_all(self.square), growing.add_all(self.square), self.hull.add_all(self.square),
                       polygon.intersects_segments(self.square[:4].reshape(2, 4)), *self.hull.tangents_all(self.square), polygon.vertex_array(),
                       self.hull.extreme_all(self.square + 1)):
            result[...] = 1
            self.assertTrue((result == 1).all())

    def test_distances(self):
        polygon, other = self.hull.polygon(), hull_module.Polygon([(13, 0)])
        for kind in (numpy.int8, numpy.uint64, numpy.float16, numpy.float32, numpy.float64, numpy.longdouble):
            self.assertEqual([polygon.within_distance(other, kind(distance)) for distance in (2, 3)], [False, True], kind)
            self.assertEqual(hull_module.pairs_within_distance([polygon, other], kind(3)), [(0, 1)], kind)
        for wrong in (numpy.array([3]), numpy.bool_(True)):
            self.assertRaises(TypeError, polygon.within_distance, other, wrong)
        self.assertRaises(OutOfRange, polygon.within_distance, other, numpy.float32("nan"))

    def test_shapes_of_segments(self):
        polygon = hull_module.Polygon([(0, 0), (10, 0), (10, 10)])
        ends = numpy.array([[0, 0, 5, 5], [20, 20, 30, 30], [5, 1, 6, 1]])
        for segments in (ends, ends.reshape(3, 2, 2), ends.astype("int16")):
            self.assertEqual(polygon.intersects_segments(segments).tolist(), [1, 0, 1])
        for wrong in (ends.reshape(2, 6), ends.reshape(6, 2), ends.reshape(12), ends.reshape(1, 12), ends.reshape(3, 4, 1), ends.reshape(2, 2, 3)):
            self.assertRaisesRegex(ValueError, r"shape \(n, 4\) or \(n, 2, 2\)", polygon.intersects_segments, wrong)
        self.assertEqual(polygon.intersects_segments(ends[:0]).tolist(), [])

    def test_questions(self):
        vertices = self.hull.vertex_array()
        self.assertEqual((vertices.tolist(), vertices.dtype), ([[0, 0], [10, 0], [10, 10], [0, 10]], numpy.int64))
        self.assertEqual(Hull().vertex_array().shape, (0, 2))
        farthest = self.hull.extreme_all(numpy.array([[1, 0], [0, 1]], dtype=numpy.int32))
        self.assertEqual((farthest.tolist(), farthest.dtype), ([[10, 0], [0, 10]], numpy.int64))
        self.assertRaises(ValueError, Hull().extreme_all, self.square[1:])
        self.assertEqual(Hull().extreme_all(self.square[:0]).shape, (0, 2))
        points, seen = self.hull.tangents_all(numpy.array([[20, 5], [5, 5]]))
        self.assertEqual((points.tolist(), seen.tolist()), ([[[10, 0], [10, 10]], [[0, 0], [0, 0]]], [True, False]))

    def test_floats(self):
        points, rounded = from_floats(numpy.array([[0.5, -3], [0.1, 2]]), 20)
        self.assertEqual((points.tolist(), rounded), ([[1 << 19, -3 << 20], [104858, 2 << 20]], 1))
        self.assertEqual(points.dtype, numpy.int64)
        self.assertEqual(to_floats(points[:1], 20).tolist(), [[0.5, -3]])
        for rows, power in (([[3, -4]], 10 ** 30), ([[3, -4]], 1100), ([[0, 0]], -10 ** 30), ([[1, 0]], -1000)):
            self.assertEqual(to_floats(numpy.array(rows), power).tolist(), [list(pair) for pair in to_floats(rows, power)])
        for rows, power, fault in (([[1, 0]], -10 ** 30, OverflowError), ([[1, 0]], -1100, OverflowError), ([[COORDINATE_LIMIT + 1, 0]], 1, OutOfRange)):
            for points in (rows, numpy.array(rows)):
                self.assertRaises(fault, to_floats, points, power)
        numbers = numpy.array([(-1) ** n * n * 2.0 ** (n % 70 - 60) + n % 3 / 2 for n in range(3000)]).reshape(-1, 2)
        listed = from_floats(numbers.tolist(), 7)
        points, rounded = from_floats(numbers, 7)
        self.assertEqual(([tuple(point) for point in points.tolist()], rounded), listed)
        for wrong in (numpy.nan, numpy.inf, -1e308):
            self.assertRaises(OutOfRange, from_floats, numpy.array([[0, wrong]]), 40)
        for kind in ("int64", "uint64"):
            points, rounded = from_floats(numpy.array([[(1 << 59) + 1, 1 << 59]], dtype=kind), -20)
            self.assertEqual((points.tolist(), rounded, points.dtype), ([[1 << 39, 1 << 39]], 1, numpy.int64))
        points, rounded = from_floats(numpy.array([[3, 4]], dtype=numpy.longdouble) + numpy.longdouble(2) ** -55, 0)
        self.assertEqual((points.tolist(), rounded), ([[3, 4]], 2 * (numpy.finfo(numpy.longdouble).nmant > 55)))
        self.assertRaises(TypeError, from_floats, numpy.array([[True, False]]), 1)
        points, rounded = from_floats(numpy.array([[5e-324, -1e-300], [0.0, -0.0]]), 20)
        self.assertEqual((points.tolist(), rounded), ([[0, 0], [0, 0]], 2))


if __name__ == "__main__":
    unittest.main()
