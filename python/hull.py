"""An exact dynamic convex hull of points with integer coordinates, over verified code.

    from hull import Hull, Place
    hull = Hull([(0, 0), (10, 0), (10, 10), (0, 10)])
    hull.place(5, 5) is Place.INSIDE
    hull.place_all([(5, 5), (10, 5), (11, 5)])     # three of Place, as bytes

A hull contains points, each with a multiplicity; questions are about their convex hull. A GrowingHull is that of points that are only added: nothing
can be removed from it, and multiplicities are not kept. A coordinate is an integer from -COORDINATE_LIMIT to
COORDINATE_LIMIT. Many points at once are a list of pairs, or an array of integers in two columns, a point in each row: of numpy, and then results
are arrays of numpy too, or any other with the buffer protocol, as arrays of ctypes. Arrays of floats and bools, masked ones, and those of two rows
and another number of columns than two are refused. A call that raises leaves the hull as it was. Calls on one hull from several threads wait for
each other; a signal handler and a `__del__` may make calls on any hull.

    from hull import SharedHull
    with SharedHull(capacity=1000, seats=2) as shared:
        with shared.acquire_seat(0) as seat:       # one for each thread
            seat.add(3, 4)
        text = shared.close()                      # the journal of all calls, which `hullbook check` judges

Floats are mapped to the lattice by a power of two that you choose:

    from hull import FloatHull, from_floats, to_floats
    points, rounded = from_floats([(0.5, 1.25), (0.1, 3)], power=20)     # rounded is 1: 0.1 is between two
    to_floats(Hull(points).vertices(), power=20)                         # pairs of floats again
    Hull(points).wkt(power=20)                                           # "LINESTRING (..)", "POLYGON ((..))"
    FloatHull([(0.5, 1.25), (0.1, 3)], power=20).area()                  # or all in floats

A hull lives as long as something refers to it: it is freed after the last `__del__` of a cycle that it is in, and after all `atexit` handlers. One with a
journal file is synced when the program ends. A forked child has the hulls of its parent; one in which another thread was at that moment, and each
SharedHull, is ended there: calls raise Ended.

The calls go to the shared objects `libhull.so` and `libhull_shared.so` (loaded for the first SharedHull), which `bin/install` puts beside this file;
the environment variables HULL_LIBRARY and HULL_SHARED_LIBRARY may name others. It runs under Python 3.8 and later.
"""
from __future__ import annotations

import atexit
import ctypes
import enum
import errno
import functools
import importlib
import itertools
import math
import operator
import os
import sys
import weakref
from array import array
from collections.abc import Mapping
from fractions import Fraction
from typing import Any, Callable, Dict, Iterable, Iterator, List, NamedTuple, NoReturn, Optional, Protocol, Sequence
from typing import SupportsIndex, Tuple, TypeVar, Union, overload

if sys.version_info < (3, 8):
    raise ImportError("the module hull needs Python 3.8 or later")

__version__ = "3.13.0"
__all__ = [
    "CAPACITY_LIMIT", "COORDINATE_LIMIT", "MULTIPLICITY_LIMIT", "POINT_LIMIT", "READER_LIMIT", "SEAT_LIMIT", "Busy", "Ended",
    "FloatHull", "GrowingHull", "Hull", "JournalFault", "JournalFull", "JournalSegment", "Lattice", "Motion", "NoSeat", "OutOfRange", "Place", "Polygon",
    "Reader", "Relation", "Seat", "SeatsOut", "SharedHull", "Shows", "Snapshot", "Stats", "TooMany", "Witness", "ZeroDirection",
    "direction_of", "from_floats", "merge", "pairs_within_distance", "to_floats", "wkt",
]

#: A point, and a point with its multiplicity.
Pair = Tuple[int, int]
Item = Tuple[Pair, int]
#: Points that a caller hands over.
Points = Iterable[Tuple[SupportsIndex, SupportsIndex]]
#: A point in floats.
Floats = Tuple[float, float]


class _Array(Protocol):
    """An array that has a shape, as those of numpy and what `memoryview` makes of others."""

    @property
    def shape(self) -> Any: ...


#: The greatest size of a coordinate, of a point and of a direction: 2^40.
COORDINATE_LIMIT = 1 << 40
#: The greatest limit of a hull: how many different points it may have.
POINT_LIMIT = 1 << 20
#: The greatest multiplicity of a point.
MULTIPLICITY_LIMIT = 65535
#: The greatest capacity of a shared hull: how many lines its journal may have.
CAPACITY_LIMIT = (1 << 24) - 1
#: The greatest number of seats of a shared hull.
SEAT_LIMIT = 64
#: The greatest number of readers of a shared hull.
READER_LIMIT = 64


class OutOfRange(ValueError):
    """A coordinate is larger than COORDINATE_LIMIT in size."""


class ZeroDirection(ValueError):
    """Both components of a direction are 0."""


class TooMany(ValueError):
    """The point is new and there are as many as the limit, or its multiplicity is the greatest."""


class NoSeat(LookupError):
    """The seat is acquired, or the shared hull has none of this number."""


class SeatsOut(RuntimeError):
    """A seat or a reader of the shared hull is acquired: it stays open."""


class JournalFull(RuntimeError):
    """The journal of the shared hull is full until it is drained: the call was not made."""


class Busy(Exception):
    """The call was not admitted for as long as the seat waits (`Seat.wait_at_most`), and was not made."""


class Ended(RuntimeError):
    """This process is a forked child, in which the hull can't be used: another thread was in it, or it is a shared one."""


class JournalFault(ValueError):
    """A text can't be continued: it is not a journal, or the journal is of an older version, or not a legal history, or has lines by more
    seats than were asked for. The message says which, and names the line of the text, from 1."""


class _Code(enum.IntEnum):
    """What a call returns, by the numbers of the headers."""

    # written by tools/table.py: codes
    OK = 0
    OUT_OF_RANGE = 1
    ZERO_DIRECTION = 2
    ADDED = 3
    AGAIN = 4
    TOO_MANY = 5
    NO_MEMORY = 6
    REMOVED = 7
    LEFT = 8
    ABSENT = 9
    POINT = 10
    EMPTY = 11
    INSIDE = 12
    ON = 13
    OUTSIDE = 14
    TANGENTS = 15
    NO_TANGENT = 16
    NUMBER = 17
    VERTICES = 18
    TOO_SMALL = 19
    CLEARED = 20
    OUT_OF_ORDER = 21
    UNKNOWN_KIND = 22
    INTERSECTING = 23
    DISJOINT = 24
    COVERED = 25
    VERTEX = 26
    EDGE = 27
    BOX = 28
    WITHIN = 29
    CROSSING = 30
    POINTS = 31
    OPEN = 32
    OUT_OF_LIMITS = 33
    WAS_OPENED = 34
    ACQUIRED = 35
    NO_SEAT = 36
    STORAGE_IN_USE = 37
    NOT_OPEN = 38
    RELEASED = 39
    VACANT = 40
    WAITING = 41
    SLOT_IN_USE = 42
    TAKEN = 43
    NOT_YET = 44
    NO_NUMBER = 45
    FULL = 46
    SEATS_OUT = 47
    CLOSED = 48
    NOT_CLOSED = 49
    TEXT = 50
    ENDED = 51
    IN_USE = 52
    RESERVED = 53
    SEGMENT_IN_USE = 54
    NO_SPACE = 55
    NO_LINES = 56
    NO_JOURNAL = 57
    OLD_RULES = 58
    ILLEGAL = 59
    TOO_FEW_SEATS = 60
    NO_POLYGON = 61
    BUSY = 62
    OTHER_GATE = 63
    NO_FILE = 64
    DAMAGED = 65
    DURABLE = 66
    READERS_SET = 67
    SNAPSHOT_TAKEN = 68
    OLD = 69
    # end of what tools/table.py writes


class Place(enum.IntEnum):
    """The location of a point."""

    #: The hull covers the point, which is not on its boundary.
    INSIDE = _Code.INSIDE
    #: The point is on the boundary: a vertex, on an edge, or on a hull of one point or one line.
    ON = _Code.ON
    #: The hull does not cover the point.
    OUTSIDE = _Code.OUTSIDE


class _Kind(enum.IntEnum):
    """The kinds of calls; a seat can't ask for the last."""

    # written by tools/table.py: kinds
    ADD = 1
    REMOVE = 2
    PLACE = 3
    TANGENTS = 4
    EXTREME = 5
    VERTICES = 6
    AREA = 7
    COUNT = 8
    MULTIPLICITY = 9
    # end of what tools/table.py writes


_int64, _uint32, _uint64 = ctypes.c_int64, ctypes.c_uint32, ctypes.c_uint64
_size, _address = ctypes.c_size_t, ctypes.c_void_p


# written by tools/table.py: structs
class _Reply(ctypes.Structure):
    _fields_ = [
        ("code", _uint32),
        ("x", _int64),
        ("y", _int64),
        ("other_x", _int64),
        ("other_y", _int64),
        ("number", _uint64),
        ("high", _uint64),
    ]
    code: int
    x: int
    y: int
    other_x: int
    other_y: int
    number: int
    high: int


class _Held(ctypes.Structure):
    _fields_ = [
        ("x", _int64),
        ("y", _int64),
        ("multiplicity", _uint32),
    ]
    x: int
    y: int
    multiplicity: int


class _Witness(ctypes.Structure):
    _fields_ = [
        ("code", _uint32),
        ("a", _int64 * 2),
        ("b", _int64 * 2),
        ("c", _int64 * 2),
        ("d", _int64 * 2),
    ]
    code: int
    a: Any
    b: Any
    c: Any
    d: Any


class _DistanceBounds(ctypes.Structure):
    _fields_ = [
        ("code", _uint32),
        ("shift", _uint32),
        ("lower", _uint64),
        ("upper", _uint64),
        ("high", _uint64),
        ("middle", _uint64),
        ("low", _uint64),
        ("divisor_high", _uint64),
        ("divisor_low", _uint64),
    ]
    code: int
    shift: int
    lower: int
    upper: int
    high: int
    middle: int
    low: int
    divisor_high: int
    divisor_low: int


class _Hit(ctypes.Structure):
    _fields_ = [
        ("code", _uint32),
        ("a", _int64 * 2),
        ("b", _int64 * 2),
        ("high", _uint64),
        ("low", _uint64),
        ("divisor_high", _uint64),
        ("divisor_low", _uint64),
    ]
    code: int
    a: Any
    b: Any
    high: int
    low: int
    divisor_high: int
    divisor_low: int


class _Motion(ctypes.Structure):
    _fields_ = [
        ("hit", _Hit),
        ("vertex", _int64 * 2),
        ("moves", _uint32),
    ]
    hit: Any
    vertex: Any
    moves: int
# end of what tools/table.py writes

_NOT_YET = int(_Code.NOT_YET)
_FAULTS: Dict[int, Callable[[], Exception]] = {
    _Code.OUT_OF_RANGE: lambda: OutOfRange("a coordinate is out of range"),
    _Code.ZERO_DIRECTION: lambda: ZeroDirection("a direction is zero"),
    _Code.TOO_MANY: lambda: TooMany("there are as many points as the limit, or the multiplicity is the greatest"),
    _Code.NO_MEMORY: lambda: MemoryError("memory was refused"),
    _Code.OUT_OF_ORDER: lambda: ValueError("the points are not in order"),
    _Code.OUT_OF_LIMITS: lambda: ValueError("a limit, a capacity or a number of seats is out of range"),
    _Code.NO_SEAT: lambda: NoSeat("no such seat, or no reader, of the hull is free"),
    _Code.NOT_OPEN: lambda: ValueError("the hull is closed, or has no journal file"),
    _Code.VACANT: lambda: ValueError("the seat or reader was released"),
    _Code.SEATS_OUT: lambda: SeatsOut("a seat of the hull is acquired"),
    _Code.FULL: lambda: JournalFull("the journal of the hull is full"),
    _Code.BUSY: lambda: Busy("the hull was in use by others for too long"),
    _Code.ENDED: lambda: Ended("the hull was ended by a fork"),
}


def _out_of_range() -> Exception:
    """Returns the exception of a coordinate that is out of range."""
    return _FAULTS[_Code.OUT_OF_RANGE]()


def _check_code(code: int) -> None:
    """Raises the exception of a code, if it has one."""
    fault = _FAULTS.get(code)
    if fault is not None:
        raise fault()


def _waited(function: Callable[..., Any], *words: Any) -> Any:
    """Returns the reply of a function that waits in pieces, between which signal handlers run: one may raise, and end the wait."""
    reply = function(*words, 0)
    while reply.code == _NOT_YET:
        reply = function(*words, reply.number)
    return reply


def _raise_code(code: int) -> NoReturn:
    """Raises the exception of a code that is no reply of a call."""
    _check_code(code)
    raise RuntimeError(f"the library answered {code}")


def _load(file: str, variable: str, functions: Sequence[Tuple[str, List[Any], Any]]) -> ctypes.CDLL:
    """Loads the shared object, and gives its functions their types: NAME, ARGUMENTS and RESULT of each."""
    beside = os.path.join(os.path.dirname(os.path.abspath(__file__)), file)
    library = ctypes.CDLL(os.environ.get(variable, beside))
    for name, arguments, result in functions:
        function = getattr(library, "hull_" + name)
        function.argtypes, function.restype = arguments, result
    return library


def _library() -> ctypes.CDLL:
    return _load("libhull.so", "HULL_LIBRARY", [
        ("python_new", [_uint32], _address), ("python_free", [_address], None), ("python_call", [_address, _uint32, _int64, _int64], _Reply),
        ("python_calls", [_address, _address, _address, _size], _size), ("python_vertices", [_address, _address, _size], _Reply),
        ("python_load", [_address, _address, _size], _Reply), ("python_load_held", [_address, _address, _size], _Reply),
        ("python_held_from", [_address, _int64, _int64, _address, _size], _Reply), ("python_nearest_held", [_address, _int64, _int64], _Reply),
        ("python_copy", [_address, _address], _Reply), ("python_limit", [_address], _Reply), ("python_clear", [_address], _Reply),
        ("python_growing_new", [], _address), ("python_growing_free", [_address], None),
        ("python_growing_call", [_address, _uint32, _int64, _int64], _Reply),
        ("python_growing_calls", [_address, _address, _address, _size], _size),
        ("python_growing_vertices", [_address, _address, _size], _Reply),
        # written by tools/table.py: signatures
        ("is_polygon", [_address, _size], _Reply), ("polygon_of", [_address, _size, _address, _size], _Reply),
        ("polygon_call", [_address, _size, _uint32, _int64, _int64], _Reply),
        ("polygon_calls", [_address, _size, _address, _size, _address, _size], _size),
        ("polygon_intersects_segment", [_address, _size, _int64, _int64, _int64, _int64], _Reply),
        ("polygon_separation", [_address, _size, _int64, _int64, _int64, _int64], _Reply),
        ("polygon_nearest", [_address, _size, _int64, _int64], _Reply), ("polygon_box", [_address, _size], _Reply),
        ("polygon_width", [_address, _size, _int64, _int64], _Reply), ("polygon_diameter", [_address, _size], _Reply),
        ("polygon_least_width", [_address, _size], _Witness), ("polygon_intersects", [_address, _size, _address, _size], _Reply),
        ("polygon_contains", [_address, _size, _address, _size], _Reply),
        ("polygon_contains_inside", [_address, _size, _address, _size], _Reply),
        ("polygon_relation", [_address, _size, _address, _size], _Reply),
        ("polygon_within_distance", [_address, _size, _address, _size, _uint64, _uint32], _Reply),
        ("polygon_witness", [_address, _size, _address, _size], _Witness),
        ("polygon_distance", [_address, _size, _address, _size], _Witness),
        ("polygon_distance_bounds", [_address, _size, _address, _size], _DistanceBounds),
        ("polygon_distance_bounds_to_segment", [_address, _size, _int64, _int64, _int64, _int64], _DistanceBounds),
        ("polygon_within_distance_of_segment", [_address, _size, _int64, _int64, _int64, _int64, _uint64, _uint32], _Reply),
        ("polygon_relation_to_segment", [_address, _size, _int64, _int64, _int64, _int64], _Reply),
        ("polygon_raycast", [_address, _size, _int64, _int64, _int64, _int64], _Hit),
        ("polygon_raycast_exit", [_address, _size, _int64, _int64, _int64, _int64], _Hit),
        ("polygon_raycast_segment", [_address, _size, _int64, _int64, _int64, _int64], _Hit),
        ("polygon_first_meeting", [_address, _size, _address, _size, _int64, _int64], _Motion),
        ("polygon_translate", [_address, _size, _int64, _int64, _address], _Reply),
        ("polygon_rotate", [_address, _size, _int64, _int64, _address], _Reply),
        ("pairs_within_distance", [_address, _size, _uint64, _uint32, _address, _size], _Reply),
        ("polygon_relations", [_address, _size, _address, _size, _address], None),
        ("polygon_intersects_segments", [_address, _size, _address, _size, _address], _size),
        ("polygon_indices", [_address, _size, _address, _size, _address], _size),
        # end of what tools/table.py writes
    ])


@functools.lru_cache(maxsize=None)
def _shared_library() -> ctypes.CDLL:
    at, whole, size, number, long = ctypes.c_void_p, ctypes.c_int64, ctypes.c_size_t, ctypes.c_uint32, ctypes.c_uint64
    return _load("libhull_shared.so", "HULL_SHARED_LIBRARY", [
        ("python_shared_new", [], at), ("python_shared_free", [at], None),
        ("python_open", [at, number, long, number, number], number),
        ("python_open_without_journal", [at, number, long, number], number),
        ("python_open_answering", [at, number, long, number, number], number),
        ("python_wait_for_space", [at, number], number), ("python_wait_at_most", [at, long], number), ("python_stats", [at, at], number),
        ("python_reopen", [at, at, size, number, number], _Reply),
        ("python_compact", [ctypes.c_char_p], _Reply),
        ("python_open_journal", [at, ctypes.c_char_p, number, number, number, long], _Reply), ("python_durable", [at], _Reply),
        ("python_sync", [at, long], _Reply), ("python_wait_durable", [at, long], _Reply), ("python_close", [at], _Reply),
        ("python_text", [at, at, size], _Reply),
        ("python_acquired_seats", [at], long), ("python_seat_new", [], at), ("python_seat_free", [at], None),
        ("python_acquire_seat", [at, at, number], number),
        ("python_release_seat", [at], None), ("python_ask", [at, number, whole, whole, long], _Reply),
        ("python_ask_vertices", [at, at, size, long], _Reply), ("python_drain", [at, at, long], _Reply),
        ("python_capacity", [at], number), ("python_turn", [at, at], number),
        ("python_set_max_readers", [at, number], number), ("python_reader_new", [], at), ("python_reader_free", [at], None),
        ("python_acquire_reader", [at, at], number), ("python_release_reader", [at], None), ("python_is_newest", [at], number),
        ("python_read", [at, at, size], _Reply),
        ("python_segment_new", [number], at), ("python_segment_free", [at], None),
        ("python_text_from", [at, long, at, size], _Reply), ("python_segment_text", [at, at, size], _Reply),
        ("python_segment_text_from", [at, long, at, size], _Reply),
    ])


_LIBRARY = _library()


def _kind(free: Any) -> Any:
    """Returns a class of addresses, integers, at each of which something is that a function of the library frees.

    It is freed with the last object that refers to the address. The garbage collector does not know the address (`_at`), so that in a cycle
    it goes after every `__del__` of the cycle. No step of Python's is between the last reference and the function, so that no signal
    handler can raise before it.
    """
    bound = ctypes.PYFUNCTYPE(ctypes.py_object, ctypes.py_object)(("PyInstanceMethod_New", ctypes.pythonapi))
    return type("_At", (int,), {"__slots__": (), "__del__": bound(free)})


_HullAt = _kind(_LIBRARY.hull_python_free)
_GrowingAt = _kind(_LIBRARY.hull_python_growing_free)


@functools.lru_cache(maxsize=None)
def _shared_kinds() -> Tuple[Any, Any, Any, Any]:
    """Returns the classes of addresses of a shared hull, a seat, a segment and a reader."""
    library = _shared_library()
    return (_kind(library.hull_python_shared_free), _kind(library.hull_python_seat_free), _kind(library.hull_python_segment_free),
            _kind(library.hull_python_reader_free))


def _at(kind: Any, place: Optional[int]) -> Any:
    """Returns the address of what was made there, if memory was not refused; it refers to nothing that the collector looks for."""
    if place is None:
        _check_code(_Code.NO_MEMORY)
    at = kind(place)
    ctypes.PYFUNCTYPE(None, ctypes.py_object)(("PyObject_GC_UnTrack", ctypes.pythonapi))(at)
    return at


def _index(number: SupportsIndex) -> int:
    """Returns an integer; True and False are none."""
    if isinstance(number, bool):
        raise TypeError("a coordinate is a whole number, and not a bool")
    return operator.index(number)


def _whole(coordinate: SupportsIndex) -> int:
    """Returns a coordinate that is in range: ctypes would cut a larger one off."""
    coordinate = _index(coordinate)
    if not -COORDINATE_LIMIT <= coordinate <= COORDINATE_LIMIT:
        raise _out_of_range()
    return coordinate


def _of_numpy(points: object) -> Any:
    """Returns the module numpy if the points are an array of its, else None."""
    numpy: Any = sys.modules.get("numpy")
    return numpy if numpy is not None and isinstance(points, numpy.ndarray) else None


def _check_shape(shape: Sequence[int], kind: object) -> None:
    """Raises unless an array of this shape has a point in each row; of one with no element any shape will do."""
    if 0 in shape or (len(shape) == 2 and shape[1] == 2):
        return
    turned = "; its transpose has" if len(shape) == 2 and shape[0] == 2 else ""
    raise ValueError("an array of points has shape (n, 2), a point in each row, "
                     f"and this one of {kind} has {tuple(shape)}{turned}")


def _numpy_rows(numpy: Any, points: Any, kinds: str = "iu", wanted: str = "integers",
                help: str = "; from_floats takes floats") -> Any:
    """Returns the array, if it has one point in each row, and its numbers are of these kinds."""
    if isinstance(points, numpy.ma.MaskedArray):
        raise TypeError("an array of points has no mask: fill or compress it first")
    if points.dtype.kind not in kinds:
        raise TypeError(f"an array of points is one of {wanted}, "
                        f"and this one of shape {points.shape} is of {points.dtype}{help}")
    _check_shape(points.shape, points.dtype)
    return points.reshape(-1, 2)


def _numpy_coordinates(numpy: Any, points: Any) -> Any:
    """Returns an array of numpy, all of whose numbers are coordinates in range, before any is cut off by a cast."""
    rows = _numpy_rows(numpy, points)
    if rows.size and not -COORDINATE_LIMIT <= int(rows.min()) <= int(rows.max()) <= COORDINATE_LIMIT:
        raise _out_of_range()
    return rows


def _flat_of_numpy(numpy: Any, points: Any) -> "array[int]":
    """Returns the coordinates of an array of numpy, as `_flat`."""
    return array("q", _numpy_coordinates(numpy, points).astype(numpy.int64).tobytes())


def _flat_of_memory(view: memoryview) -> "Optional[array[int]]":
    """Returns the coordinates of an array with the buffer protocol, none of them tested yet; None if it has no numbers."""
    shape, order, kind = view.shape or (), view.format[:-1], view.format[-1:]
    kinds = tuple("bBhHiIlLqQnN")
    if len(shape) < 2 and 0 not in shape and kind not in kinds:
        return None
    if kind not in kinds or order not in ("", *"@=<>!"):
        raise TypeError("an array of points is one of integers, "
                        f"and this one of shape {shape} is of format {view.format!r}")
    _check_shape(shape, "integers")
    # the formats of ctypes name sizes that are not those of `struct`: what counts is how long an item is
    code = {1: "b", 2: "h", 4: "i", 8: "q"}[view.itemsize]
    flat = array(code.upper() if kind.isupper() else code, view.tobytes())
    if order in (">", "!") and sys.byteorder == "little" or order == "<" and sys.byteorder == "big":
        flat.byteswap()
    return flat if flat.typecode == "q" else array("q", flat)


def _flat(points: Any) -> "array[int]":
    """Returns the coordinates of many points, all in range, those of each point as neighbours."""
    numpy = _of_numpy(points)
    if numpy is not None:
        return _flat_of_numpy(numpy, points)
    try:
        view = memoryview(points)
    except TypeError:
        view = None
    try:
        flat = None if view is None else _flat_of_memory(view)
        if flat is None:
            pairs = ((_index(x), _index(y)) for x, y in points)
            flat = array("q", itertools.chain.from_iterable(pairs))
    except OverflowError:
        raise _out_of_range() from None
    if flat and not -COORDINATE_LIMIT <= min(flat) <= max(flat) <= COORDINATE_LIMIT:
        raise _out_of_range()
    return flat


def _pairs(flat: "array[int]") -> List[Pair]:
    """Returns the points of such coordinates."""
    return list(zip(flat[0::2], flat[1::2]))


def _like(points: object, numbers: Any) -> Any:
    """Returns the numbers, as an array of numpy if the points were one."""
    numpy = _of_numpy(points)
    if numpy is not None:
        # (of bytes themselves numpy makes an array that can't be written)
        return numpy.frombuffer(bytearray(numbers), dtype=numpy.uint8 if isinstance(numbers, bytes) else numpy.uint32)
    return numbers


class Motion(NamedTuple):
    """When a polygon that moves straight first intersects one that does not move."""

    #: How much of its way it has gone; 0 if they intersect before it moves.
    part: Fraction
    #: Where the vertex arrives, as `Polygon.raycast` returns it: one pair or two; none if they intersect before.
    at: Tuple[Pair, ...]
    #: A vertex that arrives first; None if they intersect before.
    vertex: Optional[Pair]
    #: Whether it is of the polygon that moves; else it is of the other one, at the moving one as it was before.
    moves: bool


class Relation(enum.IntEnum):
    """How one polygon is related to another."""

    # written by tools/table.py: relations
    #: They are disjoint.
    DISJOINT = 0
    #: They intersect, and a line has them on its two sides: nothing inside the one is covered by the other.
    TOUCHING = 1
    #: They intersect, and no line has them on its two sides.
    OVERLAPPING = 2
    #: The second covers all that the first covers, and not the other way.
    WITHIN = 3
    #: The first covers all that the second covers, and not the other way.
    COVERS = 4
    #: Each covers the other.
    EQUAL = 5
    # end of what tools/table.py writes


class Shows(enum.IntEnum):
    """Why two polygons intersect, or what separates them."""

    #: No vertex of the first has a greater product with the direction points[1] than its vertex points[0]; those of the
    #: second have.
    DISJOINT = _Code.DISJOINT
    #: The first covers points[0], a vertex of the second.
    COVERED = _Code.COVERED
    #: The second covers points[0], a vertex of the first.
    WITHIN = _Code.WITHIN
    #: The segment of points[0:2], vertices of the first, crosses that of points[2:4], vertices of the second.
    CROSSING = _Code.CROSSING


class Witness(NamedTuple):
    """The result of `Polygon.witness`: what is shown, and its points, as a tuple of pairs."""

    shows: Shows
    points: Tuple[Pair, ...]


class Lattice(NamedTuple):
    """The result of `from_floats`: the points, and how many of their coordinates had to be rounded."""

    points: Any
    rounded: int


def _bits_of_decimal(number: Any) -> float:
    """Returns about how many bits a decimal has before its point, below 0 if its first are after it, without its ratio, which may be too long to be
    computed; 0 of other numbers."""
    if not hasattr(number, "adjusted") or not number.is_finite() or number == 0:
        return 0
    return float(number.adjusted() * math.log2(10))


def _from_ratio(number: Any, power: int) -> Tuple[int, bool]:
    """Returns the coordinate nearest to number * 2**power, ties to even, and whether it was rounded, with no float between."""
    about = _bits_of_decimal(number)
    scaled = about + max(-1e20, min(power, 1e20))
    if abs(about) > 4000 and abs(scaled) > 4000:
        if scaled > 0:
            raise _out_of_range()
        return 0, True
    try:
        above, below = number.as_integer_ratio() if hasattr(number, "as_integer_ratio") else (operator.index(number), 1)
    except (OverflowError, ValueError):  # not finite
        raise _out_of_range() from None
    bits = abs(above).bit_length() - below.bit_length() + power
    if above != 0 and bits > 42:
        raise _out_of_range()
    if above == 0 or bits < -2:  # smaller than a half
        return 0, above != 0
    exact = Fraction(above << max(power, 0), below << max(-power, 0))
    return _whole(round(exact)), exact.denominator != 1


def _from_float(number: Any, power: int) -> Tuple[int, bool]:
    """Returns the coordinate nearest to number * 2**power, ties to even; and whether it was rounded."""
    if not isinstance(number, float):
        return _from_ratio(number, power)
    try:
        scaled = math.ldexp(number, max(-4000, min(power, 4000)))
        near = round(scaled)
    except (OverflowError, ValueError):  # too great, or not finite
        raise _out_of_range() from None
    return _whole(near), near != scaled or (near == 0) != (number == 0)


def _from_numpy(numpy: Any, rows: Any, power: int) -> Lattice:
    """The same of an array of numpy."""
    if rows.dtype.itemsize < 8 or rows.dtype.kind == "f" and rows.dtype.itemsize == 8:
        rows = rows.astype(numpy.float64)
    elif rows.dtype.kind != "f":  # integers that a float may not have
        made = from_floats(rows.tolist(), power)
        return Lattice(numpy.array(made.points, dtype=numpy.int64).reshape(-1, 2), made.rounded)
    with numpy.errstate(over="ignore", under="ignore"):
        scaled = numpy.ldexp(rows, max(-40000, min(power, 40000)))
    near = numpy.rint(scaled)
    if not (numpy.abs(near) <= COORDINATE_LIMIT).all():  # nor is it where one is no number
        raise _out_of_range()
    return Lattice(near.astype(numpy.int64), int(((near != scaled) | ((near == 0) != (rows == 0))).sum()))


def from_floats(points: Any, power: SupportsIndex) -> Lattice:
    """Returns the points of the lattice nearest to x * 2**power, y * 2**power, ties to even: a Lattice.

    The points are pairs of numbers (floats, integers of any size, fractions, decimals), or an array of numpy with a point in each row, and
    are returned as such. All answers are exact for the rounded points. OutOfRange if a number is not finite, or too great for the lattice.
    """
    power = operator.index(power)
    numpy = _of_numpy(points)
    if numpy is not None:
        return _from_numpy(numpy, _numpy_rows(numpy, points, "fiu", "numbers", ""), power)
    flat = [_from_float(number, power) for x, y in points for number in (x, y)]
    return Lattice([(x[0], y[0]) for x, y in zip(flat[0::2], flat[1::2])], sum(rounded for _, rounded in flat))


def direction_of(dx: float, dy: float) -> Tuple[Pair, bool]:
    """Returns the direction of two floats in integers, and whether it was rounded: ((x, y), rounded).

    Both are multiplied by the power of two that makes the greater one at least 2^39 and less than 2^40 in size. If both are integers then,
    it is the same direction; else each is rounded to the nearest, ties to even. (0, 0) stays (0, 0). OutOfRange if one is not finite, or is
    greater than all floats.
    """
    try:
        greatest = max(abs(dx), abs(dy))
        power = 0 if greatest == 0 or not math.isfinite(greatest) else 40 - math.frexp(greatest)[1]
    except ArithmeticError:
        raise _out_of_range() from None
    (x, at_x), (y, at_y) = _from_float(dx, power), _from_float(dy, power)
    return (x, y), at_x or at_y


def to_floats(points: Any, power: SupportsIndex) -> Any:
    """Returns the pairs (x / 2**power, y / 2**power), as floats or as an array of them: exact for powers from -960 to 1000; OverflowError if one is
    greater than all floats."""
    power = operator.index(power)
    numpy = _of_numpy(points)
    if numpy is not None:
        rows = _numpy_coordinates(numpy, points).astype(numpy.float64)
        with numpy.errstate(over="ignore", under="ignore"):
            floats = numpy.ldexp(rows, max(-4000, min(-power, 4000)))
        if not numpy.isfinite(floats).all():
            raise OverflowError("math range error")
        return floats
    return [_floats(point, power) for point in points]


def _floats(point: Tuple[SupportsIndex, SupportsIndex], power: int) -> Floats:
    """Returns the floats of a point."""
    x, y = point
    return math.ldexp(_whole(x), -power), math.ldexp(_whole(y), -power)


def wkt(vertices: Points, power: SupportsIndex = 0) -> str:
    """Returns vertices as well-known text (OGC 06-103r4), which GEOS, PostGIS and QGIS read.

    POLYGON EMPTY, a POINT, a LINESTRING, or a POLYGON whose ring is closed and runs counterclockwise. Coordinates are integers (TypeError
    for floats), divided by 2**power, and are written with the fewest digits that give that float again. OverflowError if one of them is then
    greater than all floats.
    """
    whole = [(_index(x), _index(y)) for x, y in vertices]
    pairs = whole if operator.index(power) == 0 else to_floats(whole, power)
    texts = [f"{x!r} {y!r}" for x, y in pairs]
    if not texts:
        return "POLYGON EMPTY"
    if len(texts) < 3:
        return f"{'POINT' if len(texts) == 1 else 'LINESTRING'} ({', '.join(texts)})"
    return f"POLYGON (({', '.join(texts + texts[:1])}))"


def _multiplicity_after_add(reply: _Reply) -> int:
    """Returns the multiplicity of a point that was added."""
    return 1 if reply.code == _Code.ADDED else reply.number


def _multiplicity_after_remove(reply: _Reply) -> Optional[int]:
    """Returns the multiplicity that is left of a point that was removed; None if it was not there."""
    return None if reply.code == _Code.ABSENT else reply.number


def _two_pairs(reply: _Reply) -> Tuple[Pair, Pair]:
    """Returns the two points of a reply."""
    return (reply.x, reply.y), (reply.other_x, reply.other_y)


def _place(reply: _Reply) -> Place:
    """Returns the location of a point."""
    return Place(reply.code)


def _tangents(reply: _Reply) -> Optional[Tuple[Pair, Pair]]:
    """Returns the left and the right tangent point; None if there are none."""
    return None if reply.code == _Code.NO_TANGENT else _two_pairs(reply)


def _farthest(reply: _Reply) -> Optional[Pair]:
    """Returns the farthest point; None if there is none."""
    return None if reply.code == _Code.EMPTY else (reply.x, reply.y)


def _area(reply: _Reply) -> int:
    """Returns an area of two words."""
    return reply.high << 64 | reply.number


def _pair(point: Any) -> Pair:
    """Returns a point of a struct."""
    return point[0], point[1]


def _whether(reply: _Reply) -> bool:
    """Returns the truth of a reply."""
    return reply.number == 1


def _relation(reply: _Reply) -> Relation:
    """Returns the relation of a reply."""
    return Relation(reply.number)


def _number_or_none(reply: _Reply) -> Optional[int]:
    """Returns a number of two words; None if there is none."""
    return None if reply.code == _Code.EMPTY else _area(reply)


def _two_pairs_or_none(reply: _Reply) -> Optional[Tuple[Pair, Pair]]:
    """Returns the two points of a box, a diameter or a separation; None if there are none."""
    return None if reply.code in (_Code.EMPTY, _Code.INTERSECTING) else _two_pairs(reply)


def _nearest(reply: _Reply) -> Optional[Tuple[Pair, ...]]:
    """Returns the nearest feature: no point, a vertex, or the ends of an edge; None if there is none."""
    if reply.code == _Code.EMPTY:
        return None
    return _two_pairs(reply)[:{int(_Code.EDGE): 2, int(_Code.VERTEX): 1}.get(reply.code, 0)]


def _strip(witness: _Witness) -> Optional[Tuple[Pair, Pair, Pair]]:
    """Returns the ends of an edge and a vertex; None if there is no edge."""
    return None if witness.code == _Code.EMPTY else (_pair(witness.a), _pair(witness.b), _pair(witness.c))


def _witness(witness: _Witness) -> Optional[Witness]:
    """Returns what a witness shows, with the points that belong to it; None if there is none."""
    if witness.code == _Code.EMPTY:
        return None
    shows = Shows(witness.code)
    points = witness.a, witness.b, witness.c, witness.d
    return Witness(shows, tuple(map(_pair, points[:{Shows.DISJOINT: 2, Shows.CROSSING: 4}.get(shows, 1)])))


def _distance(witness: _Witness) -> Optional[Tuple[Tuple[Pair, ...], Tuple[Pair, ...]]]:
    """Returns the feature of the one polygon and that of the other; None if one has no vertex."""
    if witness.code == _Code.EMPTY:
        return None
    ours, theirs = {int(_Code.POINTS): (1, 1), int(_Code.VERTEX): (1, 2), int(_Code.EDGE): (2, 1)}.get(witness.code, (0, 0))
    points = tuple(map(_pair, (witness.a, witness.b, witness.c)))
    return points[:ours], points[ours:ours + theirs]


def _bounds(bounds: _DistanceBounds) -> Optional[Floats]:
    """Returns the floats below and above a distance; None if there is none."""
    if bounds.code == _Code.EMPTY:
        return None
    return math.ldexp(bounds.lower, -bounds.shift), math.ldexp(bounds.upper, -bounds.shift)


def _squared(bounds: _DistanceBounds) -> Optional[Fraction]:
    """Returns the square of a distance; None if there is none."""
    if bounds.code == _Code.EMPTY:
        return None
    return Fraction(bounds.high << 128 | bounds.middle << 64 | bounds.low, bounds.divisor_high << 64 | bounds.divisor_low)


def _hit(hit: _Hit) -> Optional[Tuple[Fraction, Tuple[Pair, ...]]]:
    """Returns how far along a segment or a ray enters, and the vertices of the feature; None if it misses."""
    if hit.code in (_Code.DISJOINT, _Code.EMPTY):
        return None
    part = Fraction(hit.high << 64 | hit.low, hit.divisor_high << 64 | hit.divisor_low)
    return part, (_pair(hit.a), _pair(hit.b))[:{int(_Code.EDGE): 2, int(_Code.VERTEX): 1}.get(hit.code, 0)]


def _motion(motion: _Motion) -> Optional[Motion]:
    """Returns when a polygon that moves arrives; None if it never does."""
    hit = _hit(motion.hit)
    return None if hit is None else Motion(hit[0], hit[1], _pair(motion.vertex) if hit[1] else None, motion.moves == 1)


_Made = TypeVar("_Made")


def _slots_of(kind: type) -> List[str]:
    """Returns the names of the slots that a class itself has, as its instances have them."""
    own = kind.__dict__.get("__slots__", ())
    names = [own] if isinstance(own, str) else list(own)
    private = "_" + kind.__name__.lstrip("_")
    return [private + name if name.startswith("__") and not name.endswith("__") else name
            for name in names if name not in ("__dict__", "__weakref__")]


def _added_state(thing: Any, base: type) -> Any:
    """Returns what an instance of a subclass has beside what the base class has, in the form that `pickle` gives to it."""
    ask = getattr(type(thing), "__getstate__", None)
    if ask is not None and ask is not getattr(object, "__getstate__", None):
        return ask(thing)
    slots = {name: getattr(thing, name) for kind in type(thing).__mro__ if not issubclass(base, kind)
             for name in _slots_of(kind) if hasattr(thing, name)}
    return (getattr(thing, "__dict__", None), slots) if slots else getattr(thing, "__dict__", None) or None


def _set_added_state(thing: Any, state: Any) -> None:
    """Gives to an instance of a subclass what another one has beside what the base class has, as `pickle` does."""
    if hasattr(thing, "__setstate__"):
        if state is not None:
            thing.__setstate__(state)
        return
    attributes, slots = state if isinstance(state, tuple) else (state, {})
    if attributes:
        thing.__dict__.update(attributes)
    for name, value in slots.items():
        setattr(thing, name, value)


def _subclass_again(kind: Any, base: type, make: Callable[..., Any], *words: Any) -> Any:
    """Returns an instance of a subclass, without what it adds, that has what `make` makes of the base class."""
    thing, made = make(*words), kind.__new__(kind)
    for name in (name for above in base.__mro__ for name in _slots_of(above)):
        setattr(made, name, getattr(thing, name))
    return made


def _reduced(thing: Any, base: type, make: Callable[..., Any], *words: Any) -> Any:
    """Returns what `__reduce__` returns of an instance of a class, which `make` makes again, or of a subclass."""
    if type(thing) is base:
        return make, words
    return _subclass_again, (type(thing), base, make, *words), _added_state(thing, base)


def _copied(thing: Any, base: type, made: _Made) -> _Made:
    """Returns a copy of an instance of a class, which is `made`, or of a subclass, which has what `made` has and what the instance adds."""
    if type(thing) is base:
        return made
    again: _Made = _subclass_again(type(thing), base, lambda: made)
    _set_added_state(again, _added_state(thing, base))
    return again


class _Questions:
    """The questions of a hull and of a polygon. A subclass says how one call is made, how many are, and its vertices."""

    __slots__ = ()

    def _call(self, kind: int, x: int = 0, y: int = 0) -> _Reply:
        """Returns the reply of a call, or raises its exception."""
        raise NotImplementedError

    def _serve(self, requests: int, replies: int, count: int) -> None:
        """Makes so many calls, whose requests and replies are at these addresses."""
        raise NotImplementedError

    def _flat_vertices(self) -> "array[int]":
        """Returns the coordinates of the vertices, those of each vertex as neighbours."""
        raise NotImplementedError

    # written by tools/table.py: sets
    def place(self, x: SupportsIndex, y: SupportsIndex) -> Place:
        """Returns the location of (x, y). It is one of Place."""
        return _place(self._call(_Kind.PLACE, _whole(x), _whole(y)))

    def tangents(self, x: SupportsIndex, y: SupportsIndex) -> Optional[Tuple[Pair, Pair]]:
        """Returns the left and the right tangent point seen from (x, y), of several on one line the farthest; None if there is no point, or
        the hull covers the one asked about."""
        return _tangents(self._call(_Kind.TANGENTS, _whole(x), _whole(y)))

    def extreme(self, x: SupportsIndex, y: SupportsIndex) -> Optional[Pair]:
        """Returns the farthest point in a direction, of several the first by x and then y; None if there is none."""
        return _farthest(self._call(_Kind.EXTREME, _whole(x), _whole(y)))

    def doubled_area(self) -> int:
        """Returns twice the area, 0 for a point and a segment."""
        return _area(self._call(_Kind.AREA))
    # end of what tools/table.py writes

    def extreme_d(self, dx: float, dy: float) -> Optional[Pair]:
        """Returns the farthest point in a direction of two floats, scaled to integers by `direction_of`.

        For the direction (0, 0) it is the first point by x and then y.
        """
        (x, y), _ = direction_of(dx, dy)
        return self.extreme(-1, 0) if x == 0 == y else self.extreme(x, y)

    def vertices(self) -> List[Pair]:
        """Returns the vertices as pairs, counterclockwise from the first by x and then y, each once and none inside an edge."""
        return _pairs(self._flat_vertices())

    def vertex_array(self) -> Any:
        """Returns the vertices as an array of numpy of shape (n, 2)."""
        numpy: Any = importlib.import_module("numpy")  # so that the module needs none
        return numpy.array(self._flat_vertices(), dtype=numpy.int64).reshape(-1, 2)

    def wkt(self, power: SupportsIndex = 0) -> str:
        """Returns the hull as well-known text, its coordinates divided by 2**power: see the function `wkt`."""
        return wkt(self.vertices(), power)

    def _replies(self, kind: int, flat: "array[int]") -> memoryview:
        """Returns the replies to one kind of call at each point, as an array with the buffer protocol."""
        count = len(flat) // 2
        requests = array("q", (kind, 0, 0)) * max(count, 1)
        requests[1:3 * count:3], requests[2:3 * count:3] = flat[0::2], flat[1::2]
        replies = (_Reply * max(count, 1))()
        self._serve(requests.buffer_info()[0], ctypes.addressof(replies), count)
        return memoryview(replies).cast("B")[:ctypes.sizeof(_Reply) * count]

    def _ask_all(self, kind: int, points: Any) -> memoryview:
        """Returns the replies to one kind of call at each of the points, as words of 32 bits, 14 a reply."""
        return self._replies(kind, _flat(points)).cast("I")

    @overload
    def place_all(self, points: _Array) -> Any: ...
    @overload
    def place_all(self, points: Points) -> bytes: ...

    def place_all(self, points: Any) -> Any:
        """Returns the location of each of the points, as bytes with the numbers of Place."""
        return _like(points, bytes(self._ask_all(_Kind.PLACE, points)[0::14].tolist()))

    @overload
    def extreme_all(self, directions: _Array) -> Any: ...
    @overload
    def extreme_all(self, directions: Points) -> List[Optional[Pair]]: ...

    def extreme_all(self, directions: Any) -> Any:
        """Returns the farthest point in each of the directions, of several the first by x and then by y.

        Pairs in a list, or an array of numpy of shape (n, 2) if the directions were one. If there is no point, None for each, and for an
        array ValueError.
        """
        flat = _flat(directions)
        if (0, 0) in zip(flat[0::2], flat[1::2]):
            _check_code(_Code.ZERO_DIRECTION)
        memory = self._replies(_Kind.EXTREME, flat)
        numpy = _of_numpy(directions)
        found = memory.cast("I")[0:1].tolist() != [_Code.EMPTY]
        if numpy is not None:
            if not found:
                raise ValueError("the hull has no point: none is the farthest")
            return numpy.frombuffer(memory, dtype=numpy.int64).reshape(-1, 7)[:, 1:3].copy()
        words = memory.cast("q")
        return list(zip(words[1::7].tolist(), words[2::7].tolist())) if found else [None] * (len(flat) // 2)

    @overload
    def tangents_all(self, points: _Array) -> Any: ...
    @overload
    def tangents_all(self, points: Points) -> List[Optional[Tuple[Pair, Pair]]]: ...

    def tangents_all(self, points: Any) -> Any:
        """Returns the left and the right tangent point seen from each of the points, None if there are none.

        Pairs of points in a list; or if the points were an array of numpy, two arrays: the tangent points, of shape (n, 2, 2), and which of
        them are there, of shape (n,): those that are not are 0.
        """
        memory = self._replies(_Kind.TANGENTS, _flat(points))
        numpy = _of_numpy(points)
        if numpy is not None:
            seen = numpy.frombuffer(memory, dtype=numpy.uint32)[0::14] != _Code.NO_TANGENT
            return numpy.frombuffer(memory, dtype=numpy.int64).reshape(-1, 7)[:, 1:5].reshape(-1, 2, 2).copy(), seen
        words, codes = memory.cast("q"), memory.cast("I")[0::14].tolist()
        pairs = zip(*(words[at::7].tolist() for at in range(1, 5)))
        return [None if code == _Code.NO_TANGENT else ((a, b), (c, d)) for code, (a, b, c, d) in zip(codes, pairs)]


class Hull(_Questions):
    """A set of at most `limit` different points, 1 to POINT_LIMIT, with the points given, as by `load`.

    Two are equal if they have the same points with the same multiplicities.
    """

    __slots__ = ("_at", "__weakref__")
    __hash__ = None  # type: ignore[assignment] # it changes

    def __init__(self, points: Any = (), limit: SupportsIndex = POINT_LIMIT) -> None:
        if not 1 <= operator.index(limit) <= POINT_LIMIT:
            raise ValueError("the limit of a hull is out of range")
        self._at = _at(_HullAt, _LIBRARY.hull_python_new(operator.index(limit)))
        self.load(points)

    def __reduce__(self) -> Any:
        """Copies and pickles have the same points, multiplicities and limit."""
        return _reduced(self, Hull, _hull_of, list(self.items()), self.limit())

    def __eq__(self, other: object) -> bool:
        if not isinstance(other, Hull):
            return NotImplemented
        return len(self) == len(other) and list(self.items()) == list(other.items())

    def copy(self) -> Hull:
        """Returns another hull with the same points, multiplicities and limit."""
        other = Hull(limit=self.limit())
        self._ask(lambda at: _LIBRARY.hull_python_copy(other._at, at))
        return _copied(self, Hull, other)

    __copy__ = copy

    def __repr__(self) -> str:
        return f"<Hull of {len(self)} points, limit {self.limit()}>"

    def _ask(self, function: Callable[..., Any], *words: int) -> _Reply:
        """Returns the reply of a function of the library, or raises its exception."""
        reply: _Reply = function(self._at, *words)
        _check_code(reply.code)
        return reply

    def _call(self, kind: int, x: int = 0, y: int = 0) -> _Reply:
        return self._ask(_LIBRARY.hull_python_call, kind, x, y)

    def add(self, x: SupportsIndex, y: SupportsIndex) -> int:
        """Adds the point, and returns its multiplicity now: 1 if it is new."""
        return _multiplicity_after_add(self._call(_Kind.ADD, _whole(x), _whole(y)))

    def remove(self, x: SupportsIndex, y: SupportsIndex) -> Optional[int]:
        """Removes the point once, and returns the multiplicity that is left; None if it was not there."""
        return _multiplicity_after_remove(self._call(_Kind.REMOVE, _whole(x), _whole(y)))

    def multiplicity(self, x: SupportsIndex, y: SupportsIndex) -> int:
        """Returns the multiplicity of the point: 0 if it is not there."""
        return self._call(_Kind.MULTIPLICITY, _whole(x), _whole(y)).number

    def limit(self) -> int:
        """Returns how many different points the hull may have."""
        return self._ask(_LIBRARY.hull_python_limit).number

    def clear(self) -> None:
        """Removes all points. The limit stays."""
        self._ask(_LIBRARY.hull_python_clear)

    def load(self, points: Any) -> int:
        """Replaces all points by these; returns how many different points there are.

        Each gets the multiplicity that it has there, or that a mapping (a Counter) gives: as adding them one by one to an empty hull, in a
        small part of the time. TooMany if there are more than the limit, or a multiplicity is too great.
        """
        if isinstance(points, Mapping):
            return self.load_items(sorted(((_whole(x), _whole(y)), multiplicity) for (x, y), multiplicity in points.items()))
        flat = _flat(points)
        count = len(flat) // 2
        return self._ask(_LIBRARY.hull_python_load, flat.buffer_info()[0], count).number

    def load_items(self, items: Iterable[Tuple[Tuple[SupportsIndex, SupportsIndex], SupportsIndex]]) -> int:
        """Replaces all points by these; returns how many they are.

        An item is a point and its multiplicity, as `items` gives them: ((x, y), multiplicity). They are in order by x and then y, each point
        once, or it is a ValueError.
        """
        held: List[Any] = [(_whole(x), _whole(y), _index(multiplicity)) for (x, y), multiplicity in items]
        if any(not 1 <= multiplicity <= MULTIPLICITY_LIMIT for _, _, multiplicity in held):
            raise ValueError("a multiplicity is out of range")
        space = (_Held * len(held))(*held)
        return self._ask(_LIBRARY.hull_python_load_held, ctypes.addressof(space), len(held)).number

    def items(self) -> Iterator[Item]:
        """Yields the points, in order by x and then y, each with its multiplicity: ((x, y), multiplicity).

        They are taken a block at a time: if the hull changes meanwhile, what comes after the block is as it is then.
        """
        space = (_Held * 1024)()
        x = y = -COORDINATE_LIMIT
        while x <= COORDINATE_LIMIT:
            count = self._ask(_LIBRARY.hull_python_held_from, x, y, ctypes.addressof(space), len(space)).number
            piece = [((held.x, held.y), held.multiplicity) for held in space[:count]]
            yield from piece
            if count < len(space):
                return
            x, y = piece[-1][0]
            x, y = (x, y + 1) if y < COORDINATE_LIMIT else (x + 1, -COORDINATE_LIMIT)

    def nearest_held(self, x: SupportsIndex, y: SupportsIndex) -> Optional[Tuple[Pair, int]]:
        """Returns the point that is nearest to (x, y), of several the first by x and then y, and the square of its distance.

        None if there is none. It reads all points that are not much farther along x.
        """
        reply = self._ask(_LIBRARY.hull_python_nearest_held, _whole(x), _whole(y))
        nearest = _farthest(reply)
        return None if nearest is None else (nearest, reply.high << 64 | reply.number)

    def __iter__(self) -> Iterator[Pair]:
        """Yields the points, in order by x and then y, each once."""
        return (point for point, _ in self.items())

    def polygon(self) -> Polygon:
        """Returns the vertices of the hull now as a convex polygon."""
        vertices = self._flat_vertices()
        return Polygon(memoryview(vertices).cast("B").cast("q", (len(vertices) // 2, 2)) if vertices else ())

    def _flat_vertices(self) -> "array[int]":
        return _written_vertices(lambda out, space: self._ask(_LIBRARY.hull_python_vertices, out, space))

    def __len__(self) -> int:
        """Returns how many different points there are."""
        return self._call(_Kind.COUNT).number

    def __contains__(self, point: Tuple[SupportsIndex, SupportsIndex]) -> bool:
        """Returns whether the point is in the set; it need not be a vertex. No point out of range is."""
        x, y = point
        try:
            return self.multiplicity(x, y) > 0
        except OutOfRange:
            return False

    def _serve(self, requests: int, replies: int, count: int) -> None:
        if _LIBRARY.hull_python_calls(self._at, requests, replies, count) > count:
            _check_code(_Code.ENDED)

    @overload
    def add_all(self, points: _Array) -> Any: ...
    @overload
    def add_all(self, points: Points) -> "array[int]": ...

    def add_all(self, points: Any) -> Any:
        """Adds each of the points, in order; returns for each its multiplicity then.

        That is 0 if it failed, since there are too many or for want of memory: those after it are still added.
        """
        words = self._ask_all(_Kind.ADD, points)
        multiplicities: Dict[int, int] = {_Code.ADDED: 1, _Code.TOO_MANY: 0, _Code.NO_MEMORY: 0}
        counted = (multiplicities.get(code, number) for code, number in zip(words[0::14].tolist(), words[10::14].tolist()))
        return _like(points, array("I", counted))

    def remove_all(self, points: Any) -> int:
        """Removes each of the points once, in order; returns how many of them were there."""
        codes = self._ask_all(_Kind.REMOVE, points)[0::14].tolist()
        return len(codes) - codes.count(_Code.ABSENT)


class GrowingHull(_Questions):
    """The hull of points that are only added, at first those given.

    It keeps only its vertices, so nothing can be removed from it, and multiplicities are not kept. It is faster than a Hull unless most points are
    vertices, and takes any number of points. Its iteration, `==`, copies and pickles are those of its vertices.
    """

    __slots__ = ("_at", "__weakref__")
    __hash__ = None  # type: ignore[assignment] # it changes

    def __init__(self, points: Any = ()) -> None:
        self._at = _at(_GrowingAt, _LIBRARY.hull_python_growing_new())
        if None in self._add_each(points):
            raise MemoryError("memory was refused, or there are too many vertices")

    def __reduce__(self) -> Any:
        return _reduced(self, GrowingHull, GrowingHull, self.vertices())

    def __eq__(self, other: object) -> bool:
        if not isinstance(other, GrowingHull):
            return NotImplemented
        return bool(self._flat_vertices() == other._flat_vertices())

    def copy(self) -> GrowingHull:
        """Returns another hull with the same vertices."""
        return _copied(self, GrowingHull, GrowingHull(self.vertices()))

    __copy__ = copy

    def __repr__(self) -> str:
        return f"<GrowingHull of {len(self.vertices())} vertices>"

    def __iter__(self) -> Iterator[Pair]:
        """Yields the vertices, counterclockwise from the first by x and then y."""
        return iter(self.vertices())

    def _call(self, kind: int, x: int = 0, y: int = 0) -> _Reply:
        reply: _Reply = _LIBRARY.hull_python_growing_call(self._at, kind, x, y)
        _check_code(reply.code)
        return reply

    def _serve(self, requests: int, replies: int, count: int) -> None:
        if _LIBRARY.hull_python_growing_calls(self._at, requests, replies, count) > count:
            _check_code(_Code.ENDED)

    def _flat_vertices(self) -> "array[int]":
        def write(out: int, space: int) -> _Reply:
            reply: _Reply = _LIBRARY.hull_python_growing_vertices(self._at, out, space)
            return reply
        return _written_vertices(write)

    def add(self, x: SupportsIndex, y: SupportsIndex) -> Place:
        """Adds the point, and returns its place before: if that is Place.OUTSIDE, the hull has grown, and else it is unchanged.

        TooMany if the hull has POINT_LIMIT vertices below or above.
        """
        return _place(self._call(_Kind.ADD, _whole(x), _whole(y)))

    def _add_each(self, points: Any) -> List[Optional[int]]:
        """Adds each of the points, and returns for each the number of its place before it, None if it failed."""
        codes = self._ask_all(_Kind.ADD, points)[0::14].tolist()
        return [None if code in (_Code.TOO_MANY, _Code.NO_MEMORY) else code for code in codes]

    @overload
    def add_all(self, points: _Array) -> Any: ...
    @overload
    def add_all(self, points: Points) -> bytes: ...

    def add_all(self, points: Any) -> Any:
        """Adds each of the points, in order; returns the place of each before it, as bytes with the numbers of Place.

        That is 0 if it failed, since there are too many vertices or for want of memory: those after it are still added.
        """
        return _like(points, bytes(code or 0 for code in self._add_each(points)))

    def polygon(self) -> Polygon:
        """Returns the vertices of the hull now as a convex polygon."""
        return _polygon_again(self._flat_vertices())


def _written_vertices(write: Callable[[int, int], _Reply]) -> "array[int]":
    """Returns the coordinates of the vertices that a call writes to an array, which may be too short for them."""
    count = 64
    while True:
        space = array("q", (0, 0)) * count
        reply = write(space.buffer_info()[0], count)
        _check_code(reply.code)
        if reply.code != _Code.TOO_SMALL:
            return space[:2 * reply.number]
        count = reply.number + reply.number // 8  # there may be more by then


def _vertices_of(flat: "array[int]") -> "array[int]":
    """Returns the coordinates of the vertices of any points."""
    count = len(flat) // 2
    flat.extend((0, 0))  # so that no points have a place in memory, too
    write: Any = _LIBRARY.hull_polygon_of
    return _written_vertices(functools.partial(write, flat.buffer_info()[0], count))


def _hull_of(items: Iterable[Item], limit: int) -> Hull:
    """Returns the hull with these items."""
    hull = Hull(limit=limit)
    hull.load_items(items)
    return hull


class _Vertices(ctypes.c_void_p):
    """Vertices in memory, for the library. The array stays as long as this does, which a call has to its end."""

    array: "array[int]"


_NO_VERTICES = (ctypes.c_int64 * 2)()


def _span_of(vertices: "array[int]") -> Tuple[_Vertices, int]:
    """Returns the address of the vertices of an array, and their number; if there are none, an address that has memory."""
    at = _Vertices(vertices.buffer_info()[0] if vertices else ctypes.addressof(_NO_VERTICES))
    at.array = vertices
    return at, len(vertices) // 2


def _span_of_other(other: Polygon) -> Tuple[_Vertices, int]:
    """Returns the address of the vertices of another polygon, and their number."""
    if not isinstance(other, Polygon):
        raise TypeError(f"the other one is a Polygon, and not {type(other).__name__}")
    return other._span()


class Polygon(_Questions):
    """A convex polygon: the vertices of a hull, as `vertices` returns them, which answers as that hull did then.

    Nothing of it is ever written: any number of threads query one at once, without a lock. ValueError if the points are not a convex
    polygon: counterclockwise from the first by x and then y, and none inside an edge. Its length, its iteration, `in` and `==` are those of
    its vertices.
    """

    __slots__ = ("_vertices", "__weakref__")

    def __init__(self, vertices: Any) -> None:
        span = _span_of(_flat(vertices))
        reply = _LIBRARY.hull_is_polygon(*span)
        _check_code(reply.code)
        if reply.number != 1:
            raise ValueError("the points are not a convex polygon")
        self._vertices = span

    @classmethod
    def of(cls, points: Any) -> Polygon:
        """Returns the convex polygon of any points, in any order; TooMany as `Hull.load`, but for points that are not sorted.

        If a sample shows that many points lie inside, two passes drop these, and the others are sorted. Else, if the points are the
        vertices of a convex polygon in order, from any vertex on and in either sense, that takes a few passes; else all are sorted.
        """
        made = cls(())
        made._set_vertices(_vertices_of(_flat(points)))
        return made

    def _set_vertices(self, vertices: "array[int]") -> None:
        """Makes these the vertices, by their coordinates."""
        self._vertices = _span_of(vertices)

    def _twin(self) -> Polygon:
        """Returns another polygon of the same vertices, which no other object has."""
        made = Polygon.__new__(Polygon)
        made._vertices = self._vertices
        return made

    def __reduce__(self) -> Any:
        return _reduced(self, Polygon, _polygon_again, self._flat_vertices())

    def __repr__(self) -> str:
        return f"<Polygon of {len(self)} vertices>"

    def __len__(self) -> int:
        return self._vertices[1]

    def __iter__(self) -> Iterator[Pair]:
        return iter(self.vertices())

    def __contains__(self, point: object) -> bool:
        return point in self.vertices()

    def __eq__(self, other: object) -> bool:
        if not isinstance(other, Polygon):
            return NotImplemented
        return bool(self._flat_vertices() == other._flat_vertices())

    def __hash__(self) -> int:
        return hash(self._flat_vertices().tobytes())

    def _span(self) -> Tuple[_Vertices, int]:
        """Returns the address of the vertices, and their number. They stay there as long as the caller has what is returned."""
        return self._vertices

    def _flat_vertices(self) -> "array[int]":
        return self._vertices[0].array

    def _found(self, ask: Callable[..., Any], *words: Any) -> Any:
        """Returns the reply of a call, or raises its exception."""
        reply = ask(*self._span(), *words)
        _check_code(getattr(reply, "hit", reply).code)
        return reply

    def _call(self, kind: int, x: int = 0, y: int = 0) -> _Reply:
        reply: _Reply = self._found(_LIBRARY.hull_polygon_call, kind, x, y)
        return reply

    def _serve(self, requests: int, replies: int, count: int) -> None:
        _LIBRARY.hull_polygon_calls(*self._span(), requests, count, replies, count)

    # written by tools/table.py: questions
    def intersects_segment(self, ax: SupportsIndex, ay: SupportsIndex, bx: SupportsIndex, by: SupportsIndex) -> bool:
        """Returns whether the polygon intersects the segment from (ax, ay) to (bx, by), which may be one point. Ends and boundary are
        included."""
        return _whether(self._found(_LIBRARY.hull_polygon_intersects_segment, _whole(ax), _whole(ay), _whole(bx), _whole(by)))

    def separation_from_segment(self, ax: SupportsIndex, ay: SupportsIndex, bx: SupportsIndex,
                                by: SupportsIndex) -> Optional[Tuple[Pair, Pair]]:
        """Returns a vertex and a direction that separate the polygon from the segment from (ax, ay) to (bx, by): no vertex has a greater
        product with the direction, and both ends have; None if they intersect, or there is no vertex."""
        return _two_pairs_or_none(self._found(_LIBRARY.hull_polygon_separation, _whole(ax), _whole(ay), _whole(bx), _whole(by)))

    def nearest(self, x: SupportsIndex, y: SupportsIndex) -> Optional[Tuple[Pair, ...]]:
        """Returns the point of the polygon that is nearest to (x, y); None if there is no vertex. Of one pair it is that vertex; of two,
        the foot on the edge between them; of none the polygon covers the point."""
        return _nearest(self._found(_LIBRARY.hull_polygon_nearest, _whole(x), _whole(y)))

    def bounding_box(self) -> Optional[Tuple[Pair, Pair]]:
        """Returns the least and the greatest point of the bounding box; None if there is no vertex."""
        return _two_pairs_or_none(self._found(_LIBRARY.hull_polygon_box))

    def width_along(self, dx: SupportsIndex, dy: SupportsIndex) -> Optional[int]:
        """Returns the extent of the polygon in a direction: the greatest product of a vertex with it less the least; None if there is no
        vertex. Divide it by the length of the direction for the width along it."""
        return _number_or_none(self._found(_LIBRARY.hull_polygon_width, _whole(dx), _whole(dy)))

    def diameter(self) -> Optional[Tuple[Pair, Pair]]:
        """Returns the two vertices that are farthest from one another, equal if there is only one; None if there is no vertex."""
        return _two_pairs_or_none(self._found(_LIBRARY.hull_polygon_diameter))

    def least_width(self) -> Optional[Tuple[Pair, Pair, Pair]]:
        """Returns the ends of an edge and a vertex farthest from it between which the polygon is least wide: no direction has a narrower
        strip; None if there are fewer than two vertices. The width is twice the area of the triangle of the three points, divided by the
        length of the edge."""
        return _strip(self._found(_LIBRARY.hull_polygon_least_width))

    def intersects(self, other: Polygon) -> bool:
        """Returns whether the two polygons intersect, boundaries included."""
        return _whether(self._found(_LIBRARY.hull_polygon_intersects, *_span_of_other(other)))

    def contains(self, other: Polygon) -> bool:
        """Returns whether this polygon contains the other one, boundaries included."""
        return _whether(self._found(_LIBRARY.hull_polygon_contains, *_span_of_other(other)))

    def contains_inside(self, other: Polygon) -> bool:
        """Returns whether this polygon contains the other one with no point of it on the boundary."""
        return _whether(self._found(_LIBRARY.hull_polygon_contains_inside, *_span_of_other(other)))

    def relation(self, other: Polygon) -> Relation:
        """Returns how this polygon is related to the other one. A polygon without vertices is within any other."""
        return _relation(self._found(_LIBRARY.hull_polygon_relation, *_span_of_other(other)))

    def witness(self, other: Polygon) -> Optional[Witness]:
        """Returns why the two polygons intersect, or what separates them; None if one of them has no vertex."""
        return _witness(self._found(_LIBRARY.hull_polygon_witness, *_span_of_other(other)))

    def distance(self, other: Polygon) -> Optional[Tuple[Tuple[Pair, ...], Tuple[Pair, ...]]]:
        """Returns the features at which the two polygons are nearest to one another, one of this and one of the other; None if one of them
        has no vertex. Of one pair a feature is that vertex; of two, the foot on the edge between them; of none the polygons intersect."""
        return _distance(self._found(_LIBRARY.hull_polygon_distance, *_span_of_other(other)))

    def distance_bounds(self, other: Polygon) -> Optional[Floats]:
        """Returns the distance of the two polygons, 0 if they intersect; None if one of them has no vertex. The result is the greatest
        float that is not above it, and the least that is not below it: equal if the distance is a float, else neighbours."""
        return _bounds(self._found(_LIBRARY.hull_polygon_distance_bounds, *_span_of_other(other)))

    def squared_distance(self, other: Polygon) -> Optional[Fraction]:
        """Returns the squared distance of the two polygons, 0 if they intersect; None if one of them has no vertex."""
        return _squared(self._found(_LIBRARY.hull_polygon_distance_bounds, *_span_of_other(other)))

    def distance_bounds_to_segment(self, ax: SupportsIndex, ay: SupportsIndex, bx: SupportsIndex, by: SupportsIndex) -> Optional[Floats]:
        """Returns the distance of the polygon from the segment from (ax, ay) to (bx, by), which may be one point; None if there is no
        vertex. The result is the greatest float that is not above it, and the least that is not below it: equal if the distance is a float,
        else neighbours."""
        return _bounds(self._found(_LIBRARY.hull_polygon_distance_bounds_to_segment, _whole(ax), _whole(ay), _whole(bx), _whole(by)))

    def distance_bounds_to_point(self, x: SupportsIndex, y: SupportsIndex) -> Optional[Floats]:
        """Returns the distance of the polygon from (x, y); None if there is no vertex. The result is the greatest float that is not above
        it, and the least that is not below it: equal if the distance is a float, else neighbours."""
        return _bounds(self._found(_LIBRARY.hull_polygon_distance_bounds_to_segment, _whole(x), _whole(y), _whole(x), _whole(y)))

    def squared_distance_to_segment(self, ax: SupportsIndex, ay: SupportsIndex, bx: SupportsIndex, by: SupportsIndex) -> Optional[Fraction]:
        """Returns the squared distance of the polygon from the segment from (ax, ay) to (bx, by), which may be one point; None if there is
        no vertex."""
        return _squared(self._found(_LIBRARY.hull_polygon_distance_bounds_to_segment, _whole(ax), _whole(ay), _whole(bx), _whole(by)))

    def squared_distance_to_point(self, x: SupportsIndex, y: SupportsIndex) -> Optional[Fraction]:
        """Returns the squared distance of the polygon from (x, y), 0 if it covers that; None if there is no vertex."""
        return _squared(self._found(_LIBRARY.hull_polygon_distance_bounds_to_segment, _whole(x), _whole(y), _whole(x), _whole(y)))

    def relation_to_segment(self, ax: SupportsIndex, ay: SupportsIndex, bx: SupportsIndex, by: SupportsIndex) -> Relation:
        """Returns how the polygon is related to the segment from (ax, ay) to (bx, by), which may be one point: one that it contains gives
        COVERS, also along an edge; one that leaves it TOUCHING if it has no point inside, and else OVERLAPPING."""
        return _relation(self._found(_LIBRARY.hull_polygon_relation_to_segment, _whole(ax), _whole(ay), _whole(bx), _whole(by)))

    def raycast(self, x: SupportsIndex, y: SupportsIndex, dx: SupportsIndex,
                dy: SupportsIndex) -> Optional[Tuple[Fraction, Tuple[Pair, ...]]]:
        """Returns the point at which the ray from (x, y) in a direction enters, the first of several that they share; None if it misses.
        The result is how far along that is, and pairs: two, the edge that it crosses or comes to an end of; one, the vertex of a polygon on
        its line; or none, if the polygon covers its start."""
        return _hit(self._found(_LIBRARY.hull_polygon_raycast, _whole(x), _whole(y), _whole(dx), _whole(dy)))

    def raycast_exit(self, x: SupportsIndex, y: SupportsIndex, dx: SupportsIndex,
                     dy: SupportsIndex) -> Optional[Tuple[Fraction, Tuple[Pair, ...]]]:
        """Returns the last point of the ray from (x, y) in a direction in the polygon; None if it misses. The result is how far along that
        is, and pairs: two, the edge that it crosses or comes to an end of; one, the vertex of a polygon on its line; or none, if the
        polygon covers its start."""
        return _hit(self._found(_LIBRARY.hull_polygon_raycast_exit, _whole(x), _whole(y), _whole(dx), _whole(dy)))

    def raycast_segment(self, ax: SupportsIndex, ay: SupportsIndex, bx: SupportsIndex,
                        by: SupportsIndex) -> Optional[Tuple[Fraction, Tuple[Pair, ...]]]:
        """Returns the point at which the segment from (ax, ay) to (bx, by) enters; None if it misses. Its last point in the polygon is the
        one at which the reversed segment enters. The result is how far along that is, and pairs: two, the edge that it crosses or comes to
        an end of; one, the vertex of a polygon on its line; or none, if the polygon covers its start."""
        return _hit(self._found(_LIBRARY.hull_polygon_raycast_segment, _whole(ax), _whole(ay), _whole(bx), _whole(by)))

    def first_meeting(self, other: Polygon, dx: SupportsIndex, dy: SupportsIndex) -> Optional[Motion]:
        """Returns when the other polygon, which moves straight by (dx, dy), first intersects this one; None if they never do, or one of
        them has no vertex."""
        return _motion(self._found(_LIBRARY.hull_polygon_first_meeting, *_span_of_other(other), _whole(dx), _whole(dy)))
    # end of what tools/table.py writes

    def rotate(self, a: SupportsIndex, b: SupportsIndex) -> Polygon:
        """Returns the polygon rotated about (0, 0) by the angle of (a, b), and scaled by its length; OutOfRange if a coordinate would be.

        For a rational angle, such as (3, 4), scale all others alike, which (5, 0) does.
        """
        made, (at, count) = Polygon(()), self._span()
        vertices = array("q", at.array)
        vertices.extend((0, 0))
        _check_code(_LIBRARY.hull_polygon_rotate(at, count, _whole(a), _whole(b), vertices.buffer_info()[0]).code)
        made._set_vertices(vertices[:2 * count])
        return made

    def translate(self, dx: SupportsIndex, dy: SupportsIndex) -> Polygon:
        """Returns the polygon translated by (dx, dy); OutOfRange if a coordinate would be."""
        x, y, made = _index(dx), _index(dy), Polygon(())
        if max(abs(x), abs(y)) > 2 * COORDINATE_LIMIT:
            raise _out_of_range()
        at, count = self._span()
        vertices = array("q", at.array)
        _check_code(_LIBRARY.hull_polygon_translate(at, count, x, y, vertices.buffer_info()[0] if vertices else 0).code)
        made._set_vertices(vertices)
        return made

    def relations(self, others: Sequence[Polygon]) -> List[Relation]:
        """Returns how this polygon is related to each of the others, in order."""
        twins = _twins(others)
        spans, numbers = _spans_of(twins), bytearray(len(twins) + 1)
        out = (ctypes.c_uint8 * len(numbers)).from_buffer(numbers)
        _LIBRARY.hull_polygon_relations(*self._span(), spans.buffer_info()[0], len(twins), ctypes.addressof(out))
        return [Relation(relation) for relation in numbers[:-1]]

    @overload
    def intersects_segments(self, segments: _Array) -> Any: ...
    @overload
    def intersects_segments(self, segments: Iterable[Tuple[Tuple[SupportsIndex, SupportsIndex], Tuple[SupportsIndex, SupportsIndex]]]) -> bytes: ...

    def intersects_segments(self, segments: Any) -> Any:
        """Returns whether the polygon intersects each of the segments, as bytes of 1 and 0.

        A segment is a pair of points; an array of numpy has shape (n, 4) or (n, 2, 2), and then the result is an array. ValueError for any
        other shape.
        """
        flat = _flat(_ends_of(segments))
        count, out = len(flat) // 4, ctypes.create_string_buffer(max(len(flat) // 4, 1))
        flat.append(0)  # so that no segments have a place in memory, too
        _LIBRARY.hull_polygon_intersects_segments(*self._span(), flat.buffer_info()[0], count, ctypes.addressof(out))
        return _like(segments, out.raw[:count])

    def indices(self, points: Any) -> List[Optional[int]]:
        """Returns for each vertex the index of the first of the points that is equal to it; None if none is."""
        flat, (at, size) = _flat(points), self._span()
        count, places = len(flat) // 2, array("Q", (0,)) * (size + 1)
        flat.append(0)
        _LIBRARY.hull_polygon_indices(at, size, flat.buffer_info()[0], count, places.buffer_info()[0])
        return [place if place < count else None for place in places[:size]]

    def within_distance(self, other: Polygon, distance: Union[int, float, Fraction]) -> bool:
        """Returns whether their distance is at most that, exactly; False if one of them has no vertex.

        A float is taken as the fraction that it is. OutOfRange if the distance is below 0, or is not finite.
        """
        length, short = _length(distance)
        if not short:
            squared = self.squared_distance(other)
            return squared is not None and squared <= length * length
        words = *_span_of_other(other), length.numerator, length.denominator
        return _whether(self._found(_LIBRARY.hull_polygon_within_distance, *words))

    def within_distance_of_segment(self, ax: SupportsIndex, ay: SupportsIndex, bx: SupportsIndex, by: SupportsIndex,
                                   distance: Union[int, float, Fraction]) -> bool:
        """Returns whether the distance of the segment from (ax, ay) to (bx, by), which may be one point, is at most that, exactly, as
        `within_distance`."""
        length, short = _length(distance)
        if not short:
            squared = self.squared_distance_to_segment(ax, ay, bx, by)
            return squared is not None and squared <= length * length
        ends = _whole(ax), _whole(ay), _whole(bx), _whole(by)
        return _whether(self._found(_LIBRARY.hull_polygon_within_distance_of_segment, *ends, length.numerator, length.denominator))

    def within_distance_of_point(self, x: SupportsIndex, y: SupportsIndex, distance: Union[int, float, Fraction]) -> bool:
        """Returns whether the distance of the point (x, y) is at most that, exactly, as `within_distance`."""
        return self.within_distance_of_segment(x, y, x, y, distance)


def _length(distance: Union[int, float, Fraction]) -> Tuple[Fraction, bool]:
    """Returns a distance as the fraction that it is, and whether the library takes it."""
    number: Any = distance
    if not hasattr(number, "as_integer_ratio") and not hasattr(number, "denominator"):
        raise TypeError(f"a distance is a number, and not {type(number).__name__}")
    about = _bits_of_decimal(number)
    if abs(about) > 4000:  # one of the same sign that is longer than all distances, too, or shorter than all but 0
        number = (1 if number > 0 else -1) * (Fraction(1 << 4000) if about > 0 else Fraction(1, 1 << 4000))
    try:
        above, below = number.as_integer_ratio() if hasattr(number, "as_integer_ratio") else (number.numerator, number.denominator)
        length = Fraction(int(above), int(below))
    except (OverflowError, ValueError):  # not finite
        length = Fraction(-1)
    if length < 0:
        raise OutOfRange(f"a distance is 0 or more, and not {distance}")
    return length, length.numerator < 2 ** 64 and length.denominator < 2 ** 32


def _polygon_again(vertices: "array[int]") -> Polygon:
    """Returns the polygon of a pickle, which is tested like any other."""
    return Polygon(memoryview(vertices).cast("B").cast("q", (len(vertices) // 2, 2)) if vertices else ())


_outline_again = _polygon_again  # by its name in pickles of version 2


def merge(polygons: Iterable[Polygon]) -> Polygon:
    """Returns the convex polygon of the union of polygons: its vertices are among theirs.

    So you never have to bring points together that are in many blocks, files or machines: make a polygon of each block and pass it on (it
    is pickled as its vertices, 16 bytes each), and merge polygons in any order. TooMany if more vertices than POINT_LIMIT meet: those of
    one polygon and those of all before it.
    """
    flat, gathered = array("q"), 0
    for polygon in polygons:
        if not isinstance(polygon, Polygon):
            raise TypeError(f"what is merged is a Polygon, and not {type(polygon).__name__}")
        if gathered == MULTIPLICITY_LIMIT or len(flat) // 2 + len(polygon) > POINT_LIMIT:
            flat, gathered = _vertices_of(flat), 1
        flat.extend(polygon._flat_vertices())
        gathered += 1
    made = Polygon(())
    made._set_vertices(_vertices_of(flat))
    return made


def _ends_of(segments: Any) -> Any:
    """Returns the ends of segments, two of each one after the other."""
    if _of_numpy(segments) is None:
        return [end for first, second in segments for end in (first, second)]
    if segments.size and segments.shape[1:] not in ((4,), (2, 2)):
        raise ValueError(f"an array of segments has shape (n, 4) or (n, 2, 2), and this one has {segments.shape}")
    return segments.reshape(-1, 2)


def _twins(polygons: Iterable[Polygon]) -> List[Polygon]:
    """Returns the polygons that a sequence has now, as they are now, whatever the caller does to both meanwhile."""
    twins = []
    for polygon in polygons:
        if not isinstance(polygon, Polygon):
            raise TypeError(f"a Polygon was wanted, and not {type(polygon).__name__}")
        twins.append(polygon._twin())
    return twins


def _spans_of(polygons: List[Polygon]) -> "array[int]":
    """Returns the addresses of the vertices of polygons, and their numbers, one after the other; the caller keeps the polygons."""
    spans = array("Q")
    for polygon in polygons:
        at, count = polygon._span()
        spans.extend((at.value or 0, count))
    spans.append(0)  # so that no polygons have a place in memory, too
    return spans


def pairs_within_distance(polygons: Sequence[Polygon], distance: Union[int, float, Fraction] = 0) -> List[Tuple[int, int]]:
    """Returns the pairs of polygons whose distance is at most that, exactly; with 0, those that intersect.

    The pairs (i, j) of their indices, i < j, in order: found by a sweep over their boxes. OutOfRange as `Polygon.within_distance`.
    """
    length, short = _length(distance)
    asked = length if short else Fraction(min(math.ceil(length), 2 ** 64 - 1))
    twins = _twins(polygons)
    spans, space = _spans_of(twins), len(twins) + 1
    while True:
        pairs = array("Q", (0, 0)) * space
        reply = _LIBRARY.hull_pairs_within_distance(spans.buffer_info()[0], len(twins), asked.numerator, asked.denominator,
                                                    pairs.buffer_info()[0], space)
        if reply.code != _Code.TOO_SMALL:
            break
        space = reply.number
    _check_code(reply.code)
    found = list(zip(pairs[0:2 * reply.number:2], pairs[1:2 * reply.number:2]))
    return found if short else [(i, j) for i, j in found if twins[i].within_distance(twins[j], distance)]


class FloatHull:
    """A set of points in floats, with results in floats: a Hull on the lattice of steps of 2**-power.

    Each number goes to the nearest step (`from_floats`), and answers are exact for the rounded points: `rounded` counts the coordinates of
    added points that had to be rounded. `hull` is the Hull itself. Two are equal if they have equal hulls and the same steps.
    """

    __slots__ = ("hull", "power", "rounded", "__weakref__")
    __hash__ = None  # type: ignore[assignment] # it changes

    def __init__(self, points: Any = (), power: SupportsIndex = 20, limit: SupportsIndex = POINT_LIMIT) -> None:
        self.power = operator.index(power)
        made = from_floats(points, self.power)
        self.hull = Hull(made.points, limit)
        self.rounded = made.rounded

    def __reduce__(self) -> Any:
        """Copies and pickles have the same points, multiplicities, limit, steps and count of what was rounded."""
        return _reduced(self, FloatHull, _float_hull_of, self.hull, self.power, self.rounded)

    def __eq__(self, other: object) -> bool:
        if not isinstance(other, FloatHull):
            return NotImplemented
        return self.power == other.power and self.hull == other.hull

    def copy(self) -> FloatHull:
        """Returns another hull with the same points, multiplicities, limit, steps and count of what was rounded."""
        return _copied(self, FloatHull, _float_hull_of(self.hull.copy(), self.power, self.rounded))

    __copy__ = copy

    def __len__(self) -> int:
        return len(self.hull)

    def __iter__(self) -> Iterator[Floats]:
        return (_floats(point, self.power) for point in self.hull)

    def __contains__(self, point: Floats) -> bool:
        """Returns whether the point is in the set; one that is not on the lattice is not."""
        try:
            (near,), rounded = from_floats([point], self.power)
        except OutOfRange:
            return False
        return not rounded and near in self.hull

    def __repr__(self) -> str:
        return f"<FloatHull of {len(self)} points, steps of 2**{-self.power}>"

    def _near(self, x: float, y: float) -> Pair:
        """Returns the point of the lattice nearest to two floats."""
        return _from_float(x, self.power)[0], _from_float(y, self.power)[0]

    def _in_floats(self, points: Optional[Sequence[Pair]]) -> Any:
        """Returns points in floats; None of none."""
        return None if points is None else tuple(_floats(point, self.power) for point in points)

    def add(self, x: float, y: float) -> int:
        """Adds the point, and returns its multiplicity now: 1 if it is new."""
        ((point,), rounded) = from_floats([(x, y)], self.power)
        multiplicity = self.hull.add(*point)
        self.rounded += rounded
        return multiplicity

    def remove(self, x: float, y: float) -> Optional[int]:
        """Removes the point once, and returns the multiplicity that is left; None if it was not there."""
        return self.hull.remove(*self._near(x, y))

    def place(self, x: float, y: float) -> Place:
        """Returns the location of the point: one of Place."""
        return self.hull.place(*self._near(x, y))

    def tangents(self, x: float, y: float) -> Optional[Tuple[Floats, Floats]]:
        """Returns the left and the right tangent point seen from (x, y); None if there are none."""
        tangents: Optional[Tuple[Floats, Floats]] = self._in_floats(self.hull.tangents(*self._near(x, y)))
        return tangents

    def extreme(self, dx: float, dy: float) -> Optional[Floats]:
        """Returns the farthest point in a direction of two floats, as `Hull.extreme_d`; None if there is none."""
        farthest = self.hull.extreme_d(dx, dy)
        return None if farthest is None else _floats(farthest, self.power)

    def vertices(self) -> List[Floats]:
        """Returns the vertices, counterclockwise from the first by x and then y, each once and none inside an edge."""
        return [_floats(vertex, self.power) for vertex in self.hull.vertices()]

    def area(self) -> float:
        """Returns the area, 0 for a point and a segment."""
        return math.ldexp(self.hull.doubled_area(), -2 * self.power - 1)

    def distance_to_point(self, x: float, y: float) -> Optional[float]:
        """Returns the distance of (x, y), 0 if the hull covers it; None if there is no point."""
        return self._root(self.hull.polygon().squared_distance_to_point(*self._near(x, y)))

    def distance(self, other: FloatHull) -> Optional[float]:
        """Returns the distance of another hull with the same steps, 0 if they intersect; None if one has no point."""
        if not isinstance(other, FloatHull):
            raise TypeError(f"the other one is a FloatHull, and not {type(other).__name__}")
        if other.power != self.power:
            raise ValueError(f"the hulls have steps of 2**{-self.power} and of 2**{-other.power}")
        return self._root(self.hull.polygon().squared_distance(other.hull.polygon()))

    def _root(self, squared: Optional[Fraction]) -> Optional[float]:
        """Returns the root of a squared distance in steps."""
        return None if squared is None else math.ldexp(math.sqrt(squared), -self.power)

    def wkt(self) -> str:
        """Returns the hull as well-known text."""
        return self.hull.wkt(self.power)


def _float_hull_of(hull: Hull, power: int, rounded: int) -> FloatHull:
    """Returns the hull in floats over this one."""
    made = FloatHull.__new__(FloatHull)
    made.hull, made.power, made.rounded = hull, power, rounded
    return made


class _State(ctypes.Structure):
    """hull_shared_state of the header."""

    _fields_ = [
        ("out", ctypes.c_uint32), ("inside", ctypes.c_uint32), ("sleepers", ctypes.c_uint32), ("for_space", ctypes.c_uint32),
        ("held", ctypes.c_uint32), ("turn", ctypes.c_uint64), ("seat", ctypes.c_uint32), ("designated", ctypes.c_uint32),
        ("drainer", ctypes.c_uint32), ("seat_for", ctypes.c_uint64), ("drains_for", ctypes.c_uint64), ("combined", ctypes.c_uint64),
    ]


class Stats(NamedTuple):
    """The state of the calls of a shared hull at one moment."""

    #: How many seats are acquired.
    out: int
    #: How many calls are admitted, how many sleep and wait for admission, and how many for space in the journal.
    inside: int
    sleepers: int
    for_space: int
    #: How many lines the journal had after the call that was served last.
    held: int
    #: The number that is served now, the one after that call's; 0 before the first.
    turn: int
    #: The seat whose admitted call has that number, if there is one, and for how many seconds, to some milliseconds.
    seat: Optional[int]
    seat_for: float
    #: The seat that is designated to enter next, if there is one.
    designated: Optional[int]
    #: The seat that drains for the hull's file, if one does, and for how many seconds.
    drainer: Optional[int]
    drains_for: float
    #: How many calls were served by other threads than their own.
    combined: int


def _new_shared(readers: SupportsIndex) -> Any:
    """Returns the address of a shared hull that is not open, for so many readers."""
    readers, shared = operator.index(readers), _at(_shared_kinds()[0], _shared_library().hull_python_shared_new())
    if readers != 0:
        code = _shared_library().hull_python_set_max_readers(shared, readers if 0 < readers <= READER_LIMIT else READER_LIMIT + 1)
        if code != _Code.READERS_SET:
            _raise_code(code)
    return shared


class SharedHull:
    """One hull that up to SEAT_LIMIT threads change and query at once, each by a seat of its own.

    It has at most `limit` different points, and a journal whose lines are numbered from `first` on: at most `capacity` of them, until a
    seat drains it (`Seat.drain`). With `capacity` None each line is discarded after its reply is returned. When the journal is full, calls
    raise JournalFull: with `answers` only changes do, and questions are answered with no line; with `waits` a call waits until another
    thread has drained. Each call takes effect at one moment between its beginning and its end, in the order of the calls' numbers. It may
    have up to so many `readers`, at most READER_LIMIT.
    """

    __slots__ = ("_shared", "_seats", "_kind", "__weakref__")

    def __init__(self, capacity: Optional[SupportsIndex], seats: SupportsIndex, limit: SupportsIndex = POINT_LIMIT,
                 first: SupportsIndex = 0, *, answers: bool = False, waits: bool = False, readers: SupportsIndex = 0) -> None:
        library = _shared_library()
        lines = 1 if capacity is None else operator.index(capacity)
        words = operator.index(limit), operator.index(first), lines, operator.index(seats)
        if not all(0 <= word < 1 << bits for word, bits in zip(words, (32, 64, 32, 32))):
            _check_code(_Code.OUT_OF_LIMITS)
        self._shared = _new_shared(readers)
        kept = "without a journal," if capacity is None else f"for {lines} calls"
        self._seats, self._kind = words[3], f"{kept} from {words[1]}, limit {words[0]}"
        if capacity is None:
            code = library.hull_python_open_without_journal(self._shared, words[0], words[1], words[3])
        elif answers:
            code = library.hull_python_open_answering(self._shared, *words)
        else:
            code = library.hull_python_open(self._shared, *words)
        if code != _Code.OPEN:
            _raise_code(code)
        library.hull_python_wait_for_space(self._shared, 1 if waits else 0)

    @classmethod
    def reopen(cls, text: Union[str, bytes], capacity: SupportsIndex, seats: SupportsIndex, readers: SupportsIndex = 0) -> SharedHull:
        """Opens a hull that continues a journal, with the points that it left.

        `text` is the whole journal, as `close` or the program `hullbook` wrote it: a str or bytes. Limit and numbers are the journal's. Its
        lines count as drained: the texts of this hull have only lines of later calls, and `hullbook check OLD NEW..` judges all in order.
        JournalFault if the text can't be continued.
        """
        text = text.encode() if isinstance(text, str) else bytes(memoryview(text))  # (bytes of a number would be zeros)
        capacity, seats = operator.index(capacity), operator.index(seats)
        if not (0 <= capacity < 1 << 32 and 0 <= seats < 1 << 32):
            _check_code(_Code.OUT_OF_LIMITS)
        hull = cls.__new__(cls)
        hull._shared = _new_shared(readers)
        buffer = ctypes.create_string_buffer(text, max(len(text), 1))
        reply = _shared_library().hull_python_reopen(hull._shared, ctypes.addressof(buffer), len(text), capacity, seats)
        words = {
            _Code.NO_JOURNAL: f"line {reply.number}: fault {reply.high}: the text is not a journal",
            _Code.OLD_RULES: "journals before version 3 do not count points",
            _Code.ILLEGAL: f"line {reply.number}: the journal is not a legal history",
            _Code.TOO_FEW_SEATS: f"the journal has lines by {reply.number} seats",
        }.get(reply.code)
        if words is not None:
            raise JournalFault(words)
        if reply.code != _Code.OPEN:
            _raise_code(reply.code)
        hull._seats, hull._kind = seats, f"for {capacity} calls after a journal"
        return hull

    @classmethod
    def open_journal(cls, path: "Union[str, bytes, os.PathLike[str]]", capacity: SupportsIndex, seats: SupportsIndex,
                     limit: SupportsIndex = POINT_LIMIT, every: Optional[float] = None, readers: SupportsIndex = 0) -> SharedHull:
        """Opens a hull with a journal file, which is made, or read: then the hull has the points that it left, and its limit.

        A thread of the library writes the lines to the file when a thread waits for one (`sync`, `Seat.wait_durable`), each `every` seconds if
        that is given, and when half of `capacity` are used; calls wait for space. There are SEAT_LIMIT - 1 seats at most, none of which
        drains. It may have so many `readers`. OSError if the system refuses a call on the file; JournalFault if the file is damaged, or not
        a journal.
        """
        words = operator.index(limit), 0, operator.index(capacity), operator.index(seats)
        if not all(0 <= word < 1 << 32 for word in words):
            _check_code(_Code.OUT_OF_LIMITS)
        if every is not None and not every >= 0:
            raise ValueError(f"a time is no less than 0, and not {every!r}")
        hull = cls.__new__(cls)
        hull._shared = _new_shared(readers)
        hull._seats, hull._kind = words[3], f"for {words[2]} calls with a journal file"
        time = 0 if every is None else max(1, int(min(every, 1e9) * 1e9))
        reply = _shared_library().hull_python_open_journal(hull._shared, _file(path), words[0], words[2], words[3], time)
        if reply.code != _Code.OPEN:
            _check_journal_file(reply, reply.number, path)
            _raise_code(reply.code)
        _with_files.add(hull)
        return hull

    @staticmethod
    def compact(path: "Union[str, bytes, os.PathLike[str]]") -> int:
        """Compacts such a file, of a hull that is not open: to the additions that leave the same points, up to the same number, which is
        returned.

        FileNotFoundError if it is not there. Raises what `open_journal` raises if the file is refused, which is as it was then, or leaves the
        same points, if its folder could not be synced after the new file took its name.
        """
        reply = _shared_library().hull_python_compact(_file(path))
        _check_journal_file(reply, reply.number, path)
        _check_code(reply.code)
        return int(reply.number)

    def durable(self) -> int:
        """Returns the number of the first line that is not durable.

        ValueError if the hull has no file, or is closed; OSError if a write failed: no later line will be durable.
        """
        return self._number_of(_shared_library().hull_python_durable(self._shared))

    def sync(self) -> int:
        """Waits until the lines of all calls that have returned are durable; returns the number of the first line that is not."""
        return self._number_of(_waited(_shared_library().hull_python_sync, self._shared))

    def _number_of(self, reply: _Reply) -> int:
        """Returns the number of the first line that is not durable, of a reply that has it."""
        _check_journal_file(reply, reply.high)
        _check_code(reply.code)
        return int(reply.number)

    def __reduce__(self) -> Any:
        raise TypeError("a shared hull can't be copied")

    def _acquired(self) -> List[int]:
        """Returns the numbers of the acquired seats."""
        acquired = _shared_library().hull_python_acquired_seats(self._shared)
        return [number for number in range(SEAT_LIMIT) if acquired >> number & 1]

    def __repr__(self) -> str:
        return f"<SharedHull {self._kind}, {len(self._acquired())} of {self._seats} seats acquired>"

    def __enter__(self) -> SharedHull:
        return self

    def __exit__(self, fault: object, *_: object) -> None:
        """Closes the hull. SeatsOut, which names them, if seats are acquired, unless another exception is being raised."""
        try:
            self._close()
        except SeatsOut:
            if fault is None:
                raise

    def stats(self) -> Stats:
        """Returns the state of the hull's calls at one moment; while calls go on, its numbers may be of different moments."""
        state = _State()
        _shared_library().hull_python_stats(self._shared, ctypes.addressof(state))
        seat, designated, drainer = (number if number < SEAT_LIMIT else None for number in (state.seat, state.designated, state.drainer))
        return Stats(state.out, state.inside, state.sleepers, state.for_space, state.held, state.turn, seat, state.seat_for / 1e9,
                     designated, drainer, state.drains_for / 1e9, state.combined)

    def acquire_seat(self, number: SupportsIndex) -> Seat:
        """Acquires the seat of a number, 0 and up, for one thread; NoSeat if it is acquired or there is none."""
        return Seat(self, number)

    def acquire_reader(self) -> Reader:
        """Acquires a reader, for one thread, of those that the hull was opened for; NoSeat if as many are acquired."""
        return Reader(self)

    def _close(self) -> None:
        """Closes the hull, unless it is closed."""
        reply = _shared_library().hull_python_close(self._shared)
        if reply.code == _Code.SEATS_OUT:
            seats = ", ".join(map(str, self._acquired()))
            raise SeatsOut(f"seats of the hull are acquired: {seats}" if seats else "a reader of the hull is acquired")
        _check_journal_file(reply, reply.high)
        if reply.code == _Code.IN_USE:
            raise ValueError("a thread waits for durable lines of the hull's file")
        if reply.code != _Code.NOT_OPEN:
            _check_code(reply.code)

    def close(self) -> str:
        """Closes the hull, unless it is closed, and returns the text of its journal; SeatsOut if a seat or a reader is acquired.

        MemoryError if there is none for the text: the hull is closed, and you may call this again. If the hull has a file, the text is its
        last segment, or OSError says that it could not be written: the hull is closed.
        """
        self._close()
        return _text(_shared_library().hull_python_text, self._shared)

    def close_in_pieces(self, size: SupportsIndex = 1 << 16) -> Iterator[str]:
        """The same, and returns that text in blocks of whole lines, each of at most `size` bytes, or one line that is longer.

        One block is in memory at a time: `file.writelines(hull.close_in_pieces())`.
        """
        self._close()
        return _pieces(_shared_library().hull_python_text_from, self._shared, size)


# hulls with a journal file, of which a thread that runs on when the program ends may keep one from being freed
_with_files: "weakref.WeakSet[SharedHull]" = weakref.WeakSet()


@atexit.register
def _sync_files() -> None:
    """Waits until the lines of each hull with a journal file are durable, if it was not closed; raises the last fault."""
    last = None
    for hull in list(_with_files):
        try:
            hull.sync()
        except (Ended, ValueError):  # of another process, or closed
            pass
        except (OSError, JournalFault, MemoryError) as fault:
            last = fault
    if last is not None:
        raise last


def _file(path: "Union[str, bytes, os.PathLike[str]]") -> bytes:
    """Returns a path as C takes it."""
    file = os.fsencode(path)
    if b"\0" in file:
        raise ValueError("embedded null byte")
    return file


def _shared_of(hull: SharedHull) -> Any:
    """Returns the address of a shared hull. Raises TypeError for any other object, since the library cannot check an address."""
    if not isinstance(hull, SharedHull):
        raise TypeError(f"a Seat or a Reader is made of a SharedHull, not of {hull!r}")
    return hull._shared


# the meaning of an errno of a journal file, if the system's text does not give it
_WHY = {errno.EWOULDBLOCK: " (another hull has the file)", errno.ESTALE: " (another program has changed, replaced or removed the file)"}


def _check_journal_file(reply: _Reply, number: int, path: "Union[str, bytes, os.PathLike[str], None]" = None) -> None:
    """Raises the exception of a journal file, if the reply has one; it names the path, if one is passed."""
    if reply.code == _Code.NO_FILE:
        raise OSError(number, os.strerror(number) + _WHY.get(number, ""), path)
    if reply.code == _Code.DAMAGED:
        raise JournalFault(f"line {reply.number}: the file is damaged, or not a journal")
    if reply.code == _Code.ILLEGAL:
        raise JournalFault(f"line {reply.number}: the journal is not a legal history, or a seat of its hull drained")


def _text(write: Callable[..., _Reply], at: Any) -> str:
    """Returns the text that a function writes of what is at an address."""
    buffer = ctypes.create_string_buffer(1)
    while True:
        reply = write(at, ctypes.addressof(buffer), len(buffer))
        if reply.code == _Code.TEXT:
            return ctypes.string_at(buffer, reply.number).decode("ascii")
        if reply.code != _Code.TOO_SMALL:
            _raise_code(reply.code)
        buffer = ctypes.create_string_buffer(reply.number)


def _pieces(write: Callable[..., _Reply], at: Any, size: SupportsIndex) -> Iterator[str]:
    """Yields the text of what is at an address, in blocks that a function writes from a line on."""
    line, buffer = 0, ctypes.create_string_buffer(max(operator.index(size), 1))
    while True:
        reply = write(at, line, ctypes.addressof(buffer), len(buffer))
        if reply.code == _Code.TOO_SMALL:
            buffer = ctypes.create_string_buffer(reply.number)
            continue
        if reply.code != _Code.TEXT:
            _raise_code(reply.code)
        if reply.number == 0:
            return
        yield ctypes.string_at(buffer, reply.number).decode("ascii")
        line = reply.high


class JournalSegment:
    """A segment of a journal: lines that a seat drained; iteration gives the lines of its text, from the header to the end line."""

    __slots__ = ("_at", "__weakref__")

    def __init__(self, lines: SupportsIndex) -> None:
        lines = operator.index(lines)
        if not 0 <= lines <= CAPACITY_LIMIT + 1:  # (a drain's own line may be one more)
            _check_code(_Code.OUT_OF_LIMITS)
        self._at = _at(_shared_kinds()[2], _shared_library().hull_python_segment_new(lines))

    def __reduce__(self) -> Any:
        raise TypeError("a segment can't be copied")

    def text(self) -> str:
        """Returns the text of the lines, with the number of the first as its own first number.

        `hullbook check` judges the texts of all segments in order.
        """
        return _text(_shared_library().hull_python_segment_text, self._at)

    def _has_lines(self) -> bool:
        """Returns whether a drain took lines."""
        return bool(_shared_library().hull_python_segment_text_from(self._at, 0, 0, 0).code == _Code.TOO_SMALL)

    def pieces(self, size: SupportsIndex = 1 << 16) -> Iterator[str]:
        """Returns that text in blocks of whole lines, each of at most `size` bytes, or one line that is longer.

        One block is in memory at a time: `file.writelines(segment.pieces())`.
        """
        return _pieces(_shared_library().hull_python_segment_text_from, self._at, size)

    def __iter__(self) -> Iterator[str]:
        for piece in self.pieces():
            yield from piece.splitlines()


class Snapshot(Polygon):
    """The vertices of a shared hull as of one line of its journal: a Polygon. Copies and pickles have the line too."""

    __slots__ = ("line",)

    #: The number of that line; None if the hull had none.
    line: Optional[int]

    def __init__(self, vertices: Any) -> None:
        super().__init__(vertices)
        self.line = None

    def __reduce__(self) -> Any:
        return _reduced(self, Snapshot, _snapshot_again, self._flat_vertices(), self.line)


def _snapshot_again(vertices: "array[int]", line: Optional[int]) -> Snapshot:
    """Returns the snapshot of a pickle, whose vertices are tested like any others."""
    made = Snapshot(())
    made._set_vertices(_polygon_again(vertices)._flat_vertices())
    made.line = line
    return made


class Reader:
    """A reader of a shared hull, beside its seats: it takes no turn and no line, and waits for no call.

    It is released by `release`, at the end of a `with`, and when it is collected.
    """

    __slots__ = ("_at", "_snapshot", "__weakref__")

    def __init__(self, hull: SharedHull) -> None:
        self._snapshot: Optional[Snapshot] = None
        shared = _shared_of(hull)
        self._at = _at(_shared_kinds()[3], _shared_library().hull_python_reader_new())
        _check_code(_shared_library().hull_python_acquire_reader(self._at, shared))

    def __reduce__(self) -> Any:
        raise TypeError("a reader can't be copied")

    def __enter__(self) -> Reader:
        return self

    def __exit__(self, *_: object) -> None:
        self.release()

    def release(self) -> None:
        """Releases the reader. Calls on it raise ValueError from then on; its snapshots stay."""
        _shared_library().hull_python_release_reader(self._at)

    def is_newest(self) -> bool:
        """Returns whether no snapshot is newer than the one that `snapshot` returned last."""
        code = _shared_library().hull_python_is_newest(self._at)
        if code > 1:
            _raise_code(code)
        return self._snapshot is not None and code == 1

    def snapshot(self) -> Snapshot:
        """Returns the newest snapshot: it shows what each call did that had returned before. The same one as before if none is newer."""
        if self._snapshot is None or not self.is_newest():
            self._snapshot = self._read()
        return self._snapshot

    def _read(self) -> Snapshot:
        """Returns the newest snapshot, copied."""
        lines: List[Optional[int]] = []

        def read(out: int, space: int) -> _Reply:
            reply: _Reply = _shared_library().hull_python_read(self._at, out, space)
            lines.append(reply.high if reply.x else None)
            return reply

        snapshot = Snapshot(())
        snapshot._set_vertices(_written_vertices(read))
        snapshot.line = lines[-1]
        return snapshot


class Seat:
    """A seat of a shared hull, for one thread at a time: calls on one seat from several threads wait for each other.

    Each call waits for its turn, and other threads and signal handlers run meanwhile; it raises JournalFull if the journal is full. A seat is
    released by `release`, at the end of a `with`, and when it is collected.
    """

    __slots__ = ("_at", "_is_acquired", "_number", "_segments", "_space", "__weakref__")

    def __init__(self, hull: SharedHull, number: SupportsIndex) -> None:
        shared, number = _shared_of(hull), operator.index(number)
        if not 0 <= number < SEAT_LIMIT:
            _check_code(_Code.NO_SEAT)
        self._number, self._space, self._is_acquired = number, 64, False
        # what a drain takes now, and what the one before it took
        self._segments: Tuple[Optional[JournalSegment], Optional[JournalSegment]] = None, None
        self._at = _at(_shared_kinds()[1], _shared_library().hull_python_seat_new())
        _check_code(_shared_library().hull_python_acquire_seat(self._at, shared, number))
        self._is_acquired = True

    def __reduce__(self) -> Any:
        raise TypeError("a seat can't be copied")

    def __enter__(self) -> Seat:
        return self

    def __exit__(self, *_: object) -> None:
        self.release()

    def release(self) -> None:
        """Releases the seat. Calls on it raise ValueError from then on."""
        self._is_acquired = False
        _shared_library().hull_python_release_seat(self._at)

    def _served(self, function: Callable[..., Any], *words: int) -> _Reply:
        """Returns the reply of a function that waits for the seat's turn, or raises its exception."""
        reply: _Reply = _waited(function, self._at, *words)
        _check_code(reply.code)
        return reply

    def _ask(self, kind: int, x: int = 0, y: int = 0) -> _Reply:
        """Returns the reply of a call, or raises its exception."""
        return self._served(_shared_library().hull_python_ask, kind, x, y)

    def __repr__(self) -> str:
        return f"<Seat {self._number}, {'acquired' if self._is_acquired else 'released'}, last turn {self.turn()}>"

    def wait_at_most(self, seconds: Optional[float]) -> None:
        """Sets how long calls of the seat wait for admission, or for space: for ever, which is the default, with None, not at all with 0.

        If they were not admitted by then they raise Busy, and are not made.
        """
        never = (1 << 64) - 1
        if seconds is not None and not seconds >= 0:
            raise ValueError(f"a time is no less than 0, and not {seconds!r}")
        time = never if seconds is None else min(int(min(seconds, 1e10) * 1e9), never)
        _shared_library().hull_python_wait_at_most(self._at, time)

    def wait_durable(self) -> None:
        """Waits until the lines of all calls of the seat are durable in the journal file, for as long as its calls wait.

        Busy if they are not by then; else what `SharedHull.durable` raises.
        """
        reply = _waited(_shared_library().hull_python_wait_durable, self._at)
        _check_journal_file(reply, reply.high)
        _check_code(reply.code)

    def turn(self) -> Optional[int]:
        """Returns the number of the last call, that of its line; None if there was none."""
        turn = ctypes.c_uint64()
        return turn.value if _shared_library().hull_python_turn(self._at, ctypes.addressof(turn)) else None

    def add(self, x: SupportsIndex, y: SupportsIndex) -> int:
        """Adds the point, and returns its multiplicity now: 1 if it is new."""
        return _multiplicity_after_add(self._ask(_Kind.ADD, _whole(x), _whole(y)))

    def remove(self, x: SupportsIndex, y: SupportsIndex) -> Optional[int]:
        """Removes the point once, and returns the multiplicity that is left; None if it was not there."""
        return _multiplicity_after_remove(self._ask(_Kind.REMOVE, _whole(x), _whole(y)))

    # written by tools/table.py: seats
    def place(self, x: SupportsIndex, y: SupportsIndex) -> Place:
        """Returns the location of (x, y). It is one of Place."""
        return _place(self._ask(_Kind.PLACE, _whole(x), _whole(y)))

    def tangents(self, x: SupportsIndex, y: SupportsIndex) -> Optional[Tuple[Pair, Pair]]:
        """Returns the left and the right tangent point seen from (x, y), of several on one line the farthest; None if there is no point, or
        the hull covers the one asked about."""
        return _tangents(self._ask(_Kind.TANGENTS, _whole(x), _whole(y)))

    def extreme(self, x: SupportsIndex, y: SupportsIndex) -> Optional[Pair]:
        """Returns the farthest point in a direction, of several the first by x and then y; None if there is none."""
        return _farthest(self._ask(_Kind.EXTREME, _whole(x), _whole(y)))

    def doubled_area(self) -> int:
        """Returns twice the area, 0 for a point and a segment."""
        return _area(self._ask(_Kind.AREA))
    # end of what tools/table.py writes

    def drain(self) -> JournalSegment:
        """Asks how many points there are, and drains all lines of the journal, as a JournalSegment.

        That of this call is the last of them. MemoryError if there is none for the lines: no call is made then. When the journal is full,
        one line is reserved for this call, and there is space again after it. If a signal handler raises before the segment is returned,
        `last_segment` has it.
        """
        capacity = _shared_library().hull_python_capacity(self._at)
        if capacity == 0:
            self._ask(_Kind.COUNT)  # which raises, and says why
        segment = JournalSegment(capacity)
        self._segments = segment, self.last_segment()
        try:
            self._served(_shared_library().hull_python_drain, segment._at)
        finally:
            self._segments = self.last_segment(), None
        return segment

    def last_segment(self) -> Optional[JournalSegment]:
        """Returns what the last drain took; None if there was none."""
        newest, before = self._segments
        return newest if newest is not None and newest._has_lines() else before

    def vertex_count(self) -> int:
        """Returns how many vertices there are."""
        return self._ask(_Kind.VERTICES).number

    def vertices(self) -> List[Pair]:
        """Returns the vertices as pairs, as those of a Hull.

        It asks with space for as many as there were before, and again if there are more: each question has its line in the journal.
        """
        while True:
            space = array("q", (0, 0)) * self._space
            reply = self._served(_shared_library().hull_python_ask_vertices, space.buffer_info()[0], self._space)
            if reply.code != _Code.TOO_SMALL:
                return _pairs(space[:2 * reply.number])
            self._space = reply.number + reply.number // 8

    def count(self) -> int:
        """Returns how many different points there are."""
        return self._ask(_Kind.COUNT).number
