"""Which of a grid's cells lie in the zone that some posts span, and how the zone shrinks when a post is taken away.

The cells are asked about all at once, in a list and in an array of 64-bit integers in two columns.
"""
from array import array
from typing import Dict

from hull import Hull, Place

SIGN: Dict[int, str] = {Place.INSIDE: "#", Place.ON: "+", Place.OUTSIDE: "."}
WIDTH, HEIGHT = 24, 9


def picture(places: bytes) -> str:
    """The cells row by row, the upper ones first."""
    rows = ["".join(SIGN[place] for place in places[at:at + WIDTH]) for at in range(0, WIDTH * HEIGHT, WIDTH)]
    return "\n".join(reversed(rows))


zone = Hull(limit=100)
posts = [(2, 0), (20, 1), (23, 5), (12, 8), (0, 4), (9, 3)]
assert list(zone.add_all(posts)) == [1] * len(posts)
cells = [(x, y) for y in range(HEIGHT) for x in range(WIDTH)]
print(picture(zone.place_all(cells)))
print("corners:", *zone.vertices(), "doubled area:", zone.doubled_area())

zone.remove(12, 8)
columns = memoryview(array("q", [number for cell in cells for number in cell])).cast("B").cast("q", (len(cells), 2))
places = zone.place_all(columns)
assert places == zone.place_all(cells)
print(f"without the post (12, 8) {places.count(Place.OUTSIDE)} cells lie outside")

try:
    import numpy
except ImportError:
    pass
else:
    assert (zone.place_all(numpy.array(cells, dtype=numpy.int64)) == numpy.frombuffer(places, numpy.uint8)).all()
