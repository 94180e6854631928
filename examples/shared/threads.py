"""Three threads put points of a growing square in, while a fourth asks whether a place is covered yet.

What the hull came to is written in the end, and the journal of all calls to the file that is named, if one is:
hullbook's `check` judges it.
"""
import sys
import threading
from typing import Callable, List

from hull import Place, Seat, SharedHull

ROUNDS = 200
PLACE = 5, 50


def insert(hull: SharedHull, number: int, height: Callable[[int], int]) -> None:
    with hull.acquire_seat(number) as seat:
        for i in range(ROUNDS):
            seat.add(i if i % 2 else -i, height(i))


def ask(seat: Seat) -> int:
    """Asks until the place is covered, at most as often as one thread inserts; returns how often that was."""
    for asked in range(1, ROUNDS):
        if seat.place(*PLACE) is Place.INSIDE:
            return asked
    seat.place(*PLACE)
    return ROUNDS


hull = SharedHull(limit=1000, capacity=5 * ROUNDS, seats=4)
heights: List[Callable[[int], int]] = [lambda i: i, lambda i: -i, lambda i: 0]
inserting = [threading.Thread(target=insert, args=(hull, number, height)) for number, height in enumerate(heights, 1)]
for thread in inserting:
    thread.start()
with hull.acquire_seat(0) as seat:
    asked = ask(seat)
    for thread in inserting:
        thread.join()
    print(f"{seat.count()} points, {seat.vertex_count()} corners, doubled area {seat.doubled_area()}")
    print("(5, 50) lies", seat.place(*PLACE).name.capitalize())
journal = hull.close()
print("each call has its line:", str(len(journal.splitlines()) == 3 * ROUNDS + asked + 4 + 2).lower())
if len(sys.argv) > 1:
    with open(sys.argv[1], "w", encoding="ascii") as file:
        file.write(journal)
