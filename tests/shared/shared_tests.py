"""Each method of a shared hull in python/hull.py, each of its answers and each of its faults.

Eight threads make calls at once; the journal of those goes to the file that JOURNAL names.
"""
import copy
import functools
import os
import pickle
import random
import signal
import tempfile
import threading
import time
import unittest

import hull as hull_module
from hull import CAPACITY_LIMIT, COORDINATE_LIMIT, POINT_LIMIT, READER_LIMIT, SEAT_LIMIT
from hull import Busy, JournalFault, JournalFull, NoSeat, OutOfRange, Place, SeatsOut, SharedHull, TooMany, ZeroDirection


class Calls(unittest.TestCase):
    def test_limits(self):
        for wrong in ({"limit": 0}, {"limit": POINT_LIMIT + 1}, {"limit": -1}, {"capacity": 0}, {"seats": 0},
                      {"capacity": CAPACITY_LIMIT + 1}, {"seats": SEAT_LIMIT + 1}, {"first": -1}, {"first": 1 << 64}):
            self.assertRaises(ValueError, SharedHull, **{"capacity": 1, "seats": 1, **wrong})
        SharedHull(capacity=1, seats=SEAT_LIMIT, first=(1 << 64) - 1)

    def test_calls(self):
        hull = SharedHull(capacity=100, seats=2, limit=6, first=7)
        seat = hull.acquire_seat(1)
        self.assertEqual((seat.turn(), seat.extreme(1, 0), seat.turn()), (None, None, 7))
        self.assertEqual((seat.place(0, 0), seat.tangents(0, 0)), (Place.OUTSIDE, None))
        self.assertEqual([seat.add(x, y) for x, y in [(0, 0), (10, 0), (10, 10), (0, 10), (4, 4)]], [1] * 5)
        self.assertEqual((seat.add(4, 4), [seat.remove(4, 4) for _ in range(3)]), (2, [1, 0, None]))
        self.assertEqual((seat.place(5, 5), seat.place(10, 5)), (Place.INSIDE, Place.ON))
        self.assertEqual((seat.tangents(20, 5), seat.extreme(0, 1)), (((10, 0), (10, 10)), (0, 10)))
        self.assertEqual((seat.vertex_count(), seat.doubled_area(), seat.count(), seat.turn()), (4, 200, 4, 25))

    def test_segments(self):
        hull = SharedHull(capacity=3, seats=1, limit=6, first=7)
        seat = hull.acquire_seat(0)
        seat.add(1, 2)
        segment = seat.drain()
        lines = ["hullbook journal 3 first 7 limit 6 capacity 4", "7 0 add 1 2 = added", "8 0 count = count 1", "end 2"]
        self.assertEqual((list(segment), segment.text().splitlines()), (lines, lines))
        for size in (0, 1, 20, 46, 66, 67, 1000):
            pieces = list(segment.pieces(size))
            self.assertEqual(("".join(pieces), all(piece.endswith("\n") for piece in pieces)), (segment.text(), True))
            self.assertLessEqual(max(map(len, pieces)), max(size, 46))
        self.assertRaises(TypeError, copy.copy, segment)
        for x in range(3):
            seat.add(x, 5)
        self.assertRaises(JournalFull, seat.add, 4, 5)
        self.assertRaises(JournalFull, seat.count)
        self.assertEqual(list(seat.drain())[::4], ["hullbook journal 3 first 9 limit 6 capacity 4", "12 0 count = count 4"])
        self.assertEqual((seat.add(4, 5), seat.turn()), (1, 13))
        seat.release()
        self.assertRaises(ValueError, seat.drain)
        self.assertEqual(hull.close().splitlines(),
                         ["hullbook journal 3 first 13 limit 6 capacity 3", "13 0 add 4 5 = added", "end 1"])

    def test_reopened(self):
        head = "hullbook journal 3 first 5 limit 3 capacity 9\n"
        for text, words in (("", "line 1: fault 6"), (head + "5 1 add 0 = added\nend 1\n", "line 2: fault 2"),
                            (head.replace("3", "2") + "end 0\n", "before version 3"),
                            (head + "5 7 add 0 0 = added\nend 1\n", "by 8 seats"),
                            (head + "5 1 add 0 0 = again 2\nend 1\n", "line 2: the journal is not a legal history")):
            with self.assertRaisesRegex(JournalFault, words):
                SharedHull.reopen(text, 4, 2)
        old = head + "5 1 add 0 0 = added\n6 0 add 4 0 = added\nend 2\n"
        for capacity, seats in ((0, 2), (-1, 2), (CAPACITY_LIMIT + 1, 2), (4, 0), (4, SEAT_LIMIT + 1), (4, 1 << 32)):
            self.assertRaises(ValueError, SharedHull.reopen, old, capacity, seats)
        for wrong in (5, None, [1, 2], 2.5):
            self.assertRaises(TypeError, SharedHull.reopen, wrong, 4, 2)
        for text in (bytearray(old.encode()), memoryview(old.encode())):
            SharedHull.reopen(text, 4, 2).close()
        with SharedHull.reopen(old.encode(), 4, 2) as hull:
            with hull.acquire_seat(1) as seat:
                self.assertEqual((seat.add(0, 0), seat.turn(), seat.count()), (2, 7, 2))
            self.assertEqual(repr(hull), "<SharedHull for 4 calls after a journal, 0 of 2 seats acquired>")
        self.assertEqual(hull.close(), "hullbook journal 3 first 7 limit 3 capacity 4\n"
                                       "7 1 add 0 0 = again 2\n8 1 count = count 2\nend 2\n")

    def test_constructors_take_a_hull(self):
        with SharedHull(capacity=20, seats=1, readers=1) as hull:
            with hull_module.Seat(hull, 0) as seat, hull_module.Reader(hull) as reader:
                self.assertEqual((seat.add(1, 2), reader.snapshot().vertices()), (1, [(1, 2)]))
            for wrong in (3, None, "", 1 << 64, hull._shared):
                self.assertRaises(TypeError, hull_module.Reader, wrong)
                self.assertRaises(TypeError, hull_module.Seat, wrong, 0)
            self.assertRaises(TypeError, hull_module.Seat, hull, 0.5)
            self.assertRaises(NoSeat, hull_module.Seat, hull, SEAT_LIMIT)
        self.assertRaises(TypeError, hull_module.JournalSegment, "1")
        for wrong in (-1, CAPACITY_LIMIT + 2, 1 << 64):
            self.assertRaises(ValueError, hull_module.JournalSegment, wrong)

    def test_readers(self):
        self.assertRaises(NoSeat, SharedHull(capacity=20, seats=1).acquire_reader)
        for wrong in (-1, READER_LIMIT + 1, 1 << 40, (1 << 32) + 5):
            self.assertRaises(ValueError, SharedHull, capacity=20, seats=1, readers=wrong)
        hull = SharedHull(capacity=20, seats=1, limit=10, first=7, readers=2)
        one, two = hull.acquire_reader(), hull.acquire_reader()
        self.assertRaises(NoSeat, hull.acquire_reader)
        self.assertFalse(one.is_newest())  # it has returned no snapshot yet
        self.assertEqual((one.snapshot().vertices(), one.snapshot().line, one.is_newest()), ([], None, True))
        with hull.acquire_seat(0) as seat:
            for x, y in [(0, 0), (8, 0), (0, 8)]:
                seat.add(x, y)
            self.assertFalse(one.is_newest())
            snapshot = one.snapshot()
            self.assertEqual((snapshot.vertices(), snapshot.line, seat.turn()), ([(0, 0), (8, 0), (0, 8)], 9, 9))
            self.assertEqual((snapshot.place(1, 1), snapshot.doubled_area(), one.snapshot() is snapshot), (Place.INSIDE, 64, True))
            seat.remove(8, 0)
            self.assertEqual((two.snapshot().vertices(), two.snapshot().line), ([(0, 0), (0, 8)], 10))
            self.assertTrue(snapshot.contains(two.snapshot()))
            for again in (copy.copy(snapshot), copy.deepcopy(snapshot), pickle.loads(pickle.dumps(snapshot))):
                self.assertEqual((type(again), again, again.line), (hull_module.Snapshot, snapshot, snapshot.line))
                self.assertEqual((again.vertices(), again.place(1, 1)), (snapshot.vertices(), Place.INSIDE))
            for i in range(100):
                seat.add(8, 8) if i % 2 == 0 else seat.remove(8, 8)
                self.assertEqual(len(one.snapshot()), 3 - i % 2)
                if i % 10 == 9:
                    seat.drain()
        self.assertRaises(SeatsOut, hull.close)
        one.release()
        self.assertRaises(ValueError, one.snapshot)
        self.assertRaises(ValueError, one.is_newest)
        with two:
            self.assertEqual(snapshot.vertices(), [(0, 0), (8, 0), (0, 8)])
        hull.close()
        self.assertRaises(ValueError, hull.acquire_reader)
        with SharedHull(capacity=None, seats=1, readers=READER_LIMIT) as bare, bare.acquire_reader() as reader, bare.acquire_seat(0) as seat:
            seat.add(1, 2)
            self.assertEqual((reader.snapshot().vertices(), reader.snapshot().line), ([(1, 2)], 0))

    def test_readers_continue(self):
        with SharedHull(capacity=20, seats=1, limit=10, first=7) as hull, hull.acquire_seat(0) as seat:
            for x, y in [(0, 0), (8, 0), (0, 8), (1, 1)]:
                seat.add(x, y)
        again = SharedHull.reopen(hull.close(), capacity=20, seats=1, readers=1)
        with again.acquire_reader() as reader:
            self.assertEqual((reader.snapshot().vertices(), reader.snapshot().line), ([(0, 0), (8, 0), (0, 8)], 10))
        with tempfile.TemporaryDirectory() as folder, SharedHull.open_journal(f"{folder}/zone", capacity=20, seats=1, readers=1) as hull:
            with hull.acquire_reader() as reader, hull.acquire_seat(0) as seat:
                seat.add(1, 2)
                self.assertEqual(reader.snapshot().vertices(), [(1, 2)])

    def test_no_journal(self):
        hull = SharedHull(capacity=None, seats=1, limit=6, first=7)
        with hull.acquire_seat(0) as seat:
            self.assertEqual([seat.add(1, 2) for _ in range(1000)], list(range(1, 1001)))
        self.assertEqual(hull.close(), "hullbook journal 3 first 1007 limit 6 capacity 1\nend 0\n")

    def test_faults_of_calls(self):
        hull = SharedHull(capacity=3, seats=1, limit=1)
        seat = hull.acquire_seat(0)
        self.assertRaises(OutOfRange, seat.add, COORDINATE_LIMIT + 1, 0)
        self.assertRaises(OutOfRange, seat.place, 1 << 64, 0)
        self.assertRaises(ZeroDirection, seat.extreme, 0, 0)
        self.assertEqual((seat.turn(), seat.add(1, 1)), (None, 1))
        self.assertRaises(TooMany, seat.add, 2, 2)
        self.assertEqual(seat.count(), 1)
        self.assertRaises(JournalFull, seat.count)
        self.assertEqual(seat.turn(), 2)

    def test_a_full_hull(self):
        hull = SharedHull(capacity=1, seats=1, limit=6, answers=True)
        seat = hull.acquire_seat(0)
        self.assertEqual((seat.add(1, 1), seat.count(), seat.turn()), (1, 1, 0))
        self.assertRaises(JournalFull, seat.remove, 1, 1)
        hull = SharedHull(capacity=2, seats=2, limit=100, waits=True)
        one, two = hull.acquire_seat(0), hull.acquire_seat(1)
        thread = threading.Thread(target=lambda: [one.add(x, x) for x in range(10)])
        thread.start()
        while thread.is_alive():
            two.drain()
        thread.join()
        two.drain()
        self.assertEqual(two.count(), 10)

    def test_deadlines(self):
        hull = SharedHull(capacity=1, seats=2, limit=100, waits=True)
        one, two = hull.acquire_seat(0), hull.acquire_seat(1)
        self.assertEqual(one.add(1, 1), 1)
        for time in (0, 0.01, 1e-12):
            two.wait_at_most(time)
            self.assertRaises(JournalFull, two.add, 1, 1)
        for time in (-1, float("nan")):
            self.assertRaises(ValueError, two.wait_at_most, time)
        self.assertEqual((hull.stats().held, hull.stats().turn, hull.stats().seat, hull.stats().inside), (1, 4, None, 0))
        self.assertEqual(hull.stats().combined, 0)
        two.wait_at_most(None)
        thread = threading.Thread(target=two.add, args=(1, 1))
        thread.start()
        while hull.stats().for_space == 0:
            pass
        one.drain()
        thread.join()
        self.assertTrue(issubclass(Busy, Exception) and hull.stats().sleepers == 0)

    def test_a_file(self):
        with tempfile.TemporaryDirectory() as folder:
            path = os.path.join(folder, "zone.journal")
            lines = 0
            for again in range(1, 4):
                hull = SharedHull.open_journal(path, capacity=50, seats=4, limit=200, every=0.001 if again == 2 else None)
                self.assertEqual(hull.durable(), lines)
                self.assertEqual(repr(hull), "<SharedHull for 50 calls with a journal file, 0 of 4 seats acquired>")
                with self.assertRaisesRegex(BlockingIOError, "another hull has the file"):
                    SharedHull.open_journal(path, capacity=50, seats=4)

                def add(number):
                    with hull.acquire_seat(number) as seat:
                        seat.wait_durable()
                        for x in range(20):
                            self.assertEqual(seat.add(x, number), again)
                            seat.wait_durable()
                            self.assertGreater(hull.durable(), seat.turn())

                threads = [threading.Thread(target=add, args=(number,)) for number in range(4)]
                for thread in threads:
                    thread.start()
                for thread in threads:
                    thread.join()
                seat = hull.acquire_seat(0)
                self.assertRaises(SeatsOut, hull.close)
                self.assertEqual(seat.count(), 80)
                self.assertGreater(hull.sync(), seat.turn())
                seat.release()
                self.assertRaises(ValueError, seat.wait_durable)
                text = hull.close().splitlines()
                lines = int(text[0].split()[4]) + len(text) - 2
                self.assertRaises(ValueError, hull.durable)
            with open(path, encoding="ascii") as file:
                self.assertEqual(sum(" add " in line for line in file), 240)
            self.assertEqual(SharedHull.compact(path), lines)
            with open(path, encoding="ascii") as file:
                self.assertEqual(len(list(file)), 244)
            self.assertRaises(ValueError, SharedHull.compact, "a\0b")
            with open(path, "w", encoding="ascii") as file:
                file.write("somebody's\n")
            self.assertRaises(JournalFault, SharedHull.open_journal, path, capacity=1, seats=1)
            for missing in (os.path.join(folder, "none", "at all"), os.fsencode(os.path.join(folder, "none", "at all"))):
                for call in (functools.partial(SharedHull.open_journal, capacity=1, seats=1), SharedHull.compact):
                    with self.assertRaises(FileNotFoundError) as refused:
                        call(missing)
                    self.assertEqual(refused.exception.filename, missing)
            self.assertRaises(FileNotFoundError, SharedHull.compact, os.path.join(folder, "none"))
            self.assertFalse(os.path.exists(os.path.join(folder, "none")))
            for wrong in ({"seats": SEAT_LIMIT}, {"capacity": 0}, {"limit": 0}, {"readers": READER_LIMIT + 1}, {"every": -1.0}):
                with self.assertRaises(ValueError):
                    SharedHull.open_journal(os.path.join(folder, "new"), **{"capacity": 1, "seats": 1, **wrong})
                self.assertFalse(os.path.exists(os.path.join(folder, "new")), wrong)

    def test_a_file_stays_open_while_a_reader_is_acquired(self):
        with tempfile.TemporaryDirectory() as folder:
            path = os.path.join(folder, "zone.journal")
            hull = SharedHull.open_journal(path, capacity=50, seats=2, readers=1)
            reader = hull.acquire_reader()
            with hull.acquire_seat(0) as seat:
                for x in range(10):
                    seat.add(x, 1)
            for _ in range(2):
                self.assertRaisesRegex(SeatsOut, "a reader of the hull is acquired", hull.close)
            with hull.acquire_seat(1) as seat:
                for x in range(100):
                    seat.add(x, 2)
                seat.wait_at_most(600)
                seat.wait_durable()
            reader.release()
            hull.close()
            with open(path, encoding="ascii") as file:
                self.assertEqual(sum(" add " in line for line in file), 110)
            hull = SharedHull.open_journal(path, capacity=50, seats=2, readers=1)
            reader, seat = hull.acquire_reader(), hull.acquire_seat(0)
            seat.add(1000, 1000)
            seat.release()
            self.assertRaises(SeatsOut, hull.close)
            del hull, reader, seat  # the last of them closes the file
            with open(path, encoding="ascii") as file:
                self.assertIn(" add 1000 1000 = added\n", file.read())
            SharedHull.open_journal(path, capacity=50, seats=1).close()

    def test_a_close_beside_threads_that_wait(self):
        """It is refused, or they are answered; no line is lost, and no thread asks a file that is closed."""
        with tempfile.TemporaryDirectory() as folder:
            for again in range(20):
                path = os.path.join(folder, str(again))
                hull, ends = SharedHull.open_journal(path, capacity=5000, seats=1), []

                def sync():
                    try:
                        while True:
                            hull.sync()
                    except ValueError as fault:
                        ends.append(str(fault))

                threads = [threading.Thread(target=sync) for _ in range(3)]
                for thread in threads:
                    thread.start()
                with hull.acquire_seat(0) as seat:
                    for x in range(300):
                        seat.add(x, again)
                while True:
                    try:
                        hull.close()
                        break
                    except ValueError as fault:
                        self.assertIn("waits for durable lines", str(fault))
                for thread in threads:
                    thread.join()
                self.assertEqual(ends, ["the hull is closed, or has no journal file"] * 3)
                with open(path, encoding="ascii") as file:
                    self.assertEqual(sum(" add " in line for line in file), 300)

    def test_times_are_seconds(self):
        with tempfile.TemporaryDirectory() as folder:
            path = os.path.join(folder, "zone.journal")
            hull = SharedHull.open_journal(path, capacity=400000, seats=1, every=3000.0)
            with hull.acquire_seat(0) as seat:
                for x in range(20):
                    seat.add(x, 1)
                    time.sleep(0.005)
                with open(path, encoding="ascii") as file:
                    self.assertEqual(file.read(), "")  # nothing is written for most of an hour
                times, until = [], time.monotonic() + 300
                while len(times) < 20 and time.monotonic() < until:  # (whether a drain is met while it lasts is up to the scheduler)
                    for x in range(50000):
                        seat.add(x % 1000, x // 1000)
                    thread = threading.Thread(target=hull.sync)
                    thread.start()
                    while thread.is_alive():
                        stats = hull.stats()
                        if stats.drainer is not None:
                            times.append(stats.drains_for)
                    thread.join()
                self.assertTrue(len(times) >= 20 and all(0 <= lasts < 60 for lasts in times), times)
            hull.close()
        hull = SharedHull(capacity=1, seats=1, waits=True)
        with hull.acquire_seat(0) as seat:
            seat.add(1, 1)
            seat.wait_at_most(0.2)
            begun = time.monotonic()
            self.assertRaises(JournalFull, seat.add, 1, 1)
            self.assertGreater(time.monotonic() - begun, 0.1)

    def test_a_seat_is_inside_for_seconds(self):
        hull, ends = SharedHull(capacity=None, seats=1), []

        def ask():
            with hull.acquire_seat(0) as seat:
                for x in range(50000):
                    seat.add(x, x * x)
                while not ends:
                    seat.vertices()

        thread, begun, found = threading.Thread(target=ask), time.monotonic(), []
        thread.start()
        while len(found) < 5 and time.monotonic() < begun + 300:
            stats = hull.stats()
            if stats.seat_for > 0:
                found.append((stats.seat, 0 < stats.seat_for < time.monotonic() - begun + 0.1, stats.inside))
        ends.append(True)
        thread.join()
        self.assertEqual(found, [(0, True, 1)] * 5)

    def test_a_file_that_is_written_again_and_again(self):
        """Each line becomes durable with no thread that waits for it; a seat with no line waits for none."""
        for every in (0, 1e-9, 0.01):
            with tempfile.TemporaryDirectory() as folder:
                hull = SharedHull.open_journal(os.path.join(folder, "zone.journal"), capacity=50, seats=1, every=every)
                with hull.acquire_seat(0) as seat:
                    seat.wait_at_most(300)
                    seat.wait_durable()
                    for x in range(3):
                        seat.add(x, x)
                        until = time.monotonic() + 300
                        while hull.durable() <= seat.turn() and time.monotonic() < until:
                            time.sleep(0.001)
                        self.assertGreater(hull.durable(), seat.turn(), every)
                hull.close()
        with tempfile.TemporaryDirectory() as folder:
            hull = SharedHull.open_journal(os.path.join(folder, "zone.journal"), capacity=50, seats=1)
            with hull.acquire_seat(0) as seat:
                seat.wait_at_most(0)
                seat.add(1, 1)
                self.assertRaises(Busy, seat.wait_durable)  # nobody has asked for it yet
                seat.wait_at_most(None)
                seat.wait_durable()
                self.assertGreater(hull.durable(), 0)
            hull.close()
        for wrong in (-1, -1e-9, float("nan")):
            self.assertRaises(ValueError, SharedHull.open_journal, "never", capacity=50, seats=1, every=wrong)

    def interrupted(self, wait):
        """Asserts that a signal handler runs while a call waits for ever, and ends the wait by what it raises."""
        def handle(*_):
            raise KeyboardInterrupt

        before = signal.signal(signal.SIGALRM, handle)
        try:
            signal.setitimer(signal.ITIMER_REAL, 0.5)
            self.assertRaises(KeyboardInterrupt, wait)
        finally:
            signal.setitimer(signal.ITIMER_REAL, 0)
            signal.signal(signal.SIGALRM, before)

    def test_signals_beside_waits(self):
        """A call that waits for space is ended by a signal, and not made; one that is not ended waits until there is space."""
        hull, calls = SharedHull(capacity=3, seats=2, waits=True), []
        with hull.acquire_seat(0) as seat, hull.acquire_seat(1) as other:
            first = seat.drain()
            for x in range(3):
                seat.add(x, 0)
            drains = threading.Timer(20, other.drain)  # so that the call ends anyway
            drains.start()
            self.interrupted(lambda: seat.add(3, 0))
            drains.cancel()
            self.assertEqual((seat.turn(), hull.stats().for_space, seat.last_segment() is first), (3, 0, True))
            thread = threading.Thread(target=lambda: calls.append(seat.add(4, 0)))
            thread.start()
            time.sleep(0.3)  # some pieces of its wait
            self.assertEqual(calls, [])
            self.assertEqual(len(list(other.drain())), 6)
            thread.join()
            self.assertEqual((calls, other.count()), ([1], 4))
            seat.add(5, 0)
            seat.wait_at_most(0.25)
            begun = time.monotonic()
            self.assertRaises(JournalFull, seat.add, 6, 0)
            self.assertGreaterEqual(time.monotonic() - begun, 0.24)

    def test_pieces_of_a_sync(self):
        """A sync whose write takes long is made in pieces, which get longer; one beside a close has what closing returned."""
        library, pieces = hull_module._shared_library(), []
        with tempfile.TemporaryDirectory() as folder:
            hull = SharedHull.open_journal(os.path.join(folder, "zone.journal"), capacity=50, seats=1)
            with hull.acquire_seat(0) as seat:
                seat.add(1, 1)
            sync = library.hull_python_sync

            def late(at, piece):
                pieces.append(piece)
                if len(pieces) == 3:
                    hull.close()
                return sync(at, piece) if len(pieces) > 2 else hull_module._Reply(hull_module._Code.NOT_YET, number=2 * (piece or 1))

            library.hull_python_sync = late
            try:
                self.assertEqual((hull.sync(), pieces), (1, [0, 2, 4]))
            finally:
                library.hull_python_sync = sync
            self.assertRaises(ValueError, hull.sync)

    def test_a_file_that_is_refused_is_closed(self):
        with tempfile.TemporaryDirectory() as folder:
            path = os.path.join(folder, "zone.journal")
            for wrong in ({"seats": SEAT_LIMIT}, {"capacity": 0}, {"limit": 0}):
                self.assertRaises(ValueError, SharedHull.open_journal, path, **{"capacity": 10, "seats": 1, **wrong})
            SharedHull.open_journal(path, capacity=10, seats=1).close()

    def test_a_drain_that_is_refused(self):
        library, seat = hull_module._shared_library(), SharedHull(capacity=10, seats=1).acquire_seat(0)
        segment = seat.drain()
        drain = library.hull_python_drain
        library.hull_python_drain = lambda *_: hull_module._Reply(hull_module._Code.BUSY)
        try:
            self.assertRaises(Busy, seat.drain)
        finally:
            library.hull_python_drain = drain
        self.assertIs(seat.last_segment(), segment)

    def test_seats_and_the_journal(self):
        hull = SharedHull(capacity=10, seats=2)
        with hull.acquire_seat(0) as seat:
            for number in (0, 2, -1, SEAT_LIMIT, 1 << 32, (1 << 32) + 1, 1 << 40):
                self.assertRaises(NoSeat, hull.acquire_seat, number)
            seat.add(3, 4)
            self.assertRaises(SeatsOut, hull.close)
        self.assertRaises(ValueError, seat.add, 3, 4)
        seat.release()
        hull.acquire_seat(1)  # released at once
        text = hull.close()
        self.assertIn("add 3 4", text)
        for size in (1, 50, 1 << 16):
            self.assertEqual("".join(hull.close_in_pieces(size)), text)
        self.assertEqual(hull.close(), text)
        self.assertRaises(ValueError, hull.acquire_seat, 0)
        for value in (hull, seat):
            self.assertRaises(TypeError, copy.copy, value)

    def test_the_last_seat_keeps_the_hull(self):
        seat = SharedHull(capacity=10, seats=1).acquire_seat(0)
        self.assertEqual((seat.add(3, 4), seat.count()), (1, 1))

    def test_the_end_of_a_with_closes(self):
        with SharedHull(capacity=10, seats=1) as hull:
            hull.acquire_seat(0).release()
        self.assertRaises(ValueError, hull.acquire_seat, 0)
        with SharedHull(capacity=10, seats=1) as hull:
            hull.close()

    def test_the_end_of_a_with_names_acquired_seats(self):
        with self.assertRaisesRegex(SeatsOut, "seats of the hull are acquired: 1, 3"):
            with SharedHull(capacity=10, seats=4) as hull:
                seats = [hull.acquire_seat(number) for number in (3, 0, 1)]
                seats[1].release()
        seats[0].release()
        self.assertRaisesRegex(SeatsOut, "are acquired: 1$", hull.close)
        with self.assertRaises(ZeroDivisionError):
            with hull:
                1 // 0
        seats[2].release()
        self.assertIn("capacity 10", hull.close())
        hull = SharedHull(capacity=10, seats=SEAT_LIMIT)
        seats = [hull.acquire_seat(number) for number in (63, 31, 40, 32)]
        self.assertRaisesRegex(SeatsOut, "are acquired: 31, 32, 40, 63$", hull.close)

    def test_vertices(self):
        hull = SharedHull(capacity=2000, seats=1)
        with hull.acquire_seat(0) as seat:
            self.assertEqual((seat.vertices(), seat.turn()), ([], 0))
            for x in range(100):
                seat.add(x, x * x)
            self.assertEqual(seat.vertices(), [(x, x * x) for x in range(100)])
            self.assertEqual(seat.turn(), 102)  # there was no space at first
            self.assertEqual((len(seat.vertices()), seat.turn()), (100, 103))

    def test_what_is_printed(self):
        hull = SharedHull(capacity=9, seats=2, limit=5, first=7)
        seat = hull.acquire_seat(1)
        seat.count()
        self.assertEqual(repr(hull), "<SharedHull for 9 calls from 7, limit 5, 1 of 2 seats acquired>")
        self.assertEqual(repr(SharedHull(None, 2)), "<SharedHull without a journal, from 0, limit 1048576, 0 of 2 seats acquired>")
        self.assertEqual(repr(seat), "<Seat 1, acquired, last turn 7>")
        seat.release()
        self.assertEqual(repr(seat), "<Seat 1, released, last turn 7>")


@unittest.skipUnless(hasattr(hull_module._shared_library(), "hull_overlaps"), "the library counts no overlaps")
class Locks(unittest.TestCase):
    """By a library that is slowed down, and counts the calls on a shared hull, a seat or a segment that begin while another is under way."""

    def setUp(self):
        self.hull = SharedHull(capacity=1000, seats=2)
        self.seat = self.hull.acquire_seat(0)

    def race(self, *calls):
        """The calls at once, each in a thread of its own."""
        failed = []

        def run(call):
            try:
                for _ in range(30):
                    call()
            except Exception as fault:  # what a thread raises is lost otherwise
                failed.append(fault)

        threads = [threading.Thread(target=run, args=(call,)) for call in calls]
        for thread in threads:
            thread.start()
        for thread in threads:
            thread.join()
        self.assertEqual((failed, hull_module._shared_library().hull_overlaps()), ([], 0))

    def close(self):
        self.assertRaises(SeatsOut, self.hull.close)

    def test_one_seat(self):
        self.race(lambda: self.seat.add(1, 2), self.seat.count, self.seat.drain, self.seat.vertices)

    def test_one_shared_hull(self):
        self.race(lambda: self.hull.acquire_seat(1).release(), self.close,
                  lambda: self.assertRaises(SeatsOut, self.hull.__exit__, None, None, None), lambda: repr(self.hull))

    def test_one_text(self):
        segment = self.seat.drain()
        self.seat.release()
        self.race(self.hull.close, self.hull.close, segment.text, lambda: list(segment), segment.text)

    def test_a_seat_released_while_it_is_asked(self):
        seat, is_asked, faults = SharedHull(capacity=None, seats=1).acquire_seat(0), threading.Event(), []

        def ask():
            try:
                while True:
                    seat.count()
                    is_asked.set()
            except ValueError as fault:
                faults.append(str(fault))

        thread = threading.Thread(target=ask)
        thread.start()
        self.assertTrue(is_asked.wait(300))
        seat.release()
        thread.join(300)
        self.assertEqual((thread.is_alive(), faults), (False, ["the seat or reader was released"]))
        self.assertEqual(hull_module._shared_library().hull_overlaps(), 0)


class Threads(unittest.TestCase):
    def make_calls(self, hull, number, calls):
        """So many mixed calls of one seat, each with a number above that of the one before."""
        numbers = random.Random(number)
        with hull.acquire_seat(number) as seat:
            kinds = [seat.add, seat.add, seat.remove, seat.place, seat.tangents, seat.extreme]
            last = -1
            for _ in range(calls):
                numbers.choice(kinds)(numbers.randrange(-1000, 1001), 2 * numbers.randrange(-500, 500) + 1)
                self.rising[number] &= seat.turn() > last
                last = seat.turn()
            self.made[number] = calls

    def test_eight_threads(self):
        calls = int(os.environ.get("CALLS", 1000))
        hull = SharedHull(capacity=8 * calls, seats=8)
        self.rising, self.made = [True] * 8, [0] * 8
        threads = [threading.Thread(target=self.make_calls, args=(hull, number, calls)) for number in range(8)]
        for thread in threads:
            thread.start()
        for thread in threads:
            thread.join()
        self.assertEqual((self.rising, self.made), ([True] * 8, [calls] * 8))
        text = hull.close()
        self.assertEqual(len(text.splitlines()), 8 * calls + 2)
        if "JOURNAL" in os.environ:
            with open(os.environ["JOURNAL"], "w", encoding="ascii") as file:
                file.write(text)


if __name__ == "__main__":
    unittest.main()
