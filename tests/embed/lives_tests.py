"""When hulls, seats and segments of python/hull.py end: in garbage, at exit, in signals' handlers, beside threads and in forks.

What has to end its process is run in one of its own; one that hangs is killed, and fails.
"""
import ctypes
import gc
import itertools
import math
import os
import shutil
import signal
import subprocess
import sys
import tempfile
import threading
import time
import unittest
from array import array

import hull as hull_module
from hull import Ended, Hull, SeatsOut, SharedHull

PATIENCE = 300  # seconds until what still runs counts as hung, also on a machine with much else to do
SQUARE = [(0, 0), (10, 0), (10, 10), (0, 10)]
HEAD = "from hull import *\nimport atexit, gc, os, signal, sys, threading, time\nsquare = [(0, 0), (10, 0), (10, 10), (0, 10)]\n"


def run(text, head=HEAD):
    """What a program writes, and the status that it ends with."""
    ran = subprocess.run([sys.executable, "-c", head + text], stdout=subprocess.PIPE, stderr=subprocess.STDOUT, timeout=PATIENCE)
    return ran.stdout.decode(), ran.returncode


def in_child(work):
    """Returns what a child of a fork reports: the name of the fault, "" if there was none, its status if it died; None if it hung."""
    reading, writing = os.pipe()
    child = os.fork()
    if child == 0:
        try:
            work()
            fault_name = ""
        except BaseException as fault:
            fault_name = type(fault).__name__
        os.write(writing, fault_name.encode())
        os._exit(0)
    os.close(writing)
    until = time.monotonic() + PATIENCE
    while time.monotonic() < until:
        ended, status = os.waitpid(child, os.WNOHANG)
        if ended != 0:
            with open(reading, "rb") as file:
                return file.read().decode() if status == 0 else f"status {status}"
        time.sleep(0.005)
    os.kill(child, signal.SIGKILL)
    os.waitpid(child, 0)
    os.close(reading)
    return None


class _Mallinfo(ctypes.Structure):
    """mallinfo2 of the C library (glibc 2.33)."""

    _fields_ = [(name, ctypes.c_size_t) for name in "arena ordblks smblks hblks hblkhd usmblks fsmblks uordblks fordblks keepcost".split()]


def bytes_in_use():
    """Returns how many bytes of malloc's are in use; None if the C library does not say."""
    ask = getattr(ctypes.CDLL(None), "mallinfo2", None)
    if ask is None:
        return None
    ask.restype = _Mallinfo
    gc.collect()
    found = ask()
    return found.uordblks + found.hblkhd


def lost_by(work, times):
    """Returns how many bytes a deed does not give back, in the mean of so many times: the least of three tries, since the interpreter has
    caches of its own."""
    if bytes_in_use() is None:
        return 0
    least = math.inf
    for _ in range(3):
        work()
        before = bytes_in_use()
        for _ in range(times):
            work()
        least = min(least, (bytes_in_use() - before) / times)
    return least


def run_counted(test):
    """Runs a test in a process whose allocator keeps no freed blocks that count as used. Returns its status, the status wanted, and its report."""
    ran = subprocess.run([sys.executable, "-W", "ignore", os.path.abspath(__file__), test], stdout=subprocess.PIPE, stderr=subprocess.STDOUT,
                         timeout=PATIENCE, env={**os.environ, "GLIBC_TUNABLES": "glibc.malloc.tcache_count=0"})
    return ran.returncode, 0, ran.stdout.decode()


class Timer:
    """A signal that comes so long after its handler's last call has ended (so that calls of the handler do not nest), and what the handler does."""

    def __init__(self, handler, seconds):
        self.handler, self.seconds = handler, seconds

    def __enter__(self):
        signal.signal(signal.SIGALRM, self.call_handler)
        signal.setitimer(signal.ITIMER_REAL, self.seconds)

    def __exit__(self, *_):
        signal.signal(signal.SIGALRM, lambda *_: None)  # one may be on its way
        signal.setitimer(signal.ITIMER_REAL, 0)

    def call_handler(self, *how):
        try:
            self.handler(*how)
        finally:
            signal.setitimer(signal.ITIMER_REAL, self.seconds)


class Interrupted(Exception):
    """What a handler raises."""


class Garbage(unittest.TestCase):
    def test_a_finalizer_asks_what_it_refers_to(self):
        answers = []

        class Map:
            def __init__(self, zone):
                self.zone, self.parent = zone or Hull(SQUARE), self
                self.polygon = self.zone.polygon()

            def __del__(self):
                self.zone.add(20, 5)
                answers.append((self.zone.doubled_area(), self.zone.vertices(), len(self.zone), self.polygon.doubled_area()))

        for made_before in range(300):  # the collector goes by the order in which objects were made
            Map(Hull(SQUARE) if made_before % 2 else None)
        gc.collect()
        self.assertEqual(answers, [(300, [(0, 0), (10, 0), (20, 5), (10, 10), (0, 10)], 5, 200)] * 300)

    def test_a_journal_in_garbage(self):
        answers = []

        class Book:
            def __init__(self, hull, seat):
                self.hull, self.seat, self.parent = hull, seat, self
                self.seat.add(3, 4)

            def __del__(self):
                answers.append(self.seat.count())
                self.seat.release()
                answers.append(self.hull.close().count("\n"))

        for _ in range(300):
            hull = SharedHull(capacity=9, seats=2)
            Book(hull, hull.acquire_seat(1))
        del hull
        gc.collect()
        self.assertEqual(answers, [1, 4] * 300)

    def test_the_collector_does_not_know_them(self):
        shared = SharedHull(capacity=9, seats=1)
        seat = shared.acquire_seat(0)
        for place in (Hull()._at, shared._shared, seat._at, seat.drain()._at):
            self.assertFalse(gc.is_tracked(place))

    def test_seats_in_garbage(self):
        hull = SharedHull(capacity=None, seats=64)
        before = gc.get_threshold()
        acquired = 0
        try:
            for threshold in (1, 3, 50, 700):
                gc.set_threshold(threshold)
                for number in itertools.islice(itertools.cycle(range(64)), 500):
                    try:
                        cycle = [hull.acquire_seat(number)]
                    except hull_module.NoSeat:  # it is in garbage still
                        gc.collect()
                        cycle = [hull.acquire_seat(number)]
                    cycle.append(cycle)
                    cycle[0].add(number, acquired % 5)
                    acquired += 1
                    if number % 16 == 0:
                        self.assertRaises(SeatsOut, hull.close)
        finally:
            gc.set_threshold(*before)
        del cycle
        gc.collect()
        self.assertEqual((acquired, hull.close().count("\n")), (2000, 2))

    def test_what_is_dropped_ends(self):
        self.assertEqual(*run_counted("Lost.test_each_object"))


class Exits(unittest.TestCase):
    def test_what_asks_last(self):
        program = """
class Map:
    def __init__(self):
        self.zone, self.parent = Hull(square), self
    def __del__(self):
        print("module", self.zone.doubled_area(), flush=True)
def asked():
    hull = Hull(square)
    try:
        yield hull
    finally:
        print("generator", hull.doubled_area(), flush=True)
last, running = Map(), asked()
next(running)
print("end", flush=True)
"""
        older = "import atexit\natexit.register(lambda: print('atexit', last.zone.doubled_area(), flush=True))\n"
        for more in ("", "import hull\n", "import hull\nsys.modules['__main__'].module = sys.modules['__main__']\n"):
            text, status = run(program, older + HEAD + more)
            lines = text.splitlines()
            self.assertEqual((lines[:2], sorted(lines[2:]), status), (["end", "atexit 200"], ["generator 200", "module 200"], 0))

    def test_daemon_threads(self):
        for n in range(0, 12, 2):
            self.assertEqual(run(f"""
shared, hull = SharedHull(capacity=None, seats=4), Hull()
def work(number):
    seat = shared.acquire_seat(number)
    while True:
        seat.add(number, 5)
        hull.add_all([(x, x * x) for x in range(50)])
        hull.vertices()
        seat.remove(number, 5)
for number in range(4):
    threading.Thread(target=work, args=(number,), daemon=True).start()
time.sleep(0.0{n + 3:02d})
"""), ("", 0))

    def test_lines_beside_a_daemon_thread(self):
        """A function of a thread that runs on keeps the module's names, and so the hull, from being freed. A hull that was closed, and those in the
        child of a fork, are passed over."""
        with tempfile.TemporaryDirectory() as folder:
            path = f"{folder}/journal"
            self.assertEqual(run(f"""
hull = SharedHull.open_journal({path!r}, capacity=20, seats=1)
seat = hull.acquire_seat(0)
for x in range(5):
    seat.add(x, 0)
closed = SharedHull.open_journal({path!r} + "2", capacity=20, seats=1)
closed.close()
if os.fork() == 0:
    sys.exit()
os.wait()
def wait():
    while True:
        time.sleep(60)
threading.Thread(target=wait, daemon=True).start()
"""), ("", 0))
            with SharedHull.open_journal(path, capacity=20, seats=1) as hull, hull.acquire_seat(0) as seat:
                self.assertEqual(seat.count(), 5)


class Signals(unittest.TestCase):
    def test_one_call_one_reply(self):
        hull, shapes = Hull(SQUARE), [[], SQUARE, [(x, x * x) for x in range(200)], [(x, x * x) for x in range(60)], [(7, 7)]]
        wrong, asked, loads, until = [], 0, [], time.monotonic() + PATIENCE

        def load(*_):
            hull.load(shapes[len(loads) % 5])
            loads.append(True)

        with Timer(load, 0.0003):
            while (asked < 1000 or len(loads) < 1000) and time.monotonic() < until:
                found, twin = hull.vertices(), hull.copy()
                asked += 1
                if found not in shapes or twin.vertices() not in shapes:
                    wrong.append(found)
        self.assertEqual((wrong, asked >= 1000, len(loads) >= 1000), ([], True, True))

    def test_interrupted_seats(self):
        armed = []

        def interrupt(*_):
            if armed:
                armed.clear()
                raise Interrupted

        shared, interrupts, drained, until = SharedHull(capacity=None, seats=2), 0, 0, time.monotonic() + PATIENCE
        with Timer(interrupt, 0.0004):
            while (interrupts < 60 or drained < 60) and time.monotonic() < until:
                try:
                    armed.append(True)
                    while True:
                        with shared.acquire_seat(1) as seat:
                            seat.add(1, 2)
                            seat.drain()
                            drained += 1
                except Interrupted:
                    interrupts += 1
                seat = None
                gc.collect()  # a frame of the traceback may have it still
                shared.acquire_seat(1).release()
        self.assertEqual((interrupts >= 60, drained >= 60, shared.close().count("\n")), (True, True, 2))

    def test_a_handler_makes_calls(self):
        shared = SharedHull(capacity=None, seats=1)
        seat, hull, turns, handled, added = shared.acquire_seat(0), Hull(), itertools.count(), [], 0
        until = time.monotonic() + PATIENCE

        def handler(*_):
            seat.add(next(turns), 5)
            hull.add(1, 2)
            handled.append(repr(shared))

        with Timer(handler, 0.0003):
            while len(handled) < 1000 and time.monotonic() < until:
                added = seat.add(-1, -1) if added < 60000 else added
                hull.add_all(SQUARE)
                hull.clear()
                self.assertRaises(SeatsOut, shared.close)
                repr(seat)
        self.assertEqual((len(handled) >= 1000, seat.count()), (True, next(turns) + 1))


class Forks(unittest.TestCase):
    def test_a_child_goes_on_with_a_hull(self):
        hull, polygon = Hull(SQUARE), Hull(SQUARE).polygon()

        def work():
            assert (hull.doubled_area(), polygon.doubled_area(), hull.add(20, 5)) == (200, 200, 1)
            assert hull.copy().doubled_area() == 300

        self.assertEqual((in_child(work), hull.doubled_area()), ("", 200))

    def test_a_hull_in_which_a_thread_was(self):
        hull, stop = Hull(), threading.Event()
        points = array("q", (number for x in range(100000) for number in (x * 7 % 100003, x * x % 100003)))

        def load():
            while not stop.is_set():
                hull.load(memoryview(points).cast("B").cast("q", (100000, 2)))

        def ask_each():
            """Makes calls of each kind, all of which raise or none."""
            ended = 0
            calls = (hull.doubled_area, hull.copy, hull.vertices, hull.limit, lambda: hull.place_all([(1, 1)]), lambda: next(hull.items(), None),
                     lambda: hull.nearest_held(1, 1), lambda: hull.add_all([(1, 1)]), hull.clear)
            for call in calls:
                try:
                    call()
                except Ended:
                    ended += 1
            assert ended in (0, len(calls)), ended
            if ended:
                type(hull._at).__del__(hull._at)  # (as of the last reference: what is torn is not freed)
                raise Ended

        thread = threading.Thread(target=load)
        thread.start()
        # (whether the thread is in a call at a fork is up to the scheduler: fork until it was three times, which on one core takes more forks)
        faults, until = [], time.monotonic() + PATIENCE
        while faults.count("Ended") < 3 and time.monotonic() < until:
            faults.append(in_child(ask_each))
        stop.set()
        thread.join()
        self.assertTrue({"Ended"} <= set(faults) <= {"", "Ended"}, faults)
        self.assertEqual(len(hull), len(set(zip(points[0::2], points[1::2]))))

    def test_a_child_has_no_shared_hull(self):
        shared = SharedHull(capacity=1 << 20, seats=3)
        asked, stop = shared.acquire_seat(0), threading.Event()
        threads = [threading.Thread(target=self.make_calls, args=(shared, number, stop)) for number in (1, 2)]
        for thread in threads:
            thread.start()
        faults = [in_child(call) for _ in range(8) for call in (
            lambda: asked.add(1, 2), shared.close, lambda: shared.acquire_seat(2), asked.drain,
            lambda: SharedHull(4, 1).acquire_seat(0).count())]
        stop.set()
        for thread in threads:
            thread.join()
        self.assertEqual(faults, ["Ended", "Ended", "Ended", "Ended", ""] * 8)
        segment = asked.drain()
        self.assertEqual(in_child(lambda: asked.release() or len(segment.text())), "")
        asked.release()
        self.assertEqual(shared.close().count("\n"), 2)

    def make_calls(self, shared, number, stop):
        with shared.acquire_seat(number) as seat:
            while not stop.is_set():
                for _ in range(1000):
                    seat.add(number, 3)
                    seat.remove(number, 3)
                seat.drain()


@unittest.skipUnless("tcache_count=0" in os.environ.get("GLIBC_TUNABLES", "") and bytes_in_use(), "the allocator does not count what is in use")
class Lost(unittest.TestCase):
    def test_each_object(self):
        """A hull, a seat, a reader, a segment or a journal file to which nothing refers frees all of its memory."""
        path = tempfile.mkdtemp()

        def shared(**how):
            return SharedHull(capacity=50, seats=1, **how)

        def seat_of(hull):
            seat = hull.acquire_seat(0)
            seat.add(1, 2)
            return seat

        def refuse(call, fault):
            self.assertRaises(fault, call)

        works = {
            "a hull": Hull, "points": lambda: Hull((x, x * x) for x in range(300)).copy(), "a polygon": lambda: Hull(SQUARE).polygon().translate(1, 1),
            "a shared hull": shared, "a closed one": lambda: shared().close(), "a seat": lambda: seat_of(shared()),
            "a released seat": lambda: seat_of(shared()).release(), "segments": lambda: [seat_of(shared()).drain() for _ in range(3)],
            "a reader": lambda: shared(readers=2).acquire_reader().snapshot(),
            "a released reader": lambda: shared(readers=1).acquire_reader().release(),
            "a seat that is not there": lambda: refuse(lambda: shared().acquire_seat(3), hull_module.NoSeat),
            "a reader that is not there": lambda: refuse(shared().acquire_reader, hull_module.NoSeat),
            "limits that are none": lambda: refuse(lambda: SharedHull(0, 1), ValueError),
            "a journal file": lambda: seat_of(SharedHull.open_journal(f"{path}/zone", 50, 1)).wait_durable(),
            "one that is refused": lambda: refuse(lambda: SharedHull.open_journal(f"{path}/none/zone", 50, 1), OSError),
            "one that is not started": lambda: refuse(lambda: SharedHull.open_journal(f"{path}/other", 0, 1), ValueError),
            "a text that is none": lambda: refuse(lambda: SharedHull.reopen("none", 5, 1), hull_module.JournalFault),
        }
        for name, work in works.items():
            lost = lost_by(work, 60)
            self.assertLess(lost, 8, f"{name}: {lost} bytes are lost each time")
        shutil.rmtree(path)

    def test_what_was_made_before_a_refusal_ends(self):
        """What was made before memory was refused is freed."""
        library = hull_module._shared_library()

        def ask_refused(ask, refuse, request):
            refuse(request)
            try:
                ask()
            except MemoryError:
                pass
            refuse(-1)

        def ask_shared():
            with SharedHull(capacity=9, seats=1, readers=1) as shared, shared.acquire_reader() as reader, shared.acquire_seat(0) as seat:
                return seat.add(1, 2), seat.drain().text(), reader.snapshot()

        for name, ask, refuse in (("a shared hull", ask_shared, library.hull_refuse),
                                  ("a hull", lambda: Hull(SQUARE).copy().polygon(), hull_module._LIBRARY.hull_refuse)):
            for request in range(25):
                lost = lost_by(lambda: ask_refused(ask, refuse, request), 10)
                self.assertLess(lost, 8, f"{name}, request {request}: {lost} bytes are lost each time")


@unittest.skipUnless(hasattr(hull_module._shared_library(), "hull_refuse"), "the library refuses no memory")
class Refusals(unittest.TestCase):
    def test_texts(self):
        """If memory is refused, a text raises, and comes when it is asked for again."""
        library, refused = hull_module._shared_library(), 0
        for request in range(60):
            shared = SharedHull(capacity=9, seats=1)
            seat = shared.acquire_seat(0)
            seat.add(1, 2)
            segment = seat.drain()
            seat.release()
            for ask, lines in ((segment.text, 4), (lambda: "".join(segment.pieces(30)), 4), (shared.close, 2)):
                library.hull_refuse(request)
                try:
                    self.assertEqual(ask().count("\n"), lines)
                except MemoryError:
                    refused += 1
                library.hull_refuse(-1)
                self.assertEqual(ask().count("\n"), lines)
        self.assertTrue(5 < refused < 170, refused)

    def test_opening(self):
        library, refused = hull_module._shared_library(), 0
        for request in range(80):
            library.hull_refuse(request)
            try:
                with SharedHull(capacity=9, seats=1) as shared:
                    with shared.acquire_seat(0) as seat:
                        self.assertEqual((seat.add(1, 2), seat.vertices(), seat.drain().text().count("\n")), (1, [(1, 2)], 5))
            except MemoryError:
                refused += 1
            library.hull_refuse(-1)
        self.assertTrue(8 < refused < 70, refused)

    def test_nothing_is_lost(self):
        self.assertEqual(*run_counted("Lost.test_what_was_made_before_a_refusal_ends"))


if __name__ == "__main__":
    unittest.main()
