//! Each function of a shared hull in `rust/hull`, each of its answers and each of its faults; and eight threads at
//! once, the journal of whose calls goes to the file that JOURNAL names.
use hull::{Fault, Limits, Place, Point, Polygon, Relation, Seat, SharedHull};
use hull::{CAPACITY_LIMIT, COORDINATE_LIMIT, POINT_LIMIT, READER_LIMIT, SEAT_LIMIT};
use std::sync::atomic::{AtomicUsize, Ordering};
use std::sync::{Arc, Mutex};
use std::thread;
use std::time::{Duration, Instant};

fn point(x: i64, y: i64) -> Point {
    Point { x, y }
}

const SMALL: Limits = Limits { points: 6, first: 7, capacity: 100, seats: 2 };

#[test]
fn limits() {
    let wrong = [
        Limits { points: 0, ..SMALL },
        Limits { points: POINT_LIMIT + 1, ..SMALL },
        Limits { capacity: 0, ..SMALL },
        Limits { capacity: CAPACITY_LIMIT + 1, ..SMALL },
        Limits { seats: 0, ..SMALL },
        Limits { seats: SEAT_LIMIT + 1, ..SMALL },
    ];
    for limits in wrong {
        assert_eq!(SharedHull::open(limits).unwrap_err(), Fault::BadLimit, "{limits:?}");
    }
    SharedHull::open(Limits { points: POINT_LIMIT, first: u64::MAX, capacity: 1, seats: SEAT_LIMIT }).unwrap();
}

#[test]
fn calls() {
    let hull = SharedHull::open(SMALL).unwrap();
    let mut seat = hull.acquire_seat(1).unwrap();
    assert_eq!((seat.number(), seat.turn()), (1, None));
    assert_eq!(seat.extreme(point(1, 0)), Ok(None));
    assert_eq!((seat.turn(), seat.place(point(0, 0))), (Some(7), Ok(Place::Outside)));
    assert_eq!(seat.tangents(point(0, 0)), Ok(None));
    for (x, y) in [(0, 0), (10, 0), (10, 10), (0, 10), (4, 4)] {
        assert_eq!(seat.add(point(x, y)), Ok(1));
    }
    assert_eq!((seat.add(point(4, 4)), seat.remove(point(4, 4))), (Ok(2), Ok(Some(1))));
    assert_eq!((seat.remove(point(4, 4)), seat.remove(point(4, 4))), (Ok(Some(0)), Ok(None)));
    assert_eq!((seat.place(point(5, 5)), seat.place(point(10, 5))), (Ok(Place::Inside), Ok(Place::On)));
    assert_eq!(seat.tangents(point(20, 5)), Ok(Some((point(10, 0), point(10, 10)))));
    assert_eq!(seat.extreme(point(0, 1)), Ok(Some(point(0, 10))));
    assert_eq!((seat.vertex_count(), seat.doubled_area(), seat.count()), (Ok(4), Ok(200), Ok(4)));
    assert_eq!(seat.turn(), Some(25));
}

#[test]
fn segments() {
    let hull = SharedHull::open(Limits { points: 6, first: 7, capacity: 3, seats: 1 }).unwrap();
    let mut seat = hull.acquire_seat(0).unwrap();
    seat.add(point(1, 2)).unwrap();
    let segment = seat.drain().unwrap();
    let head = "hullbook journal 3 first 7 limit 6 capacity 4\n";
    assert_eq!(segment.text().unwrap(), format!("{head}7 0 add 1 2 = added\n8 0 count = count 1\nend 2\n"));
    assert_eq!(segment.lines().unwrap().last().unwrap(), "end 2");
    for bytes in [0, 1, 20, 46, 47, 66, 67, 1000] {
        let pieces: Vec<String> = segment.pieces(bytes).map(Result::unwrap).collect();
        assert_eq!(pieces.concat(), segment.text().unwrap(), "{bytes}");
        assert!(pieces.iter().all(|piece| piece.len() <= bytes.max(46) && piece.ends_with('\n')), "{pieces:?}");
    }
    let mut written = Vec::new();
    segment.write_to(&mut written).unwrap();
    assert_eq!(written, segment.text().unwrap().into_bytes());
    seat.add(point(1, 2)).unwrap();
    seat.drain().unwrap();
    for x in 0..3 {
        seat.add(point(x, 5)).unwrap();
    }
    assert_eq!((seat.add(point(0, 0)), seat.count()), (Err(Fault::Full), Err(Fault::Full)));
    let head = "hullbook journal 3 first 11 limit 6 capacity 4\n";
    let lines = "11 0 add 0 5 = added\n12 0 add 1 5 = added\n13 0 add 2 5 = added\n14 0 count = count 4\nend 4\n";
    assert_eq!(seat.drain().unwrap().text().unwrap(), format!("{head}{lines}"));
    assert_eq!((seat.add(point(0, 0)), seat.turn()), (Ok(1), Some(15)));
    seat.release();
    let head = "hullbook journal 3 first 15 limit 6 capacity 3\n";
    assert_eq!(hull.close().unwrap(), format!("{head}15 0 add 0 0 = added\nend 1\n"));
    written.clear();
    hull.close_to(&mut written).unwrap();
    assert_eq!(written, hull.close().unwrap().into_bytes());
    let hull = SharedHull::open(SMALL).unwrap();
    let _seat = hull.acquire_seat(0).unwrap();
    let fault = hull.close_to(&mut written).unwrap_err().into_inner().unwrap();
    assert_eq!(fault.downcast_ref::<Fault>(), Some(&Fault::SeatsOut));
}

/// Each reason why a text can't be continued, and a text that is continued.
#[test]
fn reopened() {
    let head = "hullbook journal 3 first 5 limit 3 capacity 9\n";
    let wrong = [
        (String::new(), Fault::NoJournal { line: 1, fault: 6 }),
        (format!("{head}5 1 add 0 = added\nend 1\n"), Fault::NoJournal { line: 2, fault: 2 }),
        (head.replace('3', "2") + "end 0\n", Fault::OldRules),
        (format!("{head}5 7 add 0 0 = added\nend 1\n"), Fault::TooFewSeats { wanted: 8 }),
        (format!("{head}5 1 add 0 0 = again 2\nend 1\n"), Fault::Illegal { line: 2 }),
    ];
    for (text, fault) in wrong {
        assert_eq!(SharedHull::reopen(&text, 4, 2).unwrap_err(), fault, "{text}");
    }
    let old = format!("{head}5 1 add 0 0 = added\n6 0 add 4 0 = added\nend 2\n");
    assert_eq!(SharedHull::reopen(&old, 0, 2).unwrap_err(), Fault::BadLimit);
    let hull = SharedHull::reopen(&old, 4, 2).unwrap();
    let mut seat = hull.acquire_seat(1).unwrap();
    assert_eq!((seat.add(point(0, 0)), seat.turn(), seat.count()), (Ok(2), Some(7), Ok(2)));
    seat.release();
    let new = "hullbook journal 3 first 7 limit 3 capacity 4\n7 1 add 0 0 = again 2\n8 1 count = count 2\nend 2\n";
    assert_eq!(hull.close().unwrap(), new);
}

#[test]
fn readers() {
    let limits = Limits { points: 10, first: 7, capacity: 20, seats: 1 };
    assert_eq!(SharedHull::open(limits).unwrap().acquire_reader().unwrap_err(), Fault::NoSeat);
    for wrong in [0, READER_LIMIT + 1] {
        assert_eq!(SharedHull::for_readers(wrong).err(), Some(Fault::BadLimit));
    }
    let hull = SharedHull::for_readers(2).unwrap().open(limits).unwrap();
    let (mut one, mut two) = (hull.acquire_reader().unwrap(), hull.acquire_reader().unwrap());
    assert_eq!(hull.acquire_reader().unwrap_err(), Fault::NoSeat);
    assert!(one.snapshot().vertices().is_empty() && one.line().is_none() && one.is_newest());
    let mut seat = hull.acquire_seat(0).unwrap();
    for (x, y) in [(0, 0), (8, 0), (0, 8)] {
        seat.add(point(x, y)).unwrap();
    }
    assert!(!one.is_newest());
    assert_eq!(one.newest().unwrap().vertices(), [point(0, 0), point(8, 0), point(0, 8)]);
    assert_eq!((one.is_newest(), one.line(), seat.turn()), (true, Some(9), Some(9)));
    assert_eq!((one.snapshot().place(point(1, 1)), one.snapshot().doubled_area()), (Ok(Place::Inside), 64));
    seat.remove(point(8, 0)).unwrap();
    assert_eq!(two.read(), Ok(true));
    assert!(one.snapshot().contains(two.snapshot()) && !two.snapshot().contains(one.snapshot()));
    assert_eq!(one.newest().unwrap().vertices(), [point(0, 0), point(0, 8)]); // fewer than before
    assert_eq!(one.line(), Some(10));
    assert!(seat.add(point(8, 0)).is_ok() && one.read() == Ok(true));
    assert_eq!(one.snapshot().relation(&Polygon::new(&[point(0, 0), point(8, 0), point(0, 8)]).unwrap()), Relation::Equal);
    seat.remove(point(8, 0)).unwrap();
    drop(seat);
    assert_eq!(hull.close().unwrap_err(), Fault::SeatsOut);
    thread::spawn(move || drop((one, two))).join().unwrap();
    let text = hull.close().unwrap();
    assert_eq!(hull.acquire_reader().unwrap_err(), Fault::NotOpen);
    let again = SharedHull::for_readers(1).unwrap().reopen(&text, 20, 1).unwrap();
    assert_eq!(again.acquire_reader().unwrap().snapshot().vertices(), [point(0, 0), point(0, 8)]);
    let answering = SharedHull::for_readers(READER_LIMIT).unwrap().open_answering(limits).unwrap();
    assert!(answering.acquire_reader().unwrap().snapshot().vertices().is_empty());
}

#[test]
fn readers_beside_changes() {
    let limits = Limits { points: 1000, first: 0, capacity: 1, seats: 1 };
    let hull = SharedHull::for_readers(4).unwrap().open_without_journal(limits).unwrap();
    let mut seat = hull.acquire_seat(0).unwrap();
    let returned = AtomicUsize::new(0);
    thread::scope(|scope| {
        for _ in 0..4 {
            let (mut reader, returned) = (hull.acquire_reader().unwrap(), &returned);
            scope.spawn(move || {
                let mut most = 0;
                while most < 500 {
                    let added = returned.load(Ordering::SeqCst);
                    let vertices = reader.newest().unwrap().vertices().len();
                    assert!(vertices >= added && vertices >= most, "{vertices} vertices, {added} added, {most} before");
                    most = vertices;
                }
            });
        }
        for i in 0..500 {
            seat.add(point(i, i * i)).unwrap();
            returned.store(i as usize + 1, Ordering::SeqCst);
        }
    });
}

#[test]
fn no_journal() {
    let hull = SharedHull::open_without_journal(SMALL).unwrap();
    let mut seat = hull.acquire_seat(0).unwrap();
    for times in 1..1000 {
        assert_eq!(seat.add(point(1, 2)), Ok(times));
    }
    seat.release();
    assert_eq!(hull.close().unwrap(), "hullbook journal 3 first 1006 limit 6 capacity 1\nend 0\n");
}

#[test]
fn vertices() {
    let hull = SharedHull::open(Limits { points: 1000, capacity: 2000, first: 0, seats: 1 }).unwrap();
    let mut seat = hull.acquire_seat(0).unwrap();
    assert_eq!((seat.vertices().unwrap().len(), seat.vertex_count(), seat.turn()), (0, Ok(0), Some(1)));
    for x in 0..100 {
        seat.add(point(x, x * x)).unwrap();
    }
    assert!(seat.vertices().unwrap().eq((0..100).map(|x| point(x, x * x))));
    assert_eq!(seat.turn(), Some(103)); // the array was too short at first
    assert_eq!((seat.vertices().unwrap().len(), seat.vertex_count(), seat.turn()), (100, Ok(100), Some(105)));
}

#[test]
fn faults_of_calls() {
    let hull = SharedHull::open(Limits { points: 1, capacity: 3, ..SMALL }).unwrap();
    let mut seat = hull.acquire_seat(0).unwrap();
    assert_eq!(seat.add(point(COORDINATE_LIMIT + 1, 0)), Err(Fault::OutOfRange));
    assert_eq!(seat.extreme(point(0, 0)), Err(Fault::ZeroDirection));
    assert_eq!((seat.turn(), seat.add(point(1, 1))), (None, Ok(1)));
    assert_eq!((seat.add(point(2, 2)), seat.count()), (Err(Fault::TooMany), Ok(1)));
    assert_eq!((seat.turn(), seat.count(), seat.turn()), (Some(9), Err(Fault::Full), Some(9)));
    assert_eq!(format!("{seat:?} at {hull:?}"), "Seat { number: 0, turn: Some(9), .. } at SharedHull { .. }");
    let hull = SharedHull::open_answering(Limits { points: 1, capacity: 1, ..SMALL }).unwrap();
    let mut seat = hull.acquire_seat(0).unwrap();
    assert_eq!((seat.add(point(1, 1)), seat.count(), seat.turn()), (Ok(1), Ok(1), Some(7)));
    assert_eq!(seat.remove(point(1, 1)), Err(Fault::Full));
}

#[test]
fn seats_and_the_journal() {
    let hull = SharedHull::open(SMALL).unwrap();
    let mut seat = hull.acquire_seat(0).unwrap();
    assert_eq!(hull.acquire_seat(0).unwrap_err(), Fault::NoSeat);
    assert_eq!(hull.acquire_seat(2).unwrap_err(), Fault::NoSeat);
    assert_eq!(seat.add(point(3, 4)), Ok(1));
    assert_eq!(hull.close().unwrap_err(), Fault::SeatsOut);
    drop(hull.acquire_seat(1).unwrap());
    seat.release();
    let text = hull.close().unwrap();
    assert!(text.contains("add 3 4"), "{text}");
    assert_eq!(hull.close().unwrap(), text);
    assert_eq!(hull.acquire_seat(0).unwrap_err(), Fault::NotOpen);
}

/// A hull that drains by itself and waits for space, while its threads only make calls; the segments are all lines.
#[test]
fn drains_by_itself() {
    let mut hull = SharedHull::open(Limits { points: 2000, first: 0, capacity: 20, seats: 4 }).unwrap();
    let texts = Arc::new(Mutex::new(String::new()));
    let written = texts.clone();
    hull.wait_for_space(true).unwrap();
    hull.on_half_full(move |segment| written.lock().unwrap().push_str(&segment.text().unwrap())).unwrap();
    thread::scope(|scope| {
        for number in 0..4 {
            let mut seat = hull.acquire_seat(number).unwrap();
            scope.spawn(move || (0..500).for_each(|x| assert!(seat.add(point(x, i64::from(number))).unwrap() > 0)));
        }
    });
    let all = texts.lock().unwrap().clone() + &hull.close().unwrap();
    assert_eq!(all.lines().filter(|line| line.contains(" add ")).count(), 2000);
    assert_eq!(hull.stats().seat, None);
}

/// A call panics with what its hook panics with; the next call drains again.
#[test]
fn hooks_that_panic() {
    let mut hull = SharedHull::open(Limits { points: 9, first: 0, capacity: 4, seats: 1 }).unwrap();
    let segments = Arc::new(AtomicUsize::new(0));
    let count = segments.clone();
    hull.on_half_full(move |_| assert!(count.fetch_add(1, Ordering::SeqCst) != 1, "the second segment")).unwrap();
    let mut seat = hull.acquire_seat(0).unwrap();
    let result = std::panic::catch_unwind(std::panic::AssertUnwindSafe(|| (0..100).for_each(|_| assert_eq!(seat.count(), Ok(0)))));
    assert_eq!(*result.unwrap_err().downcast::<&str>().unwrap(), "the second segment");
    assert_eq!((seat.count(), seat.count(), seat.count()), (Ok(0), Ok(0), Ok(0)));
    assert_eq!(segments.load(Ordering::SeqCst), 3);
    assert_eq!((hull.wait_for_space(true), hull.on_half_full(|_| ())), (Err(Fault::SeatsOut), Err(Fault::SeatsOut)));
}

/// A call waits no longer than its seat is set to: for space, and for admission.
/// A seat of a thread, which removes the thread's point when the thread ends.
struct Presence(Seat);

impl Drop for Presence {
    fn drop(&mut self) {
        assert_eq!(self.0.remove(point(1, 2)), Ok(Some(0)));
    }
}

thread_local! {
    static PRESENCE: std::cell::RefCell<Option<Presence>> = const { std::cell::RefCell::new(None) };
}

/// Calls are made at the end of a thread, too, after what the crate has for each thread is gone.
#[test]
fn calls_at_the_end_of_a_thread() {
    let hull = SharedHull::open_without_journal(Limits { points: 4, first: 0, capacity: 1, seats: 2 }).unwrap();
    let seat = hull.acquire_seat(0).unwrap();
    let ended = thread::spawn(move || {
        PRESENCE.with(|presence| {
            let mut presence = presence.borrow_mut();
            assert_eq!(presence.insert(Presence(seat)).0.add(point(1, 2)), Ok(1));
        })
    });
    ended.join().unwrap();
    assert_eq!(hull.acquire_seat(1).unwrap().count(), Ok(0));
    hull.close().unwrap();
}

#[test]
fn deadlines() {
    let mut hull = SharedHull::open(Limits { points: 9, first: 7, capacity: 2, seats: 2 }).unwrap();
    hull.wait_for_space(true).unwrap();
    let (mut one, mut two) = (hull.acquire_seat(0).unwrap(), hull.acquire_seat(1).unwrap());
    one.wait_at_most(Some(Duration::ZERO));
    assert_eq!((one.count(), two.count(), one.count()), (Ok(0), Ok(0), Err(Fault::Full)));
    let begun = Instant::now();
    one.wait_at_most(Some(Duration::from_millis(20)));
    assert_eq!(one.count(), Err(Fault::Full));
    assert!(begun.elapsed() >= Duration::from_millis(20));
    let stats = hull.stats();
    assert_eq!((stats.inside, stats.sleepers, stats.for_space, stats.held, stats.seat, stats.drainer), (0, 0, 0, 2, None, None));
    assert_eq!((stats.out, stats.designated, stats.combined), (2, None, 0));
    one.wait_at_most(None);
    for patience in [None, Some(Duration::MAX), Some(Duration::from_secs(1 << 40)), Some(Duration::from_secs(600))] {
        one.wait_at_most(patience);
        let waiting = thread::spawn(move || (one.count(), one));
        while hull.stats().for_space == 0 {
            thread::yield_now();
        }
        two.drain().unwrap();
        let counted;
        (counted, one) = waiting.join().unwrap();
        assert_eq!((counted, two.count()), (Ok(0), Ok(0))); // which fills it again
    }
}

/// A hull whose journal is in a file, and others that continue it.
#[test]
fn opens_a_journal() {
    let path = std::env::temp_dir().join(format!("hull-journal-{}", std::process::id()));
    let limits = Limits { points: 2000, first: 0, capacity: 50, seats: 4 };
    let mut lines = 0;
    for round in 1..4 {
        let mut hull = SharedHull::open_journal(&path, limits, (round == 2).then(|| Duration::from_millis(1))).unwrap();
        assert_eq!((hull.durable(), hull.wait_for_space(false)), (Ok(lines), Err(Fault::SeatsOut)));
        thread::scope(|scope| {
            for number in 0..4 {
                let mut seat = hull.acquire_seat(number).unwrap();
                let hull = &hull;
                scope.spawn(move || {
                    assert_eq!(seat.wait_durable(), Ok(()));
                    for x in 0..20 {
                        assert_eq!(seat.add(point(x, i64::from(number))), Ok(round));
                        seat.wait_durable().unwrap();
                        assert!(hull.durable().unwrap() > seat.turn().unwrap());
                    }
                });
            }
        });
        assert_eq!(SharedHull::open_journal(&path, limits, None).unwrap_err(), Fault::NoFile { errno: 11 });
        let seat = hull.acquire_seat(0).unwrap();
        assert_eq!((hull.close().unwrap_err(), hull.sync().is_ok()), (Fault::SeatsOut, true));
        drop(seat);
        if round < 3 {
            let text = hull.close().unwrap();
            let first: u64 = text.split(' ').nth(4).unwrap().parse().unwrap();
            lines = first + text.lines().count() as u64 - 2;
            assert_eq!(hull.durable(), Err(Fault::NotOpen));
            assert_eq!((SharedHull::compact(&path), std::fs::read_to_string(&path).unwrap().lines().count()), (Ok(lines), 4 + 80 * round as usize));
        }
    }
    std::fs::write(&path, "somebody's\n").unwrap();
    assert_eq!(SharedHull::open_journal(&path, limits, None).unwrap_err(), Fault::Damaged { line: 1 });
    std::fs::remove_file(&path).unwrap();
    assert_eq!(SharedHull::open_journal("a\0b", limits, None).unwrap_err(), Fault::NoFile { errno: 22 });
    assert_eq!(SharedHull::open(limits).unwrap().durable(), Err(Fault::NotOpen));
}

/// With a time of 0 the lines are written at once, with the longest one not in this test's time.
#[test]
fn times_between_writes() {
    let limits = Limits { points: 9, first: 0, capacity: 50, seats: 1 };
    for (name, every) in [("often", Duration::ZERO), ("late", Duration::MAX)] {
        let folder = Folder::new(name);
        let hull = SharedHull::open_journal(folder.file(), limits, Some(every)).unwrap();
        hull.acquire_seat(0).unwrap().add(point(1, 2)).unwrap();
        let end = Instant::now() + Duration::from_secs(if every.is_zero() { 60 } else { 0 });
        while hull.durable() == Ok(0) && Instant::now() < end {
            thread::sleep(Duration::from_millis(1));
        }
        assert_eq!(hull.durable().unwrap() > 0, every.is_zero());
        hull.close().unwrap();
    }
}

/// A seat with no line waits for none; files that are refused are closed, and say why.
#[test]
fn files_that_are_refused() {
    let _alone = WITHOUT_FORKS.lock();
    let folder = Folder::new("refused");
    let limits = Limits { points: 9, first: 0, capacity: 50, seats: 1 };
    let wrong = [Limits { capacity: 0, ..limits }, Limits { points: 0, ..limits }, Limits { seats: SEAT_LIMIT, ..limits }];
    for limits in wrong {
        assert_eq!(SharedHull::open_journal(folder.file(), limits, None).unwrap_err(), Fault::BadLimit);
        assert!(!folder.file().exists());
    }
    let hull = SharedHull::open_journal(folder.file(), limits, None).unwrap();
    let mut seat = hull.acquire_seat(0).unwrap();
    seat.wait_at_most(Some(Duration::from_secs(5)));
    assert_eq!((seat.turn(), seat.wait_durable()), (None, Ok(())));
    seat.wait_at_most(Some(Duration::ZERO));
    // (a line that nobody has asked for is written after a while, which may have passed if this thread was held up)
    assert!((1..20).any(|times| seat.add(point(1, 1)) == Ok(times) && seat.wait_durable() == Err(Fault::Busy)));
    seat.wait_at_most(None);
    assert_eq!((seat.wait_durable(), hull.durable().unwrap() > 0), (Ok(()), true));
    drop((seat, hull));
    let head = "hullbook journal 3 first 0 limit 9 capacity 9\n";
    for (text, fault) in [
        (format!("{head}0 0 add 1 1 = again 2\nend 1\n"), Fault::Illegal { line: 2 }),
        (format!("{head}0 0 add 1 = added\nend 1\n"), Fault::Damaged { line: 2 }),
    ] {
        std::fs::write(folder.file(), &text).unwrap();
        assert_eq!(SharedHull::open_journal(folder.file(), limits, None).unwrap_err(), fault, "{text}");
        assert_eq!((SharedHull::compact(folder.file()), std::fs::read_to_string(folder.file()).unwrap()), (Err(fault), text));
    }
    for name in ["none/at/all", "none"] {
        assert_eq!(SharedHull::compact(folder.0.join(name)), Err(Fault::NoFile { errno: 2 }));
        assert!(!folder.0.join(name).exists());
    }
}

/// A folder that is removed at the end of the test.
struct Folder(std::path::PathBuf);

impl Folder {
    fn new(name: &str) -> Folder {
        let path = std::env::temp_dir().join(format!("hull-{name}-{}", std::process::id()));
        std::fs::create_dir(&path).unwrap();
        Folder(path)
    }

    fn file(&self) -> std::path::PathBuf {
        self.0.join("zone.journal")
    }

    fn additions(&self) -> usize {
        std::fs::read_to_string(self.file()).unwrap().lines().filter(|line| line.contains(" add ")).count()
    }
}

impl Drop for Folder {
    fn drop(&mut self) {
        let _ = std::fs::remove_dir_all(&self.0);
    }
}

/// A close fails while a reader is acquired, and then the hull and its file go on; however it ends, the file has all lines.
#[test]
fn stays_open_while_a_reader_is_acquired() {
    let folder = Folder::new("reader");
    let limits = Limits { points: 1000, first: 0, capacity: 50, seats: 2 };
    let hull = SharedHull::for_readers(1).unwrap().open_journal(folder.file(), limits, None).unwrap();
    let reader = hull.acquire_reader().unwrap();
    let mut seat = hull.acquire_seat(0).unwrap();
    (0..10).for_each(|x| assert_eq!(seat.add(point(x, 1)), Ok(1)));
    seat.release();
    for _ in 0..3 {
        assert_eq!(hull.close(), Err(Fault::SeatsOut));
    }
    let mut seat = hull.acquire_seat(1).unwrap();
    (0..100).for_each(|x| assert_eq!(seat.add(point(x, 2)), Ok(1)));
    seat.wait_at_most(Some(Duration::from_secs(600)));
    assert_eq!(seat.wait_durable(), Ok(()));
    seat.release();
    drop(reader);
    hull.close().unwrap();
    assert_eq!(folder.additions(), 110);
    let hull = SharedHull::open_journal(folder.file(), limits, None).unwrap();
    let mut seat = hull.acquire_seat(0).unwrap();
    drop(hull);
    assert_eq!(seat.add(point(0, 3)), Ok(1));
    drop(seat); // the last owner of the hull closes its file
    assert_eq!(folder.additions(), 111);
    let hull = SharedHull::open_journal(folder.file(), limits, None).unwrap();
    let mut seat = hull.acquire_seat(0).unwrap();
    std::fs::remove_file(folder.file()).unwrap();
    assert_eq!(seat.add(point(0, 4)), Ok(1));
    const ESTALE: i32 = 116;
    assert_eq!(seat.wait_durable(), Err(Fault::NoFile { errno: ESTALE }));
    seat.release();
    assert_eq!(hull.close(), Err(Fault::NoFile { errno: ESTALE }));
}

/// A file that is made for an opening that is refused stays if the process forks just then: a child may continue with it.
static WITHOUT_FORKS: Mutex<()> = Mutex::new(());

/// A child of a fork drops a hull with a file, which stays its parent's.
#[test]
fn dropped_in_a_child() {
    let _alone = WITHOUT_FORKS.lock();
    extern "C" {
        fn fork() -> i32;
        fn alarm(seconds: u32) -> u32;
        fn _exit(status: i32) -> !;
        fn waitpid(child: i32, status: *mut i32, options: i32) -> i32;
    }
    let folder = Folder::new("child");
    let limits = Limits { points: 9, first: 0, capacity: 50, seats: 2 };
    let hull = SharedHull::open_journal(folder.file(), limits, None).unwrap();
    let mut status = 0;
    // SAFETY: the child calls nothing that another thread may have been in the middle of, and ends without returning.
    unsafe {
        let child = fork();
        if child == 0 {
            alarm(100);
            drop(std::ptr::read(&hull));
            // (what is left of the hull is no leak that valgrind should tell)
            let _ = std::os::unix::process::CommandExt::exec(std::process::Command::new("sh").args(["-c", "exit 7"]));
            _exit(8);
        }
        assert_eq!((waitpid(child, &mut status, 0), status), (child, 7 << 8));
    }
    hull.acquire_seat(0).unwrap().add(point(1, 1)).unwrap();
    hull.close().unwrap();
    assert_eq!(folder.additions(), 1);
}

/// Threads that wait for a durable line while another thread closes the hull get their result.
#[test]
fn closes_beside_threads_that_wait() {
    let folder = Folder::new("waiters");
    for again in 0..10 {
        let limits = Limits { points: 100_000, first: 0, capacity: 5000, seats: 3 };
        let hull = Arc::new(SharedHull::open_journal(folder.file(), limits, None).unwrap());
        let begun = Arc::new(AtomicUsize::new(0));
        let threads: Vec<_> = (0..3)
            .map(|k| {
                let (hull, begun) = (hull.clone(), begun.clone());
                thread::spawn(move || {
                    let mut seat = hull.acquire_seat(k).unwrap();
                    (0..100).for_each(|x| assert_eq!(seat.add(point(x, i64::from(3 * again + k))), Ok(1)));
                    seat.wait_durable().unwrap();
                    seat.release();
                    begun.fetch_add(1, Ordering::SeqCst);
                    while hull.sync().is_ok() {}
                    hull.sync()
                })
            })
            .collect();
        while begun.load(Ordering::SeqCst) < 3 {
            thread::yield_now();
        }
        hull.close().unwrap();
        threads.into_iter().for_each(|thread| assert_eq!(thread.join().unwrap(), Err(Fault::NotOpen)));
    }
    assert_eq!(folder.additions(), 3000);
}

/// An area of more than 64 bits, by a seat; and the greatest capacity.
#[test]
fn numbers_of_two_words() {
    let capacity = if std::env::var_os("BRIEF").is_some() { SMALL.capacity } else { CAPACITY_LIMIT };
    let hull = SharedHull::open(Limits { capacity, ..SMALL }).unwrap();
    let mut seat = hull.acquire_seat(0).unwrap();
    for (x, y) in [(-1, -1), (1, -1), (1, 1), (-1, 1)] {
        seat.add(point(x * COORDINATE_LIMIT, y * COORDINATE_LIMIT)).unwrap();
    }
    assert_eq!(seat.doubled_area(), Ok(8 << 80));
}

/// A seat outlives the hull from which it was acquired.
#[test]
fn the_last_seat_owns_the_hull() {
    let hull = SharedHull::open(SMALL).unwrap();
    let mut seat = hull.acquire_seat(0).unwrap();
    drop(hull);
    assert_eq!((seat.add(point(3, 4)), seat.count()), (Ok(1), Ok(1)));
}

/// Numbers from 0 to 2^64 - 1 (xorshift; Marsaglia, 2003).
fn next(state: &mut u64) -> u64 {
    *state ^= *state << 13;
    *state ^= *state >> 7;
    *state ^= *state << 17;
    *state
}

/// So many mixed calls of one seat, each with a number above that of the one before.
fn make_calls(seat: &mut Seat, calls: u64) {
    let mut state = 88172645463325252 ^ u64::from(seat.number() + 1).wrapping_mul(0x9E37_79B9_7F4A_7C15);
    let mut last = None;
    for _ in 0..calls {
        let kind = next(&mut state) % 8;
        let mut coordinate = || (next(&mut state) % 2001) as i64 - 1000;
        let at = point(coordinate(), coordinate() * 2 + 1);
        match kind {
            0..=2 => assert!(seat.add(at).unwrap() > 0),
            3 => assert!(seat.remove(at).unwrap() != Some(u32::MAX)),
            4 => assert!(seat.extreme(at).is_ok()),
            5 => assert!(seat.tangents(at).is_ok()),
            6 => assert!(seat.vertex_count().unwrap() <= 8 * calls as usize),
            _ => assert!(seat.place(at).is_ok()),
        }
        assert!(seat.turn() > last);
        last = seat.turn();
    }
}

#[test]
fn eight_threads() {
    let calls = std::env::var("CALLS").map_or(1000, |calls| calls.parse().unwrap());
    let limits = Limits { points: POINT_LIMIT, first: 0, capacity: 8 * calls as u32, seats: 8 };
    let hull = SharedHull::open(limits).unwrap();
    thread::scope(|scope| {
        for number in 0..8 {
            let mut seat = hull.acquire_seat(number).unwrap();
            scope.spawn(move || make_calls(&mut seat, calls));
        }
    });
    let text = hull.close().unwrap();
    assert_eq!(text.lines().count() as u64, 8 * calls + 2);
    if let Ok(file) = std::env::var("JOURNAL") {
        std::fs::write(file, text).unwrap();
    }
}

/// Several threads acquire and release seats: no two calls on their shared hull overlap. Linked with overlaps.c, which counts them.
#[cfg(hull_overlaps)]
#[test]
fn lendings() {
    extern "C" {
        fn hull_overlaps() -> std::ffi::c_long;
    }
    let limits = Limits { points: 4, first: 0, capacity: 1, seats: 8 };
    let hull = SharedHull::open_without_journal(limits).unwrap();
    thread::scope(|scope| {
        for number in 0..4 {
            let hull = &hull;
            scope.spawn(move || {
                for _ in 0..25 {
                    let mut seat = hull.acquire_seat(number).unwrap();
                    hull.acquire_seat(number + 4).unwrap().release();
                    seat.add(point(1, 2)).unwrap();
                    assert_eq!(hull.close().unwrap_err(), Fault::SeatsOut);
                }
            });
        }
    });
    assert!(!hull.close().unwrap().is_empty());
    // SAFETY: it reads a number, which nobody writes any more.
    assert_eq!(unsafe { hull_overlaps() }, 0);
}
