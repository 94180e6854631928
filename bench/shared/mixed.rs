//! Mixed calls from 1, 2, 4, 8 and 64 threads: through a shared hull, beside a `Mutex<Hull>`.
//!
//!     mixed POINTS CALLS ROUNDS BUSY
//!
//! Each round makes either hull again, adds so many random points, and has the threads make so many calls in all: half of them
//! questions, the others additions and removals of random points in turn. Both take turns; of each the least and the median time of
//! the rounds. Beside them BUSY processes spin.
use hull::{Fault, Hull, Limits, Point, Seat, SharedHull, POINT_LIMIT};
use std::hint::{black_box, spin_loop};
use std::process::{Child, Command};
use std::sync::{Barrier, Mutex};
use std::thread;
use std::time::Instant;

const SIZE: u64 = 1 << 20;

/// Random points with no coordinate 0 (xorshift; Marsaglia, 2003).
struct Points(u64);

impl Points {
    fn coordinate(&mut self) -> i64 {
        self.0 ^= self.0 << 13;
        self.0 ^= self.0 >> 7;
        self.0 ^= self.0 << 17;
        ((self.0 % (2 * SIZE)) as i64 - SIZE as i64) | 1
    }
}

impl Iterator for Points {
    type Item = Point;

    fn next(&mut self) -> Option<Point> {
        Some(Point { x: self.coordinate(), y: self.coordinate() })
    }
}

/// Uses an answer, so that no compiler leaves it out.
fn kept<T>(answer: Result<T, Fault>) -> Result<(), Fault> {
    answer.map(|answer| {
        black_box(answer);
    })
}

fn by_mutex(hull: &Mutex<Hull>, kind: usize, at: Point) -> Result<(), Fault> {
    let mut hull = hull.lock().unwrap();
    match kind % 8 {
        0 | 4 => kept(hull.add(at)),
        2 | 6 => kept(hull.remove(at)),
        3 => kept(hull.extreme(at)),
        5 => kept(hull.tangents(at)),
        _ => kept(hull.place(at)),
    }
}

fn by_seat(seat: &mut Seat, kind: usize, at: Point) -> Result<(), Fault> {
    match kind % 8 {
        0 | 4 => kept(seat.add(at)),
        2 | 6 => kept(seat.remove(at)),
        3 => kept(seat.extreme(at)),
        5 => kept(seat.tangents(at)),
        _ => kept(seat.place(at)),
    }
}

/// Returns the seconds from the first thread's beginning to the last one's end. Each makes its calls by what `caller` makes for it.
fn timed<C>(threads: u32, calls: usize, caller: impl Fn(u32) -> C) -> f64
where
    C: FnMut(usize, Point) -> Result<(), Fault> + Send,
{
    let start = Barrier::new(threads as usize);
    let work = |me: u32, mut call: C| {
        let points = Points(88172645463325252 ^ u64::from(me + 1) * 0x9E37_79B9_7F4A_7C15);
        start.wait();
        let begin = Instant::now();
        for (kind, at) in (0..calls).zip(points) {
            call(kind, at).unwrap();
        }
        (begin, Instant::now())
    };
    let times: Vec<(Instant, Instant)> = thread::scope(|scope| {
        let work = &work;
        let mut started = Vec::new();
        for me in 0..threads {
            let call = caller(me);
            started.push(scope.spawn(move || work(me, call)));
        }
        started.into_iter().map(|thread| thread.join().unwrap()).collect()
    });
    let begin = times.iter().map(|time| time.0).min().unwrap();
    let end = times.iter().map(|time| time.1).max().unwrap();
    (end - begin).as_secs_f64()
}

fn through_mutex(threads: u32, points: usize, calls: usize) -> f64 {
    let mut hull = Hull::new(POINT_LIMIT).unwrap();
    for point in Points(7).take(points) {
        hull.add(point).unwrap();
    }
    let hull = Mutex::new(hull);
    timed(threads, calls, |_| |kind, at| by_mutex(&hull, kind, at))
}

fn through_seats(threads: u32, points: usize, calls: usize) -> f64 {
    let capacity = (points + threads as usize * calls) as u32;
    let hull = SharedHull::open(Limits { points: POINT_LIMIT, first: 0, capacity, seats: threads }).unwrap();
    let mut seat = hull.acquire_seat(0).unwrap();
    for point in Points(7).take(points) {
        seat.add(point).unwrap();
    }
    seat.release();
    timed(threads, calls, |me| {
        let mut seat = hull.acquire_seat(me).unwrap();
        move |kind, at| by_seat(&mut seat, kind, at)
    })
}

/// Returns the least and the median of the rounds' times.
fn least_and_median(mut times: Vec<f64>) -> (f64, f64) {
    times.sort_by(f64::total_cmp);
    (times[0], times[times.len() / 2])
}

/// Starts a process that spins.
fn busy() -> Child {
    Command::new(std::env::current_exe().unwrap()).arg("spin").spawn().unwrap()
}

fn main() {
    if std::env::args().nth(1).as_deref() == Some("spin") {
        loop {
            spin_loop();
        }
    }
    let mut words = std::env::args().skip(1).map(|word| word.parse::<usize>().unwrap());
    let mut word = |usual| words.next().unwrap_or(usual);
    let (points, calls, rounds, count) = (word(1000), word(200_000), word(5), word(0));
    println!(
        "Rust: {points} points, {calls} calls in all, {rounds} rounds, beside {count} busy processes; \
         ns a call, least and median"
    );
    let mut spinning: Vec<Child> = (0..count).map(|_| busy()).collect();
    for threads in [1, 2, 4, 8, 64] {
        let (mut mutex, mut seats) = (Vec::new(), Vec::new());
        for _ in 0..rounds {
            let each = 1e9 / calls as f64;
            mutex.push(through_mutex(threads, points, calls / threads as usize) * each);
            seats.push(through_seats(threads, points, calls / threads as usize) * each);
        }
        let (m, s) = (least_and_median(mutex), least_and_median(seats));
        println!(
            "{threads:2} threads: mutex {:6.0} {:6.0} seats {:6.0} {:6.0}; seats of the mutex's speed {:.2} {:.2}",
            m.0,
            m.1,
            s.0,
            s.1,
            m.0 / s.0,
            m.1 / s.1
        );
    }
    for child in &mut spinning {
        child.kill().unwrap();
        child.wait().unwrap();
    }
}
