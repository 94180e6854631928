//! The library beside the rival's tree (`bench/rival.rs`) in one process: the same calls on both, in turn.
//!
//!     beside_rival POINTS ROUNDS
//!
//! Adds so many random points, asks about as many locations, and removes them again. For each the least time of the rounds, in
//! nanoseconds per call, and the ratio of the library's to the rival's. The answers are compared.
use hull::{Hull, Place, Point, POINT_LIMIT};
use std::hint::black_box;
use std::time::Instant;

#[path = "../rival.rs"]
#[allow(dead_code)]
mod rival;

const SIZE: i64 = 1 << 20;
const WORK: [&str; 3] = ["add", "place", "remove"];

/// Numbers from -SIZE to SIZE (xorshift; Marsaglia, 2003).
struct Numbers(u64);

impl Iterator for Numbers {
    type Item = i64;

    fn next(&mut self) -> Option<i64> {
        self.0 ^= self.0 << 13;
        self.0 ^= self.0 >> 7;
        self.0 ^= self.0 << 17;
        Some((self.0 % (2 * SIZE as u64 + 1)) as i64 - SIZE)
    }
}

/// Returns nanoseconds per call, over calls at all the points.
fn timed<T>(points: &[Point], mut call: impl FnMut(Point) -> T) -> f64 {
    let start = Instant::now();
    for point in points {
        black_box(call(*point));
    }
    start.elapsed().as_secs_f64() * 1e9 / points.len() as f64
}

fn of_library(points: &[Point], asked: &[Point]) -> [f64; 3] {
    let mut hull = Hull::new(POINT_LIMIT).unwrap();
    let add = timed(points, |p| hull.add(p).unwrap());
    let place = timed(asked, |p| hull.place(p).unwrap());
    let remove = timed(points, |p| hull.remove(p).unwrap());
    assert!(hull.is_empty());
    [add, place, remove]
}

fn rivals(p: Point) -> rival::Point {
    rival::Point { x: p.x, y: p.y }
}

fn of_rival(points: &[Point], asked: &[Point]) -> [f64; 3] {
    let mut tree = rival::Tree::new(POINT_LIMIT as usize);
    let add = timed(points, |p| tree.add(rivals(p)));
    let place = timed(asked, |p| tree.place(rivals(p)));
    let remove = timed(points, |p| tree.remove(rivals(p)));
    [add, place, remove]
}

/// Compares the answers of both.
fn compare(points: &[Point], asked: &[Point]) {
    let mut hull = Hull::new(POINT_LIMIT).unwrap();
    let mut tree = rival::Tree::new(POINT_LIMIT as usize);
    for p in points {
        hull.add(*p).unwrap();
        tree.add(rivals(*p));
    }
    assert_eq!(hull.doubled_area(), tree.area2() as u128);
    for p in asked {
        let place = match tree.place(rivals(*p)) {
            rival::Place::Inside => Place::Inside,
            rival::Place::On => Place::On,
            rival::Place::Outside => Place::Outside,
        };
        assert_eq!(hull.place(*p), Ok(place));
    }
}

fn main() {
    let mut words = std::env::args().skip(1).map(|word| word.parse::<usize>().unwrap());
    let (count, rounds) = (words.next().unwrap_or(10_000), words.next().unwrap_or(9));
    let mut numbers = Numbers(88172645463325252);
    let mut some = |count: usize| -> Vec<Point> {
        (0..count).map(|_| Point { x: numbers.next().unwrap(), y: numbers.next().unwrap() }).collect()
    };
    let (points, asked) = (some(count), some(count));
    compare(&points, &asked);
    let (mut ours, mut theirs) = ([f64::INFINITY; 3], [f64::INFINITY; 3]);
    for _ in 0..rounds {
        let (library, tree) = (of_library(&points, &asked), of_rival(&points, &asked));
        for k in 0..3 {
            ours[k] = ours[k].min(library[k]);
            theirs[k] = theirs[k].min(tree[k]);
        }
    }
    println!("{count} points, {rounds} rounds; nanoseconds a call");
    for k in 0..3 {
        println!("{:8} library {:8.1}, rival {:8.1}, ratio {:.2}", WORK[k], ours[k], theirs[k], ours[k] / theirs[k]);
    }
}
