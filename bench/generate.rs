//! Scripts from a seed, for the benchmarks.
//!
//!     generate KIND CALLS WORKERS SEED [BITS]
//!
//! Kinds: `count` (only counts), `small` (all calls on a grid of 8 by 8 points), `build` (only adds), `churn` (adds, removes,
//! extreme and place), `ask` (few adds, many questions), `mixed` (all calls but vertices). The last four take coordinates of at most
//! 2^BITS in size (20 if none is given; the program takes 40). And those that are hard on implementations that keep the vertices:
//! `parabola` (all points are vertices, added and then removed in any order), `circle` (the same, and each one that is removed is
//! added again), `squares` (one within the other, removed from the outermost in), `comb` (points on two lines), `seesaw` (a vertex
//! in front of all points that is added and removed again). The calls are given to the workers in turn.
use std::io::Write;

/// A xorshift generator (Marsaglia, 2003).
struct Random(u64);

impl Random {
    fn next(&mut self) -> u64 {
        self.0 ^= self.0 << 13;
        self.0 ^= self.0 >> 7;
        self.0 ^= self.0 << 17;
        self.0
    }

    fn below(&mut self, n: u64) -> u64 {
        (self.next() >> 11) % n
    }

    fn coordinate(&mut self, limit: i64) -> i64 {
        self.below(2 * limit as u64 + 1) as i64 - limit
    }

    fn point(&mut self, limit: i64) -> (i64, i64) {
        (self.coordinate(limit), self.coordinate(limit))
    }
}

/// The points that were added and not removed since.
struct Live(Vec<(i64, i64)>);

impl Live {
    fn add(&mut self, random: &mut Random, limit: i64) -> String {
        let p = random.point(limit);
        self.0.push(p);
        format!("add {} {}", p.0, p.1)
    }

    fn remove(&mut self, random: &mut Random, limit: i64) -> String {
        if self.0.is_empty() {
            return self.add(random, limit);
        }
        let i = random.below(self.0.len() as u64) as usize;
        let p = self.0.swap_remove(i);
        format!("remove {} {}", p.0, p.1)
    }
}

fn question(random: &mut Random, word: &str, limit: i64) -> String {
    let (mut x, y) = random.point(limit);
    if word == "extreme" && (x, y) == (0, 0) {
        x = 1;
    }
    format!("{word} {x} {y}")
}

fn call(kind: &str, i: u64, random: &mut Random, live: &mut Live, limit: i64) -> String {
    let roll = random.below(100);
    match kind {
        "count" => "count".to_string(),
        "build" => live.add(random, limit),
        "churn" => match roll {
            0..=39 => live.add(random, limit),
            40..=69 => live.remove(random, limit),
            70..=84 => question(random, "extreme", limit),
            _ => question(random, "place", limit),
        },
        "ask" if i < 2000 => live.add(random, limit),
        "ask" => match roll {
            0 => live.add(random, limit),
            1..=50 => question(random, "extreme", limit),
            _ => question(random, "place", limit),
        },
        "mixed" => match roll {
            0..=34 => live.add(random, limit),
            35..=54 => live.remove(random, limit),
            55..=69 => question(random, "extreme", limit),
            70..=84 => question(random, "place", limit),
            85..=94 => question(random, "tangents", limit),
            95..=97 => "area".to_string(),
            _ => "count".to_string(),
        },
        _ => match roll {
            0..=29 => live.add(random, 4),
            30..=49 => live.remove(random, 4),
            50..=59 => question(random, "extreme", 4),
            60..=69 => question(random, "place", 4),
            70..=79 => question(random, "tangents", 4),
            80..=84 => "vertices".to_string(),
            85..=89 => "area".to_string(),
            _ => "count".to_string(),
        },
    }
}

fn shuffled(mut points: Vec<(i64, i64)>, random: &mut Random) -> Vec<(i64, i64)> {
    for i in (1..points.len()).rev() {
        points.swap(i, random.below(i as u64 + 1) as usize);
    }
    points
}

fn say<'a>(word: &'a str, points: &'a [(i64, i64)]) -> impl Iterator<Item = String> + 'a {
    points.iter().map(move |(x, y)| format!("{word} {x} {y}"))
}

/// Points on a circle of radius 2^39, in any order.
fn circle(number: u64, random: &mut Random) -> Vec<(i64, i64)> {
    let radius = (1i64 << 39) as f64;
    let angles = (0..number).map(|k| std::f64::consts::TAU * k as f64 / number as f64);
    shuffled(angles.map(|a| ((radius * a.cos()) as i64, (radius * a.sin()) as i64)).collect(), random)
}

/// Returns the calls of a kind that is hard on implementations that keep the vertices.
fn hostile(kind: &str, calls: u64, random: &mut Random) -> Option<Vec<String>> {
    let number = calls as i64;
    Some(match kind {
        "parabola" => {
            let points = shuffled((0..number / 2).map(|k| (k, k * k)).collect(), random);
            let again = shuffled(points.clone(), random);
            say("add", &points).chain(say("remove", &again)).collect()
        }
        "circle" => {
            let points = circle(calls / 4, random);
            let churned = points.iter().flat_map(|(x, y)| ["remove", "place", "add"].map(|word| format!("{word} {x} {y}")));
            say("add", &points).chain(churned).collect()
        }
        "squares" => {
            let points: Vec<_> = (1..=number / 8).flat_map(|s| [(-s, -s), (s, -s), (s, s), (-s, s)]).collect();
            let outermost: Vec<_> = points.iter().rev().copied().collect();
            say("add", &points).chain(say("remove", &outermost)).collect()
        }
        "comb" => {
            let points: Vec<_> = (0..number / 2).map(|k| (k, k % 2)).collect();
            say("add", &points).chain(say("remove", &points)).collect()
        }
        "seesaw" => {
            let points: Vec<_> = (0..number / 2).map(|_| random.point(1 << 19)).collect();
            let vertex = ["add 1000000 0", "remove 1000000 0"].map(String::from);
            say("add", &points).chain(vertex.into_iter().cycle().take(number as usize / 2)).collect()
        }
        _ => return None,
    })
}

fn main() {
    let words: Vec<String> = std::env::args().skip(1).collect();
    let (kind, numbers) = words.split_first().expect("generate KIND CALLS WORKERS SEED [BITS]");
    let numbers: Vec<u64> = numbers.iter().map(|n| n.parse().unwrap()).collect();
    let (calls, workers, seed) = (numbers[0], numbers[1], numbers[2]);
    let limit = 1i64 << numbers.get(3).unwrap_or(&20);
    let mut random = Random(seed.wrapping_mul(0x9e37_79b9_7f4a_7c15) | 1);
    let mut live = Live(Vec::new());
    let hostile = hostile(kind, calls, &mut random);
    let mut out = std::io::BufWriter::new(std::io::stdout().lock());
    for i in 0..hostile.as_ref().map_or(calls, |said| said.len() as u64) {
        let said = match &hostile {
            Some(said) => said[i as usize].clone(),
            None => call(kind, i, &mut random, &mut live, limit),
        };
        writeln!(out, "{} {said}", i % workers).unwrap();
    }
}
