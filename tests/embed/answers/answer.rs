//! Answers the questions of polygons, sets, growing hulls and seats that ask.py writes, a line each, by the types of the crate `hull`: a line with the answer for each.
use hull::{Distance, DistanceBounds, Entry, Fault, GrowingHull, Hit, Hull, Limits, Motion, Nearest, Place, Point, Polygon, Relation, Seat, Separation};
use hull::{SharedHull, Strip, Witness};
use std::io::BufRead;

/// A value, or a fault.
type Asked<T> = Result<T, Fault>;

/// What a method returns that can't fail, as one that can.
trait Value<T> {
    fn value(self) -> Asked<T>;
}

impl<T> Value<T> for T {
    fn value(self) -> Asked<T> {
        Ok(self)
    }
}

impl<T> Value<T> for Asked<T> {
    fn value(self) -> Asked<T> {
        self
    }
}

/// The text of a value, of "none" if there is none, or of a fault.
fn text<T>(asked: Asked<T>, say: impl Fn(T) -> String) -> String {
    asked.map_or_else(|fault| format!("{fault:?}"), say)
}

fn perhaps<T>(asked: Asked<Option<T>>, say: impl Fn(T) -> String) -> String {
    text(asked, |value| value.map_or("none".to_string(), &say))
}

fn all(word: &str, points: &[Point]) -> String {
    let numbers = points.iter().map(|it| format!("{} {}", it.x, it.y));
    std::iter::once(word.to_string()).filter(|it| !it.is_empty()).chain(numbers).collect::<Vec<_>>().join(" ")
}

fn named<T: std::fmt::Debug>(asked: Asked<T>) -> String {
    text(asked, |it| format!("{it:?}").to_lowercase())
}

fn answer_place(asked: impl Value<Place>) -> String {
    named(asked.value())
}
fn answer_tangents(asked: impl Value<Option<(Point, Point)>>) -> String {
    perhaps(asked.value(), |(left, right)| all("", &[left, right]))
}
fn answer_point(asked: impl Value<Option<Point>>) -> String {
    perhaps(asked.value(), |it| all("", &[it]))
}
fn answer_number(asked: impl Value<u128>) -> String {
    text(asked.value(), |it| it.to_string())
}
fn answer_number_or_none(asked: impl Value<Option<u128>>) -> String {
    perhaps(asked.value(), |it| it.to_string())
}
fn answer_whether(asked: impl Value<bool>) -> String {
    text(asked.value(), |it| it.to_string())
}
fn answer_relation(asked: impl Value<Relation>) -> String {
    named(asked.value())
}
fn answer_two_points(asked: impl Value<Option<(Point, Point)>>) -> String {
    perhaps(asked.value(), |(a, b)| all("", &[a, b]))
}
fn answer_box(asked: impl Value<Option<(Point, Point)>>) -> String {
    answer_two_points(asked.value())
}
fn answer_separation(asked: impl Value<Option<Separation>>) -> String {
    perhaps(asked.value(), |it| all("", &[it.farthest, it.direction]))
}
fn answer_nearest(asked: impl Value<Option<Nearest>>) -> String {
    perhaps(asked.value(), |it| match it {
        Nearest::Covered => "covered".to_string(),
        Nearest::Vertex(at) => all("vertex", &[at]),
        Nearest::Edge(from, to) => all("edge", &[from, to]),
    })
}
fn answer_strip(asked: impl Value<Option<Strip>>) -> String {
    perhaps(asked.value(), |it| all("strip", &[it.from, it.to, it.farthest]))
}
fn answer_witness(asked: impl Value<Option<Witness>>) -> String {
    perhaps(asked.value(), |it| match it {
        Witness::Covered(at) => all("covered", &[at]),
        Witness::Within(at) => all("within", &[at]),
        Witness::Crossing([a, b], [c, d]) => all("crossing", &[a, b, c, d]),
        Witness::Disjoint(it) => all("disjoint", &[it.farthest, it.direction]),
    })
}
fn answer_distance(asked: impl Value<Option<Distance>>) -> String {
    perhaps(asked.value(), |it| match it {
        Distance::Zero => "zero".to_string(),
        Distance::Vertices(a, b) => all("vertices", &[a, b]),
        Distance::VertexAndEdge(a, [b, c]) => all("vertex and edge", &[a, b, c]),
        Distance::EdgeAndVertex([a, b], c) => all("edge and vertex", &[a, b, c]),
    })
}
fn answer_bounds(asked: impl Value<Option<DistanceBounds>>) -> String {
    perhaps(asked.value(), |it| format!("{} {}", it.down().to_bits(), it.up().to_bits()))
}

fn hit_text(hit: Hit) -> String {
    let (mut a, mut b) = (hit.part, hit.whole);
    while b != 0 {
        (a, b) = (b, a % b);
    }
    let place = match hit.place {
        Entry::Start => "start".to_string(),
        Entry::Edge(from, to) => all("edge", &[from, to]),
        Entry::Vertex(at) => all("vertex", &[at]),
    };
    format!("{place} {}/{}", hit.part / a, hit.whole / a)
}
fn answer_hit(asked: impl Value<Option<Hit>>) -> String {
    perhaps(asked.value(), hit_text)
}
fn answer_motion(asked: impl Value<Option<Motion>>) -> String {
    perhaps(asked.value(), |it| match it.hit.place {
        Entry::Start => hit_text(it.hit),
        _ => format!("{} {}", hit_text(it.hit), all(if it.moves { "by theirs" } else { "by ours" }, &[it.vertex])),
    })
}

/// The point of two numbers.
fn at(n: &[i64], i: usize) -> Point {
    Point { x: n[i], y: n[i + 1] }
}

/// A seat of a shared hull with these points.
fn seat_of(points: &[Point]) -> Seat {
    let shared = SharedHull::open(Limits { points: 64, first: 0, capacity: 64, seats: 1 }).unwrap();
    let mut seat = shared.acquire_seat(0).unwrap();
    points.iter().for_each(|&it| assert!(seat.add(it).is_ok()));
    seat
}

fn answer(name: &str, [polygon, other]: &[Polygon; 2], hull: &Hull, grown: &GrowingHull, seat: &mut Option<Seat>, n: &[i64]) -> String {
    match name {
        // @CASES@
        _ => "-".to_string(),
    }
}

fn main() {
    for line in std::io::stdin().lock().lines() {
        let line = line.unwrap();
        let (name, rest) = line.split_once(' ').unwrap();
        let mut numbers = rest.split(' ').map(|it| it.parse::<i64>().unwrap());
        let mut two = [Polygon::new(&[]).unwrap(), Polygon::new(&[]).unwrap()];
        let (mut hull, mut grown, mut seat) = (Hull::new(64).unwrap(), GrowingHull::new().unwrap(), None);
        let lists = numbers.next().unwrap() as usize;
        for polygon in &mut two[..lists] {
            let count = numbers.next().unwrap();
            let vertices: Vec<Point> = (0..count).map(|_| (numbers.next().unwrap(), numbers.next().unwrap()).into()).collect();
            if name.starts_with("set_") {
                hull.load(&vertices).unwrap();
            } else if name.starts_with("growing_") {
                grown.add_all(&vertices).unwrap();
            } else if name.starts_with("seat_") {
                seat = Some(seat_of(&vertices));
            } else {
                *polygon = Polygon::new(&vertices).unwrap();
            }
        }
        println!("{}", answer(name, &two, &hull, &grown, &mut seat, &numbers.collect::<Vec<_>>()));
    }
}
