//! Functions of `rust/hull`, answers and faults; `answers/ask.py` asks the questions of polygons.
use hull::{direction_of, pairs_within_distance, wkt, Fault, GrowingHull, Held, Hull, Lattice, Place, Point, Polygon, Relation};
use hull::{Limits, SharedHull, COORDINATE_LIMIT, MULTIPLICITY_LIMIT, POINT_LIMIT};
use std::alloc::{GlobalAlloc, Layout, System};
use std::cell::Cell;
use std::collections::HashSet;

/// The allocator, except that a thread may have one request refused.
struct Refusing;

thread_local! {
    /// After how many requests one is refused; none if it is negative.
    static LEFT: Cell<i64> = const { Cell::new(-1) };
}

fn is_refused() -> bool {
    LEFT.try_with(|left| {
        let before = left.get();
        left.set((before - 1).max(-1));
        before == 0
    })
    .unwrap_or(false)
}

unsafe impl GlobalAlloc for Refusing {
    unsafe fn alloc(&self, layout: Layout) -> *mut u8 {
        if is_refused() { std::ptr::null_mut() } else { libraries::of_rust(|| System.alloc(layout)) }
    }

    unsafe fn dealloc(&self, block: *mut u8, layout: Layout) {
        System.dealloc(block, layout)
    }

    unsafe fn realloc(&self, block: *mut u8, layout: Layout, size: usize) -> *mut u8 {
        if is_refused() { std::ptr::null_mut() } else { libraries::of_rust(|| System.realloc(block, layout, size)) }
    }
}

#[global_allocator]
static ALLOCATOR: Refusing = Refusing;

fn point(x: i64, y: i64) -> Point {
    Point { x, y }
}

/// The square of side 10 with a point inside.
fn square() -> Hull {
    let mut hull = Hull::new(6).unwrap();
    for (x, y) in [(0, 0), (10, 0), (10, 10), (0, 10), (4, 4)] {
        assert_eq!(hull.add(point(x, y)), Ok(1));
    }
    hull
}

#[test]
fn limits() {
    assert_eq!(Hull::new(0).unwrap_err(), Fault::BadLimit);
    assert_eq!(Hull::new(POINT_LIMIT + 1).unwrap_err(), Fault::BadLimit);
    assert_eq!(Hull::new(POINT_LIMIT).unwrap().limit(), POINT_LIMIT);
    assert_eq!(Hull::new(1).unwrap().limit(), 1);
}

#[test]
fn loads() {
    let mut hull = square();
    let limit = hull.limit();
    assert_eq!(hull.load(&[point(9, 9), point(1, 2), point(9, 9)]), Ok(2));
    assert_eq!((hull.multiplicity(point(9, 9)), hull.multiplicity(point(1, 2)), hull.len()), (Ok(2), Ok(1), 2));
    assert_eq!(hull.load(&[point(0, 0), point(0, COORDINATE_LIMIT + 1)]), Err(Fault::OutOfRange));
    assert_eq!(hull.load(&[point(0, 0); 65536]), Err(Fault::TooMany));
    assert_eq!((hull.len(), hull.limit(), hull.multiplicity(point(9, 9))), (2, limit, Ok(2)));
    assert_eq!((hull.load(&[]), hull.len()), (Ok(0), 0));
    hull.load(&[point(9, 9), point(1, 2), point(9, 9)]).unwrap();
    let mut held = hull.held().unwrap();
    assert_eq!(held, [Held { point: point(1, 2), multiplicity: 1 }, Held { point: point(9, 9), multiplicity: 2 }]);
    let mut twin = hull.try_clone().unwrap();
    assert_eq!((hull.load(&[]), hull.held(), twin.limit()), (Ok(0), Ok(vec![]), hull.limit()));
    let mut one = [Held { point: point(0, 0), multiplicity: 0 }];
    assert_eq!((twin.held_from(point(1, 3), &mut one), one[0]), (Ok(1), held[1]));
    held.swap(0, 1);
    assert_eq!((twin.load_held(&held), twin.len()), (Err(Fault::OutOfOrder), 2));
    assert_eq!((twin.load_held(&[]), twin.len()), (Ok(()), 0));
    let ends: Vec<Point> = [-1, 1].iter().flat_map(|x| [-1, 0, 1].map(|y| point(x * COORDINATE_LIMIT, y * COORDINATE_LIMIT))).collect();
    let all = Hull::from_points(6, &ends).unwrap();
    assert!(all.held().unwrap().iter().map(|it| it.point).eq(ends.iter().copied()));
    assert_eq!((all.try_clone().unwrap().len(), all.held().unwrap().iter().map(|it| it.multiplicity).sum::<u32>()), (6, 6));
    let many: Vec<Point> = (0..1000).map(|i| point(i * 7 % 1000, i * i)).collect();
    assert_eq!(Hull::from_points(999, &many).unwrap_err(), Fault::TooMany);
    let mut slow = Hull::new(1000).unwrap();
    many.iter().for_each(|&p| assert_eq!(slow.add(p), Ok(1)));
    let fast = Hull::from_points(1000, &many).unwrap();
    assert!(fast.vertices().unwrap().eq(slow.vertices().unwrap()));
}

/// A growing hull of these points answers as a set of them.
fn grows_as_a_set(points: &[Point], asked: &[Point]) {
    let (mut set, mut grown) = (Hull::default(), GrowingHull::new().unwrap());
    assert!(grown.is_empty());
    for &at in points {
        let before = set.place(at);
        set.add(at).unwrap();
        assert_eq!(grown.add(at), before);
    }
    assert_eq!(grown.is_empty(), points.is_empty());
    let vertices: Vec<Point> = set.vertices().unwrap().collect();
    assert!(grown.vertices().unwrap().eq(vertices.iter().copied()));
    assert_eq!(GrowingHull::from_points(points).unwrap().polygon(), set.polygon());
    assert!(points.iter().rev().copied().collect::<GrowingHull>().vertices().unwrap().eq(vertices));
    assert_eq!((grown.doubled_area(), grown.wkt(3)), (set.doubled_area(), set.wkt(3)));
    for &at in asked {
        assert_eq!((grown.place(at), grown.tangents(at), grown.extreme(at)), (set.place(at), set.tangents(at), set.extreme(at)));
    }
    assert_eq!((grown.place_all(asked), grown.tangents_all(asked)), (set.place_all(asked), set.tangents_all(asked)));
    assert_eq!(grown.extreme_all(asked), set.extreme_all(asked));
}

#[test]
fn growing_hulls() {
    let around: Vec<Point> = (0..36).map(|at| point(at % 6 - 1, at / 6 - 1)).collect();
    for subset in (0..1u32 << 16).step_by(if std::env::var_os("BRIEF").is_some() { 997 } else { 61 }) {
        let order = (0..16).map(|i| (5 * i + subset) % 16).filter(|at| subset >> at & 1 == 1);
        grows_as_a_set(&order.map(|at| point(i64::from(at / 4), i64::from(at % 4))).collect::<Vec<_>>(), &around);
    }
    let far = COORDINATE_LIMIT;
    let mut seed = 88172645463325252u64;
    for size in [3, 1000000, far] {
        let mut drawn = || {
            seed ^= seed << 13;
            seed ^= seed >> 7;
            seed ^= seed << 17;
            (seed % (2 * size as u64 + 1)) as i64 - size
        };
        let points: Vec<Point> = (0..600).map(|_| point(drawn(), drawn())).collect();
        grows_as_a_set(&points, &points[..300]);
    }
    grows_as_a_set(&[point(far, far), point(-far, -far), point(far, -far), point(0, 0), point(-far, far)], &[point(0, far), point(1, 0)]);
    let mut hull = GrowingHull::default();
    assert_eq!((hull.vertices().unwrap().len(), hull.extreme(point(1, 0)), hull.doubled_area()), (0, Ok(None), 0));
    let places = [Some(Place::Outside), Some(Place::Outside), Some(Place::On), Some(Place::Outside), Some(Place::Inside)];
    assert_eq!(hull.add_all(&[point(0, 0), point(8, 0), point(4, 0), point(0, 8), point(1, 1)]).unwrap(), places);
    assert_eq!(hull.add(point(far + 1, 0)), Err(Fault::OutOfRange));
    assert_eq!(hull.add_all(&[point(9, 9), point(0, -far - 1)]), Err(Fault::OutOfRange));
    assert_eq!((hull.place(point(9, 9)), hull.place(point(0, far + 1))), (Ok(Place::Outside), Err(Fault::OutOfRange)));
    assert_eq!((hull.extreme(point(0, 0)), hull.extreme_d(0.25, 0.5)), (Err(Fault::ZeroDirection), Ok(Some(point(0, 8)))));
    assert_eq!(format!("{hull:?}"), "GrowingHull { doubled_area: 64, .. }");
    hull.extend([point(8, 8), point(2, 2)]);
    hull.extend(&[point(3, 3)]);
    let hull = std::thread::spawn(move || hull).join().unwrap();
    assert_eq!(hull.doubled_area(), 128);
    LEFT.set(0);
    assert_eq!(GrowingHull::new().unwrap_err(), Fault::NoMemory);
    LEFT.set(-1);
}

#[test]
fn polygons() {
    let mut hull = Hull::new(100).unwrap();
    for step in 0..30 {
        let polygon = hull.polygon().unwrap();
        assert!(polygon.vertices().iter().copied().eq(hull.vertices().unwrap()));
        for at in (0..169).map(|i| point(i % 13 - 6, i / 13 - 6)) {
            assert_eq!(polygon.place(at), hull.place(at));
            assert_eq!(polygon.tangents(at), hull.tangents(at));
            assert_eq!(polygon.extreme(at), hull.extreme(at));
        }
        assert_eq!(polygon.doubled_area(), hull.doubled_area());
        hull.add(point(step * 7 % 11 - 5, step * step % 11 - 5)).unwrap();
    }
    let polygon = hull.polygon().unwrap();
    assert_eq!(polygon.clone(), polygon);
    let (asked, wanted) = (point(20, 3), hull.tangents(point(20, 3)));
    std::thread::scope(|threads| {
        for _ in 0..4 {
            threads.spawn(|| assert_eq!(polygon.tangents(asked), wanted));
        }
    });
    assert_eq!(Polygon::new(&[point(1, 0), point(0, 0)]), Err(Fault::NoPolygon));
    assert_eq!(Polygon::new(&[point(0, 0), point(1, 0), point(2, 0)]), Err(Fault::NoPolygon));
    assert_eq!(Polygon::new(&[point(0, COORDINATE_LIMIT + 1)]), Err(Fault::OutOfRange));
    assert_eq!(polygon.place(point(0, COORDINATE_LIMIT + 1)), Err(Fault::OutOfRange));
}

#[test]
fn distance_bounds() {
    let polygon = Polygon::new(&[point(0, 0), point(10, 0), point(10, 10), point(0, 10)]).unwrap();
    let beside = Polygon::new(&[point(12, 0), point(15, 3), point(12, 6)]).unwrap();
    let none = Polygon::new(&[]).unwrap();
    let gap = polygon.distance_bounds(&beside).unwrap();
    let to = |at| polygon.distance_bounds_to_point(at).unwrap().unwrap();
    assert_eq!((gap.down(), gap.up(), gap.squared()), (2.0, 2.0, ([0, 0, 4], [0, 1])));
    assert_eq!((to(point(13, 14)).down(), to(point(5, 5)).up()), (5.0, 0.0));
    assert!(to(point(11, 11)).down() < 2f64.sqrt() && to(point(11, 11)).up() == 2f64.sqrt());
    assert!(gap < to(point(13, 14)) && gap == to(point(12, 5)) && to(point(11, 11)) < gap && gap <= gap);
    let way = polygon.distance_bounds_to_segment(point(13, 14), point(16, 10)).unwrap().unwrap();
    assert!(way < to(point(13, 14)) && way.squared().0[2] * 25 == way.squared().1[1] * 576);
    assert!(none.distance_bounds(&polygon).is_none() && none.distance_bounds_to_point(point(0, 0)).unwrap().is_none());
}

#[test]
fn two_polygons() {
    let polygon = Polygon::new(&[point(0, 0), point(10, 0), point(10, 10), point(0, 10)]).unwrap();
    let small = Polygon::new(&[point(2, 2), point(4, 2), point(3, 4)]).unwrap();
    let beside = Polygon::new(&[point(12, 0), point(15, 3), point(12, 6)]).unwrap();
    let across = Polygon::new(&[point(-5, 5), point(15, 6)]).unwrap();
    let none = Polygon::new(&[]).unwrap();
    let all = [beside.clone(), polygon.clone(), none.clone(), small.clone(), across.clone()];
    let wanted = [Relation::Disjoint, Relation::Equal, Relation::Covers, Relation::Covers, Relation::Overlapping];
    assert_eq!((polygon.relations(&all).unwrap(), polygon.relations(&[])), (wanted.to_vec(), Ok(vec![])));
    assert_eq!(pairs_within_distance(&all, 0, 1), Ok(vec![(0, 4), (1, 3), (1, 4)]));
    assert_eq!((pairs_within_distance(&all[..2], 2, 1), pairs_within_distance(&all[..2], 1999, 1000)), (Ok(vec![(0, 1)]), Ok(vec![])));
    assert_eq!(pairs_within_distance(&vec![small.clone(); 9], 0, 1).unwrap().len(), 36);
    assert_eq!(beside.translate(point(-8, 4)).unwrap().vertices(), [point(4, 4), point(7, 7), point(4, 10)]);
    assert_eq!(beside.translate(point(COORDINATE_LIMIT, 0)), Err(Fault::OutOfRange));
    assert_eq!(small.rotate(point(0, 1)).unwrap().vertices(), [point(-4, 3), point(-2, 2), point(-2, 4)]);
    assert_eq!((small.rotate(point(0, 0)), small.rotate(point(COORDINATE_LIMIT, 1))), (Err(Fault::ZeroDirection), Err(Fault::OutOfRange)));
    let mut held = Hull::new(5).unwrap();
    assert_eq!(held.nearest_held(point(0, 0)), Ok(None));
    held.add(point(9, 9)).and(held.add(point(-9, 9))).unwrap();
    assert_eq!((held.nearest_held(point(0, 5)), held.nearest_held(point(1, 9))), (Ok(Some((point(-9, 9), 97))), Ok(Some((point(9, 9), 64)))));
    assert_eq!(held.nearest_held(point(COORDINATE_LIMIT + 1, 0)), Err(Fault::OutOfRange));
    let far = i128::from(COORDINATE_LIMIT) - 9;
    let wanted = Ok(Some((point(9, 9), (far * far + 81) as u128)));
    assert_eq!(held.nearest_held(point(COORDINATE_LIMIT, 0)), wanted); // a number of two words
    let ways = [[point(-1, 1), point(20, 1)], [point(11, 0), point(11, 9)]];
    assert_eq!((polygon.intersects_segments(&ways), polygon.intersects_segments(&[])), (Ok(vec![true, false]), Ok(vec![])));
    assert_eq!(polygon.intersects_segments(&[[point(0, 0), point(0, COORDINATE_LIMIT + 1)]]), Err(Fault::OutOfRange));
    assert_eq!(small.indices(&[point(3, 4), point(9, 9), point(2, 2), point(3, 4)]), Ok(vec![Some(2), None, Some(0)]));
}

#[test]
fn polygons_of_points() {
    let ring: Vec<Point> = square().vertices().unwrap().collect();
    for first in 0..4 {
        let mut rotated = ring.clone();
        rotated.rotate_left(first);
        assert_eq!(Polygon::of_points(&rotated).unwrap().vertices(), ring);
        rotated.reverse();
        assert_eq!(Polygon::of_points(&rotated).unwrap().vertices(), ring);
        rotated.push(point(5, 5));
        assert_eq!(Polygon::of_points(&rotated).unwrap().vertices(), ring);
    }
    let parabola: Vec<Point> = (0..500).map(|i| point(i * 7 % 500, (i * 7 % 500) * (i * 7 % 500))).collect();
    assert_eq!(Polygon::of_points(&parabola).unwrap().vertices().len(), 500);
    assert_eq!(Polygon::of_points(&[]).unwrap().vertices(), []);
    assert_eq!(Polygon::of_points(&[point(0, COORDINATE_LIMIT + 1)]), Err(Fault::OutOfRange));
    assert_eq!(Polygon::of_points(&[point(1, 1); 65536]), Err(Fault::TooMany));
}

#[test]
fn directions_of_floats() {
    let top = 1 << 39;
    let made = |dx, dy| direction_of(dx, dy).map(|made| (made.point, made.is_exact));
    assert_eq!(made(1.0, -0.5), Ok((point(top, -top / 2), true)));
    assert_eq!(made(0.0, -0.0), Ok((point(0, 0), true)));
    assert_eq!(made(1.0, 2f64.powi(-40)), Ok((point(top, 0), false)));
    assert_eq!(made(1.0, 3.0 * 2f64.powi(-40)), Ok((point(top, 2), false)));
    assert_eq!(made(f64::MAX, 1.0), Ok((point(2 * top, 0), false)));
    assert_eq!(made(5e-324, -5e-324), Ok((point(top, -top), true)));
    assert_eq!(made(f64::MIN_POSITIVE, f64::MIN_POSITIVE / 2.0), Ok((point(top, top / 2), true)));
    assert_eq!((made(f64::NAN, 0.0), made(1.0, f64::NAN)), (Err(Fault::OutOfRange), Err(Fault::OutOfRange)));
    assert_eq!(made(0.0, f64::NEG_INFINITY), Err(Fault::OutOfRange));
    let polygon = Polygon::new(&[point(0, 0), point(10, 0), point(10, 10), point(0, 10)]).unwrap();
    assert_eq!(polygon.extreme_d(0.5, 0.25), Ok(Some(point(10, 10))));
    assert_eq!(polygon.extreme_d(0.0, 0.0), Ok(Some(point(0, 0))));
    let steep = Polygon::of_points(&[point(0, 5), point(3, -2), point(7, 9)]).unwrap();
    assert_eq!(steep.extreme_d(0.0, 0.0), Ok(Some(point(0, 5)))); // the first by x, not by y
    let mut hull = Hull::new(2).unwrap();
    assert_eq!(hull.extreme_d(0.0, 0.0), Ok(None));
    hull.add(point(1, 2)).unwrap();
    assert_eq!(hull.extreme_d(1e300, -1e-300), Ok(Some(point(1, 2))));
}

#[test]
fn changes() {
    let mut hull = Hull::new(2).unwrap();
    assert!(hull.is_empty());
    assert_eq!(hull.add(point(1, 2)), Ok(1));
    assert!(!hull.is_empty());
    assert_eq!(hull.add(point(1, 2)), Ok(2));
    assert_eq!(hull.add(point(COORDINATE_LIMIT + 1, 0)), Err(Fault::OutOfRange));
    assert_eq!(hull.add(point(-COORDINATE_LIMIT, COORDINATE_LIMIT)), Ok(1));
    assert_eq!(hull.add(point(3, 3)), Err(Fault::TooMany));
    assert_eq!((hull.multiplicity(point(1, 2)), hull.multiplicity(point(3, 3))), (Ok(2), Ok(0)));
    assert_eq!(hull.multiplicity(point(0, i64::MIN)), Err(Fault::OutOfRange));
    assert_eq!(hull.remove(point(1, 2)), Ok(Some(1)));
    assert_eq!(hull.remove(point(1, 2)), Ok(Some(0)));
    assert_eq!(hull.remove(point(1, 2)), Ok(None));
    assert_eq!(hull.remove(point(0, i64::MAX)), Err(Fault::OutOfRange));
    assert_eq!(hull.len(), 1);
    hull.clear();
    assert_eq!((hull.len(), hull.limit()), (0, 2));
}

#[test]
fn greatest_multiplicity() {
    let mut hull = Hull::new(1).unwrap();
    for times in 1..=MULTIPLICITY_LIMIT {
        assert_eq!(hull.add(point(0, 0)), Ok(times));
    }
    assert_eq!(hull.multiplicity(point(0, 0)), Ok(MULTIPLICITY_LIMIT));
    assert_eq!(hull.add(point(0, 0)), Err(Fault::TooMany));
}

#[test]
fn questions() {
    let none = Hull::new(1).unwrap();
    assert_eq!(none.place(point(0, 0)), Ok(Place::Outside));
    assert_eq!((none.extreme(point(1, 0)), none.tangents(point(0, 0))), (Ok(None), Ok(None)));
    assert_eq!((none.doubled_area(), none.vertices().unwrap().len()), (0, 0));
    let hull = square();
    assert_eq!(hull.place(point(5, 5)), Ok(Place::Inside));
    assert_eq!(hull.place(point(10, 5)), Ok(Place::On));
    assert_eq!(hull.place(point(11, 5)), Ok(Place::Outside));
    assert_eq!(hull.place(point(i64::MAX, 5)), Err(Fault::OutOfRange));
    assert_eq!(hull.extreme(point(1, 0)), Ok(Some(point(10, 0))));
    assert_eq!(hull.extreme(point(0, 0)), Err(Fault::ZeroDirection));
    assert_eq!(hull.extreme(point(0, i64::MIN)), Err(Fault::OutOfRange));
    assert_eq!(hull.tangents(point(20, 5)), Ok(Some((point(10, 0), point(10, 10)))));
    assert_eq!(hull.tangents(point(10, 5)), Ok(None));
    assert_eq!(hull.tangents(point(i64::MIN, 5)), Err(Fault::OutOfRange));
    assert_eq!((hull.doubled_area(), hull.len()), (200, 5));
}

#[test]
fn vertices() {
    let mut hull = square();
    let vertices = hull.vertices().unwrap();
    assert_eq!(vertices.len(), 4);
    assert!(vertices.clone().eq([point(0, 0), point(10, 0), point(10, 10), point(0, 10)]));
    assert_eq!(vertices.rev().next(), Some(point(0, 10)));
    hull.remove(point(10, 10)).unwrap();
    assert_eq!(hull.vertices().unwrap().len(), 3);
}

#[test]
fn many_at_once() {
    let mut hull = Hull::new(1001).unwrap();
    let points: Vec<Point> = (0..1000).map(|i| point(i, i * i)).collect();
    assert_eq!(hull.add_all(&points).unwrap(), vec![1; 1000]);
    assert_eq!(hull.add_all(&[point(0, 0), point(-1, 0), point(-2, 0), point(1, 1)]), Ok(vec![2, 1, 0, 2]));
    assert_eq!(hull.place_all(&[point(5, 30), point(0, 0), point(-3, 0)]), Ok(vec![Place::Inside, Place::On, Place::Outside]));
    assert_eq!(hull.extreme_all(&[point(1, 0), point(-1, 0)]), Ok(vec![Some(point(999, 999 * 999)), Some(point(-1, 0))]));
    let seen = hull.tangents_all(&[point(5, 30), point(-1, -5)]).unwrap();
    assert_eq!((seen[0], seen[1].is_some()), (None, true));
    assert_eq!(seen[1], hull.tangents(point(-1, -5)).unwrap());
    assert_eq!(hull.place_all(&[point(0, 0), point(i64::MAX, 0)]), Err(Fault::OutOfRange));
    assert_eq!(hull.extreme_all(&[point(0, 0)]), Err(Fault::ZeroDirection));
    let before = (hull.len(), hull.multiplicity(point(5, 25)));
    for wrong in [point(0, COORDINATE_LIMIT + 1), point(0, i64::MIN), point(-COORDINATE_LIMIT - 1, 0), point(i64::MAX, 0)] {
        let far = [point(5, 25), wrong];
        assert_eq!(hull.add_all(&far), Err(Fault::OutOfRange));
        assert_eq!((hull.len(), hull.multiplicity(point(5, 25))), before);
        assert_eq!(hull.remove_all(&far), Err(Fault::OutOfRange));
        assert_eq!((hull.len(), hull.multiplicity(point(5, 25))), before);
    }
    let polygon = hull.polygon().unwrap();
    let asked: Vec<Point> = (0..600).map(|i| point(i - 300, i * 1200 - 500)).collect();
    assert_eq!(polygon.place_all(&asked), hull.place_all(&asked));
    assert_eq!(polygon.tangents_all(&asked), hull.tangents_all(&asked));
    assert_eq!(polygon.extreme_all(&asked), hull.extreme_all(&asked));
    assert_eq!(polygon.place_all(&[point(0, 0), point(0, i64::MIN)]), Err(Fault::OutOfRange));
    assert_eq!(polygon.extreme_all(&[point(0, 0)]), Err(Fault::ZeroDirection));
    assert_eq!((hull.remove_all(&points), hull.remove_all(&points), hull.remove_all(&[])), (Ok(1000), Ok(2), Ok(0)));
    assert_eq!(hull.len(), 1);
}

#[test]
fn extended() {
    let mut hull = Hull::new(2).unwrap();
    hull.extend([point(1, 2), point(1, 2)]);
    hull.extend(&[point(3, 4)]);
    assert_eq!((hull.len(), hull.multiplicity(point(1, 2))), (2, Ok(2)));
    let full = std::panic::catch_unwind(std::panic::AssertUnwindSafe(|| hull.extend([point(5, 6)])));
    assert!(full.unwrap_err().downcast_ref::<String>().unwrap().starts_with("(5, 6): there are as many"));
    assert_eq!(hull.len(), 2);
}

#[test]
fn collections() {
    let hull: Hull = [(0, 0), (4, 0), (4, 0), (0, 3)].map(Point::from).into_iter().collect();
    assert_eq!((hull.len(), hull.limit(), hull.multiplicity(point(4, 0))), (3, POINT_LIMIT, Ok(2)));
    let mut twin = hull.clone();
    twin.clear();
    assert_eq!((twin.len(), twin.limit(), hull.len()), (0, POINT_LIMIT, 3));
    assert!(Hull::default().is_empty());
    let polygon = hull.polygon().unwrap();
    let many: HashSet<Polygon> = [polygon.clone(), hull.polygon().unwrap(), twin.polygon().unwrap()].into_iter().collect();
    assert_eq!((many.len(), many.contains(&polygon)), (2, true));
    assert_eq!(format!("{polygon:?}"), "Polygon { vertices: [Point { x: 0, y: 0 }, Point { x: 4, y: 0 }, Point { x: 0, y: 3 }] }");
    assert_eq!((<(i64, i64)>::from(point(3, -4)), point(3, -4).to_string()), ((3, -4), "(3, -4)".to_string()));
    let twins: Vec<Polygon> = (0..9).map(|_| polygon.clone()).collect();
    drop(polygon);
    std::thread::scope(|scope| {
        for twin in &twins {
            scope.spawn(move || assert_eq!(twin.clone().doubled_area(), 12));
        }
    });
}

/// Each request for memory of Rust's own refused in turn: each call returns the fault, and none aborts.
#[test]
fn refused_memory() {
    let points: Vec<Point> = (0..300).map(|i| point(i, i * i)).collect();
    let old = "hullbook journal 3 first 5 limit 3 capacity 9\n5 1 add 0 0 = added\nend 1\n";
    let all = || -> Result<usize, Fault> {
        let mut hull = Hull::from_points(1000, &points)?;
        let polygon = hull.polygon()?;
        let same = Polygon::new(polygon.vertices())?;
        let mut seen = hull.wkt(3)?.len() + hull.held()?.len() + hull.try_clone()?.len() + same.vertices().len();
        seen += same.translate(point(1, 2))?.rotate(point(0, 1))?.vertices().len() + Polygon::of_points(&points)?.vertices().len();
        let polygons = [same.clone(), polygon];
        seen += pairs_within_distance(&polygons, 1, 1)?.len() + same.relations(&polygons)?.len() + same.indices(&points)?.len();
        seen += same.intersects_segments(&[[point(0, 0), point(1, 5)]])?.len() + same.tangents_all(&points)?.len();
        seen += hull.place_all(&points)?.len() + hull.add_all(&points)?.len() + same.place_all(&points)?.len();
        seen += hull.vertices()?.len();
        let shared = SharedHull::open(Limits { points: 9, first: 0, capacity: 20, seats: 2 })?;
        let mut seat = shared.acquire_seat(1)?;
        seat.add(point(1, 2))?;
        seen += seat.vertices()?.len();
        let segment = seat.drain()?;
        for piece in segment.pieces(50) {
            seen += piece?.len();
        }
        seat.release();
        seen += segment.text()?.len() + shared.close()?.len();
        seen += SharedHull::open_without_journal(Limits { points: 9, first: 0, capacity: 1, seats: 1 })?.close()?.len();
        Ok(seen + SharedHull::reopen(old, 4, 2)?.close()?.len())
    };
    let wanted = all().unwrap();
    let mut refused = 0;
    for request in 0..1000 {
        LEFT.set(request);
        let result = all();
        let was_met = LEFT.replace(-1) < 0;
        if !was_met {
            break;
        }
        assert_eq!(result, Err(Fault::NoMemory), "request {request}");
        refused += 1;
    }
    assert!(all() == Ok(wanted) && refused > 15 && refused < 900, "{refused}");
}

/// After a fault, and after the last one, there is no block of a text any more.
#[test]
fn blocks_end() {
    let hull = SharedHull::open(Limits { points: 9, first: 0, capacity: 20, seats: 1 }).unwrap();
    let mut seat = hull.acquire_seat(0).unwrap();
    (0..5).for_each(|x| assert_eq!(seat.add(point(x, 2)), Ok(1)));
    let segment = seat.drain().unwrap();
    let mut pieces = segment.pieces(50);
    assert!(pieces.next().unwrap().unwrap().starts_with("hullbook journal 3 "));
    LEFT.set(0);
    let refused = pieces.next();
    LEFT.set(-1);
    assert_eq!((refused, pieces.next(), pieces.next()), (Some(Err(Fault::NoMemory)), None, None));
    let mut pieces = segment.pieces(50);
    assert!(pieces.by_ref().count() > 3 && pieces.next().is_none() && pieces.next().is_none());
}

/// A reader that had no memory for the newest snapshot is not the newest, and reads it when there is some.
#[test]
fn a_reader_with_no_memory() {
    let limits = Limits { points: 300, first: 0, capacity: 1, seats: 1 };
    let hull = SharedHull::for_readers(1).unwrap().open_without_journal(limits).unwrap();
    let (mut reader, mut seat) = (hull.acquire_reader().unwrap(), hull.acquire_seat(0).unwrap());
    assert_eq!((reader.newest().unwrap().vertices().len(), reader.is_newest()), (0, true));
    (0..200).for_each(|x| assert_eq!(seat.add(point(x, x * x)), Ok(1)));
    LEFT.set(0);
    let read = reader.read();
    assert_eq!((LEFT.replace(-1), read), (-1, Err(Fault::NoMemory)));
    assert_eq!((reader.is_newest(), reader.snapshot().vertices().len()), (false, 0));
    assert_eq!((reader.newest().unwrap().vertices().len(), reader.is_newest()), (200, true));
    seat.remove(point(0, 0)).unwrap();
    assert_eq!(reader.newest().unwrap().vertices().len(), 199);
}

/// The C library's malloc, except that a thread may have one request of the library refused, which is none of Rust's own.
#[cfg(all(target_os = "linux", target_env = "gnu"))]
mod libraries {
    use super::*;

    extern "C" {
        fn __libc_malloc(bytes: usize) -> *mut u8;
    }

    thread_local! {
        static LEFT_TO_LIBRARY: Cell<i64> = const { Cell::new(-1) };
        static IS_OF_RUST: Cell<bool> = const { Cell::new(false) };
    }

    #[no_mangle]
    extern "C" fn malloc(bytes: usize) -> *mut u8 {
        let is_refused = IS_OF_RUST.try_with(Cell::get) == Ok(false)
            && LEFT_TO_LIBRARY.try_with(|left| left.replace((left.get() - 1).max(-1)) == 0) == Ok(true);
        // SAFETY: it is what this function stands for.
        if is_refused { std::ptr::null_mut() } else { unsafe { __libc_malloc(bytes) } }
    }

    /// Allocates for Rust, whose requests are not counted here.
    pub fn of_rust<T>(allocate: impl FnOnce() -> T) -> T {
        let _ = IS_OF_RUST.try_with(|it| it.set(true));
        let made = allocate();
        let _ = IS_OF_RUST.try_with(|it| it.set(false));
        made
    }

    /// Each request of the library's refused in turn: a call on many counts the point as not added, and goes on with the next.
    #[test]
    fn refused_to_the_library() {
        let points: Vec<Point> = (0..300).map(|i| point(i, i * i)).collect();
        let mut refused = 0;
        for request in 0.. {
            let mut hull = Hull::new(1000).unwrap();
            LEFT_TO_LIBRARY.set(request);
            let added = hull.add_all(&points).unwrap();
            if LEFT_TO_LIBRARY.replace(-1) >= 0 {
                break;
            }
            let missing: Vec<usize> = (0..300).filter(|&i| added[i] == 0).collect();
            assert!(missing.len() <= 1 && hull.len() == 300 - missing.len(), "request {request}: {missing:?}");
            refused += missing.len();
            for i in missing {
                assert_eq!((hull.multiplicity(points[i]), hull.add(points[i])), (Ok(0), Ok(1)));
            }
            assert!(hull.held().unwrap().iter().all(|it| it.multiplicity == 1));
        }
        assert!(refused > 3, "{refused}");
    }

    /// The same of a growing hull.
    #[test]
    fn refused_to_the_library_by_a_growing_hull() {
        let points: Vec<Point> = (0..3000).map(|i| point(i, i * i)).collect();
        let mut refused = 0;
        for request in 0.. {
            let mut hull = GrowingHull::new().unwrap();
            LEFT_TO_LIBRARY.set(request);
            let added = hull.add_all(&points).unwrap();
            if LEFT_TO_LIBRARY.replace(-1) >= 0 {
                break;
            }
            let missing: Vec<usize> = (0..3000).filter(|&i| added[i].is_none()).collect();
            assert!(missing.len() <= 1 && hull.vertices().unwrap().len() == 3000 - missing.len(), "request {request}: {missing:?}");
            refused += missing.len();
            for i in missing {
                assert_eq!((hull.add(points[i]), hull.add(points[i])), (Ok(Place::Outside), Ok(Place::On)));
            }
        }
        assert!(refused > 3, "{refused}");
    }
}

/// The table by which all languages are tested.
#[test]
fn lattice() {
    let table = std::env::var("LATTICE").unwrap_or("lattice.txt".to_string());
    let text = std::fs::read_to_string(table).unwrap();
    let mut cases = 0;
    for line in text.lines().filter(|line| !line.starts_with('#')) {
        let words: Vec<&str> = line.split(' ').collect();
        let (v, power) = (f64::from_bits(u64::from_str_radix(words[0], 16).unwrap()), words[1].parse().unwrap());
        let (wanted, steps) = (words[2].parse().unwrap(), Lattice { power });
        let result = steps.point(v, 0.0).map(|made| (made.point, made.is_exact));
        if words[3] == "none" {
            assert_eq!(result, Err(Fault::OutOfRange), "{line}");
            assert_eq!(steps.point(0.0, v), Err(Fault::OutOfRange), "{line}");
        } else {
            assert_eq!(result, Ok((point(wanted, 0), words[3] == "exact")), "{line}");
            if words[3] == "exact" && power.abs() < 900 {
                assert_eq!(steps.floats(point(0, wanted)).1, v, "{line}");
            }
        }
        cases += 1;
    }
    assert!(cases > 40);
}

#[test]
fn floats() {
    let lattice = Lattice { power: 20 };
    let made = lattice.point(0.5, -3.0).unwrap();
    assert_eq!((made.point, made.is_exact), (point(1 << 19, -3 << 20), true));
    assert_eq!(lattice.floats(made.point), (0.5, -3.0));
    let made = lattice.point(0.1, 2.0).unwrap();
    assert_eq!((made.point, made.is_exact), (point(104858, 2 << 20), false));
    let whole = Lattice { power: 0 };
    for (v, near) in [(2.5, 2), (3.5, 4), (-2.5, -2), (-0.5, 0), (0.49999999999999994, 0), (-1.5, -2), (1e-320, 0)] {
        let made = whole.point(v, 0.0).unwrap();
        assert_eq!((made.point.x, made.is_exact), (near, false), "{v}");
    }
    assert_eq!(Lattice { power: 1100 }.point(5e-324, 0.0).unwrap().point.x, 1 << 26);
    assert!(!Lattice { power: -2000 }.point(1e300, 0.0).unwrap().is_exact);
    assert_eq!(Lattice { power: i32::MIN }.floats(point(1, 0)), (f64::INFINITY, 0.0));
    assert_eq!(Lattice { power: i32::MAX }.floats(point(1, 0)), (0.0, 0.0));
    assert_eq!(Lattice { power: 40 }.point(1.0, -1.0).unwrap().point, point(COORDINATE_LIMIT, -COORDINATE_LIMIT));
    for wrong in [f64::NAN, f64::INFINITY, -1e308, 1.0000001] {
        assert_eq!(Lattice { power: 40 }.point(0.0, wrong), Err(Fault::OutOfRange));
    }
}

#[test]
fn text() {
    assert_eq!((wkt(&[], 3).as_str(), wkt(&[point(1, -2)], 0).as_str()), ("POLYGON EMPTY", "POINT (1 -2)"));
    assert_eq!(wkt(&[point(0, 0), point(3, 4)], 2), "LINESTRING (0 0, 0.75 1)");
    assert_eq!(square().wkt(0).unwrap(), "POLYGON ((0 0, 10 0, 10 10, 0 10, 0 0))");
    assert_eq!(square().wkt(-1).unwrap(), "POLYGON ((0 0, 20 0, 20 20, 0 20, 0 0))");
    assert_eq!((square().wkt(-1021), square().wkt(i32::MIN)), (Err(Fault::OutOfRange), Err(Fault::OutOfRange)));
    assert!(square().wkt(-1020).is_ok() && wkt(&[point(0, 0)], i32::MIN) == "POINT (0 0)");
}

#[test]
fn area_in_two_words() {
    let mut hull = Hull::new(4).unwrap();
    for (x, y) in [(-1, -1), (1, -1), (1, 1), (-1, 1)] {
        hull.add(point(x * COORDINATE_LIMIT, y * COORDINATE_LIMIT)).unwrap();
    }
    assert_eq!(hull.doubled_area(), 1 << 83);
}

#[test]
fn a_hull_goes_to_another_thread() {
    let mut hull = square();
    let hull = std::thread::spawn(move || hull.add(point(20, 5)).map(|_| hull)).join().unwrap().unwrap();
    assert_eq!(hull.vertices().unwrap().len(), 5);
}

#[test]
fn faults_have_texts() {
    let texts = [
        (Fault::OutOfRange, "a coordinate is out of range"),
        (Fault::ZeroDirection, "a direction is zero"),
        (Fault::TooMany, "there are as many points as the limit, or the multiplicity is the greatest"),
        (Fault::NoMemory, "memory was refused"),
        (Fault::OutOfOrder, "the points are not in order"),
        (Fault::BadLimit, "a limit of a hull is out of range"),
        (Fault::NoPolygon, "the points are not a convex polygon"),
        (Fault::NoSeat, "no such seat, or no reader, of the hull is free"),
        (Fault::NotOpen, "the hull is closed, or has no journal file"),
        (Fault::SeatsOut, "a seat of the hull is acquired"),
        (Fault::Full, "the journal of the hull is full"),
        (Fault::Busy, "the hull was in use by others for too long"),
        (Fault::NoJournal { line: 7, fault: 2 }, "the text is not a journal: line 7: fault 2"),
        (Fault::OldRules, "journals before version 3 do not count points"),
        (Fault::Illegal { line: 8 }, "the journal is not a legal history: line 8 of its text"),
        (Fault::TooFewSeats { wanted: 9 }, "the journal has lines by 9 seats"),
        (Fault::NoFile { errno: 2 }, "the file of the journal: No such file or directory (os error 2)"),
        (Fault::NoFile { errno: 11 }, "the file of the journal: Resource temporarily unavailable (os error 11): another hull has it"),
        (Fault::Damaged { line: 6 }, "the file is damaged, or not a journal, from line 6 on"),
    ];
    for (fault, text) in texts {
        assert_eq!(fault.to_string(), text);
        assert_eq!(std::error::Error::source(&fault).map(ToString::to_string), None);
    }
    assert_eq!(format!("{:?}", square()), "Hull { limit: 6, len: 5, .. }");
}
