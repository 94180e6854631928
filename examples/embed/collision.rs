//! A swarm of points flies past a wall. In each step the program prints a collision if the two convex hulls intersect, and else
//! their distance.
//!
//! In each step each point of the swarm moves: it is removed where it was and added where it is. The hulls are disjoint if one has
//! an edge with the other hull beyond it (separating axes; Gottschalk, 1996); the program asks the other hull for its farthest point
//! against the outward direction of the edge.
use hull::{Distance, Fault, Hull, Point};

fn point(x: i64, y: i64) -> Point {
    Point { x, y }
}

/// Whether some edge of the hull has all of the other hull strictly beyond it. Both have an area.
fn separates(hull: &Hull, other: &Hull) -> Result<bool, Fault> {
    let vertices: Vec<Point> = hull.vertices()?.collect();
    let next = vertices.iter().cycle().skip(1);
    for (from, to) in vertices.iter().zip(next) {
        let outward = point(to.y - from.y, from.x - to.x);
        let Some(nearest) = other.extreme(point(-outward.x, -outward.y))? else { return Ok(true) };
        if outward.x * (nearest.x - from.x) + outward.y * (nearest.y - from.y) > 0 {
            return Ok(true);
        }
    }
    Ok(false)
}

/// Returns the distance of the two hulls, which have points.
fn distance(hull: &Hull, other: &Hull) -> Result<f64, Fault> {
    let far = |p: Point, q: Point| ((q.x - p.x) as f64).hypot((q.y - p.y) as f64);
    let doubled_area = |a: Point, b: Point, c: Point| (b.x - a.x) * (c.y - a.y) - (b.y - a.y) * (c.x - a.x);
    Ok(match hull.polygon()?.distance(&other.polygon()?) {
        None | Some(Distance::Zero) => 0.0,
        Some(Distance::Vertices(p, q)) => far(p, q),
        Some(Distance::VertexAndEdge(c, [a, b]) | Distance::EdgeAndVertex([a, b], c)) => {
            doubled_area(a, b, c).abs() as f64 / far(a, b)
        }
    })
}

fn main() -> Result<(), Fault> {
    let mut wall = Hull::new(10)?;
    for (x, y) in [(60, -40), (70, -45), (75, 5), (62, 8)] {
        wall.add(point(x, y))?;
    }
    // the swarm: where each of its points is, and how it moves in a step
    let mut swarm: Vec<(Point, Point)> =
        (0..40).map(|k| (point(k * 7 % 31, k * 11 % 29), point(6, k % 5 - 2))).collect();
    let mut hull = Hull::new(100)?;
    for (at, _) in &swarm {
        hull.add(*at)?;
    }
    for step in 0..=20 {
        let is_disjoint = separates(&hull, &wall)? || separates(&wall, &hull)?;
        let distance = distance(&hull, &wall)?;
        assert_eq!(is_disjoint, distance > 0.0);
        let says = if is_disjoint { format!("{distance:.2} apart") } else { "collision".to_owned() };
        println!("step {step}: {} corners, doubled area {}: {says}", hull.vertices()?.len(), hull.doubled_area());
        for (at, by) in &mut swarm {
            let to = point(at.x + by.x, at.y + by.y);
            hull.remove(*at)?;
            hull.add(to)?;
            *at = to;
        }
    }
    Ok(())
}
