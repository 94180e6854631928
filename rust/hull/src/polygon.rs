//! Convex polygons, the vertices of a hull, which any number of threads query at once.
use crate::counted::Counted;
use crate::exchange::asked_along;
use crate::raw::{self, code, kind, Reply, Request};
use crate::{answer, many};
use crate::{DistanceBounds, Fault, Motion, Place, Point, NOWHERE};
use std::fmt;
use std::hash::{Hash, Hasher};
use std::ops::Deref;

/// A convex polygon: the vertices of a hull, as [`Hull::vertices`](crate::Hull::vertices) returns them, which answers as that hull
/// did then ([`PolygonQuestions`] has the questions). Nothing of it is ever written, so threads share it without a lock; a clone
/// shares the vertices.
#[derive(Clone)]
pub struct Polygon {
    pub(crate) vertices: Counted<Vec<Point>>,
}

/// The questions of a convex polygon. A [`Polygon`] dereferences to them, as a `String` to a `str`, and the snapshot of a reader
/// of a shared hull is one.
#[repr(transparent)]
pub struct PolygonQuestions {
    vertices: [Point],
}

impl PartialEq for Polygon {
    fn eq(&self, other: &Polygon) -> bool {
        self.vertices() == other.vertices()
    }
}

impl Eq for Polygon {}

impl Hash for Polygon {
    fn hash<H: Hasher>(&self, state: &mut H) {
        self.vertices().hash(state);
    }
}

impl fmt::Debug for Polygon {
    fn fmt(&self, f: &mut fmt::Formatter<'_>) -> fmt::Result {
        f.debug_struct("Polygon").field("vertices", &self.vertices()).finish()
    }
}

/// A direction that separates a polygon from a segment: no vertex has a greater product with it than `farthest`, a vertex, and
/// both ends of the segment have.
#[derive(Clone, Copy, Debug, PartialEq, Eq)]
pub struct Separation {
    /// A vertex that is farthest in the direction.
    pub farthest: Point,
    /// The direction, each component at most 2^41 in size: a product takes 128 bits.
    pub direction: Point,
}

/// The point of a polygon that is nearest to another point.
#[derive(Clone, Copy, Debug, PartialEq, Eq)]
pub enum Nearest {
    /// The polygon covers the point, which is its own nearest.
    Covered,
    /// At a vertex.
    Vertex(Point),
    /// At its foot on the edge from one vertex to the next, strictly between them.
    Edge(Point, Point),
}

/// How one polygon is related to another.
#[derive(Clone, Copy, Debug, PartialEq, Eq)]
pub enum Relation {
    // written by tools/table.py: relations
    /// They are disjoint.
    Disjoint,
    /// They intersect, and a line has them on its two sides: nothing inside the one is covered by the other.
    Touching,
    /// They intersect, and no line has them on its two sides.
    Overlapping,
    /// The second covers all that the first covers, and not the other way.
    Within,
    /// The first covers all that the second covers, and not the other way.
    Covers,
    /// Each covers the other.
    Equal,
    // end of what tools/table.py writes
}

/// A strip that contains a polygon, between the line of an edge and its parallel through a vertex farthest from it. Its width is
/// twice the area of the triangle of these three points, up to 84 bits, divided by the length of the edge.
#[derive(Clone, Copy, Debug, PartialEq, Eq)]
pub struct Strip {
    /// The vertex at which the edge begins; the polygon is left of it.
    pub from: Point,
    /// The next vertex.
    pub to: Point,
    /// A vertex farthest from the edge.
    pub farthest: Point,
}

/// Why two polygons intersect, or what separates them.
#[derive(Clone, Copy, Debug, PartialEq, Eq)]
pub enum Witness {
    /// The first one covers this vertex of the second.
    Covered(Point),
    /// The second covers this vertex of the first.
    Within(Point),
    /// The segment between two vertices of the first crosses the one between two vertices of the second.
    Crossing([Point; 2], [Point; 2]),
    /// This separates the first from the second: each vertex of that has a greater product with the direction than the farthest.
    Disjoint(Separation),
}

/// Where two polygons are nearest to one another. Between two vertices the squared distance is that of the two; between a vertex
/// and an edge it is the square of twice the area of the triangle of these three points, up to 84 bits, divided by the squared
/// length of the edge.
#[derive(Clone, Copy, Debug, PartialEq, Eq)]
pub enum Distance {
    /// They intersect.
    Zero,
    /// At a vertex of the first and a vertex of the second.
    Vertices(Point, Point),
    /// At a vertex of the first and its foot on an edge of the second, strictly between the ends of that.
    VertexAndEdge(Point, [Point; 2]),
    /// At the foot on an edge of the first, strictly between its ends, of a vertex of the second.
    EdgeAndVertex([Point; 2], Point),
}

/// Where a segment or a ray enters a polygon.
#[derive(Clone, Copy, Debug, PartialEq, Eq)]
pub enum Entry {
    /// At its start, which the polygon covers.
    Start,
    /// Across the edge from one vertex to the next, or at an end of it.
    Edge(Point, Point),
    /// At this vertex, of a polygon that is on its line.
    Vertex(Point),
}

/// Where a segment or a ray enters a polygon, or a ray leaves it, and how far along that is: `part / whole`, exactly, of a
/// segment, or in lengths of a ray's direction.
#[derive(Clone, Copy, Debug, PartialEq, Eq)]
pub struct Hit {
    /// The start, an edge or a vertex.
    pub place: Entry,
    /// How far along it is,
    pub part: u128,
    /// divided by this, which is not 0.
    pub whole: u128,
}

/// The vertices that a call writes to an array, which may be too short for them.
pub(crate) fn written_vertices(write: impl Fn(&mut [Point]) -> Reply) -> Result<Vec<Point>, Fault> {
    let mut vertices = Vec::new();
    loop {
        let reply = write(&mut vertices);
        let number = reply.number as usize;
        match reply.code {
            code::VERTICES => {
                vertices.truncate(number);
                return Ok(vertices);
            }
            code::TOO_SMALL => {
                vertices.try_reserve_exact(number - vertices.len()).map_err(|_| Fault::NoMemory)?;
                vertices.resize(number, NOWHERE);
            }
            other => return Err(answer::fault_of(other)),
        }
    }
}

impl Polygon {
    /// Returns the polygon of these vertices: counterclockwise from the first by x and then by y, and none inside an edge. Fails
    /// with [`Fault::NoPolygon`] if they are not.
    pub fn new(vertices: &[Point]) -> Result<Polygon, Fault> {
        let mut own = Vec::new();
        own.try_reserve_exact(vertices.len()).map_err(|_| Fault::NoMemory)?;
        own.extend_from_slice(vertices);
        Polygon::of(own)
    }

    /// Returns the convex polygon of any points. Fails with [`Fault::OutOfRange`], and [`Fault::TooMany`] as
    /// [`Hull::load`](crate::Hull::load), but for points that are not sorted. If a sample shows that many points lie inside, two
    /// passes drop these, and the others are sorted. Else, if the points are the vertices of a convex polygon in order, from any
    /// vertex on and in either sense, it makes a few passes over them; else it sorts them.
    pub fn of_points(points: &[Point]) -> Result<Polygon, Fault> {
        let vertices = written_vertices(|out| {
            // SAFETY: both arrays are slices' own and were written.
            unsafe { raw::hull_polygon_of(points.as_ptr(), points.len(), out.as_mut_ptr(), out.len()) }
        })?;
        Ok(Polygon { vertices: Counted::new(vertices)? })
    }

    pub(crate) fn of(vertices: Vec<Point>) -> Result<Polygon, Fault> {
        // SAFETY: the points are a vector's own, whose pointer is not null.
        let reply = unsafe { raw::hull_is_polygon(vertices.as_ptr(), vertices.len()) };
        match answer::number(reply)? {
            1 => Ok(Polygon { vertices: Counted::new(vertices)? }),
            _ => Err(Fault::NoPolygon),
        }
    }
}

impl Deref for Polygon {
    type Target = PolygonQuestions;

    fn deref(&self) -> &PolygonQuestions {
        // SAFETY: they are a convex polygon, as `new` saw.
        unsafe { PolygonQuestions::of(&self.vertices) }
    }
}

impl PolygonQuestions {
    /// The questions of these vertices.
    ///
    /// # Safety
    ///
    /// They are a convex polygon: the vertices of a hull from the first by x and then by y, counterclockwise.
    pub(crate) unsafe fn of(vertices: &[Point]) -> &PolygonQuestions {
        // SAFETY: it has the layout of the slice, and lives as long.
        unsafe { &*(vertices as *const [Point] as *const PolygonQuestions) }
    }

    /// Returns the vertices.
    pub fn vertices(&self) -> &[Point] {
        &self.vertices
    }

    /// Where the vertices are, and how many.
    fn at(&self) -> *const Point {
        self.vertices.as_ptr()
    }

    fn count(&self) -> usize {
        self.vertices.len()
    }

    // written by tools/table.py: questions
    /// Returns the location of `point`.
    pub fn place(&self, point: Point) -> Result<Place, Fault> {
        // SAFETY: the vertices are a convex polygon, as `Polygon::new` saw, and nobody writes them.
        let reply = unsafe { raw::hull_polygon_call(self.at(), self.count(), kind::PLACE, point.x, point.y) };
        answer::place(reply)
    }

    /// Returns the left and the right tangent point seen from `point`; `None` if there is no vertex, or the polygon covers it.
    pub fn tangents(&self, point: Point) -> Result<Option<(Point, Point)>, Fault> {
        // SAFETY: the vertices are a convex polygon, as `Polygon::new` saw, and nobody writes them.
        let reply = unsafe { raw::hull_polygon_call(self.at(), self.count(), kind::TANGENTS, point.x, point.y) };
        answer::tangents(reply)
    }

    /// Returns the farthest vertex in a direction, of several the first by x and then y; `None` if there is no vertex.
    pub fn extreme(&self, direction: Point) -> Result<Option<Point>, Fault> {
        // SAFETY: the vertices are a convex polygon, as `Polygon::new` saw, and nobody writes them.
        let reply = unsafe { raw::hull_polygon_call(self.at(), self.count(), kind::EXTREME, direction.x, direction.y) };
        answer::extreme(reply)
    }

    /// Returns twice the area, 0 for a point and a segment.
    pub fn doubled_area(&self) -> u128 {
        // SAFETY: the vertices are a convex polygon, as `Polygon::new` saw, and nobody writes them.
        let reply = unsafe { raw::hull_polygon_call(self.at(), self.count(), kind::AREA, 0, 0) };
        answer::certain(answer::number(reply))
    }

    /// Returns whether the polygon intersects the segment from `a` to `b`, which may be one point. Ends and boundary are included.
    pub fn intersects_segment(&self, a: Point, b: Point) -> Result<bool, Fault> {
        // SAFETY: the vertices are a convex polygon, as `Polygon::new` saw, and nobody writes them.
        let reply = unsafe { raw::hull_polygon_intersects_segment(self.at(), self.count(), a.x, a.y, b.x, b.y) };
        answer::whether(reply)
    }

    /// Returns a vertex and a direction that separate the polygon from the segment from `a` to `b`: no vertex has a greater product with
    /// the direction, and both ends have; `None` if they intersect, or there is no vertex.
    pub fn separation_from_segment(&self, a: Point, b: Point) -> Result<Option<Separation>, Fault> {
        // SAFETY: the vertices are a convex polygon, as `Polygon::new` saw, and nobody writes them.
        let reply = unsafe { raw::hull_polygon_separation(self.at(), self.count(), a.x, a.y, b.x, b.y) };
        answer::separation(reply)
    }

    /// Returns the point of the polygon that is nearest to `point`; `None` if there is no vertex.
    pub fn nearest(&self, point: Point) -> Result<Option<Nearest>, Fault> {
        // SAFETY: the vertices are a convex polygon, as `Polygon::new` saw, and nobody writes them.
        let reply = unsafe { raw::hull_polygon_nearest(self.at(), self.count(), point.x, point.y) };
        answer::nearest(reply)
    }

    /// Returns the least and the greatest point of the bounding box; `None` if there is no vertex.
    pub fn bounding_box(&self) -> Option<(Point, Point)> {
        // SAFETY: the vertices are a convex polygon, as `Polygon::new` saw, and nobody writes them.
        let reply = unsafe { raw::hull_polygon_box(self.at(), self.count()) };
        answer::certain(answer::two_points(reply))
    }

    /// Returns the extent of the polygon in a direction: the greatest product of a vertex with it less the least; `None` if there is no
    /// vertex. Divide it by the length of the direction for the width along it.
    pub fn width_along(&self, direction: Point) -> Result<Option<u128>, Fault> {
        // SAFETY: the vertices are a convex polygon, as `Polygon::new` saw, and nobody writes them.
        let reply = unsafe { raw::hull_polygon_width(self.at(), self.count(), direction.x, direction.y) };
        answer::number_or_none(reply)
    }

    /// Returns the two vertices that are farthest from one another, equal if there is only one; `None` if there is no vertex.
    pub fn diameter(&self) -> Option<(Point, Point)> {
        // SAFETY: the vertices are a convex polygon, as `Polygon::new` saw, and nobody writes them.
        let reply = unsafe { raw::hull_polygon_diameter(self.at(), self.count()) };
        answer::certain(answer::two_points(reply))
    }

    /// Returns the ends of an edge and a vertex farthest from it between which the polygon is least wide: no direction has a narrower
    /// strip; `None` if there are fewer than two vertices.
    pub fn least_width(&self) -> Option<Strip> {
        // SAFETY: the vertices are a convex polygon, as `Polygon::new` saw, and nobody writes them.
        let reply = unsafe { raw::hull_polygon_least_width(self.at(), self.count()) };
        answer::certain(answer::strip(reply))
    }

    /// Returns whether the two polygons intersect, boundaries included.
    pub fn intersects(&self, other: &PolygonQuestions) -> bool {
        // SAFETY: the vertices are a convex polygon, as `Polygon::new` saw, and nobody writes them.
        let reply = unsafe { raw::hull_polygon_intersects(self.at(), self.count(), other.at(), other.count()) };
        answer::certain(answer::whether(reply))
    }

    /// Returns whether this polygon contains the other one, boundaries included.
    pub fn contains(&self, other: &PolygonQuestions) -> bool {
        // SAFETY: the vertices are a convex polygon, as `Polygon::new` saw, and nobody writes them.
        let reply = unsafe { raw::hull_polygon_contains(self.at(), self.count(), other.at(), other.count()) };
        answer::certain(answer::whether(reply))
    }

    /// Returns whether this polygon contains the other one with no point of it on the boundary.
    pub fn contains_inside(&self, other: &PolygonQuestions) -> bool {
        // SAFETY: the vertices are a convex polygon, as `Polygon::new` saw, and nobody writes them.
        let reply = unsafe { raw::hull_polygon_contains_inside(self.at(), self.count(), other.at(), other.count()) };
        answer::certain(answer::whether(reply))
    }

    /// Returns how this polygon is related to the other one. A polygon without vertices is within any other.
    pub fn relation(&self, other: &PolygonQuestions) -> Relation {
        // SAFETY: the vertices are a convex polygon, as `Polygon::new` saw, and nobody writes them.
        let reply = unsafe { raw::hull_polygon_relation(self.at(), self.count(), other.at(), other.count()) };
        answer::certain(answer::relation(reply))
    }

    /// Returns whether their distance is at most `numerator / denominator`, exactly; false if one of them has no vertex. A length with the
    /// denominator 0 is longer than any distance.
    pub fn within_distance(&self, other: &PolygonQuestions, numerator: u64, denominator: u32) -> bool {
        // SAFETY: the vertices are a convex polygon, as `Polygon::new` saw, and nobody writes them.
        let reply = unsafe { raw::hull_polygon_within_distance(self.at(), self.count(), other.at(), other.count(), numerator,
                                                               denominator) };
        answer::certain(answer::whether(reply))
    }

    /// Returns why the two polygons intersect, or what separates them; `None` if one of them has no vertex.
    pub fn witness(&self, other: &PolygonQuestions) -> Option<Witness> {
        // SAFETY: the vertices are a convex polygon, as `Polygon::new` saw, and nobody writes them.
        let reply = unsafe { raw::hull_polygon_witness(self.at(), self.count(), other.at(), other.count()) };
        answer::certain(answer::witness(reply))
    }

    /// Returns the features at which the two polygons are nearest to one another, one of this and one of the other; `None` if one of them
    /// has no vertex.
    pub fn distance(&self, other: &PolygonQuestions) -> Option<Distance> {
        // SAFETY: the vertices are a convex polygon, as `Polygon::new` saw, and nobody writes them.
        let reply = unsafe { raw::hull_polygon_distance(self.at(), self.count(), other.at(), other.count()) };
        answer::certain(answer::distance(reply))
    }

    /// Returns the distance of the two polygons, 0 if they intersect; `None` if one of them has no vertex.
    pub fn distance_bounds(&self, other: &PolygonQuestions) -> Option<DistanceBounds> {
        // SAFETY: the vertices are a convex polygon, as `Polygon::new` saw, and nobody writes them.
        let reply = unsafe { raw::hull_polygon_distance_bounds(self.at(), self.count(), other.at(), other.count()) };
        answer::certain(answer::distance_bounds(reply))
    }

    /// Returns the distance of the polygon from the segment from `a` to `b`, which may be one point; `None` if there is no vertex.
    pub fn distance_bounds_to_segment(&self, a: Point, b: Point) -> Result<Option<DistanceBounds>, Fault> {
        // SAFETY: the vertices are a convex polygon, as `Polygon::new` saw, and nobody writes them.
        let reply = unsafe { raw::hull_polygon_distance_bounds_to_segment(self.at(), self.count(), a.x, a.y, b.x, b.y) };
        answer::distance_bounds(reply)
    }

    /// Returns the distance of the polygon from `point`; `None` if there is no vertex.
    pub fn distance_bounds_to_point(&self, point: Point) -> Result<Option<DistanceBounds>, Fault> {
        // SAFETY: the vertices are a convex polygon, as `Polygon::new` saw, and nobody writes them.
        let reply = unsafe { raw::hull_polygon_distance_bounds_to_segment(self.at(), self.count(), point.x, point.y, point.x, point.y) };
        answer::distance_bounds(reply)
    }

    /// Returns whether the distance of the polygon from the segment from `a` to `b`, which may be one point, is at most `numerator /
    /// denominator`, exactly. A length with the denominator 0 is longer than any distance.
    pub fn within_distance_of_segment(&self, a: Point, b: Point, numerator: u64, denominator: u32) -> Result<bool, Fault> {
        // SAFETY: the vertices are a convex polygon, as `Polygon::new` saw, and nobody writes them.
        let reply = unsafe { raw::hull_polygon_within_distance_of_segment(self.at(), self.count(), a.x, a.y, b.x, b.y, numerator,
                                                                          denominator) };
        answer::whether(reply)
    }

    /// Returns whether the distance of the polygon from `point` is at most `numerator / denominator`, exactly. A length with the
    /// denominator 0 is longer than any distance.
    pub fn within_distance_of_point(&self, point: Point, numerator: u64, denominator: u32) -> Result<bool, Fault> {
        // SAFETY: the vertices are a convex polygon, as `Polygon::new` saw, and nobody writes them.
        let reply = unsafe { raw::hull_polygon_within_distance_of_segment(self.at(), self.count(), point.x, point.y, point.x, point.y,
                                                                          numerator, denominator) };
        answer::whether(reply)
    }

    /// Returns how the polygon is related to the segment from `a` to `b`, which may be one point: one that it contains gives
    /// [`Relation::Covers`], also along an edge; one that leaves it touching if it has no point inside, and else overlapping.
    pub fn relation_to_segment(&self, a: Point, b: Point) -> Result<Relation, Fault> {
        // SAFETY: the vertices are a convex polygon, as `Polygon::new` saw, and nobody writes them.
        let reply = unsafe { raw::hull_polygon_relation_to_segment(self.at(), self.count(), a.x, a.y, b.x, b.y) };
        answer::relation(reply)
    }

    /// Returns the point at which the ray from `point` in a direction enters, the first of several that they share; `None` if it misses.
    pub fn raycast(&self, point: Point, direction: Point) -> Result<Option<Hit>, Fault> {
        // SAFETY: the vertices are a convex polygon, as `Polygon::new` saw, and nobody writes them.
        let reply = unsafe { raw::hull_polygon_raycast(self.at(), self.count(), point.x, point.y, direction.x, direction.y) };
        answer::hit(reply)
    }

    /// Returns the last point of the ray from `point` in a direction in the polygon; `None` if it misses.
    pub fn raycast_exit(&self, point: Point, direction: Point) -> Result<Option<Hit>, Fault> {
        // SAFETY: the vertices are a convex polygon, as `Polygon::new` saw, and nobody writes them.
        let reply = unsafe { raw::hull_polygon_raycast_exit(self.at(), self.count(), point.x, point.y, direction.x, direction.y) };
        answer::hit(reply)
    }

    /// Returns the point at which the segment from `a` to `b` enters; `None` if it misses. Its last point in the polygon is the one at
    /// which the reversed segment enters.
    pub fn raycast_segment(&self, a: Point, b: Point) -> Result<Option<Hit>, Fault> {
        // SAFETY: the vertices are a convex polygon, as `Polygon::new` saw, and nobody writes them.
        let reply = unsafe { raw::hull_polygon_raycast_segment(self.at(), self.count(), a.x, a.y, b.x, b.y) };
        answer::hit(reply)
    }

    /// Returns when the other polygon, which moves straight by `way`, first intersects this one; `None` if they never do, or one of them
    /// has no vertex.
    pub fn first_meeting(&self, other: &PolygonQuestions, way: Point) -> Result<Option<Motion>, Fault> {
        // SAFETY: the vertices are a convex polygon, as `Polygon::new` saw, and nobody writes them.
        let reply = unsafe { raw::hull_polygon_first_meeting(self.at(), self.count(), other.at(), other.count(), way.x, way.y) };
        answer::motion(reply)
    }
    // end of what tools/table.py writes

    /// The same for a direction of two floats, scaled to integers by [`direction_of`](crate::direction_of); for the direction (0,
    /// 0) the first point by x and then by y.
    pub fn extreme_d(&self, dx: f64, dy: f64) -> Result<Option<Point>, Fault> {
        self.extreme(asked_along(dx, dy)?)
    }

    fn ask_all<T>(
        &self,
        kind: u32,
        points: &[Point],
        read: impl Fn(Reply) -> Result<T, Fault>,
    ) -> Result<Vec<T>, Fault> {
        let serve = |requests: &[Request], replies: &mut [Reply]| {
            let vertices = &self.vertices;
            // SAFETY: the vertices are a convex polygon, as `Polygon::new` saw; the arrays were written, and are as long as is stated.
            unsafe {
                raw::hull_polygon_calls(
                    vertices.as_ptr(),
                    vertices.len(),
                    requests.as_ptr(),
                    requests.len(),
                    replies.as_mut_ptr(),
                    replies.len(),
                )
            }
        };
        many::all(kind, points, serve, read)
    }

    /// Returns the location of each of the points.
    pub fn place_all(&self, points: &[Point]) -> Result<Vec<Place>, Fault> {
        self.ask_all(kind::PLACE, points, answer::place)
    }

    /// Returns the tangent points seen from each of the points, as [`tangents`](PolygonQuestions::tangents).
    pub fn tangents_all(&self, points: &[Point]) -> Result<Vec<Option<(Point, Point)>>, Fault> {
        self.ask_all(kind::TANGENTS, points, answer::tangents)
    }

    /// Returns the farthest point in each of the directions, as [`extreme`](PolygonQuestions::extreme).
    pub fn extreme_all(&self, directions: &[Point]) -> Result<Vec<Option<Point>>, Fault> {
        self.ask_all(kind::EXTREME, directions, answer::extreme)
    }
}
