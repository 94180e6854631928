//! The hull of points that are only added.
use crate::raw::{self, kind, Reply};
use crate::{answer, check_all, exchange, many, polygon, Fault, Place, Point, Polygon, Vertices, NOWHERE};
use std::alloc::{alloc, dealloc, Layout};
use std::fmt;
use std::ptr::NonNull;

/// The hull of points that are only added: it keeps only its vertices, so nothing can be removed from it, and multiplicities are not
/// kept. It is faster than a [`Hull`](crate::Hull) unless most points are vertices, and takes any number of points.
///
/// ```
/// use hull::{GrowingHull, Place, Point};
///
/// let mut hull = GrowingHull::new()?;
/// for (x, y) in [(0, 0), (10, 0), (10, 10), (0, 10)] {
///     assert_eq!(hull.add(Point { x, y })?, Place::Outside); // it was outside, so the hull has grown
/// }
/// assert_eq!(hull.add(Point { x: 5, y: 5 })?, Place::Inside); // the hull covers it, and is unchanged
/// assert_eq!(hull.vertices()?.len(), 4);
/// # Ok::<(), hull::Fault>(())
/// ```
pub struct GrowingHull {
    storage: NonNull<u8>,
}

// SAFETY: as for `Hull`.
unsafe impl Send for GrowingHull {}

impl GrowingHull {
    /// Returns the hull of no points.
    pub fn new() -> Result<GrowingHull, Fault> {
        // SAFETY: the layout has a size of more than 0.
        let storage = NonNull::new(unsafe { alloc(Self::layout()) }).ok_or(Fault::NoMemory)?;
        // SAFETY: the storage has the size and the alignment that the library asks for, and is nobody else's.
        unsafe { raw::hull_growing_make(storage.as_ptr()) };
        Ok(GrowingHull { storage })
    }

    /// Returns the hull of some points.
    pub fn from_points(points: &[Point]) -> Result<GrowingHull, Fault> {
        let mut hull = GrowingHull::new()?;
        for point in points {
            hull.add(*point)?;
        }
        Ok(hull)
    }

    fn layout() -> Layout {
        // SAFETY: these two read nothing.
        let (size, alignment) = unsafe { (raw::hull_growing_size(), raw::hull_growing_alignment()) };
        Layout::from_size_align(size, alignment).expect("the storage of a growing hull has a layout")
    }

    /// The hull, for the library.
    fn at(&self) -> *mut u8 {
        self.storage.as_ptr()
    }

    /// Makes a call by its kind. Only a `&mut self` makes those that add a point.
    fn call(&self, kind: u32, at: Point) -> Reply {
        // SAFETY: a hull is in the storage, from `new` to `drop`; since `GrowingHull` is not `Sync`, no other call is under way.
        unsafe { raw::hull_growing_call(self.at(), kind, at.x, at.y) }
    }

    /// Adds a point, and returns its place before: the hull has grown if it was [`Place::Outside`], and is unchanged else. It fails with
    /// [`Fault::TooMany`] if the hull has [`POINT_LIMIT`](crate::POINT_LIMIT) vertices below or above.
    pub fn add(&mut self, point: Point) -> Result<Place, Fault> {
        answer::place(self.call(kind::ADD, point))
    }

    // written by tools/table.py: growing
    /// Returns the location of `point`.
    pub fn place(&self, point: Point) -> Result<Place, Fault> {
        // SAFETY: as in `call`.
        let reply = unsafe { raw::hull_growing_ask(self.at(), kind::PLACE, point.x, point.y) };
        answer::place(reply)
    }

    /// Returns the left and the right tangent point seen from `point`, of several on one line the farthest; `None` if there is no point, or
    /// the hull covers the one asked about.
    pub fn tangents(&self, point: Point) -> Result<Option<(Point, Point)>, Fault> {
        // SAFETY: as in `call`.
        let reply = unsafe { raw::hull_growing_ask(self.at(), kind::TANGENTS, point.x, point.y) };
        answer::tangents(reply)
    }

    /// Returns the farthest point in a direction, of several the first by x and then y; `None` if there is none.
    pub fn extreme(&self, direction: Point) -> Result<Option<Point>, Fault> {
        // SAFETY: as in `call`.
        let reply = unsafe { raw::hull_growing_ask(self.at(), kind::EXTREME, direction.x, direction.y) };
        answer::extreme(reply)
    }

    /// Returns twice the area, 0 for a point and a segment.
    pub fn doubled_area(&self) -> u128 {
        // SAFETY: as in `call`.
        let reply = unsafe { raw::hull_growing_ask(self.at(), kind::AREA, 0, 0) };
        answer::certain(answer::number(reply))
    }
    // end of what tools/table.py writes

    /// Returns the farthest point in a direction of two floats, as [`Hull::extreme_d`](crate::Hull::extreme_d).
    pub fn extreme_d(&self, dx: f64, dy: f64) -> Result<Option<Point>, Fault> {
        self.extreme(exchange::asked_along(dx, dy)?)
    }

    /// Returns whether there is no point.
    pub fn is_empty(&self) -> bool {
        answer::certain(answer::extreme(self.call(kind::EXTREME, Point { x: 1, ..NOWHERE }))).is_none()
    }

    fn ask_all<T>(
        &self,
        kind: u32,
        points: &[Point],
        read: impl Fn(Reply) -> Result<T, Fault>,
    ) -> Result<Vec<T>, Fault> {
        let serve = |requests: &[raw::Request], replies: &mut [Reply]| {
            // SAFETY: as in `call`; both arrays were written, and are as long as is stated.
            unsafe {
                raw::hull_growing_calls(
                    self.at(),
                    requests.as_ptr(),
                    requests.len(),
                    replies.as_mut_ptr(),
                    replies.len(),
                )
            }
        };
        many::all(kind, points, serve, read)
    }

    /// Returns the location of each of the points.
    pub fn place_all(&self, points: &[Point]) -> Result<Vec<Place>, Fault> {
        self.ask_all(kind::PLACE, points, answer::place)
    }

    /// Returns the tangent points seen from each of the points, as [`tangents`](GrowingHull::tangents).
    pub fn tangents_all(&self, points: &[Point]) -> Result<Vec<Option<(Point, Point)>>, Fault> {
        self.ask_all(kind::TANGENTS, points, answer::tangents)
    }

    /// Returns the farthest point in each of the directions, as [`extreme`](GrowingHull::extreme).
    pub fn extreme_all(&self, directions: &[Point]) -> Result<Vec<Option<Point>>, Fault> {
        self.ask_all(kind::EXTREME, directions, answer::extreme)
    }

    /// Adds each of the points, in order, and returns for each its place before it: `None` if it failed, since there are too many vertices or
    /// for want of memory; those after it are still added. [`Fault::OutOfRange`] for any of them leaves the hull as it was.
    pub fn add_all(&mut self, points: &[Point]) -> Result<Vec<Option<Place>>, Fault> {
        check_all(points)?;
        self.ask_all(kind::ADD, points, |reply| match answer::place(reply) {
            Err(Fault::TooMany | Fault::NoMemory) => Ok(None),
            result => result.map(Some),
        })
    }

    /// Returns the hull as well-known text, its coordinates divided by 2^`power`: see [`Hull::wkt`](crate::Hull::wkt).
    pub fn wkt(&self, power: i32) -> Result<String, Fault> {
        exchange::try_wkt(&self.vertex_list()?, power)
    }

    /// Returns the vertices, counterclockwise from the first by x and then by y, each once and none inside an edge.
    pub fn vertices(&self) -> Result<Vertices, Fault> {
        self.vertex_list().map(Vertices::of)
    }

    fn vertex_list(&self) -> Result<Vec<Point>, Fault> {
        // SAFETY: as in `call`; the array is a slice's own, and all of it was written.
        polygon::written_vertices(|out| unsafe { raw::hull_growing_vertices(self.at(), out.as_mut_ptr(), out.len()) })
    }

    /// Returns the convex polygon of the hull now, which any number of threads may query at once.
    pub fn polygon(&self) -> Result<Polygon, Fault> {
        Polygon::of(self.vertex_list()?)
    }
}

/// Adds points one by one. Panics if one fails: [`GrowingHull::add`] returns a [`Fault`] instead.
impl Extend<Point> for GrowingHull {
    fn extend<I: IntoIterator<Item = Point>>(&mut self, points: I) {
        for point in points {
            if let Err(fault) = self.add(point) {
                panic!("{point}: {fault}");
            }
        }
    }
}

impl<'a> Extend<&'a Point> for GrowingHull {
    fn extend<I: IntoIterator<Item = &'a Point>>(&mut self, points: I) {
        self.extend(points.into_iter().copied());
    }
}

/// Makes the hull of some points. Panics if that fails: [`GrowingHull::from_points`] returns a [`Fault`] instead.
impl FromIterator<Point> for GrowingHull {
    fn from_iter<I: IntoIterator<Item = Point>>(points: I) -> GrowingHull {
        let mut hull = GrowingHull::default();
        hull.extend(points);
        hull
    }
}

/// Makes the hull of no points. Panics if memory is refused.
impl Default for GrowingHull {
    fn default() -> GrowingHull {
        GrowingHull::new().unwrap_or_else(|fault| panic!("{fault}"))
    }
}

impl Drop for GrowingHull {
    fn drop(&mut self) {
        // SAFETY: a hull is in the storage, which came from `alloc` with this layout, and nothing uses either any more.
        unsafe {
            raw::hull_growing_end(self.at());
            dealloc(self.at(), Self::layout());
        }
    }
}

impl fmt::Debug for GrowingHull {
    fn fmt(&self, f: &mut fmt::Formatter<'_>) -> fmt::Result {
        f.debug_struct("GrowingHull").field("doubled_area", &self.doubled_area()).finish_non_exhaustive()
    }
}
