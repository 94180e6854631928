//! An exact dynamic convex hull of points with integer coordinates: safe Rust over `libhull.a`.
//!
//! ```
//! use hull::{Hull, Place, Point};
//!
//! let mut hull = Hull::new(100)?;
//! for (x, y) in [(0, 0), (10, 0), (10, 10), (0, 10)] {
//!     hull.add(Point { x, y })?;
//! }
//! assert_eq!(hull.place(Point { x: 5, y: 5 })?, Place::Inside);
//! assert_eq!(hull.doubled_area(), 200);
//! # Ok::<(), hull::Fault>(())
//! ```
//!
//! A [`Hull`] may go to another thread (`Send`), but be used by one at a time: share it as `Mutex<Hull>`, or open a [`SharedHull`]
//! (over `libhull_shared.a`), of which each thread has a [`Seat`] and whose calls have their lines in a journal.
mod answer;
mod counted;
mod distance_bounds;
mod exchange;
mod growing;
mod many;
mod motions;
mod pairs;
mod polygon;
mod raw;
mod reader;
mod shared;

use raw::{kind, Reply};
use std::alloc::{alloc, dealloc, Layout};
use std::fmt;
use std::ptr::NonNull;

pub use distance_bounds::DistanceBounds;
pub use exchange::{direction_of, wkt, Lattice, Rounded};
pub use growing::GrowingHull;
pub use motions::Motion;
pub use pairs::pairs_within_distance;
pub use polygon::{Distance, Entry, Hit, Nearest, Polygon, PolygonQuestions, Relation, Separation, Strip, Witness};
pub use raw::{Held, Point};
pub use reader::Reader;
pub use shared::{JournalSegment, Limits, Opening, Seat, SharedHull, Stats, CAPACITY_LIMIT, READER_LIMIT, SEAT_LIMIT};

/// The greatest size of a coordinate, of a point and of a direction: 2^40.
pub const COORDINATE_LIMIT: i64 = 1 << 40;
/// The greatest limit of a set: how many different points it may have.
pub const POINT_LIMIT: u32 = 1 << 20;
/// The greatest multiplicity of a point.
pub const MULTIPLICITY_LIMIT: u32 = 65535;

/// The point of calls that need none.
pub(crate) const NOWHERE: Point = Point { x: 0, y: 0 };

/// Why a call failed. The set is as it was.
#[derive(Clone, Copy, Debug, PartialEq, Eq)]
pub enum Fault {
    /// A coordinate is larger than [`COORDINATE_LIMIT`] in size.
    OutOfRange,
    /// Both components of a direction are 0.
    ZeroDirection,
    /// The point is new and there are as many as the limit, or its multiplicity is [`MULTIPLICITY_LIMIT`].
    TooMany,
    /// Memory was refused.
    NoMemory,
    /// A point does not follow the one before it, by x and then y.
    OutOfOrder,
    /// A limit, a capacity or a number of seats is 0 or too great.
    BadLimit,
    /// The seat is acquired, or the shared hull has none of this number; or as many readers as it may have are acquired.
    NoSeat,
    /// The points are not a convex polygon.
    NoPolygon,
    /// The shared hull is closed, or has no journal file.
    NotOpen,
    /// A seat or a reader of the shared hull is acquired.
    SeatsOut,
    /// The journal of the shared hull is full: the call was not made.
    Full,
    /// The call was not admitted for as long as the seat waits, and was not made.
    Busy,
    /// The text is not a journal: this line of it, from 1, has the first fault, of this number (1 its form, 2 a number, 3 a
    /// coordinate, 4 a seat, 5 a word, 6 the text ends before its end line, 7 no header).
    NoJournal { line: u64, fault: u8 },
    /// The journal is of version 1 or 2, which does not count points, so it can't be continued.
    OldRules,
    /// The journal is not a legal history: this line of its text, from 1, is the first that is wrong.
    Illegal { line: u64 },
    /// The journal has lines by this many seats, more than were asked for.
    TooFewSeats { wanted: u32 },
    /// The system refused a call on the journal file, with this `errno`.
    NoFile { errno: i32 },
    /// The file is not a journal, or damaged, from this line on, from 1.
    Damaged { line: u64 },
}

impl fmt::Display for Fault {
    fn fmt(&self, f: &mut fmt::Formatter<'_>) -> fmt::Result {
        f.write_str(match self {
            Fault::NoJournal { line, fault } => return write!(f, "the text is not a journal: line {line}: fault {fault}"),
            Fault::Illegal { line } => return write!(f, "the journal is not a legal history: line {line} of its text"),
            Fault::TooFewSeats { wanted } => return write!(f, "the journal has lines by {wanted} seats"),
            Fault::NoFile { errno } => {
                // the meaning, if the system's text does not give it (the numbers are Linux's)
                let why = match errno {
                    11 => ": another hull has it",
                    116 => ": another program has changed, replaced or removed it",
                    _ => "",
                };
                return write!(f, "the file of the journal: {}{why}", std::io::Error::from_raw_os_error(*errno));
            }
            Fault::Damaged { line } => return write!(f, "the file is damaged, or not a journal, from line {line} on"),
            Fault::OldRules => "journals before version 3 do not count points",
            Fault::OutOfRange => "a coordinate is out of range",
            Fault::ZeroDirection => "a direction is zero",
            Fault::TooMany => "there are as many points as the limit, or the multiplicity is the greatest",
            Fault::NoMemory => "memory was refused",
            Fault::OutOfOrder => "the points are not in order",
            Fault::BadLimit => "a limit of a hull is out of range",
            Fault::NoPolygon => "the points are not a convex polygon",
            Fault::NoSeat => "no such seat, or no reader, of the hull is free",
            Fault::NotOpen => "the hull is closed, or has no journal file",
            Fault::SeatsOut => "a seat of the hull is acquired",
            Fault::Full => "the journal of the hull is full",
            Fault::Busy => "the hull was in use by others for too long",
        })
    }
}

impl std::error::Error for Fault {}

/// The location of a point.
#[derive(Clone, Copy, Debug, PartialEq, Eq, Hash)]
pub enum Place {
    /// The hull covers the point, which is not on its boundary.
    Inside,
    /// The point is on the boundary: a vertex, on an edge, or on a hull that is a point or a segment.
    On,
    /// The hull does not cover the point.
    Outside,
}

/// A set of points, each with a multiplicity. Questions are about their convex hull.
pub struct Hull {
    storage: NonNull<u8>,
}

// SAFETY: the set is `Send`, which `hulls_go_to_any_thread` of `hull_c` asks for by a bound: plain data, and boxes from `malloc`. It is
// not `Sync`, since the library needs the whole hull for a question too.
unsafe impl Send for Hull {}

impl Hull {
    /// Returns an empty set for at most `limit` different points, 1 to [`POINT_LIMIT`].
    pub fn new(limit: u32) -> Result<Hull, Fault> {
        if !(1..=POINT_LIMIT).contains(&limit) {
            return Err(Fault::BadLimit);
        }
        // SAFETY: the layout has a size of more than 0.
        let storage = NonNull::new(unsafe { alloc(Self::layout()) }).ok_or(Fault::NoMemory)?;
        // SAFETY: the storage has the size and the alignment that the library asks for, and only this hull uses it.
        unsafe { raw::hull_make(limit, storage.as_ptr()) };
        Ok(Hull { storage })
    }

    /// Returns a set of some points in any order, with their multiplicities, for at most `limit` different points: as adding them
    /// one by one, in a small part of the time.
    pub fn from_points(limit: u32, points: &[Point]) -> Result<Hull, Fault> {
        let mut hull = Hull::new(limit)?;
        hull.load(points)?;
        Ok(hull)
    }

    /// Replaces all points by these, with their multiplicities, and returns how many different points there are. A fault leaves
    /// the set as it was.
    pub fn load(&mut self, points: &[Point]) -> Result<usize, Fault> {
        // SAFETY: as in `call`; the points are a slice's own, and a slice's pointer is not null.
        let reply = unsafe { raw::hull_load(self.storage.as_ptr(), points.as_ptr(), points.len()) };
        answer::number(reply).map(|number| number as usize)
    }

    /// Replaces all points by these, which are in order by x and then y, each once with its multiplicity. A fault leaves the set
    /// as it was; a multiplicity of 0 or above [`MULTIPLICITY_LIMIT`] is out of range.
    pub fn load_held(&mut self, held: &[Held]) -> Result<(), Fault> {
        // SAFETY: as in `load`.
        let reply = unsafe { raw::hull_load_held(self.storage.as_ptr(), held.as_ptr(), held.len()) };
        answer::number(reply).map(|_| ())
    }

    /// Writes the points from `start` on, in order by x and then y, to the front of the array until it is full, and returns how
    /// many it wrote.
    pub fn held_from(&self, start: Point, out: &mut [Held]) -> Result<usize, Fault> {
        // SAFETY: as in `call`; the array is a slice's own.
        let reply =
            unsafe { raw::hull_held_from(self.storage.as_ptr(), start.x, start.y, out.as_mut_ptr(), out.len()) };
        answer::number(reply).map(|number| number as usize)
    }

    /// Returns the points, in order by x and then y, each with its multiplicity.
    pub fn held(&self) -> Result<Vec<Held>, Fault> {
        let mut all = Vec::new();
        all.try_reserve_exact(self.len()).map_err(|_| Fault::NoMemory)?;
        all.resize(self.len(), Held { point: NOWHERE, multiplicity: 0 });
        let first = Point { x: -COORDINATE_LIMIT, y: -COORDINATE_LIMIT };
        let count = self.held_from(first, &mut all)?;
        all.truncate(count);
        Ok(all)
    }

    /// Returns the point that is nearest to `point`, of several the first by x and then y, and the square of its distance; `None`
    /// if there is none. It reads all points that are not much farther along x.
    pub fn nearest_held(&self, point: Point) -> Result<Option<(Point, u128)>, Fault> {
        // SAFETY: as in `call`.
        let reply = unsafe { raw::hull_nearest_held(self.storage.as_ptr(), point.x, point.y) };
        let squared = u128::from(reply.high) << 64 | u128::from(reply.number);
        Ok(answer::extreme(reply)?.map(|nearest| (nearest, squared)))
    }

    /// Returns another set with the same points, multiplicities and limit.
    pub fn try_clone(&self) -> Result<Hull, Fault> {
        let mut other = Hull::new(self.limit())?;
        other.load_held(&self.held()?)?;
        Ok(other)
    }

    fn layout() -> Layout {
        // SAFETY: these two read nothing.
        let (size, alignment) = unsafe { (raw::hull_size(), raw::hull_alignment()) };
        Layout::from_size_align(size, alignment).expect("the storage of a hull has a layout")
    }

    /// Makes a call by its kind. Only a `&mut self` makes those that change the set.
    fn call(&self, kind: u32, at: Point) -> Reply {
        // SAFETY: a hull is in the storage, from `new` to `drop`; since `Hull` is not `Sync`, no other call is under way.
        unsafe { raw::hull_call(self.storage.as_ptr(), kind, at.x, at.y) }
    }

    /// The set, after a hint that a question follows: its vertices are gathered once questions are many.
    fn prepared(&self) -> *mut u8 {
        // SAFETY: as in `call`.
        unsafe { raw::hull_prepare(self.storage.as_ptr()) };
        self.storage.as_ptr()
    }

    /// Adds a point, and returns its multiplicity now: 1 if it is new.
    pub fn add(&mut self, point: Point) -> Result<u32, Fault> {
        answer::multiplicity_added(self.call(kind::ADD, point))
    }

    /// Removes a point once, and returns the multiplicity that is left: 0 if it is gone; `None` if it was not there.
    pub fn remove(&mut self, point: Point) -> Result<Option<u32>, Fault> {
        answer::multiplicity_left(self.call(kind::REMOVE, point))
    }

    // written by tools/table.py: sets
    /// Returns the location of `point`.
    pub fn place(&self, point: Point) -> Result<Place, Fault> {
        // SAFETY: as in `call`.
        let reply = unsafe { raw::hull_place(self.prepared(), point.x, point.y) };
        answer::place(reply)
    }

    /// Returns the left and the right tangent point seen from `point`, of several on one line the farthest; `None` if there is no point, or
    /// the hull covers the one asked about.
    pub fn tangents(&self, point: Point) -> Result<Option<(Point, Point)>, Fault> {
        // SAFETY: as in `call`.
        let reply = unsafe { raw::hull_tangents(self.prepared(), point.x, point.y) };
        answer::tangents(reply)
    }

    /// Returns the farthest point in a direction, of several the first by x and then y; `None` if there is none.
    pub fn extreme(&self, direction: Point) -> Result<Option<Point>, Fault> {
        // SAFETY: as in `call`.
        let reply = unsafe { raw::hull_extreme(self.prepared(), direction.x, direction.y) };
        answer::extreme(reply)
    }

    /// Returns twice the area, 0 for a point and a segment.
    pub fn doubled_area(&self) -> u128 {
        // SAFETY: as in `call`.
        let reply = unsafe { raw::hull_ask(self.prepared(), kind::AREA, 0, 0) };
        answer::certain(answer::number(reply))
    }
    // end of what tools/table.py writes

    /// Returns the farthest point in a direction of two floats, scaled to integers by [`direction_of`]; for the direction (0, 0) the first point by
    /// x and then by y.
    pub fn extreme_d(&self, dx: f64, dy: f64) -> Result<Option<Point>, Fault> {
        self.extreme(exchange::asked_along(dx, dy)?)
    }

    /// Returns the multiplicity of a point: 0 if it is not there.
    pub fn multiplicity(&self, point: Point) -> Result<u32, Fault> {
        answer::number(self.call(kind::MULTIPLICITY, point)).map(|times| times as u32)
    }

    /// Returns how many different points there are.
    pub fn len(&self) -> usize {
        self.call(kind::COUNT, NOWHERE).number as usize
    }

    /// Returns whether there is no point.
    pub fn is_empty(&self) -> bool {
        self.len() == 0
    }

    /// Returns how many different points the set may have.
    pub fn limit(&self) -> u32 {
        // SAFETY: as in `call`.
        unsafe { raw::hull_limit(self.storage.as_ptr()) }.number as u32
    }

    /// Makes the calls of some requests, and returns how many it made.
    fn serve(&self, requests: &[raw::Request], replies: &mut [Reply]) -> usize {
        // SAFETY: as in `call`; both arrays were written, and are as long as is stated.
        unsafe {
            raw::hull_calls(
                self.storage.as_ptr(),
                requests.as_ptr(),
                requests.len(),
                replies.as_mut_ptr(),
                replies.len(),
            )
        }
    }

    fn ask_all<T>(
        &self,
        kind: u32,
        points: &[Point],
        read: impl Fn(Reply) -> Result<T, Fault>,
    ) -> Result<Vec<T>, Fault> {
        many::all(kind, points, |requests, replies| self.serve(requests, replies), read)
    }

    /// Returns the location of each of the points.
    pub fn place_all(&self, points: &[Point]) -> Result<Vec<Place>, Fault> {
        self.ask_all(kind::PLACE, points, answer::place)
    }

    /// Returns the tangent points seen from each of the points, as [`tangents`](Hull::tangents).
    pub fn tangents_all(&self, points: &[Point]) -> Result<Vec<Option<(Point, Point)>>, Fault> {
        self.ask_all(kind::TANGENTS, points, answer::tangents)
    }

    /// Returns the farthest point in each of the directions, as [`extreme`](Hull::extreme).
    pub fn extreme_all(&self, directions: &[Point]) -> Result<Vec<Option<Point>>, Fault> {
        self.ask_all(kind::EXTREME, directions, answer::extreme)
    }

    /// Adds each of the points, in order, and returns for each its multiplicity then: 0 if it failed, since there are too many or
    /// for want of memory; those after it are still added. [`Fault::OutOfRange`] for any of them leaves the set as it was.
    pub fn add_all(&mut self, points: &[Point]) -> Result<Vec<u32>, Fault> {
        check_all(points)?;
        self.ask_all(kind::ADD, points, |reply| match answer::multiplicity_added(reply) {
            Err(Fault::TooMany | Fault::NoMemory) => Ok(0),
            result => result,
        })
    }

    /// Removes each of the points once, in order, and returns how many of them were there. [`Fault::OutOfRange`] for any of them
    /// leaves the set as it was.
    pub fn remove_all(&mut self, points: &[Point]) -> Result<usize, Fault> {
        check_all(points)?;
        let mut there = 0;
        let serve = |requests: &[raw::Request], replies: &mut [Reply]| self.serve(requests, replies);
        many::at_each(kind::REMOVE, points, serve, |reply| {
            there += usize::from(answer::multiplicity_left(reply)?.is_some());
            Ok(())
        })?;
        Ok(there)
    }

    /// Returns the hull as well-known text, its coordinates divided by 2^`power`: see [`wkt`]. Fails with [`Fault::NoMemory`], and
    /// [`Fault::OutOfRange`] if a number is greater than all floats.
    pub fn wkt(&self, power: i32) -> Result<String, Fault> {
        exchange::try_wkt(&self.vertex_list()?, power)
    }

    /// Removes all points. The limit stays.
    pub fn clear(&mut self) {
        // SAFETY: as in `call`.
        unsafe { raw::hull_clear(self.storage.as_ptr()) };
    }

    /// Returns the vertices, counterclockwise from the first by x and then by y, each once and none inside an edge.
    pub fn vertices(&self) -> Result<Vertices, Fault> {
        self.vertex_list().map(Vertices::of)
    }

    fn vertex_list(&self) -> Result<Vec<Point>, Fault> {
        // SAFETY: as in `call`; the array is a slice's own, and all of it was written.
        answer::number(unsafe { raw::hull_gather(self.storage.as_ptr()) })?;
        polygon::written_vertices(|out| unsafe { raw::hull_vertices(self.storage.as_ptr(), out.as_mut_ptr(), out.len()) })
    }

    /// Returns the convex polygon of the hull now, which any number of threads may query at once.
    pub fn polygon(&self) -> Result<Polygon, Fault> {
        Polygon::of(self.vertex_list()?)
    }
}

/// Whether all coordinates are in range.
fn check_all(points: &[Point]) -> Result<(), Fault> {
    let is_in_range = |c: i64| (-COORDINATE_LIMIT..=COORDINATE_LIMIT).contains(&c);
    if points.iter().all(|point| is_in_range(point.x) && is_in_range(point.y)) {
        Ok(())
    } else {
        Err(Fault::OutOfRange)
    }
}

/// Adds points one by one. Panics if one fails: [`Hull::add`] returns a [`Fault`] instead.
impl Extend<Point> for Hull {
    fn extend<I: IntoIterator<Item = Point>>(&mut self, points: I) {
        for point in points {
            if let Err(fault) = self.add(point) {
                panic!("{point}: {fault}");
            }
        }
    }
}

impl<'a> Extend<&'a Point> for Hull {
    fn extend<I: IntoIterator<Item = &'a Point>>(&mut self, points: I) {
        self.extend(points.into_iter().copied());
    }
}

/// Makes a set of some points, with their multiplicities, for [`POINT_LIMIT`] different ones. Panics if that fails:
/// [`Hull::from_points`] returns a [`Fault`] instead.
impl FromIterator<Point> for Hull {
    fn from_iter<I: IntoIterator<Item = Point>>(points: I) -> Hull {
        let points: Vec<Point> = points.into_iter().collect();
        Hull::from_points(POINT_LIMIT, &points).unwrap_or_else(|fault| panic!("{fault}"))
    }
}

/// Makes an empty set for [`POINT_LIMIT`] points. Panics if memory is refused.
impl Default for Hull {
    fn default() -> Hull {
        Hull::new(POINT_LIMIT).unwrap_or_else(|fault| panic!("{fault}"))
    }
}

/// Makes another set with the same points, as [`Hull::try_clone`], which does not panic if memory is refused.
impl Clone for Hull {
    fn clone(&self) -> Hull {
        self.try_clone().unwrap_or_else(|fault| panic!("{fault}"))
    }
}

impl Drop for Hull {
    fn drop(&mut self) {
        // SAFETY: a hull is in the storage, which came from `alloc` with this layout, and nothing uses either any more.
        unsafe {
            raw::hull_end(self.storage.as_ptr());
            dealloc(self.storage.as_ptr(), Self::layout());
        }
    }
}

impl fmt::Debug for Hull {
    fn fmt(&self, f: &mut fmt::Formatter<'_>) -> fmt::Result {
        f.debug_struct("Hull").field("limit", &self.limit()).field("len", &self.len()).finish_non_exhaustive()
    }
}

/// The vertices of a hull as it was when it was asked.
#[derive(Clone, Debug)]
pub struct Vertices(std::vec::IntoIter<Point>);

impl Vertices {
    pub(crate) fn of(vertices: Vec<Point>) -> Vertices {
        Vertices(vertices.into_iter())
    }

    /// The vertices that are left.
    pub fn as_slice(&self) -> &[Point] {
        self.0.as_slice()
    }
}

impl Iterator for Vertices {
    type Item = Point;

    fn next(&mut self) -> Option<Point> {
        self.0.next()
    }

    fn size_hint(&self) -> (usize, Option<usize>) {
        self.0.size_hint()
    }
}

impl DoubleEndedIterator for Vertices {
    fn next_back(&mut self) -> Option<Point> {
        self.0.next_back()
    }
}

impl ExactSizeIterator for Vertices {}

impl std::iter::FusedIterator for Vertices {}
