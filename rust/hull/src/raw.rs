//! The headers `include/hull_common.h`, `hull.h` and `hull_shared.h`, declared for Rust: each call is described there.

/// A point, or a direction, by its coordinates.
#[repr(C)]
#[derive(Clone, Copy, Debug, PartialEq, Eq, PartialOrd, Ord, Hash)]
pub struct Point {
    /// The first coordinate.
    pub x: i64,
    /// The second coordinate.
    pub y: i64,
}

impl From<(i64, i64)> for Point {
    fn from((x, y): (i64, i64)) -> Point {
        Point { x, y }
    }
}

impl From<Point> for (i64, i64) {
    fn from(point: Point) -> (i64, i64) {
        (point.x, point.y)
    }
}

/// As `(3, -4)`.
impl std::fmt::Display for Point {
    fn fmt(&self, f: &mut std::fmt::Formatter<'_>) -> std::fmt::Result {
        write!(f, "({}, {})", self.x, self.y)
    }
}

/// A point and its multiplicity.
#[repr(C)]
#[derive(Clone, Copy, Debug, PartialEq, Eq, PartialOrd, Ord, Hash)]
pub struct Held {
    /// The point.
    pub point: Point,
    /// Its multiplicity.
    pub multiplicity: u32,
}

// written by tools/table.py: structs
/// The result of a call: a code (hull_code), and the fields that it names above; all others are 0.
#[repr(C)]
#[derive(Clone, Copy, Debug)]
pub(crate) struct Reply {
    pub code: u32,
    pub x: i64,
    pub y: i64,
    pub other_x: i64,
    pub other_y: i64,
    pub number: u64,
    pub high: u64,
}

/// A request of hull_calls: the arguments of hull_call.
#[repr(C)]
#[derive(Clone, Copy, Debug)]
pub(crate) struct Request {
    pub kind: u32,
    pub x: i64,
    pub y: i64,
}

/// A witness: points that show how polygons are related, so that you can verify it. What a code does not name is 0.
#[repr(C)]
#[derive(Clone, Copy, Debug)]
pub(crate) struct WitnessReply {
    pub code: u32,
    pub a: Point,
    pub b: Point,
    pub c: Point,
    pub d: Point,
}

/// The distance of two polygons, or of a polygon and a segment, in numbers that compare without a division; what the code does not name
/// is 0.
#[repr(C)]
#[derive(Clone, Copy, Debug)]
pub(crate) struct DistanceBoundsReply {
    pub code: u32,
    pub shift: u32,
    pub lower: u64,
    pub upper: u64,
    pub high: u64,
    pub middle: u64,
    pub low: u64,
    pub divisor_high: u64,
    pub divisor_low: u64,
}

/// The point at which a ray or a segment enters or leaves a polygon; what the code does not name is 0.
#[repr(C)]
#[derive(Clone, Copy, Debug)]
pub(crate) struct HitReply {
    pub code: u32,
    pub a: Point,
    pub b: Point,
    pub high: u64,
    pub low: u64,
    pub divisor_high: u64,
    pub divisor_low: u64,
}

/// When two polygons first intersect, of which the second moves straight by (dx, dy), each component at most HULL_COORDINATE_MAX in
/// size; boundaries count.
#[repr(C)]
#[derive(Clone, Copy, Debug)]
pub(crate) struct MotionReply {
    pub hit: HitReply,
    pub vertex: Point,
    pub moves: u32,
}

/// A polygon of many, by its vertices and their number.
#[repr(C)]
#[derive(Clone, Copy, Debug)]
pub(crate) struct VertexArray {
    pub vertices: *const Point,
    pub count: usize,
}

/// The result of a take or a look: a reply, and the number that the seat took, its turn. The turn is set with each reply of a call, with
/// HULL_FULL, HULL_TAKEN, HULL_WAITING and HULL_NOT_YET, and is 0 if the seat has none. After a reply or HULL_FULL the next turn is
/// served. A line of the journal has its own number, the one after that of the line before: it is in `line` if `has_line` is 1; after
/// HULL_FULL, and after a question that was answered with no line (hull_shared_open_answering), both are 0. `held` is how many lines the
/// journal has after the call: none after a drain.
#[repr(C)]
#[derive(Clone, Copy, Debug)]
pub(crate) struct SeatReply {
    pub answer: Reply,
    pub turn: u64,
    pub line: u64,
    pub held: u32,
    pub has_line: u32,
}

/// A reader's snapshot: `code` is HULL_SNAPSHOT_TAKEN, or HULL_OLD if it is the one before, since other threads were in the way a
/// thousand times. It has `count` vertices, as of `lines` lines of the whole journal; `line` is the number of the last of these, if
/// `has_line` is 1. HULL_VACANT, and no vertices, if the storage has no reader.
#[repr(C)]
#[derive(Clone, Copy, Debug)]
pub(crate) struct Snapshot {
    pub count: usize,
    pub lines: u64,
    pub line: u64,
    pub has_line: u32,
    pub code: u32,
}

/// The target that a call writes to: an array for vertices, or a segment; neither, if both are null.
#[repr(C)]
#[derive(Clone, Copy, Debug)]
pub(crate) struct Target {
    pub out: *mut Point,
    pub capacity: usize,
    pub segment: *mut u8,
}

/// The state of a gate at one moment, to watch a service; while calls go on, its numbers may be of different moments.
#[repr(C)]
#[derive(Clone, Copy, Debug)]
pub(crate) struct State {
    pub out: u32,
    pub inside: u32,
    pub sleepers: u32,
    pub for_space: u32,
    pub held: u32,
    pub turn: u64,
    pub seat: u32,
    pub designated: u32,
    pub drainer: u32,
    pub seat_for: u64,
    pub drains_for: u64,
    pub combined: u64,
}
// end of what tools/table.py writes

impl Reply {
    /// A reply before it is written.
    pub const NONE: Reply = Reply { code: 0, x: 0, y: 0, other_x: 0, other_y: 0, number: 0, high: 0 };

    pub fn point(self) -> Point {
        Point { x: self.x, y: self.y }
    }

    pub fn other_point(self) -> Point {
        Point { x: self.other_x, y: self.other_y }
    }
}

/// The gate at which the calls of a shared hull wait: all zero, it is ready.
#[repr(C, align(64))]
pub(crate) struct Gate {
    words: std::cell::UnsafeCell<[u64; GATE_WORDS]>,
}

const GATE_WORDS: usize = 1088;

impl Gate {
    pub const fn new() -> Gate {
        Gate { words: std::cell::UnsafeCell::new([0; GATE_WORDS]) }
    }

    pub fn at(&self) -> *mut u8 {
        self.words.get().cast()
    }
}

// SAFETY: the calls on a gate are for several threads at once; none moves it.
unsafe impl Sync for Gate {}

/// The deadline of a call that waits for ever.
pub(crate) const NEVER: u64 = u64::MAX;

pub(crate) type Hook = extern "C" fn(context: *mut u8, segment: *mut u8);

/// The numbers of the codes.
#[allow(dead_code)]
pub(crate) mod code {
    // written by tools/table.py: codes
    pub const OK: u32 = 0;
    pub const OUT_OF_RANGE: u32 = 1;
    pub const ZERO_DIRECTION: u32 = 2;
    pub const ADDED: u32 = 3;
    pub const AGAIN: u32 = 4;
    pub const TOO_MANY: u32 = 5;
    pub const NO_MEMORY: u32 = 6;
    pub const REMOVED: u32 = 7;
    pub const LEFT: u32 = 8;
    pub const ABSENT: u32 = 9;
    pub const POINT: u32 = 10;
    pub const EMPTY: u32 = 11;
    pub const INSIDE: u32 = 12;
    pub const ON: u32 = 13;
    pub const OUTSIDE: u32 = 14;
    pub const TANGENTS: u32 = 15;
    pub const NO_TANGENT: u32 = 16;
    pub const NUMBER: u32 = 17;
    pub const VERTICES: u32 = 18;
    pub const TOO_SMALL: u32 = 19;
    pub const CLEARED: u32 = 20;
    pub const OUT_OF_ORDER: u32 = 21;
    pub const UNKNOWN_KIND: u32 = 22;
    pub const INTERSECTING: u32 = 23;
    pub const DISJOINT: u32 = 24;
    pub const COVERED: u32 = 25;
    pub const VERTEX: u32 = 26;
    pub const EDGE: u32 = 27;
    pub const BOX: u32 = 28;
    pub const WITHIN: u32 = 29;
    pub const CROSSING: u32 = 30;
    pub const POINTS: u32 = 31;
    pub const OPEN: u32 = 32;
    pub const OUT_OF_LIMITS: u32 = 33;
    pub const WAS_OPENED: u32 = 34;
    pub const ACQUIRED: u32 = 35;
    pub const NO_SEAT: u32 = 36;
    pub const STORAGE_IN_USE: u32 = 37;
    pub const NOT_OPEN: u32 = 38;
    pub const RELEASED: u32 = 39;
    pub const VACANT: u32 = 40;
    pub const WAITING: u32 = 41;
    pub const SLOT_IN_USE: u32 = 42;
    pub const TAKEN: u32 = 43;
    pub const NOT_YET: u32 = 44;
    pub const NO_NUMBER: u32 = 45;
    pub const FULL: u32 = 46;
    pub const SEATS_OUT: u32 = 47;
    pub const CLOSED: u32 = 48;
    pub const NOT_CLOSED: u32 = 49;
    pub const TEXT: u32 = 50;
    pub const ENDED: u32 = 51;
    pub const IN_USE: u32 = 52;
    pub const RESERVED: u32 = 53;
    pub const SEGMENT_IN_USE: u32 = 54;
    pub const NO_SPACE: u32 = 55;
    pub const NO_LINES: u32 = 56;
    pub const NO_JOURNAL: u32 = 57;
    pub const OLD_RULES: u32 = 58;
    pub const ILLEGAL: u32 = 59;
    pub const TOO_FEW_SEATS: u32 = 60;
    pub const NO_POLYGON: u32 = 61;
    pub const BUSY: u32 = 62;
    pub const OTHER_GATE: u32 = 63;
    pub const NO_FILE: u32 = 64;
    pub const DAMAGED: u32 = 65;
    pub const DURABLE: u32 = 66;
    pub const READERS_SET: u32 = 67;
    pub const SNAPSHOT_TAKEN: u32 = 68;
    pub const OLD: u32 = 69;
    // end of what tools/table.py writes
}

/// The numbers of the kinds.
pub(crate) mod kind {
    // written by tools/table.py: kinds
    pub const ADD: u32 = 1;
    pub const REMOVE: u32 = 2;
    pub const PLACE: u32 = 3;
    pub const TANGENTS: u32 = 4;
    pub const EXTREME: u32 = 5;
    pub const VERTICES: u32 = 6;
    pub const AREA: u32 = 7;
    pub const COUNT: u32 = 8;
    pub const MULTIPLICITY: u32 = 9;
    // end of what tools/table.py writes
}

#[allow(dead_code)] // some are declared for other languages
#[link(name = "hull", kind = "static")]
extern "C" {
    // written by tools/table.py: functions of hull
    pub(crate) fn hull_size() -> usize;
    pub(crate) fn hull_alignment() -> usize;
    pub(crate) fn hull_make(limit: u32, storage: *mut u8);
    pub(crate) fn hull_end(h: *mut u8) -> u32;
    pub(crate) fn hull_prepare(h: *mut u8) -> Reply;
    pub(crate) fn hull_gather(h: *mut u8) -> Reply;
    pub(crate) fn hull_call(h: *mut u8, kind: u32, x: i64, y: i64) -> Reply;
    pub(crate) fn hull_ask(h: *const u8, kind: u32, x: i64, y: i64) -> Reply;
    pub(crate) fn hull_library_version() -> *const std::os::raw::c_char;
    pub(crate) fn hull_place(h: *const u8, x: i64, y: i64) -> Reply;
    pub(crate) fn hull_tangents(h: *const u8, x: i64, y: i64) -> Reply;
    pub(crate) fn hull_extreme(h: *const u8, x: i64, y: i64) -> Reply;
    pub(crate) fn hull_vertices(h: *const u8, out: *mut Point, capacity: usize) -> Reply;
    pub(crate) fn hull_limit(h: *const u8) -> Reply;
    pub(crate) fn hull_calls(h: *mut u8, requests: *const Request, request_count: usize, replies: *mut Reply,
                             reply_capacity: usize) -> usize;
    pub(crate) fn hull_load(h: *mut u8, points: *const Point, count: usize) -> Reply;
    pub(crate) fn hull_held_from(h: *const u8, x: i64, y: i64, out: *mut Held, capacity: usize) -> Reply;
    pub(crate) fn hull_nearest_held(h: *const u8, x: i64, y: i64) -> Reply;
    pub(crate) fn hull_load_held(h: *mut u8, held: *const Held, count: usize) -> Reply;
    pub(crate) fn hull_clear(h: *mut u8) -> Reply;
    pub(crate) fn hull_growing_size() -> usize;
    pub(crate) fn hull_growing_alignment() -> usize;
    pub(crate) fn hull_growing_make(storage: *mut u8);
    pub(crate) fn hull_growing_end(g: *mut u8) -> u32;
    pub(crate) fn hull_growing_call(g: *mut u8, kind: u32, x: i64, y: i64) -> Reply;
    pub(crate) fn hull_growing_ask(g: *const u8, kind: u32, x: i64, y: i64) -> Reply;
    pub(crate) fn hull_growing_vertices(g: *const u8, out: *mut Point, capacity: usize) -> Reply;
    pub(crate) fn hull_growing_calls(g: *mut u8, requests: *const Request, request_count: usize, replies: *mut Reply,
                                     reply_capacity: usize) -> usize;
    pub(crate) fn hull_is_polygon(points: *const Point, count: usize) -> Reply;
    pub(crate) fn hull_polygon_of(points: *const Point, count: usize, out: *mut Point, capacity: usize) -> Reply;
    pub(crate) fn hull_polygon_call(vertices: *const Point, count: usize, kind: u32, x: i64, y: i64) -> Reply;
    pub(crate) fn hull_polygon_calls(vertices: *const Point, count: usize, requests: *const Request, request_count: usize,
                                     replies: *mut Reply, reply_capacity: usize) -> usize;
    pub(crate) fn hull_polygon_intersects_segment(vertices: *const Point, count: usize, ax: i64, ay: i64, bx: i64, by: i64) -> Reply;
    pub(crate) fn hull_polygon_separation(vertices: *const Point, count: usize, ax: i64, ay: i64, bx: i64, by: i64) -> Reply;
    pub(crate) fn hull_polygon_nearest(vertices: *const Point, count: usize, x: i64, y: i64) -> Reply;
    pub(crate) fn hull_polygon_box(vertices: *const Point, count: usize) -> Reply;
    pub(crate) fn hull_polygon_width(vertices: *const Point, count: usize, dx: i64, dy: i64) -> Reply;
    pub(crate) fn hull_polygon_diameter(vertices: *const Point, count: usize) -> Reply;
    pub(crate) fn hull_polygon_least_width(vertices: *const Point, count: usize) -> WitnessReply;
    pub(crate) fn hull_polygon_intersects(vertices: *const Point, count: usize, others: *const Point, other_count: usize) -> Reply;
    pub(crate) fn hull_polygon_contains(vertices: *const Point, count: usize, others: *const Point, other_count: usize) -> Reply;
    pub(crate) fn hull_polygon_contains_inside(vertices: *const Point, count: usize, others: *const Point, other_count: usize) -> Reply;
    pub(crate) fn hull_polygon_relation(vertices: *const Point, count: usize, others: *const Point, other_count: usize) -> Reply;
    pub(crate) fn hull_polygon_within_distance(vertices: *const Point, count: usize, others: *const Point, other_count: usize,
                                               numerator: u64, denominator: u32) -> Reply;
    pub(crate) fn hull_polygon_witness(vertices: *const Point, count: usize, others: *const Point, other_count: usize) -> WitnessReply;
    pub(crate) fn hull_polygon_distance(vertices: *const Point, count: usize, others: *const Point, other_count: usize) -> WitnessReply;
    pub(crate) fn hull_polygon_distance_bounds(vertices: *const Point, count: usize, others: *const Point,
                                               other_count: usize) -> DistanceBoundsReply;
    pub(crate) fn hull_polygon_distance_bounds_to_segment(vertices: *const Point, count: usize, ax: i64, ay: i64, bx: i64,
                                                          by: i64) -> DistanceBoundsReply;
    pub(crate) fn hull_distance_bounds_compare(a: *const DistanceBoundsReply, b: *const DistanceBoundsReply) -> i32;
    pub(crate) fn hull_polygon_within_distance_of_segment(vertices: *const Point, count: usize, ax: i64, ay: i64, bx: i64, by: i64,
                                                          numerator: u64, denominator: u32) -> Reply;
    pub(crate) fn hull_polygon_relation_to_segment(vertices: *const Point, count: usize, ax: i64, ay: i64, bx: i64, by: i64) -> Reply;
    pub(crate) fn hull_polygon_raycast(vertices: *const Point, count: usize, x: i64, y: i64, dx: i64, dy: i64) -> HitReply;
    pub(crate) fn hull_polygon_raycast_exit(vertices: *const Point, count: usize, x: i64, y: i64, dx: i64, dy: i64) -> HitReply;
    pub(crate) fn hull_polygon_raycast_segment(vertices: *const Point, count: usize, ax: i64, ay: i64, bx: i64, by: i64) -> HitReply;
    pub(crate) fn hull_polygon_first_meeting(vertices: *const Point, count: usize, others: *const Point, other_count: usize, dx: i64,
                                             dy: i64) -> MotionReply;
    pub(crate) fn hull_polygon_translate(vertices: *const Point, count: usize, dx: i64, dy: i64, out: *mut Point) -> Reply;
    pub(crate) fn hull_polygon_rotate(vertices: *const Point, count: usize, a: i64, b: i64, out: *mut Point) -> Reply;
    pub(crate) fn hull_pairs_within_distance(polygons: *const VertexArray, count: usize, numerator: u64, denominator: u32,
                                             out: *mut [usize; 2], capacity: usize) -> Reply;
    pub(crate) fn hull_polygon_relations(vertices: *const Point, count: usize, others: *const VertexArray, other_count: usize,
                                         out: *mut u8);
    pub(crate) fn hull_polygon_intersects_segments(vertices: *const Point, count: usize, segments: *const [Point; 2], segment_count: usize,
                                                   out: *mut u8) -> usize;
    pub(crate) fn hull_polygon_indices(vertices: *const Point, count: usize, points: *const Point, point_count: usize,
                                       out: *mut usize) -> usize;
    // end of what tools/table.py writes
}

#[allow(dead_code)]
#[link(name = "hull_shared", kind = "static")]
extern "C" {
    // written by tools/table.py: functions of hull_shared
    pub(crate) fn hull_shared_library_version() -> *const std::os::raw::c_char;
    pub(crate) fn hull_shared_size() -> usize;
    pub(crate) fn hull_shared_alignment() -> usize;
    pub(crate) fn hull_shared_seat_size() -> usize;
    pub(crate) fn hull_shared_seat_alignment() -> usize;
    pub(crate) fn hull_shared_segment_size() -> usize;
    pub(crate) fn hull_shared_segment_alignment() -> usize;
    pub(crate) fn hull_shared_make(storage: *mut u8);
    pub(crate) fn hull_shared_make_seat(storage: *mut u8);
    pub(crate) fn hull_shared_make_segment(storage: *mut u8);
    pub(crate) fn hull_shared_open(shared: *mut u8, limit: u32, first: u64, capacity: u32, seats: u32) -> u32;
    pub(crate) fn hull_shared_open_answering(shared: *mut u8, limit: u32, first: u64, capacity: u32, seats: u32) -> u32;
    pub(crate) fn hull_shared_open_without_journal(shared: *mut u8, limit: u32, first: u64, seats: u32) -> u32;
    pub(crate) fn hull_shared_reopen(shared: *mut u8, text: *const u8, length: usize, capacity: u32, seats: u32) -> Reply;
    pub(crate) fn hull_shared_reopen_answering(shared: *mut u8, text: *const u8, length: usize, capacity: u32, seats: u32) -> Reply;
    pub(crate) fn hull_shared_acquire_seat(shared: *mut u8, gate: *mut u8, storage: *mut u8, number: u32) -> u32;
    pub(crate) fn hull_shared_release_seat(shared: *mut u8, storage: *mut u8) -> u32;
    pub(crate) fn hull_shared_take(seat: *mut u8, kind: u32, x: i64, y: i64) -> SeatReply;
    pub(crate) fn hull_shared_look(seat: *mut u8) -> SeatReply;
    pub(crate) fn hull_shared_take_and_look(seat: *mut u8, kind: u32, x: i64, y: i64) -> SeatReply;
    pub(crate) fn hull_shared_look_into(seat: *mut u8, out: *mut Point, capacity: usize) -> SeatReply;
    pub(crate) fn hull_shared_capacity(seat: *const u8) -> u32;
    pub(crate) fn hull_shared_segment_reserve(segment: *mut u8, lines: u32) -> u32;
    pub(crate) fn hull_shared_segment_space(segment: *const u8) -> u32;
    pub(crate) fn hull_shared_look_and_drain(seat: *mut u8, segment: *mut u8) -> SeatReply;
    pub(crate) fn hull_shared_segment_text(segment: *const u8, out: *mut u8, length: usize) -> Reply;
    pub(crate) fn hull_shared_segment_text_from(segment: *const u8, line: u64, out: *mut u8, length: usize) -> Reply;
    pub(crate) fn hull_shared_segment_end(segment: *mut u8) -> u32;
    pub(crate) fn hull_shared_close(shared: *mut u8) -> u32;
    pub(crate) fn hull_shared_text(shared: *const u8, out: *mut u8, length: usize) -> Reply;
    pub(crate) fn hull_shared_text_from(shared: *const u8, line: u64, out: *mut u8, length: usize) -> Reply;
    pub(crate) fn hull_shared_end(shared: *mut u8) -> u32;
    pub(crate) fn hull_shared_reader_size() -> usize;
    pub(crate) fn hull_shared_reader_alignment() -> usize;
    pub(crate) fn hull_shared_make_reader(storage: *mut u8);
    pub(crate) fn hull_shared_set_max_readers(shared: *mut u8, readers: u32) -> u32;
    pub(crate) fn hull_shared_acquire_reader(shared: *mut u8, storage: *mut u8) -> u32;
    pub(crate) fn hull_shared_release_reader(shared: *mut u8, storage: *mut u8) -> u32;
    pub(crate) fn hull_shared_read(reader: *mut u8) -> Snapshot;
    pub(crate) fn hull_shared_snapshot_vertices(reader: *mut u8, out: *mut Point, capacity: usize) -> Reply;
    pub(crate) fn hull_shared_is_newest(reader: *mut u8) -> u32;
    pub(crate) fn hull_shared_gate_init(gate: *mut u8, inside: u32) -> i32;
    pub(crate) fn hull_shared_gate_wait_for_space(gate: *mut u8, waits: i32);
    pub(crate) fn hull_shared_gate_drain(gate: *mut u8, seat: *mut u8) -> i32;
    pub(crate) fn hull_shared_gate_end(gate: *mut u8);
    pub(crate) fn hull_shared_call(gate: *mut u8, seat: *mut u8, kind: u32, x: i64, y: i64) -> SeatReply;
    pub(crate) fn hull_shared_try_call(gate: *mut u8, seat: *mut u8, kind: u32, x: i64, y: i64) -> SeatReply;
    pub(crate) fn hull_shared_call_until(gate: *mut u8, seat: *mut u8, kind: u32, x: i64, y: i64, until: u64) -> SeatReply;
    pub(crate) fn hull_shared_now() -> u64;
    pub(crate) fn hull_shared_call_into(gate: *mut u8, seat: *mut u8, kind: u32, x: i64, y: i64, to: Target, until: u64) -> SeatReply;
    pub(crate) fn hull_shared_drain(gate: *mut u8, seat: *mut u8, segment: *mut u8, kind: u32, x: i64, y: i64) -> SeatReply;
    pub(crate) fn hull_shared_vertices(gate: *mut u8, seat: *mut u8, out: *mut Point, capacity: usize) -> SeatReply;
    pub(crate) fn hull_shared_handed_on(gate: *mut u8, number: u64);
    pub(crate) fn hull_shared_stats(gate: *const u8) -> State;
    pub(crate) fn hull_seat_call_into(seat: *mut u8, kind: u32, x: i64, y: i64, to: Target, until: u64) -> SeatReply;
    pub(crate) fn hull_seat_call_until(seat: *mut u8, kind: u32, x: i64, y: i64, until: u64) -> SeatReply;
    pub(crate) fn hull_seat_vertices(seat: *mut u8, out: *mut Point, capacity: usize) -> SeatReply;
    pub(crate) fn hull_shared_journal_open(path: *const std::os::raw::c_char, journal: *mut *mut u8) -> Reply;
    pub(crate) fn hull_shared_journal_compact(path: *const std::os::raw::c_char) -> Reply;
    pub(crate) fn hull_shared_journal_start(journal: *mut u8, shared: *mut u8, gate: *mut u8, limit: u32, capacity: u32, seats: u32,
                                            every: u64) -> Reply;
    pub(crate) fn hull_shared_journal_durable(journal: *mut u8) -> Reply;
    pub(crate) fn hull_shared_journal_wait(journal: *mut u8, line: u64, until: u64) -> Reply;
    pub(crate) fn hull_shared_journal_sync(journal: *mut u8, until: u64) -> Reply;
    pub(crate) fn hull_shared_journal_close(journal: *mut u8) -> Reply;
    // end of what tools/table.py writes
    pub(crate) fn hull_shared_gate_on_half_full(gate: *mut u8, hook: Hook, context: *mut u8) -> i32;
}
