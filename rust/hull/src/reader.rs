//! Readers of a shared hull, beside its seats, without a lock.
use crate::answer;
use crate::counted::Counted;
use crate::polygon::PolygonQuestions;
use crate::raw::{self, code};
use crate::shared::{Shared, Storage};
use crate::{Fault, Point, NOWHERE};
use std::fmt;

/// A reader of a shared hull ([`SharedHull::acquire_reader`](crate::SharedHull::acquire_reader)), which has a snapshot: the
/// vertices as of one line of the journal. It takes no lock, no turn and no line, and waits for no call. It may go to another
/// thread, and is released when it is dropped.
///
/// ```
/// use hull::{Limits, Place, Point, SharedHull};
///
/// let hull = SharedHull::for_readers(8)?.open(Limits { points: 1000, first: 0, capacity: 4096, seats: 2 })?;
/// let (mut seat, mut reader) = (hull.acquire_seat(0)?, hull.acquire_reader()?);
/// seat.add(Point { x: 3, y: 4 })?;
/// assert_eq!(reader.newest()?.place(Point { x: 3, y: 4 })?, Place::On);
/// assert_eq!(reader.line(), seat.turn());
/// # Ok::<(), hull::Fault>(())
/// ```
pub struct Reader {
    storage: Storage,
    shared: Counted<Shared>,
    // at the front the `count` vertices of the snapshot, which is of so many lines; of none if memory was refused for them
    vertices: Vec<Point>,
    count: usize,
    lines: Option<u64>,
    line: Option<u64>,
}

impl Reader {
    /// A reader of the shared hull.
    pub(crate) fn new(shared: &Counted<Shared>) -> Result<Reader, Fault> {
        // SAFETY: the two that are asked read nothing; the storage is of that size and alignment, and nobody else's; the shared hull is
        // in its own, and its lock keeps other calls away.
        let storage = unsafe {
            let storage = Storage::new(raw::hull_shared_reader_size(), raw::hull_shared_reader_alignment())?;
            raw::hull_shared_make_reader(storage.at());
            match raw::hull_shared_acquire_reader(shared.lock().at(), storage.at()) {
                code::ACQUIRED => storage,
                other => return Err(answer::fault_of(other)),
            }
        };
        let mut reader =
            Reader { storage, shared: shared.clone(), vertices: Vec::new(), count: 0, lines: None, line: None };
        reader.read()?;
        Ok(reader)
    }

    /// Takes the newest snapshot, if the reader does not have it: it shows what each call did that had returned before. Returns
    /// false if others were in the way a thousand times, and the snapshot is the one from before. With [`Fault::NoMemory`], which
    /// says that there is none for the vertices, it is as it was.
    pub fn read(&mut self) -> Result<bool, Fault> {
        // SAFETY: a reader is in the storage, and `&mut self` keeps other calls away.
        let newest = unsafe { raw::hull_shared_read(self.storage.at()) };
        if self.lines != Some(newest.lines) {
            self.lines = None;
            let more = newest.count.saturating_sub(self.vertices.len());
            self.vertices.try_reserve(more).map_err(|_| Fault::NoMemory)?;
            self.vertices.resize(self.vertices.len() + more, NOWHERE);
            let capacity = self.vertices.len();
            // SAFETY: the same; the array was written, and is long enough for the vertices.
            unsafe { raw::hull_shared_snapshot_vertices(self.storage.at(), self.vertices.as_mut_ptr(), capacity) };
            self.count = newest.count;
            self.lines = Some(newest.lines);
            self.line = (newest.has_line == 1).then_some(newest.line);
        }
        Ok(newest.code == code::SNAPSHOT_TAKEN)
    }

    /// Returns whether the snapshot is still the newest: one load.
    pub fn is_newest(&self) -> bool {
        // SAFETY: a reader is in the storage, and is not `Sync`.
        self.lines.is_some() && unsafe { raw::hull_shared_is_newest(self.storage.at()) == 1 }
    }

    /// Returns the snapshot, as a polygon.
    pub fn snapshot(&self) -> &PolygonQuestions {
        // SAFETY: they are a convex polygon.
        unsafe { PolygonQuestions::of(&self.vertices[..self.count]) }
    }

    /// Returns the number of the snapshot's line; `None` if it is that of a hull with no line.
    pub fn line(&self) -> Option<u64> {
        self.line
    }

    /// Returns the newest snapshot: this one, or another that is taken. Fails with [`Fault::NoMemory`].
    pub fn newest(&mut self) -> Result<&PolygonQuestions, Fault> {
        if !self.is_newest() {
            self.read()?;
        }
        Ok(self.snapshot())
    }
}

impl Drop for Reader {
    fn drop(&mut self) {
        // SAFETY: the reader is in its storage and was acquired from this hull, whose lock keeps other calls away.
        unsafe { raw::hull_shared_release_reader(self.shared.lock().at(), self.storage.at()) };
    }
}

impl fmt::Debug for Reader {
    fn fmt(&self, f: &mut fmt::Formatter<'_>) -> fmt::Result {
        f.debug_struct("Reader").field("line", &self.line).finish_non_exhaustive()
    }
}
