//! One hull for many threads, each with a seat of its own: safe Rust over `libhull_shared.a`.
use crate::answer;
use crate::counted::Counted;
use crate::raw::{self, code, kind, Gate, Reply, Target};
use crate::{Fault, Place, Point, Reader, Vertices, NOWHERE};
use std::alloc::{alloc, dealloc, Layout};
use std::any::Any;
use std::cell::Cell;
use std::ffi::CString;
use std::fmt;
use std::mem::ManuallyDrop;
use std::os::unix::ffi::OsStrExt;
use std::panic::{catch_unwind, resume_unwind, AssertUnwindSafe};
use std::path::Path;
use std::ptr::{null_mut, NonNull};
use std::sync::{Mutex, MutexGuard, PoisonError, RwLock};
use std::time::Duration;

/// The greatest capacity of a shared hull: how many lines its journal may have.
pub const CAPACITY_LIMIT: u32 = (1 << 24) - 1;
/// The greatest number of seats of a shared hull.
pub const SEAT_LIMIT: u32 = 64;

/// The limits that a shared hull is opened with.
#[derive(Clone, Copy, Debug, PartialEq, Eq)]
pub struct Limits {
    /// How many different points it may have, 1 to [`POINT_LIMIT`](crate::POINT_LIMIT).
    pub points: u32,
    /// The number of the first call.
    pub first: u64,
    /// How many lines the journal may have until a seat drains it ([`Seat::drain`]), 1 to [`CAPACITY_LIMIT`].
    pub capacity: u32,
    /// How many seats there are, 1 to [`SEAT_LIMIT`].
    pub seats: u32,
}

/// The greatest number of readers of a shared hull.
pub const READER_LIMIT: u32 = 64;

/// The storage of a shared hull, a seat, a reader or a segment, which is freed when it is dropped.
pub(crate) struct Storage {
    at: NonNull<u8>,
    layout: Layout,
}

// SAFETY: what is in a storage owns no more than memory from `malloc` and a share of the lock, and is tied to no thread.
unsafe impl Send for Storage {}

impl Storage {
    pub(crate) fn new(size: usize, alignment: usize) -> Result<Storage, Fault> {
        let layout = Layout::from_size_align(size, alignment).expect("a storage has a layout");
        // SAFETY: the layout has a size of more than 0.
        let at = NonNull::new(unsafe { alloc(layout) }).ok_or(Fault::NoMemory)?;
        Ok(Storage { at, layout })
    }

    pub(crate) fn at(&self) -> *mut u8 {
        self.at.as_ptr()
    }
}

impl Drop for Storage {
    fn drop(&mut self) {
        // SAFETY: the memory came from `alloc` with this layout, and nothing uses it any more.
        unsafe { dealloc(self.at(), self.layout) };
    }
}

/// The hook that gets each segment of a hull that drains itself.
type DrainHook = Box<dyn FnMut(&JournalSegment) + Send>;

thread_local! {
    /// What a hook panicked with: the call in which it ran panics with it.
    static PANIC: Cell<Option<Box<dyn Any + Send>>> = const { Cell::new(None) };
}

/// A shared hull with its gate, its hook and its journal file. A [`SharedHull`], its seats and its readers own it together.
pub(crate) struct Shared {
    // locked by the calls that are not a seat's
    hull: Mutex<Storage>,
    gate: Gate,
    hook: Mutex<Option<DrainHook>>,
    journal: RwLock<Option<JournalFile>>,
}

/// The journal file, which is closed when it is taken out of this; a thread that asks what is durable reads it.
struct JournalFile(NonNull<u8>);

// SAFETY: its calls may be made by any thread, but for the last, which ends it.
unsafe impl Send for JournalFile {}
unsafe impl Sync for JournalFile {}

/// A path as C takes it.
fn name_of(path: &Path) -> Result<CString, Fault> {
    const EINVAL: i32 = 22;
    CString::new(path.as_os_str().as_bytes()).map_err(|_| Fault::NoFile { errno: EINVAL })
}

/// The fault of a call on the journal file.
fn fault_of_file(reply: &Reply, errno: u64) -> Fault {
    match reply.code {
        code::NO_FILE => Fault::NoFile { errno: errno as i32 },
        code::DAMAGED => Fault::Damaged { line: reply.number },
        code::ILLEGAL => Fault::Illegal { line: reply.number },
        other => answer::fault_of(other),
    }
}

impl Shared {
    fn new() -> Result<Shared, Fault> {
        // SAFETY: the two that are asked read nothing; the storage is of that size and alignment, and nobody else's.
        unsafe {
            let storage = Storage::new(raw::hull_shared_size(), raw::hull_shared_alignment())?;
            raw::hull_shared_make(storage.at());
            Ok(Shared { hull: Mutex::new(storage), gate: Gate::new(), hook: Mutex::new(None), journal: RwLock::new(None) })
        }
    }

    /// Which lines of the journal are durable in the file, as a call on it returns it.
    fn durable(&self, ask: impl FnOnce(*mut u8) -> Reply) -> Result<u64, Fault> {
        let journal = self.journal.read().unwrap_or_else(PoisonError::into_inner);
        let reply = ask(journal.as_ref().ok_or(Fault::NotOpen)?.0.as_ptr());
        match reply.code {
            code::DURABLE => Ok(reply.number),
            _ => Err(fault_of_file(&reply, reply.high)),
        }
    }

    /// Ends the journal file, if there is one, and with it the shared hull, which is locked.
    fn end_journal(&self, _: &MutexGuard<'_, Storage>) -> Result<(), Fault> {
        let mut journal = self.journal.write().unwrap_or_else(PoisonError::into_inner);
        let at = match *journal {
            Some(JournalFile(at)) => at,
            None => return Ok(()),
        };
        // SAFETY: no other thread has it or the shared hull, since both locks are taken; it is used again only if it was not closed.
        let reply = unsafe { raw::hull_shared_journal_close(at.as_ptr()) };
        if reply.code == code::SEATS_OUT || reply.code == code::IN_USE {
            return Err(Fault::SeatsOut);
        }
        *journal = None;
        match reply.code {
            code::CLOSED => Ok(()),
            _ => Err(fault_of_file(&reply, reply.high)),
        }
    }

    pub(crate) fn lock(&self) -> MutexGuard<'_, Storage> {
        self.hull.lock().unwrap_or_else(PoisonError::into_inner)
    }
}

impl Drop for Shared {
    fn drop(&mut self) {
        // (no lock is taken: in a child of a fork, a thread that had it does not exist)
        let journal = self.journal.get_mut().unwrap_or_else(PoisonError::into_inner).take();
        let hull = self.hull.get_mut().unwrap_or_else(PoisonError::into_inner);
        // SAFETY: a shared hull is in the storage. All seats are released, since each owns the shared hull until then. No other thread
        // has the journal.
        unsafe {
            if let Some(JournalFile(at)) = journal {
                raw::hull_shared_journal_close(at.as_ptr());
            }
            raw::hull_shared_close(hull.at());
            raw::hull_shared_end(hull.at());
            raw::hull_shared_gate_end(self.gate.at());
        }
    }
}

/// The hook of a gate: passes the segment to the hook that the hull was given.
extern "C" fn pass_segment(context: *mut u8, segment: *mut u8) {
    // SAFETY: the context is a shared hull, which the seat owns meanwhile; the segment is the gate's, and so it is not dropped.
    let (shared, segment) = unsafe {
        let storage = Storage { at: NonNull::new_unchecked(segment), layout: Layout::new::<u8>() };
        (&*context.cast::<Shared>(), ManuallyDrop::new(JournalSegment { storage }))
    };
    let mut hook = shared.hook.lock().unwrap_or_else(PoisonError::into_inner);
    if let Some(hook) = hook.as_mut() {
        if let Err(fault) = catch_unwind(AssertUnwindSafe(|| hook(&segment))) {
            let _ = PANIC.try_with(|panic| panic.set(Some(fault)));
        }
    }
}

/// The state of the calls of a shared hull at one moment ([`SharedHull::stats`]).
#[derive(Clone, Copy, Debug, PartialEq, Eq)]
pub struct Stats {
    /// How many seats are acquired.
    pub out: u32,
    /// How many calls are admitted.
    pub inside: u32,
    /// How many sleep and wait for admission.
    pub sleepers: u32,
    /// How many sleep and wait for space in the journal.
    pub for_space: u32,
    /// How many lines the journal had after the last call.
    pub held: u32,
    /// The number that is served now, the one after that call's; 0 before the first.
    pub turn: u64,
    /// The seat whose call has that number, and how long it has been admitted, to some milliseconds.
    pub seat: Option<(u32, Duration)>,
    /// The seat that is designated to enter next.
    pub designated: Option<u32>,
    /// The seat that drains for [`SharedHull::on_half_full`], and for how long it has.
    pub drainer: Option<(u32, Duration)>,
    /// How many calls were served by other threads than their own.
    pub combined: u64,
}

/// One hull that up to [`SEAT_LIMIT`] threads change and query at once. Each call takes effect at one moment between its beginning
/// and its end, in the order of the calls' numbers, and has its line in a journal.
///
/// ```
/// use hull::{Limits, Point, SharedHull};
///
/// let hull = SharedHull::open(Limits { points: 1000, first: 0, capacity: 4096, seats: 2 })?;
/// let mut seat = hull.acquire_seat(0)?;
/// std::thread::spawn(move || seat.add(Point { x: 3, y: 4 })).join().unwrap()?;
/// let journal = hull.close()?; // which `hullbook check` judges
/// # Ok::<(), hull::Fault>(())
/// ```
pub struct SharedHull {
    shared: Counted<Shared>,
}

impl SharedHull {
    /// Opens an empty hull. Everything but points is allocated here.
    pub fn open(limits: Limits) -> Result<SharedHull, Fault> {
        Opening::new()?.open(limits)
    }

    /// The same, but questions are answered also when the journal is full, with no line.
    pub fn open_answering(limits: Limits) -> Result<SharedHull, Fault> {
        Opening::new()?.open_answering(limits)
    }

    /// The same, but each line is discarded after its reply is returned: the text of the journal has none. `capacity` is not read.
    pub fn open_without_journal(limits: Limits) -> Result<SharedHull, Fault> {
        Opening::new()?.open_without_journal(limits)
    }

    /// Opens a hull that continues a journal, with the points that it left: `text` is the whole journal, as [`SharedHull::close`]
    /// or the program `hullbook` wrote it. Limit and numbers are the journal's. Its lines count as drained: the texts of this hull
    /// have only lines of later calls, and `hullbook check OLD NEW..` judges all in order.
    ///
    /// Fails with [`Fault::NoJournal`], [`Fault::OldRules`], [`Fault::TooFewSeats`] and [`Fault::Illegal`] if the text can't be
    /// continued.
    pub fn reopen(text: &str, capacity: u32, seats: u32) -> Result<SharedHull, Fault> {
        Opening::new()?.reopen(text, capacity, seats)
    }

    /// Opens a hull whose journal is in a file, which is made, or read: then the hull has the points that the file left, and its
    /// limit. A thread writes the lines to the file when a thread waits for one ([`SharedHull::sync`], [`Seat::wait_durable`]), each
    /// `every` if that is given, and when half of `limits.capacity` are used; calls wait for space. `limits.first` is not read,
    /// and `limits.seats` is at most one less than [`SEAT_LIMIT`]. Do not drain a seat of such a hull: no later line would be
    /// durable.
    ///
    /// Fails with [`Fault::NoFile`], [`Fault::Damaged`] and [`Fault::Illegal`], with the line of the file, and those of opening.
    pub fn open_journal(path: impl AsRef<Path>, limits: Limits, every: Option<Duration>) -> Result<SharedHull, Fault> {
        Opening::new()?.open_journal(path, limits, every)
    }

    /// A hull that you open in one of these ways, and that has up to so many readers, 1 to [`READER_LIMIT`]
    /// ([`SharedHull::acquire_reader`]). Fails with [`Fault::BadLimit`] and [`Fault::NoMemory`].
    ///
    /// ```
    /// # let limits = hull::Limits { points: 1000, first: 0, capacity: 4096, seats: 2 };
    /// let hull = hull::SharedHull::for_readers(8)?.open(limits)?;
    /// # Ok::<(), hull::Fault>(())
    /// ```
    pub fn for_readers(readers: u32) -> Result<Opening, Fault> {
        let opening = Opening::new()?;
        // SAFETY: a shared hull is in its storage, and nobody else has it yet.
        let code = unsafe { raw::hull_shared_set_max_readers(opening.shared.lock().at(), readers) };
        match code {
            code::READERS_SET => Ok(opening),
            other => Err(answer::fault_of(other)),
        }
    }

    /// Compacts such a file, of a hull that is not open: to the additions that leave the same points, up to the same number, which
    /// is returned. Fails with [`Fault::NoFile`], [`Fault::Damaged`], [`Fault::Illegal`] and [`Fault::NoMemory`], and the file is
    /// as it was, or leaves the same points, if its folder could not be synced after the new file took its name.
    pub fn compact(path: impl AsRef<Path>) -> Result<u64, Fault> {
        let path = name_of(path.as_ref())?;
        // SAFETY: the path ends with a 0.
        let reply = unsafe { raw::hull_shared_journal_compact(path.as_ptr()) };
        match reply.code {
            code::DURABLE => Ok(reply.number),
            _ => Err(fault_of_file(&reply, reply.number)),
        }
    }

    /// Returns the number of the first line that is not durable. Fails with [`Fault::NotOpen`] if the hull has no file or is
    /// closed; [`Fault::NoFile`] if a write failed: no later line will be durable.
    pub fn durable(&self) -> Result<u64, Fault> {
        // SAFETY: the journal is there as long as it is read.
        self.shared.durable(|at| unsafe { raw::hull_shared_journal_durable(at) })
    }

    /// Waits until the lines of all calls that have returned are durable, and returns the number of the first line that is not.
    pub fn sync(&self) -> Result<u64, Fault> {
        // SAFETY: as above.
        self.shared.durable(|at| unsafe { raw::hull_shared_journal_sync(at, raw::NEVER) })
    }

    /// Decides whether a call that finds the journal full waits until a seat has drained it, and is made then, instead of failing
    /// with [`Fault::Full`]. Fails with [`Fault::SeatsOut`] if a seat is acquired.
    pub fn wait_for_space(&mut self, waits: bool) -> Result<(), Fault> {
        self.check_unused()?;
        // SAFETY: no seat is acquired, and so no call is under way.
        unsafe { raw::hull_shared_gate_wait_for_space(self.shared.gate.at(), waits.into()) };
        Ok(())
    }

    /// Has the hull drain itself: the thread whose call finds half of the lines used, or no space, drains by its seat, asking how
    /// many points there are, and passes the segment to `hook`, beside the calls of others. One thread does so at a time, so that
    /// the segments come in order. If calls outrun it, they fail with [`Fault::Full`], or wait ([`SharedHull::wait_for_space`]).
    /// If `hook` panics, so does the call in which it ran, which was made; `hook` makes no call by a seat of its thread.
    ///
    /// Fails with [`Fault::SeatsOut`] if a seat is acquired, and [`Fault::NoMemory`].
    pub fn on_half_full(&mut self, hook: impl FnMut(&JournalSegment) + Send + 'static) -> Result<(), Fault> {
        self.check_unused()?;
        *self.shared.hook.lock().unwrap_or_else(PoisonError::into_inner) = Some(Box::new(hook));
        let context: *const Shared = &*self.shared;
        // SAFETY: no seat is acquired; the shared hull does not move as long as one is, and the hook is `Send`.
        match unsafe { raw::hull_shared_gate_on_half_full(self.shared.gate.at(), pass_segment, context as *mut u8) } {
            0 => Err(Fault::NoMemory),
            _ => Ok(()),
        }
    }

    /// Fails with [`Fault::SeatsOut`] if a seat is acquired, by you or by the thread of the journal file.
    fn check_unused(&self) -> Result<(), Fault> {
        let has_file = self.shared.journal.read().unwrap_or_else(PoisonError::into_inner).is_some();
        (!has_file && self.shared.is_alone()).then_some(()).ok_or(Fault::SeatsOut)
    }

    /// Returns the state of the hull's calls. It waits for nothing; while calls go on, its numbers may be of different moments.
    pub fn stats(&self) -> Stats {
        // SAFETY: the gate is as old as the shared hull, and all that is read is read by atomic steps.
        let state = unsafe { raw::hull_shared_stats(self.shared.gate.at()) };
        let seat = |number, time| (number < SEAT_LIMIT).then(|| (number, Duration::from_nanos(time)));
        Stats {
            out: state.out,
            inside: state.inside,
            sleepers: state.sleepers,
            for_space: state.for_space,
            held: state.held,
            turn: state.turn,
            seat: seat(state.seat, state.seat_for),
            designated: Some(state.designated).filter(|seat| *seat < SEAT_LIMIT),
            drainer: seat(state.drainer, state.drains_for),
            combined: state.combined,
        }
    }

    /// Acquires the seat of a number, 0 and up. Fails with [`Fault::NoSeat`] if it is acquired or there is none, and
    /// [`Fault::NotOpen`] after the hull is closed.
    pub fn acquire_seat(&self, number: u32) -> Result<Seat, Fault> {
        // SAFETY: the two that are asked read nothing; the storage is of that size and alignment, and nobody else's; the shared hull
        // is in its own, and its lock keeps other calls away.
        unsafe {
            let storage = Storage::new(raw::hull_shared_seat_size(), raw::hull_shared_seat_alignment())?;
            raw::hull_shared_make_seat(storage.at());
            match raw::hull_shared_acquire_seat(self.shared.lock().at(), self.shared.gate.at(), storage.at(), number) {
                code::ACQUIRED => Ok(Seat { storage, shared: self.shared.clone(), number, turn: None, vertex_capacity: 64, patience: None }),
                other => Err(answer::fault_of(other)),
            }
        }
    }

    /// Acquires a reader, of those that the hull was opened for ([`SharedHull::for_readers`]). Fails with [`Fault::NoSeat`] if as
    /// many are acquired, and [`Fault::NotOpen`] after the hull is closed.
    pub fn acquire_reader(&self) -> Result<Reader, Fault> {
        Reader::new(&self.shared)
    }

    /// Closes the hull, unless it is closed, and returns the text of its journal, of the lines that were not drained, which
    /// `hullbook check` judges.
    ///
    /// Fails with [`Fault::SeatsOut`] if a seat or a reader is acquired: the hull stays open, and keeps its file. After
    /// [`Fault::NoMemory`], which says that there is none for the text, you may call it again: the hull is closed. If the hull has
    /// a file, the text is its last segment; [`Fault::NoFile`] if it could not be written: the hull is closed.
    pub fn close(&self) -> Result<String, Fault> {
        let hull = self.end()?;
        text_of(&hull)
    }

    /// The same, and writes that text to a writer, some thousand bytes at a time. A fault is the error's inner one.
    pub fn close_to(&self, out: &mut impl std::io::Write) -> std::io::Result<()> {
        let hull = self.end().map_err(io_error)?;
        // SAFETY: a shared hull is in the storage, which is locked; the array was written.
        all_to(out, pieces_of(1 << 16, |line, text| unsafe { raw::hull_shared_text_from(hull.at(), line, text.as_mut_ptr(), text.len()) }))
    }

    /// Closes the hull and its file, unless they are closed.
    fn end(&self) -> Result<MutexGuard<'_, Storage>, Fault> {
        let hull = self.shared.lock();
        self.shared.end_journal(&hull)?;
        // SAFETY: a shared hull is in the storage, and its lock keeps other calls away.
        match unsafe { raw::hull_shared_close(hull.at()) } {
            code::CLOSED | code::NOT_OPEN => Ok(hull),
            other => Err(answer::fault_of(other)),
        }
    }
}

/// A shared hull that is not open yet: each of its functions opens it as that of [`SharedHull`] with the same name
/// ([`SharedHull::for_readers`]).
pub struct Opening {
    shared: Counted<Shared>,
}

impl Opening {
    fn new() -> Result<Opening, Fault> {
        Ok(Opening { shared: Counted::new(Shared::new()?)? })
    }

    /// Returns the hull, if this is the code of one that is open.
    fn opened(self, code: u32) -> Result<SharedHull, Fault> {
        match code {
            code::OPEN => Ok(SharedHull { shared: self.shared }),
            other => Err(answer::fault_of(other)),
        }
    }

    /// As [`SharedHull::open`].
    pub fn open(self, limits: Limits) -> Result<SharedHull, Fault> {
        let Limits { points, first, capacity, seats } = limits;
        // SAFETY: a shared hull is in its storage, and nobody else has it yet.
        let code = unsafe { raw::hull_shared_open(self.shared.lock().at(), points, first, capacity, seats) };
        self.opened(code)
    }

    /// As [`SharedHull::open_answering`].
    pub fn open_answering(self, limits: Limits) -> Result<SharedHull, Fault> {
        let Limits { points, first, capacity, seats } = limits;
        // SAFETY: as above.
        let code = unsafe { raw::hull_shared_open_answering(self.shared.lock().at(), points, first, capacity, seats) };
        self.opened(code)
    }

    /// As [`SharedHull::open_without_journal`].
    pub fn open_without_journal(self, limits: Limits) -> Result<SharedHull, Fault> {
        // SAFETY: as above.
        let code = unsafe {
            raw::hull_shared_open_without_journal(self.shared.lock().at(), limits.points, limits.first, limits.seats)
        };
        self.opened(code)
    }

    /// As [`SharedHull::reopen`].
    pub fn reopen(self, text: &str, capacity: u32, seats: u32) -> Result<SharedHull, Fault> {
        // SAFETY: a shared hull is in its storage, and nobody else has it yet; the text is not written meanwhile.
        let reply =
            unsafe { raw::hull_shared_reopen(self.shared.lock().at(), text.as_ptr(), text.len(), capacity, seats) };
        match reply.code {
            code::NO_JOURNAL => Err(Fault::NoJournal { line: reply.number, fault: reply.high as u8 }),
            code::OLD_RULES => Err(Fault::OldRules),
            code::ILLEGAL => Err(Fault::Illegal { line: reply.number }),
            code::TOO_FEW_SEATS => Err(Fault::TooFewSeats { wanted: reply.number as u32 }),
            other => self.opened(other),
        }
    }

    /// As [`SharedHull::open_journal`].
    pub fn open_journal(self, path: impl AsRef<Path>, limits: Limits, every: Option<Duration>) -> Result<SharedHull, Fault> {
        let shared = self.shared;
        let path = name_of(path.as_ref())?;
        // (0 nanoseconds would be never)
        let every = every.map_or(0, |time| u64::try_from(time.as_nanos()).unwrap_or(u64::MAX).clamp(1, u64::MAX / 2));
        let mut journal = null_mut();
        // SAFETY: the path ends with a 0.
        let reply = unsafe { raw::hull_shared_journal_open(path.as_ptr(), &mut journal) };
        let at = NonNull::new(journal).ok_or_else(|| fault_of_file(&reply, reply.number))?;
        let Limits { points, capacity, seats, .. } = limits;
        // SAFETY: the shared hull and its gate do not move as long as the journal is there, and nobody else has them yet.
        let reply = unsafe {
            raw::hull_shared_journal_start(at.as_ptr(), shared.lock().at(), shared.gate.at(), points, capacity, seats, every)
        };
        if reply.code != code::OPEN {
            // SAFETY: it was not started, and is used no more.
            unsafe { raw::hull_shared_journal_close(at.as_ptr()) };
            return Err(fault_of_file(&reply, reply.number));
        }
        *shared.journal.write().unwrap_or_else(PoisonError::into_inner) = Some(JournalFile(at));
        Ok(SharedHull { shared })
    }
}

/// The text of a closed hull's journal.
fn text_of(hull: &Storage) -> Result<String, Fault> {
    // SAFETY: a shared hull is in the storage, which is locked; the array was written.
    written(|text| unsafe { raw::hull_shared_text(hull.at(), text.as_mut_ptr(), text.len()) })
}

/// The text that a call writes to an array, which may be too short for it.
fn written(write: impl Fn(&mut [u8]) -> Reply) -> Result<String, Fault> {
    written_into(Vec::new(), write)
}

fn zeros(bytes: usize) -> Result<Vec<u8>, Fault> {
    let mut all = Vec::new();
    all.try_reserve_exact(bytes).map_err(|_| Fault::NoMemory)?;
    all.resize(bytes, 0);
    Ok(all)
}

/// The same, into this array first.
fn written_into(mut text: Vec<u8>, mut write: impl FnMut(&mut [u8]) -> Reply) -> Result<String, Fault> {
    loop {
        let reply = write(&mut text);
        match reply.code {
            code::TEXT => {
                text.truncate(reply.number as usize);
                return Ok(String::from_utf8(text).expect("a journal is a text"));
            }
            code::TOO_SMALL => {
                text.try_reserve_exact(reply.number as usize - text.len()).map_err(|_| Fault::NoMemory)?;
                text.resize(reply.number as usize, 0);
            }
            other => return Err(answer::fault_of(other)),
        }
    }
}

/// A segment of a journal: lines that a seat drained ([`Seat::drain`]). They are kept until it is dropped.
pub struct JournalSegment {
    storage: Storage,
}

impl JournalSegment {
    /// A segment with space for so many lines.
    fn new(lines: u32) -> Result<JournalSegment, Fault> {
        // SAFETY: the two that are asked read nothing; the storage is of that size and alignment, and nobody else's.
        unsafe {
            let storage = Storage::new(raw::hull_shared_segment_size(), raw::hull_shared_segment_alignment())?;
            raw::hull_shared_make_segment(storage.at());
            let segment = JournalSegment { storage };
            match raw::hull_shared_segment_reserve(segment.storage.at(), lines) {
                code::RESERVED => Ok(segment),
                other => Err(answer::fault_of(other)),
            }
        }
    }

    /// Returns the text of the lines: a journal with the number of the first of them as its own first number. `hullbook check`
    /// judges the texts of all segments in order.
    pub fn text(&self) -> Result<String, Fault> {
        // SAFETY: a segment is in the storage, and writing its text leaves it as it is; no other thread has it, since it is not
        // `Sync`; the array was written.
        written(|text| unsafe { raw::hull_shared_segment_text(self.storage.at(), text.as_mut_ptr(), text.len()) })
    }

    /// Returns the lines of that text, from the header to the end line.
    pub fn lines(&self) -> Result<impl Iterator<Item = String>, Fault> {
        let text = self.text()?;
        let mut rest = 0;
        Ok(std::iter::from_fn(move || {
            let line = text[rest..].lines().next()?.to_string();
            rest += line.len() + 1;
            Some(line)
        }))
    }

    /// Returns that text in blocks of whole lines, each of at most so many bytes, or a line that is longer: one block is in memory
    /// at a time. After a fault there is none any more.
    pub fn pieces(&self, bytes: usize) -> impl Iterator<Item = Result<String, Fault>> + '_ {
        // SAFETY: as in `text`.
        pieces_of(bytes, |line, text| unsafe {
            raw::hull_shared_segment_text_from(self.storage.at(), line, text.as_mut_ptr(), text.len())
        })
    }

    /// Writes that text to a writer, some thousand bytes at a time.
    pub fn write_to(&self, out: &mut impl std::io::Write) -> std::io::Result<()> {
        all_to(out, self.pieces(1 << 16))
    }
}

/// A text in blocks of whole lines, of which a call writes those from a line on to an array.
fn pieces_of<'a>(bytes: usize, write: impl Fn(u64, &mut [u8]) -> Reply + 'a) -> impl Iterator<Item = Result<String, Fault>> + 'a {
    let mut next = Some(0);
    std::iter::from_fn(move || {
        let line = next?;
        let mut after = 0;
        let piece = zeros(bytes).and_then(|array| {
            written_into(array, |text| {
                let reply = write(line, text);
                after = reply.high;
                reply
            })
        });
        next = Some(after).filter(|_| matches!(&piece, Ok(text) if !text.is_empty()));
        Some(piece).filter(|piece| !matches!(piece, Ok(text) if text.is_empty()))
    })
}

fn all_to(out: &mut impl std::io::Write, pieces: impl Iterator<Item = Result<String, Fault>>) -> std::io::Result<()> {
    for piece in pieces {
        out.write_all(piece.map_err(io_error)?.as_bytes())?;
    }
    Ok(())
}

fn io_error(fault: Fault) -> std::io::Error {
    std::io::Error::new(std::io::ErrorKind::Other, fault)
}

impl Drop for JournalSegment {
    fn drop(&mut self) {
        // SAFETY: a segment is in its storage, and nothing else uses it.
        unsafe { raw::hull_shared_segment_end(self.storage.at()) };
    }
}

impl fmt::Debug for JournalSegment {
    fn fmt(&self, f: &mut fmt::Formatter<'_>) -> fmt::Result {
        f.debug_struct("JournalSegment").finish_non_exhaustive()
    }
}

impl fmt::Debug for SharedHull {
    fn fmt(&self, f: &mut fmt::Formatter<'_>) -> fmt::Result {
        f.debug_struct("SharedHull").finish_non_exhaustive()
    }
}

/// A seat of a shared hull, by which one thread at a time makes calls. It may go to another thread (`Send`), and is released when
/// it is dropped.
///
/// Each call waits for its turn: it is admitted after at most half a millisecond for each that waits before it, or fails with
/// [`Fault::Busy`] if it waits for less ([`wait_at_most`](Seat::wait_at_most)). It fails with [`Fault::Full`] if the journal is
/// full: the call is not made, and there is space again after a [`drain`](Seat::drain), which never fails so.
pub struct Seat {
    storage: Storage,
    shared: Counted<Shared>,
    number: u32,
    turn: Option<u64>,
    vertex_capacity: usize,
    patience: Option<Duration>,
}

impl Seat {
    /// Returns the number of the seat.
    pub fn number(&self) -> u32 {
        self.number
    }

    /// Returns the number of the journal line of the seat's last call.
    pub fn turn(&self) -> Option<u64> {
        self.turn
    }

    /// Sets how long calls of the seat wait for admission, or for space: for ever, which is the default, with `None`, and not at
    /// all with no time. If they were not admitted by then, they fail with [`Fault::Busy`], and are not made.
    pub fn wait_at_most(&mut self, time: Option<Duration>) {
        self.patience = time;
    }

    /// Until when a call that begins now waits.
    fn until(&self) -> u64 {
        match self.patience {
            None => raw::NEVER,
            Some(time) if time.is_zero() => 0,
            // SAFETY: it reads a clock.
            Some(time) => (unsafe { raw::hull_shared_now() }).saturating_add(u64::try_from(time.as_nanos()).unwrap_or(raw::NEVER)),
        }
    }

    /// Waits until the lines of all calls of the seat are durable in the journal file ([`SharedHull::open_journal`]), for as long
    /// as calls of the seat wait. Fails with [`Fault::Busy`] if they are not by then, and the faults of [`SharedHull::durable`].
    pub fn wait_durable(&self) -> Result<(), Fault> {
        let until = self.until();
        // SAFETY: the journal is there as long as it is read.
        let reply = self.shared.durable(|at| match self.turn {
            Some(line) => unsafe { raw::hull_shared_journal_wait(at, line, until) },
            None => unsafe { raw::hull_shared_journal_durable(at) },
        });
        reply.map(|_| ())
    }

    /// Releases the seat, as dropping it does.
    pub fn release(self) {}

    /// Adds a point, and returns its multiplicity now: 1 if it is new.
    pub fn add(&mut self, point: Point) -> Result<u32, Fault> {
        self.call(kind::ADD, point).and_then(answer::multiplicity_added)
    }

    /// Removes a point once, and returns the multiplicity that is left: 0 if it is gone; `None` if it was not there.
    pub fn remove(&mut self, point: Point) -> Result<Option<u32>, Fault> {
        self.call(kind::REMOVE, point).and_then(answer::multiplicity_left)
    }

    // written by tools/table.py: seats
    /// Returns the location of `point`.
    pub fn place(&mut self, point: Point) -> Result<Place, Fault> {
        self.call(kind::PLACE, point).and_then(answer::place)
    }

    /// Returns the left and the right tangent point seen from `point`, of several on one line the farthest; `None` if there is no point, or
    /// the hull covers the one asked about.
    pub fn tangents(&mut self, point: Point) -> Result<Option<(Point, Point)>, Fault> {
        self.call(kind::TANGENTS, point).and_then(answer::tangents)
    }

    /// Returns the farthest point in a direction, of several the first by x and then y; `None` if there is none.
    pub fn extreme(&mut self, direction: Point) -> Result<Option<Point>, Fault> {
        self.call(kind::EXTREME, direction).and_then(answer::extreme)
    }

    /// Returns twice the area, 0 for a point and a segment.
    pub fn doubled_area(&mut self) -> Result<u128, Fault> {
        self.call(kind::AREA, NOWHERE).and_then(answer::number)
    }
    // end of what tools/table.py writes

    /// Returns the vertices, as [`Hull::vertices`](crate::Hull::vertices). It asks with space for as many as there were before,
    /// and again if there are more: each question has its line in the journal.
    pub fn vertices(&mut self) -> Result<Vertices, Fault> {
        let mut vertices = Vec::new();
        loop {
            vertices.try_reserve_exact(self.vertex_capacity).map_err(|_| Fault::NoMemory)?;
            vertices.resize(self.vertex_capacity, NOWHERE);
            let reply = self.call_into(kind::VERTICES, NOWHERE, &mut vertices)?;
            let number = reply.number as usize;
            match reply.code {
                code::VERTICES => {
                    vertices.truncate(number);
                    return Ok(Vertices::of(vertices));
                }
                code::TOO_SMALL => self.vertex_capacity = number + number / 8,
                other => return Err(answer::fault_of(other)),
            }
        }
    }

    /// Returns how many vertices there are.
    pub fn vertex_count(&mut self) -> Result<usize, Fault> {
        self.call(kind::VERTICES, NOWHERE).and_then(answer::number).map(|vertices| vertices as usize)
    }

    /// Returns how many different points there are.
    pub fn count(&mut self) -> Result<usize, Fault> {
        self.call(kind::COUNT, NOWHERE).and_then(answer::number).map(|points| points as usize)
    }

    /// Asks how many points there are, and drains all lines of the journal: that of this call is the last. Under the lock only the
    /// lists are exchanged.
    ///
    /// Fails with [`Fault::NoMemory`] if there is none for the lines: no call is made then.
    pub fn drain(&mut self) -> Result<JournalSegment, Fault> {
        // SAFETY: a seat is in the storage, and `&mut self` keeps other calls away.
        let segment = JournalSegment::new(unsafe { raw::hull_shared_capacity(self.storage.at()) })?;
        self.call_to(kind::COUNT, NOWHERE, Target { out: null_mut(), capacity: 0, segment: segment.storage.at() })?;
        Ok(segment)
    }

    fn call(&mut self, kind: u32, at: Point) -> Result<Reply, Fault> {
        self.call_into(kind, at, &mut [])
    }

    /// Makes a call; vertices are written to the array, all of which was written.
    fn call_into(&mut self, kind: u32, at: Point, out: &mut [Point]) -> Result<Reply, Fault> {
        self.call_to(kind, at, Target { out: out.as_mut_ptr(), capacity: out.len(), segment: null_mut() })
    }

    /// Makes a call at the gate of the hull; what it writes to is only the caller's.
    fn call_to(&mut self, kind: u32, at: Point, to: Target) -> Result<Reply, Fault> {
        let until = self.until();
        // SAFETY: a seat is in the storage, which was acquired with this gate, and `&mut self` keeps other calls away.
        let reply = unsafe { raw::hull_shared_call_into(self.shared.gate.at(), self.storage.at(), kind, at.x, at.y, to, until) };
        self.turn = if reply.has_line == 1 { Some(reply.line) } else { self.turn };
        // (at the end of a thread it may be gone before a value of the thread that makes a call when it is dropped)
        if let Ok(Some(fault)) = PANIC.try_with(Cell::take) {
            resume_unwind(fault);
        }
        match reply.answer.code {
            code::OUT_OF_RANGE | code::ZERO_DIRECTION | code::FULL | code::BUSY => Err(answer::fault_of(reply.answer.code)),
            _ => Ok(reply.answer),
        }
    }
}

impl Drop for Seat {
    fn drop(&mut self) {
        // SAFETY: the seat is in its storage and was acquired from this hull, whose lock keeps other calls away.
        unsafe { raw::hull_shared_release_seat(self.shared.lock().at(), self.storage.at()) };
    }
}

impl fmt::Debug for Seat {
    fn fmt(&self, f: &mut fmt::Formatter<'_>) -> fmt::Result {
        f.debug_struct("Seat").field("number", &self.number).field("turn", &self.turn).finish_non_exhaustive()
    }
}
