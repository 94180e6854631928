//! A value that several own together: `Arc`, except that refused memory is an error.
use crate::Fault;
use std::alloc::{alloc, dealloc, Layout};
use std::ops::Deref;
use std::ptr::NonNull;
use std::sync::atomic::{fence, AtomicUsize, Ordering};

struct Owned<T> {
    owners: AtomicUsize,
    value: T,
}

pub(crate) struct Counted<T>(NonNull<Owned<T>>);

// SAFETY: as for `Arc`: each owner reads the value, and the last one drops it, in whatever thread.
unsafe impl<T: Send + Sync> Send for Counted<T> {}
unsafe impl<T: Send + Sync> Sync for Counted<T> {}

impl<T> Counted<T> {
    pub(crate) fn new(value: T) -> Result<Counted<T>, Fault> {
        // SAFETY: the layout has a size of more than 0.
        let storage = unsafe { alloc(Layout::new::<Owned<T>>()) };
        let at = NonNull::new(storage.cast::<Owned<T>>()).ok_or(Fault::NoMemory)?;
        // SAFETY: the memory is of this layout, and nobody else's.
        unsafe { at.as_ptr().write(Owned { owners: AtomicUsize::new(1), value }) };
        Ok(Counted(at))
    }

    /// Whether it has no other owner.
    pub(crate) fn is_alone(&self) -> bool {
        self.owned().owners.load(Ordering::Acquire) == 1
    }

    fn owned(&self) -> &Owned<T> {
        // SAFETY: the value is there until its last owner is dropped.
        unsafe { self.0.as_ref() }
    }
}

impl<T> Clone for Counted<T> {
    fn clone(&self) -> Counted<T> {
        let owners = self.owned().owners.fetch_add(1, Ordering::Relaxed);
        assert!(owners <= usize::MAX / 2, "so many owners do not fit into memory");
        Counted(self.0)
    }
}

impl<T> Deref for Counted<T> {
    type Target = T;

    fn deref(&self) -> &T {
        &self.owned().value
    }
}

impl<T> Drop for Counted<T> {
    fn drop(&mut self) {
        if self.owned().owners.fetch_sub(1, Ordering::Release) == 1 {
            fence(Ordering::Acquire);
            // SAFETY: this was the last owner, and the memory came from `alloc` with this layout.
            unsafe {
                self.0.as_ptr().drop_in_place();
                dealloc(self.0.as_ptr().cast(), Layout::new::<Owned<T>>());
            }
        }
    }
}
