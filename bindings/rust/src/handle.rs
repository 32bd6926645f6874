//! Ownership of handles: by one thread at a time, or shared by any number of threads that only read.

use crate::ffi::Handle;
use std::cell::UnsafeCell;

/// A handle with one owner, for calls that change what it holds. It may be sent to another thread, but not shared.
pub(crate) struct Owned<H: Handle>(UnsafeCell<H>);

// SAFETY: what a handle holds is bound to no thread.
unsafe impl<H: Handle> Send for Owned<H> {}

impl<H: Handle> Owned<H> {
    /// A handle of nothing.
    pub fn none() -> Owned<H> {
        Owned(UnsafeCell::new(H::NONE))
    }

    /// The handle, for one call. An `Owned` isn't `Sync` and the library never calls back, so no other call uses the
    /// handle meanwhile.
    pub fn get(&self) -> *mut H {
        self.0.get()
    }
}

impl<H: Handle> Drop for Owned<H> {
    fn drop(&mut self) {
        // SAFETY: this is its only owner.
        unsafe { H::drop_inside(self.0.get()) }
    }
}

/// A handle for calls that only read what it holds; any number of threads may make them at once.
pub(crate) struct Shared<H: Handle>(Owned<H>);

// SAFETY: `read` is all that can be done with it, and the library allows any number of calls to read a handle at once,
// on any threads. Its drop has it exclusively.
unsafe impl<H: Handle> Sync for Shared<H> {}

impl<H: Handle> Shared<H> {
    /// Shares what a handle holds.
    pub fn new(handle: Owned<H>) -> Shared<H> {
        Shared(handle)
    }

    /// Makes a call that only reads, through a const pointer.
    pub fn read<R>(&self, call: impl FnOnce(*const H) -> R) -> R {
        call(self.0.get())
    }
}
