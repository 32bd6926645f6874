//! A store that threads share.

use crate::error::Error;
use crate::key::Key;
use crate::snapshot::Snapshot;
use crate::store::Store;
use std::fmt;
use std::sync::{Arc, Condvar, Mutex, MutexGuard, PoisonError};
use std::time::{Duration, Instant};

/// A store for any number of threads: writers take turns, readers search snapshots without the lock, and threads that
/// follow the changes sleep until there are some. A clone is the same store.
///
/// ```
/// use gist::{Interval, Query, SharedStore, Store};
/// use std::thread;
///
/// let rooms = SharedStore::new(Store::<Interval>::new()?);
/// let writer = rooms.clone();
/// let clerk = thread::spawn(move || writer.write(|store| store.insert(9..12, 71)));
///
/// let now = rooms.wait_past(0)?;
/// assert_eq!(now.count(&Query::overlaps(8..18)?)?, 1);
/// clerk.join().expect("the clerk doesn't panic")?;
/// # Ok::<(), gist::Error>(())
/// ```
pub struct SharedStore<K: Key> {
    shared: Arc<Shared<K>>,
}

struct Shared<K: Key> {
    store: Mutex<Store<K>>,
    grown: Condvar,
}

impl<K: Key> Shared<K> {
    /// The store. Each call of it is done whole or refused, so it stays usable even if a thread panics with the lock.
    fn lock(&self) -> MutexGuard<'_, Store<K>> {
        self.store.lock().unwrap_or_else(PoisonError::into_inner)
    }
}

/// Wakes the threads that wait for commits, even if the work before it panics.
struct Wakes<'a>(&'a Condvar);

impl Drop for Wakes<'_> {
    fn drop(&mut self) {
        self.0.notify_all();
    }
}

impl<K: Key> SharedStore<K> {
    /// Shares a store.
    pub fn new(store: Store<K>) -> SharedStore<K> {
        SharedStore {
            shared: Arc::new(Shared {
                store: Mutex::new(store),
                grown: Condvar::new(),
            }),
        }
    }

    /// Does some work on the store under the lock, and then wakes the threads that wait for commits. The work must not
    /// call this shared store again: that would deadlock, or panic.
    ///
    /// The store may be replaced, as [`Renewal::finish`](crate::Renewal::finish) does: the numbers of commits begin anew then.
    ///
    /// ```
    /// use gist::{Interval, Query, SharedStore, Store};
    ///
    /// let rooms = SharedStore::new(Store::<Interval>::new()?);
    /// // checks and books in one step, so that no other clerk comes between
    /// let booked = rooms.write(|store| {
    ///     let is_free = store.snapshot()?.count(&Query::overlaps(9..12)?)? == 0;
    ///     is_free.then(|| store.insert(9..12, 71)).transpose()
    /// })?;
    /// assert_eq!(booked, Some(1));
    /// # Ok::<(), gist::Error>(())
    /// ```
    pub fn write<R>(&self, work: impl FnOnce(&mut Store<K>) -> R) -> R {
        let _wakes = Wakes(&self.shared.grown);
        work(&mut self.shared.lock())
    }

    /// Takes a snapshot.
    ///
    /// # Errors
    /// [`Error::OutOfMemory`].
    pub fn snapshot(&self) -> Result<Snapshot<K>, Error> {
        self.shared.lock().snapshot()
    }

    /// Sleeps until there is a commit after `commit`, and takes a snapshot.
    ///
    /// # Errors
    /// [`Error::OutOfMemory`].
    pub fn wait_past(&self, commit: u64) -> Result<Snapshot<K>, Error> {
        let store = self.shared.lock();
        let grown = self
            .shared
            .grown
            .wait_while(store, |store| store.commits() <= commit);
        grown.unwrap_or_else(PoisonError::into_inner).snapshot()
    }

    /// Sleeps until there is a commit after `commit`, and takes a snapshot; gives `None` once `longest` has
    /// passed.
    ///
    /// # Errors
    /// [`Error::OutOfMemory`].
    ///
    /// ```
    /// use gist::{Interval, SharedStore, Store};
    /// use std::time::Duration;
    ///
    /// let rooms = SharedStore::new(Store::<Interval>::new()?);
    /// assert!(rooms.wait_past_for(0, Duration::from_millis(1))?.is_none());
    /// # Ok::<(), gist::Error>(())
    /// ```
    pub fn wait_past_for(
        &self,
        commit: u64,
        longest: Duration,
    ) -> Result<Option<Snapshot<K>>, Error> {
        let begin = Instant::now();
        let mut store = self.shared.lock();
        while store.commits() <= commit {
            let Some(left) = longest.checked_sub(begin.elapsed()) else {
                return Ok(None);
            };
            let woken = self.shared.grown.wait_timeout(store, left);
            store = woken.unwrap_or_else(PoisonError::into_inner).0;
        }
        store.snapshot().map(Some)
    }
}

impl<K: Key> Clone for SharedStore<K> {
    fn clone(&self) -> SharedStore<K> {
        SharedStore {
            shared: Arc::clone(&self.shared),
        }
    }
}

impl<K: Key> From<Store<K>> for SharedStore<K> {
    fn from(store: Store<K>) -> SharedStore<K> {
        SharedStore::new(store)
    }
}

impl<K: Key> fmt::Debug for SharedStore<K> {
    fn fmt(&self, f: &mut fmt::Formatter<'_>) -> fmt::Result {
        f.debug_tuple("SharedStore")
            .field(&*self.shared.lock())
            .finish()
    }
}
