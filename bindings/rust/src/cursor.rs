//! Cursors.

use crate::error::{told, Error};
use crate::ffi;
use crate::item::{item, Item};
use crate::key::Key;
use crate::store::Store;
use std::fmt;
use std::mem;

/// Delivers the rows that match its query, and then each later change that matters to it, in the order of the commits,
/// without a gap and without a repetition. [`Store::open`] and [`Store::follow`] make one.
///
/// As an iterator it ends when nothing is left, and goes on when there is more. It borrows its store, which can be
/// written meanwhile. Dropping it closes the cursor.
///
/// ```
/// use gist::{Interval, Item, Query, Store};
///
/// let rooms = Store::<Interval>::new()?;
/// rooms.insert(9..12, 71)?;
/// let mut display = rooms.open(&Query::overlaps(8..18)?)?;
/// display.mark()?;
/// let items = display.by_ref().collect::<Result<Vec<_>, _>>()?;
/// assert!(matches!(items[..], [Item::Row(_), Item::Mark(1)]));
///
/// // a client that has taken mark 1 may go away, and come back for what followed
/// drop(display);
/// rooms.delete(1)?;
/// let back = rooms.follow(&Query::overlaps(8..18)?, 1)?;
/// assert_eq!(back.count(), 1);
/// # Ok::<(), gist::Error>(())
/// ```
#[must_use = "a cursor is closed when it is dropped"]
pub struct Cursor<'a, K: Key> {
    store: &'a Store<K>,
    number: u64,
}

/// An open cursor that no longer borrows its store, made by [`Cursor::detach`].
#[derive(Debug, PartialEq, Eq, Hash)]
#[must_use = "a cursor that isn't attached again stays open"]
pub struct CursorNumber(u64);

impl CursorNumber {
    /// The number.
    pub fn number(&self) -> u64 {
        self.0
    }
}

// SAFETY of each call below: as for the calls of a store.
impl<'a, K: Key> Cursor<'a, K> {
    /// The most items that one call of the library returns.
    const MOST_AT_ONCE: usize = 1_024;

    pub(crate) fn of(store: &'a Store<K>, number: u64) -> Cursor<'a, K> {
        Cursor { store, number }
    }

    /// The next items, at most `most`; with `usize::MAX` all that are left now. There are none only if nothing is left.
    ///
    /// # Errors
    /// [`Error::OutOfMemory`]; no item is lost, and the next call goes on. A cursor that was attached to a store that isn't
    /// its own is refused as [`Error::NoSuchCursor`] or [`Error::CursorClosed`], or is taken for a cursor of that store.
    ///
    /// ```
    /// use gist::{Interval, Query, Store};
    ///
    /// let rooms = Store::<Interval>::new()?;
    /// rooms.insert_all((0..10).map(|hour| (hour, 71)))?;
    /// let mut all = rooms.open(&Query::everything()?)?;
    /// assert_eq!(all.next_items(4)?.len(), 4);
    /// assert_eq!(all.next_items(usize::MAX)?.len(), 6);
    /// assert_eq!(all.next_items(usize::MAX)?.len(), 0);
    /// # Ok::<(), gist::Error>(())
    /// ```
    pub fn next_items(&mut self, most: usize) -> Result<Vec<Item<K>>, Error> {
        let mut items = vec![ffi::Item::default(); most.min(Self::MOST_AT_ONCE)];
        let mut all = Vec::new();
        loop {
            let room = items.len().min(most - all.len());
            match self.next_into(&mut items[..room]) {
                Ok(given) => {
                    all.extend(items[..given].iter().copied().filter_map(item));
                    if given < room || all.len() == most {
                        return Ok(all);
                    }
                }
                // the next call returns the error
                Err(_) if !all.is_empty() => return Ok(all),
                Err(error) => return Err(error),
            }
        }
    }

    /// Fills a buffer with the next items, and returns how many there are.
    fn next_into(&mut self, items: &mut [ffi::Item]) -> Result<usize, Error> {
        let mut given = 0;
        told(unsafe {
            ffi::gist_next(
                self.store.handle(),
                self.number,
                items.as_mut_ptr(),
                items.len(),
                &mut given,
            )
        })?;
        Ok(given as usize)
    }

    /// Asks for a mark: an [`Item::Mark`] with the number of a commit, which shows that everything up to that commit
    /// was given.
    ///
    /// # Errors
    /// As [`Cursor::next_items`].
    ///
    /// ```
    /// use gist::{Interval, Item, Query, Store};
    ///
    /// let rooms = Store::<Interval>::new()?;
    /// rooms.insert(9..12, 71)?;
    /// let mut evening = rooms.open(&Query::within(18..)?)?;
    /// evening.mark()?;
    /// assert_eq!(evening.next().transpose()?, Some(Item::Mark(1)));
    /// # Ok::<(), gist::Error>(())
    /// ```
    pub fn mark(&self) -> Result<(), Error> {
        told(unsafe { ffi::gist_mark(self.store.handle(), self.number) })
    }

    /// Closes the cursor, as dropping it does.
    ///
    /// # Errors
    /// As [`Cursor::next_items`].
    ///
    /// ```
    /// use gist::{Interval, Query, Store};
    ///
    /// let rooms = Store::<Interval>::new()?;
    /// let cursor = rooms.open(&Query::everything()?)?;
    /// assert_eq!(rooms.figures().cursors, 1);
    /// cursor.close()?;
    /// assert_eq!(rooms.figures().cursors, 0);
    /// # Ok::<(), gist::Error>(())
    /// ```
    pub fn close(self) -> Result<(), Error> {
        let store = self.store;
        let number = self.detach();
        told(unsafe { ffi::gist_close(store.handle(), number.0) })
    }

    /// Ends the borrow and leaves the cursor open. [`Store::attach`] goes on with it.
    ///
    /// ```
    /// use gist::{Interval, Query, Store};
    ///
    /// let mut rooms = Store::<Interval>::new()?;
    /// let display = rooms.open(&Query::overlaps(8..18)?)?.detach();
    /// rooms.extend([((9..12).into(), 71)]);
    /// assert_eq!(rooms.attach(display).count(), 1);
    /// # Ok::<(), gist::Error>(())
    /// ```
    pub fn detach(self) -> CursorNumber {
        let number = CursorNumber(self.number);
        mem::forget(self);
        number
    }
}

impl<K: Key> Iterator for Cursor<'_, K> {
    type Item = Result<Item<K>, Error>;

    fn next(&mut self) -> Option<Result<Item<K>, Error>> {
        let mut items = [ffi::Item::default()];
        match self.next_into(&mut items) {
            Ok(0) => None,
            Ok(_) => item(items[0]).map(Ok),
            Err(error) => Some(Err(error)),
        }
    }
}

impl<K: Key> Drop for Cursor<'_, K> {
    fn drop(&mut self) {
        // fails only if the cursor is closed already, so there is nothing to do
        let _closed = unsafe { ffi::gist_close(self.store.handle(), self.number) };
    }
}

impl<K: Key> fmt::Debug for Cursor<'_, K> {
    fn fmt(&self, f: &mut fmt::Formatter<'_>) -> fmt::Result {
        f.debug_struct("Cursor")
            .field("number", &self.number)
            .finish_non_exhaustive()
    }
}
