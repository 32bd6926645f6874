//! Stores, their limits and figures, and renewed stores.

use crate::cursor::{Cursor, CursorNumber};
use crate::error::{told, Error, Stopped};
use crate::ffi;
use crate::handle::Owned;
use crate::key::Key;
use crate::query::Query;
use crate::snapshot::Snapshot;
use std::fmt;
use std::marker::PhantomData;
use std::ops::Range;

/// The limits of a store. A value out of range is refused as [`Error::BadLimits`].
///
/// ```
/// use gist::{BoxKey, Limits, Store};
///
/// let small = Limits { pages: 1_024, commits: 10_000, ..Limits::default() };
/// assert_eq!(Store::<BoxKey>::with_limits(small)?.figures().commit_limit, 10_000);
/// # Ok::<(), gist::Error>(())
/// ```
#[derive(Clone, Copy, Debug, PartialEq, Eq, Hash)]
pub struct Limits {
    /// How many entries a page may have: 4 to 64.
    pub fan: u32,
    /// The least number of entries on each side of a split: 2 to half of `fan`.
    pub least: u32,
    /// How many pages there may be: 1 to 65,536. With fan 32 and the default `least`, 65,536 pages hold about 1,450,000
    /// rows.
    pub pages: u32,
    /// How many commits there may be: 1 to 16,777,216.
    pub commits: u32,
}

impl Limits {
    pub(crate) fn to_c(self) -> ffi::Limits {
        let Limits {
            fan,
            least,
            pages,
            commits,
        } = self;
        ffi::Limits {
            fan,
            least,
            pages,
            commits,
        }
    }
}

/// The greatest limits, with a `fan` and a `least` that are good for many rows.
impl Default for Limits {
    fn default() -> Limits {
        Limits {
            fan: 32,
            least: 12,
            pages: 65_536,
            commits: 16_777_216,
        }
    }
}

/// The figures of a store: its progress, and its limits.
#[derive(Clone, Copy, Debug, PartialEq, Eq, Hash)]
pub struct Figures {
    /// How many commits there are.
    pub commits: u64,
    /// How many there may be.
    pub commit_limit: u64,
    /// How many pages there are.
    pub pages: u64,
    /// How many there may be.
    pub page_limit: u64,
    /// How many cursors are open.
    pub cursors: u64,
    /// The commit up to which a sweep removes the rows that ended.
    pub horizon: u64,
}

/// Where an open cursor stands.
#[derive(Clone, Copy, Debug, PartialEq, Eq, Hash)]
pub struct Standing {
    /// The cursor's number.
    pub cursor: u64,
    /// How many commits there were at its opening, or the commit that it follows.
    pub opened: u64,
    /// How many commits it hasn't passed yet.
    pub lag: u64,
    /// Whether it still goes over the rows of its opening. Until it is through, what ended since isn't swept.
    pub is_scanning: bool,
}

/// Rows whose keys are of one class, and all commits that made them.
///
/// Each insert, delete and move is a commit with the next number: 1, 2, 3 and so on. A row's number is that of the commit
/// that made it, and a move, which is one commit, gives a row another number.
///
/// A store is for one thread at a time, and may be sent to another; [`SharedStore`](crate::SharedStore) is for several
/// threads. Its calls take `&self`, so that they can be made while cursors borrow the store.
///
/// ```
/// use gist::{Change, Interval, Item, Query, Row, Store};
///
/// let rooms = Store::<Interval>::new()?;
/// let morning = rooms.insert(9..12, 4711)?;
/// let mut display = rooms.open(&Query::overlaps(8..18)?)?;
/// let there = Row { number: 1, key: (9..12).into(), tag: 4711 };
/// assert_eq!(display.next().transpose()?, Some(Item::Row(there)));
///
/// let later = rooms.move_to(morning, 14..17)?;
/// let moved = Row { number: later, key: (14..17).into(), tag: 4711 };
/// let change = Change::Moved { row: moved, ended: morning };
/// assert_eq!(display.next().transpose()?, Some(Item::Change(change)));
/// assert_eq!(display.next().transpose()?, None);
/// # Ok::<(), gist::Error>(())
/// ```
pub struct Store<K: Key> {
    handle: Owned<ffi::Store>,
    keys: PhantomData<K>,
}

// SAFETY of each call below: the handle is this store's own and was never copied. A store isn't `Sync`, so no other
// call uses the handle meanwhile, and each pointer is to a value that outlives the call.
impl<K: Key> Store<K> {
    /// An empty store with the greatest limits.
    ///
    /// # Errors
    /// [`Error::OutOfMemory`].
    ///
    /// ```
    /// use gist::{Set, Store};
    ///
    /// assert_eq!(Store::<Set>::new()?.commits(), 0);
    /// # Ok::<(), gist::Error>(())
    /// ```
    pub fn new() -> Result<Store<K>, Error> {
        Store::with_limits(Limits::default())
    }

    /// An empty store.
    ///
    /// # Errors
    /// [`Error::BadLimits`], [`Error::OutOfMemory`].
    ///
    /// ```
    /// use gist::{Error, Interval, Limits, Store};
    ///
    /// let one = Limits { commits: 1, ..Limits::default() };
    /// let store = Store::<Interval>::with_limits(one)?;
    /// store.insert(1, 71)?;
    /// assert_eq!(store.insert(2, 72), Err(Error::CommitsFull));
    ///
    /// let none = Limits { commits: 0, ..one };
    /// assert_eq!(Store::<Interval>::with_limits(none).err(), Some(Error::BadLimits));
    /// # Ok::<(), gist::Error>(())
    /// ```
    pub fn with_limits(limits: Limits) -> Result<Store<K>, Error> {
        let handle = Owned::none();
        told(unsafe { ffi::gist_create(handle.get(), K::NUMBER, &limits.to_c()) })?;
        Ok(Store::of(handle))
    }

    /// Takes over the store of a handle.
    pub(crate) fn of(handle: Owned<ffi::Store>) -> Store<K> {
        Store {
            handle,
            keys: PhantomData,
        }
    }

    /// Gives the store's figures.
    ///
    /// ```
    /// use gist::{Interval, Store};
    ///
    /// let store = Store::<Interval>::new()?;
    /// store.insert(1..=2, 71)?;
    /// let figures = store.figures();
    /// assert_eq!(figures.commit_limit - figures.commits, 16_777_215);
    /// # Ok::<(), gist::Error>(())
    /// ```
    pub fn figures(&self) -> Figures {
        let mut told = ffi::Figures::default();
        let answer = unsafe { ffi::gist_stats(self.handle.get(), &mut told) };
        debug_assert_eq!(answer, 0, "a store's handle has a store");
        Figures {
            commits: told.commits,
            commit_limit: told.commit_limit,
            pages: told.pages,
            page_limit: told.page_limit,
            cursors: told.cursors,
            horizon: told.horizon,
        }
    }

    /// Tells where each open cursor stands, the one that was opened first first.
    ///
    /// ```
    /// use gist::{Interval, Query, Store};
    ///
    /// let rooms = Store::<Interval>::new()?;
    /// let display = rooms.follow(&Query::overlaps(8..18)?, 0)?;
    /// rooms.insert(9..12, 71)?;
    /// assert!(rooms.standings().map(|standing| standing.lag).eq([1]));
    /// # drop(display);
    /// # Ok::<(), gist::Error>(())
    /// ```
    pub fn standings(&self) -> impl Iterator<Item = Standing> + '_ {
        (0..self.figures().cursors).map(|place| {
            let mut told = ffi::Standing::default();
            let answer = unsafe { ffi::gist_standing_of(self.handle.get(), place, &mut told) };
            debug_assert_eq!(answer, 0, "a store's handle has a store");
            Standing {
                cursor: told.cursor,
                opened: told.opened,
                lag: told.lag,
                is_scanning: told.is_scanning,
            }
        })
    }

    /// How many commits there are.
    pub fn commits(&self) -> u64 {
        self.figures().commits
    }

    /// Takes a snapshot of the commits as they stand.
    ///
    /// # Errors
    /// [`Error::OutOfMemory`].
    ///
    /// ```
    /// use gist::{Interval, Store};
    ///
    /// let store = Store::<Interval>::new()?;
    /// let before = store.snapshot()?;
    /// store.insert(1..=2, 71)?;
    /// assert_eq!((before.len()?, store.snapshot()?.len()?), (0, 1));
    /// # Ok::<(), gist::Error>(())
    /// ```
    pub fn snapshot(&self) -> Result<Snapshot<K>, Error> {
        let handle = Owned::none();
        told(unsafe { ffi::gist_take(self.handle.get(), handle.get()) })?;
        Ok(Snapshot::of(handle))
    }

    /// Adds a row, and gives its number.
    ///
    /// # Errors
    /// [`Error::BadEnds`], [`Error::CommitsFull`], [`Error::PagesFull`], [`Error::OutOfMemory`].
    ///
    /// ```
    /// use gist::{BoxKey, Store};
    ///
    /// let map = Store::<BoxKey>::new()?;
    /// assert_eq!(map.insert((0..640, 0..480), 501)?, 1);
    /// assert_eq!(map.insert(BoxKey::point(3, 4), 502)?, 2);
    /// # Ok::<(), gist::Error>(())
    /// ```
    pub fn insert(&self, key: impl Into<K>, tag: u64) -> Result<u64, Error> {
        let entry = ffi::Entry {
            key: key.into().to_words(),
            tag,
        };
        Ok(self.add(&[entry])?.start)
    }

    /// Adds rows one after the other until one is refused, and returns their numbers. It takes no more rows from the
    /// iterator than the store has commits left, and one.
    ///
    /// # Errors
    /// As [`Store::insert`]; the rows before the refused one were added, and [`Stopped::done`] has their numbers.
    ///
    /// ```
    /// use gist::{BoxKey, Store};
    ///
    /// let map = Store::<BoxKey>::new()?;
    /// let numbers = map.insert_all((0..1_000).map(|n| (BoxKey::point(n, n), n as u64)))?;
    /// assert_eq!(numbers, 1..1_001);
    /// # Ok::<(), gist::Error>(())
    /// ```
    pub fn insert_all<I, Q>(&self, rows: I) -> Result<Range<u64>, Stopped>
    where
        I: IntoIterator<Item = (Q, u64)>,
        Q: Into<K>,
    {
        let entry = |(key, tag): (Q, u64)| ffi::Entry {
            key: key.into().to_words(),
            tag,
        };
        let figures = self.figures();
        let most = (figures.commit_limit - figures.commits) as usize + 1;
        self.add(&rows.into_iter().take(most).map(entry).collect::<Vec<_>>())
    }

    /// Adds rows in the library's layout.
    fn add(&self, entries: &[ffi::Entry]) -> Result<Range<u64>, Stopped> {
        self.all(entries, |rest, added| unsafe {
            ffi::gist_insert(self.handle.get(), rest.as_ptr(), rest.len(), added)
        })
    }

    /// Moves a row to a key by one commit, and gives the row's new number. It keeps its tag.
    ///
    /// # Errors
    /// [`Error::BadEnds`]; else [`Error::NoSuchRow`], else [`Error::AlreadyDeleted`], else [`Error::CommitsFull`], else
    /// [`Error::FindersFull`]; [`Error::PagesFull`], [`Error::OutOfMemory`].
    ///
    /// ```
    /// use gist::{Error, Interval, Store};
    ///
    /// let rooms = Store::<Interval>::new()?;
    /// let morning = rooms.insert(9..12, 71)?;
    /// let noon = rooms.move_to(morning, 12..14)?;
    /// assert_eq!(rooms.snapshot()?.get(noon)?.map(|row| row.tag), Some(71));
    /// assert_eq!(rooms.move_to(morning, 15..17), Err(Error::AlreadyDeleted));
    /// # Ok::<(), gist::Error>(())
    /// ```
    pub fn move_to(&self, row: u64, key: impl Into<K>) -> Result<u64, Error> {
        let mut moved = 0;
        let key = key.into().to_words();
        told(unsafe { ffi::gist_move(self.handle.get(), row, key, &mut moved) })?;
        Ok(moved)
    }

    /// Deletes a row, and gives the commit's number.
    ///
    /// # Errors
    /// [`Error::NoSuchRow`], else [`Error::AlreadyDeleted`], else [`Error::CommitsFull`], else [`Error::FindersFull`];
    /// [`Error::OutOfMemory`].
    ///
    /// ```
    /// use gist::{Interval, Store};
    ///
    /// let rooms = Store::<Interval>::new()?;
    /// let booking = rooms.insert(9..12, 71)?;
    /// assert_eq!(rooms.delete(booking)?, 2);
    /// assert!(rooms.snapshot()?.is_empty()?);
    /// # Ok::<(), gist::Error>(())
    /// ```
    pub fn delete(&self, row: u64) -> Result<u64, Error> {
        Ok(self.delete_all(&[row])?.start)
    }

    /// Deletes rows one after the other until one is refused, and gives the commits' numbers.
    ///
    /// # Errors
    /// As [`Store::delete`]; the rows before the refused one were deleted, and [`Stopped::done`] has the commits'
    /// numbers.
    ///
    /// ```
    /// use gist::{Error, Interval, Store};
    ///
    /// let rooms = Store::<Interval>::new()?;
    /// rooms.insert_all((0..5).map(|hour| (hour, 71)))?;
    /// assert_eq!(rooms.delete_all(&[1, 3])?, 6..8);
    /// let stopped = rooms.delete_all(&[2, 3, 4]).unwrap_err();
    /// assert_eq!((stopped.done, stopped.error), (8..9, Error::AlreadyDeleted));
    /// # Ok::<(), gist::Error>(())
    /// ```
    pub fn delete_all(&self, rows: &[u64]) -> Result<Range<u64>, Stopped> {
        self.all(rows, |rest, deleted| unsafe {
            ffi::gist_delete(self.handle.get(), rest.as_ptr(), rest.len(), deleted)
        })
    }

    /// Repeats a call until all rows are done or one is refused, and gives the numbers of the commits.
    fn all<T>(
        &self,
        all: &[T],
        call: impl Fn(&[T], &mut u64) -> u32,
    ) -> Result<Range<u64>, Stopped> {
        let first = self.commits() + 1;
        let mut rest = all;
        while !rest.is_empty() {
            let mut done = 0;
            told(call(rest, &mut done)).map_err(|error| Stopped {
                done: first..self.commits() + 1,
                error,
            })?;
            rest = &rest[done as usize..];
        }
        Ok(first..first + all.len() as u64)
    }

    /// Removes the ended rows that no open cursor needs any more, and gives how many there were. That makes room for
    /// later rows.
    ///
    /// # Errors
    /// [`Error::OutOfMemory`]; some of them may have been removed by then.
    ///
    /// ```
    /// use gist::{Interval, Store};
    ///
    /// let rooms = Store::<Interval>::new()?;
    /// let booking = rooms.insert(9..12, 71)?;
    /// rooms.delete(booking)?;
    /// assert_eq!((rooms.sweep()?, rooms.sweep()?), (1, 0));
    /// # Ok::<(), gist::Error>(())
    /// ```
    pub fn sweep(&self) -> Result<u64, Error> {
        let mut removed = 0;
        told(unsafe { ffi::gist_sweep(self.handle.get(), &mut removed) })?;
        Ok(removed)
    }

    /// Opens a cursor: it gives the rows that match now, in some order, and then each later change.
    ///
    /// # Errors
    /// [`Error::CursorsFull`], [`Error::OutOfMemory`].
    ///
    /// ```
    /// use gist::{Interval, Query, Store};
    ///
    /// let rooms = Store::<Interval>::new()?;
    /// rooms.insert(9..12, 71)?;
    /// let mut display = rooms.open(&Query::overlaps(8..18)?)?;
    /// assert_eq!(display.by_ref().count(), 1);
    /// rooms.insert_all([(20..22, 72), (14..17, 73)])?;
    /// assert_eq!(display.by_ref().count(), 1);
    /// # Ok::<(), gist::Error>(())
    /// ```
    pub fn open(&self, query: &Query<K>) -> Result<Cursor<'_, K>, Error> {
        let mut number = 0;
        told(query.read(|query| unsafe { ffi::gist_open(self.handle.get(), query, &mut number) }))?;
        Ok(Cursor::of(self, number))
    }

    /// Opens a cursor that gives only the changes after a commit. With a mark's number it goes on where the mark was
    /// given; with 0 it gives all changes from the beginning.
    ///
    /// # Errors
    /// [`Error::FromFuture`] if there are fewer commits; [`Error::CursorsFull`], [`Error::OutOfMemory`].
    ///
    /// ```
    /// use gist::{Error, Interval, Query, Store};
    ///
    /// let rooms = Store::<Interval>::new()?;
    /// rooms.insert_all([(9..12, 71), (14..17, 72)])?;
    /// let day = Query::overlaps(8..18)?;
    /// assert_eq!(rooms.follow(&day, 1)?.count(), 1);
    /// assert_eq!(rooms.follow(&day, 3).err(), Some(Error::FromFuture));
    /// # Ok::<(), gist::Error>(())
    /// ```
    pub fn follow(&self, query: &Query<K>, commit: u64) -> Result<Cursor<'_, K>, Error> {
        let mut number = 0;
        told(query.read(|query| unsafe {
            ffi::gist_follow(self.handle.get(), query, commit, &mut number)
        }))?;
        Ok(Cursor::of(self, number))
    }

    /// Gives a detached cursor of this store its borrow back.
    pub fn attach(&self, cursor: CursorNumber) -> Cursor<'_, K> {
        Cursor::of(self, cursor.number())
    }

    /// The handle, for a call of a cursor.
    pub(crate) fn handle(&self) -> *mut ffi::Store {
        self.handle.get()
    }
}

/// # Panics
/// If a row is refused; [`Store::insert_all`] returns the error instead.
impl<K: Key> Extend<(K, u64)> for Store<K> {
    fn extend<I: IntoIterator<Item = (K, u64)>>(&mut self, rows: I) {
        if let Err(stopped) = self.insert_all(rows) {
            panic!("a store can't be extended: {stopped}");
        }
    }
}

impl<K: Key> fmt::Debug for Store<K> {
    fn fmt(&self, f: &mut fmt::Formatter<'_>) -> fmt::Result {
        f.debug_tuple("Store").field(&self.figures()).finish()
    }
}

/// A new store made of a snapshot's rows.
#[derive(Debug)]
pub struct Renewed<K: Key> {
    /// The store. Its rows are numbered 1, 2 and so on, and their inserts are its only commits.
    pub store: Store<K>,
    /// The numbers that its rows had before, that of row 1 first.
    pub numbers: Vec<u64>,
}
