//! Snapshots.

use crate::error::{told, Error};
use crate::ffi;
use crate::handle::{Owned, Shared};
use crate::item::{change, row, Change, Row};
use crate::key::{Key, Relation};
use crate::query::Query;
use crate::store::{Limits, Renewed, Store};
use std::fmt;
use std::marker::PhantomData;
use std::sync::Arc;
use std::vec;

/// A call of the library that writes rows into a buffer.
type Find = unsafe extern "C" fn(
    *const ffi::Snapshot,
    *const ffi::Query,
    *mut ffi::Row,
    usize,
    *mut u64,
) -> u32;

/// A store's commits as they stood when it was taken. Later commits don't change it.
///
/// It may be sent to and shared by any number of threads; a clone is the same snapshot. As long as it lives it keeps
/// the memory of pages and rows that the store has changed since.
///
/// ```
/// use gist::{Query, Set, Store};
///
/// let songs = Store::<Set>::new()?;
/// let first = songs.insert([1, 5], 301)?;
/// let before = songs.snapshot()?;
/// songs.delete(first)?;
/// assert_eq!(before.find(&Query::holds([5])?)?[0].tag, 301);
/// assert!(songs.snapshot()?.is_empty()?);
/// # Ok::<(), gist::Error>(())
/// ```
pub struct Snapshot<K: Key> {
    handle: Arc<Shared<ffi::Snapshot>>,
    keys: PhantomData<K>,
}

/// A row, and whether it was live.
#[derive(Clone, Copy, Debug, PartialEq, Eq, Hash)]
pub struct Known<K> {
    /// The row, as the commit with its number made it.
    pub row: Row<K>,
    /// Whether no delete and no move had ended it.
    pub lives: bool,
}

/// Some changes in the order of their commits.
#[derive(Clone, Debug, PartialEq, Eq, Hash)]
pub struct Changes<K> {
    /// The changes.
    pub changes: Vec<Change<K>>,
    /// The commit up to which they are complete: a further call goes on from there.
    pub upto: u64,
}

// SAFETY of each call below: the handle holds a snapshot, and was never copied; each call gets it, and a query, through
// a const pointer, and nothing changes either before its last owner drops it. Each other pointer is to a value that
// outlives the call.
impl<K: Key> Snapshot<K> {
    /// How many rows a search has room for at first; it is repeated with more room if that isn't enough.
    const ROOM: usize = 64;

    /// The most changes that one call of the library returns.
    const MOST_AT_ONCE: usize = 4_096;

    /// Takes over the snapshot of a handle.
    pub(crate) fn of(handle: Owned<ffi::Snapshot>) -> Snapshot<K> {
        Snapshot {
            handle: Arc::new(Shared::new(handle)),
            keys: PhantomData,
        }
    }

    /// Makes a call that reads this snapshot.
    pub(crate) fn read<R>(&self, call: impl FnOnce(*const ffi::Snapshot) -> R) -> R {
        self.handle.read(call)
    }

    /// How many commits there were.
    pub fn commits(&self) -> u64 {
        let mut commits = 0;
        let answer = self.read(|it| unsafe { ffi::gist_commits(it, &mut commits) });
        debug_assert_eq!(answer, 0, "a snapshot's handle has a snapshot");
        commits
    }

    /// How many rows were live.
    ///
    /// # Errors
    /// [`Error::OutOfMemory`].
    ///
    /// ```
    /// use gist::{Interval, Store};
    ///
    /// let rooms = Store::<Interval>::new()?;
    /// rooms.insert_all([(9..12, 71), (14..17, 72)])?;
    /// rooms.delete(1)?;
    /// let now = rooms.snapshot()?;
    /// assert_eq!((now.len()?, now.commits()), (1, 3));
    /// # Ok::<(), gist::Error>(())
    /// ```
    pub fn len(&self) -> Result<u64, Error> {
        self.count(&Query::everything()?)
    }

    /// Whether no row was live.
    ///
    /// # Errors
    /// [`Error::OutOfMemory`].
    pub fn is_empty(&self) -> Result<bool, Error> {
        Ok(self.len()? == 0)
    }

    /// The row with a number, if it was live.
    ///
    /// # Errors
    /// [`Error::OutOfMemory`].
    ///
    /// ```
    /// use gist::{Interval, Store};
    ///
    /// let rooms = Store::<Interval>::new()?;
    /// let booking = rooms.insert(9..12, 71)?;
    /// assert_eq!(rooms.snapshot()?.get(booking)?.map(|row| row.tag), Some(71));
    /// rooms.delete(booking)?;
    /// assert_eq!(rooms.snapshot()?.get(booking)?, None);
    /// # Ok::<(), gist::Error>(())
    /// ```
    pub fn get(&self, number: u64) -> Result<Option<Row<K>>, Error> {
        match self.known(number) {
            Ok(known) => Ok(known.lives.then_some(known.row)),
            Err(Error::NoSuchRow) => Ok(None),
            Err(other) => Err(other),
        }
    }

    /// The row with a number, even if it had ended.
    ///
    /// # Errors
    /// [`Error::NoSuchRow`], [`Error::OutOfMemory`].
    ///
    /// ```
    /// use gist::{Error, Interval, Store};
    ///
    /// let rooms = Store::<Interval>::new()?;
    /// let booking = rooms.insert(9..12, 71)?;
    /// rooms.delete(booking)?;
    /// let now = rooms.snapshot()?;
    /// let known = now.known(booking)?;
    /// assert_eq!((known.row.tag, known.lives), (71, false));
    /// assert_eq!(now.known(2), Err(Error::NoSuchRow));
    /// # Ok::<(), gist::Error>(())
    /// ```
    pub fn known(&self, number: u64) -> Result<Known<K>, Error> {
        let (mut found, mut lives) = (ffi::Row::default(), false);
        told(self.read(|it| unsafe { ffi::gist_row_of(it, number, &mut found, &mut lives) }))?;
        Ok(Known {
            row: row(found),
            lives,
        })
    }

    /// What the commit with a number did, if there was one.
    ///
    /// ```
    /// use gist::{Change, Interval, Store};
    ///
    /// let rooms = Store::<Interval>::new()?;
    /// let booking = rooms.insert(9..12, 71)?;
    /// rooms.move_to(booking, 14..17)?;
    /// let now = rooms.snapshot()?;
    /// assert!(matches!(now.commit(2), Some(Change::Moved { ended: 1, .. })));
    /// assert_eq!(now.commit(3), None);
    /// # Ok::<(), gist::Error>(())
    /// ```
    pub fn commit(&self, number: u64) -> Option<Change<K>> {
        let mut commit = ffi::Item::default();
        let answer = self.read(|it| unsafe { ffi::gist_commit_of(it, number, &mut commit) });
        debug_assert_eq!(answer, 0, "a snapshot's handle has a snapshot");
        change(commit)
    }

    /// All live rows, by rising number.
    ///
    /// # Errors
    /// [`Error::OutOfMemory`].
    ///
    /// ```
    /// use gist::{Interval, Store};
    ///
    /// let rooms = Store::<Interval>::new()?;
    /// rooms.insert_all([(9..12, 71), (14..17, 72)])?;
    /// assert!(rooms.snapshot()?.iter()?.map(|row| row.tag).eq([71, 72]));
    /// # Ok::<(), gist::Error>(())
    /// ```
    pub fn iter(&self) -> Result<vec::IntoIter<Row<K>>, Error> {
        Ok(self.find(&Query::everything()?)?.into_iter())
    }

    /// The live rows that match a query, by rising number.
    ///
    /// # Errors
    /// [`Error::OutOfMemory`].
    ///
    /// ```
    /// use gist::{Interval, Query, Store};
    ///
    /// let rooms = Store::<Interval>::new()?;
    /// rooms.insert_all([(9..12, 71), (14..17, 72), (20..22, 73)])?;
    /// let found = rooms.snapshot()?.find(&Query::overlaps(11..=14)?)?;
    /// assert_eq!(found.iter().map(|row| row.tag).collect::<Vec<_>>(), [71, 72]);
    /// # Ok::<(), gist::Error>(())
    /// ```
    pub fn find(&self, query: &Query<K>) -> Result<Vec<Row<K>>, Error> {
        self.found_by(ffi::gist_find, query)
    }

    /// The live rows that match a query, in any order: it takes less time than [`find`](Self::find).
    ///
    /// # Errors
    /// No error is known: the library needs no memory for it.
    ///
    /// ```
    /// use gist::{Interval, Query, Store};
    ///
    /// let rooms = Store::<Interval>::new()?;
    /// rooms.insert_all([(9..12, 71), (14..17, 72), (20..22, 73)])?;
    /// let found = rooms.snapshot()?.find_any(&Query::overlaps(11..=14)?)?;
    /// assert_eq!(found.iter().map(|row| row.tag).sum::<u64>(), 71 + 72);
    /// # Ok::<(), gist::Error>(())
    /// ```
    pub fn find_any(&self, query: &Query<K>) -> Result<Vec<Row<K>>, Error> {
        self.found_by(ffi::gist_find_any, query)
    }

    /// All rows that a call of the library writes into a buffer.
    fn found_by(&self, find: Find, query: &Query<K>) -> Result<Vec<Row<K>>, Error> {
        let mut rows = vec![ffi::Row::default(); Self::ROOM];
        let mut found = self.find_into(find, query, &mut rows)?;
        if found > rows.len() {
            rows.resize(found, ffi::Row::default());
            found = self.find_into(find, query, &mut rows)?;
        }
        Ok(rows[..found].iter().copied().map(row).collect())
    }

    /// Fills a buffer with the live rows that match a query, as many as fit, and returns how many there are in all.
    fn find_into(
        &self,
        find: Find,
        query: &Query<K>,
        rows: &mut [ffi::Row],
    ) -> Result<usize, Error> {
        let mut found = 0;
        told(self.read(|it| {
            query.read(|query| unsafe {
                find(it, query, rows.as_mut_ptr(), rows.len(), &mut found)
            })
        }))?;
        Ok(found as usize)
    }

    /// Counts the live rows that match a query.
    ///
    /// # Errors
    /// No error is known: a count needs no memory.
    ///
    /// ```
    /// use gist::{Query, Set, Store};
    ///
    /// let songs = Store::<Set>::new()?;
    /// songs.insert_all([([1, 5], 301), ([5, 9], 302)])?;
    /// let query = "holds {5} and not overlaps {9}".parse()?;
    /// assert_eq!(songs.snapshot()?.count(&query)?, 1);
    /// # Ok::<(), gist::Error>(())
    /// ```
    pub fn count(&self, query: &Query<K>) -> Result<u64, Error> {
        let mut count = 0;
        told(
            self.read(|it| query.read(|query| unsafe { ffi::gist_count(it, query, &mut count) })),
        )?;
        Ok(count)
    }

    /// For each key, the live rows that have a relation to it, by rising number.
    ///
    /// # Errors
    /// [`Error::BadEnds`] if a key's ends are out of order, [`Error::OutOfMemory`].
    ///
    /// ```
    /// use gist::{Interval, Relation, Store};
    ///
    /// let rooms = Store::<Interval>::new()?;
    /// rooms.insert_all([(9..12, 71), (14..17, 72)])?;
    /// let hours: Vec<Interval> = (10..15).map(Interval::from).collect();
    /// let taken = rooms.snapshot()?.find_each(Relation::Holds, &hours)?;
    /// assert_eq!(taken.iter().map(Vec::len).collect::<Vec<_>>(), [1, 1, 0, 0, 1]);
    /// # Ok::<(), gist::Error>(())
    /// ```
    pub fn find_each(&self, relation: Relation, keys: &[K]) -> Result<Vec<Vec<Row<K>>>, Error> {
        let words: Vec<_> = keys.iter().map(|key| key.to_words()).collect();
        let mut rows = vec![ffi::Row::default(); Self::ROOM];
        let mut ends = vec![0; keys.len()];
        let mut all = Vec::with_capacity(keys.len());
        while all.len() < keys.len() {
            let answered =
                self.find_each_into(relation, &words[all.len()..], &mut rows, &mut ends)?;
            let mut first = 0;
            for &end in &ends[..answered] {
                let found = &rows[first..end as usize];
                all.push(found.iter().copied().map(row).collect());
                first = end as usize;
            }
            if answered == 0 {
                // the rows of the next key don't fit
                let found = self.count(&Query::by(relation, keys[all.len()])?)?;
                rows.resize(found as usize, ffi::Row::default());
            }
        }
        Ok(all)
    }

    /// Fills one buffer with the rows of the first keys and another with where each key's rows end, and returns how many
    /// keys were answered.
    fn find_each_into(
        &self,
        relation: Relation,
        keys: &[ffi::Key],
        rows: &mut [ffi::Row],
        ends: &mut [u64],
    ) -> Result<usize, Error> {
        let mut answered = 0;
        told(self.read(|it| unsafe {
            ffi::gist_find_each(
                it,
                relation as u32,
                keys.as_ptr(),
                keys.len(),
                rows.as_mut_ptr(),
                rows.len(),
                ends.as_mut_ptr(),
                ends.len(),
                &mut answered,
            )
        }))?;
        Ok(answered as usize)
    }

    /// The first changes of a query after the commit `from`, at most `most`; with `usize::MAX` all of them. After the rows
    /// of a snapshot of `from` commits they are what a cursor would deliver next.
    ///
    /// # Errors
    /// [`Error::FromFuture`] if there were fewer commits, [`Error::OutOfMemory`].
    ///
    /// ```
    /// use gist::{Interval, Query, Store};
    ///
    /// let rooms = Store::<Interval>::new()?;
    /// let query = Query::overlaps(8..18)?;
    /// let before = rooms.snapshot()?;
    /// rooms.insert_all([(9..12, 71), (20..22, 72), (14..17, 73)])?;
    /// let later = rooms.snapshot()?.changes(&query, before.commits(), usize::MAX)?;
    /// assert_eq!(later.changes.iter().map(|it| it.row().tag).collect::<Vec<_>>(), [71, 73]);
    /// assert_eq!(later.upto, 3);
    /// # Ok::<(), gist::Error>(())
    /// ```
    pub fn changes(&self, query: &Query<K>, from: u64, most: usize) -> Result<Changes<K>, Error> {
        let mut items = vec![ffi::Item::default(); most.min(Self::MOST_AT_ONCE)];
        let mut all = Changes {
            changes: Vec::new(),
            upto: from,
        };
        loop {
            let room = items.len().min(most - all.changes.len());
            let given = self.changes_into(query, &mut all.upto, &mut items[..room])?;
            all.changes
                .extend(items[..given].iter().copied().filter_map(change));
            if given < room || all.changes.len() == most {
                return Ok(all);
            }
        }
    }

    /// Fills a buffer with the changes after a commit, and returns how many there are. `at` becomes the commit up to which
    /// they are complete.
    fn changes_into(
        &self,
        query: &Query<K>,
        at: &mut u64,
        items: &mut [ffi::Item],
    ) -> Result<usize, Error> {
        let (from, mut given) = (*at, 0);
        told(self.read(|it| {
            query.read(|query| unsafe {
                ffi::gist_changes(
                    it,
                    query,
                    from,
                    items.as_mut_ptr(),
                    items.len(),
                    &mut given,
                    at,
                )
            })
        }))?;
        Ok(given as usize)
    }

    /// Makes a new store of the live rows, in the order of their numbers, for when a store's commits are nearly used
    /// up. Their inserts are its only commits.
    ///
    /// # Errors
    /// [`Error::BadLimits`]; [`Error::CommitsFull`] or [`Error::PagesFull`] if the limits are too small for the rows;
    /// [`Error::OutOfMemory`].
    ///
    /// ```
    /// use gist::{Interval, Limits, Store};
    ///
    /// let rooms = Store::<Interval>::new()?;
    /// let first = rooms.insert(9..12, 71)?;
    /// rooms.insert(14..17, 72)?;
    /// rooms.delete(first)?;
    /// let renewed = rooms.snapshot()?.renew(Limits::default())?;
    /// assert_eq!(renewed.numbers, [2]);
    /// assert_eq!(renewed.store.snapshot()?.get(1)?.map(|row| row.tag), Some(72));
    /// # Ok::<(), gist::Error>(())
    /// ```
    pub fn renew(&self, limits: Limits) -> Result<Renewed<K>, Error> {
        let handle = Owned::none();
        let mut numbers = vec![0; self.len()? as usize];
        let mut living = 0;
        told(self.read(|it| unsafe {
            ffi::gist_renew(
                it,
                &limits.to_c(),
                handle.get(),
                numbers.as_mut_ptr(),
                numbers.len(),
                &mut living,
            )
        }))?;
        debug_assert_eq!(
            living as usize,
            numbers.len(),
            "as many rows as were counted"
        );
        Ok(Renewed {
            store: Store::of(handle),
            numbers,
        })
    }
}

impl<K: Key> Clone for Snapshot<K> {
    fn clone(&self) -> Snapshot<K> {
        Snapshot {
            handle: Arc::clone(&self.handle),
            keys: PhantomData,
        }
    }
}

impl<K: Key> fmt::Debug for Snapshot<K> {
    fn fmt(&self, f: &mut fmt::Formatter<'_>) -> fmt::Result {
        f.debug_struct("Snapshot")
            .field("commits", &self.commits())
            .finish_non_exhaustive()
    }
}
