//! A store that is made anew while the one before goes on.

use crate::error::Error;
use crate::item::Change;
use crate::key::Key;
use crate::snapshot::Snapshot;
use crate::store::{Limits, Store};
use std::collections::HashMap;
use std::mem;

/// A store that is made anew beside the one before, which is read and written meanwhile.
///
/// [`begin`](Renewal::begin) makes it of the rows of a snapshot, and [`catch_up`](Renewal::catch_up) repeats in it what was
/// committed since. Both take time and no lock. [`finish`](Renewal::finish) puts it in the place of the store before: by
/// then only the last commits have to be repeated, so a lock is held for a moment.
///
/// ```
/// use gist::{Interval, Limits, Renewal, SharedStore, Store};
///
/// let rooms = SharedStore::new(Store::<Interval>::new()?);
/// rooms.write(|store| store.insert_all([(9..12, 71), (14..17, 72)]))?;
///
/// let mut renewal = Renewal::begin(&rooms.snapshot()?, Limits::default())?;
/// rooms.write(|store| store.delete(1))?; // others go on
/// renewal.catch_up(&rooms.snapshot()?)?;
///
/// let replaced = rooms.write(|store| renewal.finish(store))?;
/// assert_eq!(replaced.numbers[&2], 2);
/// assert_eq!(rooms.snapshot()?.len()?, 1);
/// # Ok::<(), gist::Error>(())
/// ```
#[derive(Debug)]
pub struct Renewal<K: Key> {
    store: Store<K>,
    /// How many commits of the store before are in the new one.
    upto: u64,
    numbers: HashMap<u64, u64>,
}

/// What a renewed store replaced.
#[derive(Debug)]
pub struct Replaced<K: Key> {
    /// The store before, with all its commits: who follows it can read it to its end.
    pub before: Store<K>,
    /// The number that each row has now, by the number that it had before.
    pub numbers: HashMap<u64, u64>,
}

impl<K: Key> Renewal<K> {
    /// Makes a store of the rows that lived in a snapshot.
    ///
    /// # Errors
    /// As [`Snapshot::renew`].
    pub fn begin(snapshot: &Snapshot<K>, limits: Limits) -> Result<Renewal<K>, Error> {
        let renewed = snapshot.renew(limits)?;
        Ok(Renewal {
            store: renewed.store,
            upto: snapshot.commits(),
            numbers: renewed.numbers.into_iter().zip(1..).collect(),
        })
    }

    /// Repeats the later commits of a later snapshot of the same store, and returns how many they are. An older snapshot
    /// has none.
    ///
    /// # Errors
    /// [`Error::CommitsFull`] and [`Error::PagesFull`] if the limits are too small; [`Error::OutOfMemory`];
    /// [`Error::NoSuchRow`] if the snapshot is of another store and ends a row that this one never had. The commits before
    /// the refused one were repeated, and the next call goes on with that one.
    pub fn catch_up(&mut self, now: &Snapshot<K>) -> Result<u64, Error> {
        let from = self.upto;
        for change in (from + 1..=now.commits()).filter_map(|number| now.commit(number)) {
            self.repeat(change)?;
            self.upto += 1;
        }
        Ok(self.upto - from)
    }

    /// The number that a row has in the new store.
    fn number_of(&self, before: u64) -> Result<u64, Error> {
        self.numbers.get(&before).copied().ok_or(Error::NoSuchRow)
    }

    fn repeat(&mut self, change: Change<K>) -> Result<(), Error> {
        let (before, now) = match change {
            Change::Inserted(row) => (row.number, self.store.insert(row.key, row.tag)?),
            Change::Moved { row, ended } => {
                let now = self.store.move_to(self.number_of(ended)?, row.key)?;
                self.numbers.remove(&ended);
                (row.number, now)
            }
            Change::Deleted { row, .. } => {
                self.store.delete(self.number_of(row.number)?)?;
                self.numbers.remove(&row.number);
                return Ok(());
            }
        };
        self.numbers.insert(before, now);
        Ok(())
    }

    /// Repeats the last commits of a store, and takes its place.
    ///
    /// # Errors
    /// As [`Renewal::catch_up`]; the store is as before then.
    pub fn finish(mut self, store: &mut Store<K>) -> Result<Replaced<K>, Error> {
        self.catch_up(&store.snapshot()?)?;
        Ok(Replaced {
            before: mem::replace(store, self.store),
            numbers: self.numbers,
        })
    }
}
