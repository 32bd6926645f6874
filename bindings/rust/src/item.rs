//! Rows and their changes, as stores, cursors and feeds give them.

use crate::ffi;
use crate::key::Key;

/// A row: the number of the commit that made it, its key and its tag.
#[derive(Clone, Copy, Debug, PartialEq, Eq, Hash)]
pub struct Row<K> {
    /// The row's number.
    pub number: u64,
    /// The row's key.
    pub key: K,
    /// A number that the caller chose. A move keeps it.
    pub tag: u64,
}

/// What a commit did, or what it means for a query: a row that moves out of the query counts as deleted, and one that
/// moves into it as inserted.
#[derive(Clone, Copy, Debug, PartialEq, Eq, Hash)]
pub enum Change<K> {
    /// A row came. The commit has its number.
    Inserted(Row<K>),
    /// A row went.
    Deleted {
        /// The number of the commit.
        commit: u64,
        /// The row, as it was.
        row: Row<K>,
    },
    /// A row got another key, and a new number, which is the commit's.
    Moved {
        /// The row as it is now.
        row: Row<K>,
        /// The number that it had before.
        ended: u64,
    },
}

impl<K> Change<K> {
    /// The number of the commit.
    pub fn commit(&self) -> u64 {
        match self {
            Change::Inserted(row) | Change::Moved { row, .. } => row.number,
            Change::Deleted { commit, .. } => *commit,
        }
    }

    /// The row that was inserted or deleted, or the one that a move made.
    pub fn row(&self) -> &Row<K> {
        match self {
            Change::Inserted(row) | Change::Deleted { row, .. } | Change::Moved { row, .. } => row,
        }
    }
}

/// What a cursor gives.
#[derive(Clone, Copy, Debug, PartialEq, Eq, Hash)]
pub enum Item<K> {
    /// A row that was there at the opening.
    Row(Row<K>),
    /// A later change.
    Change(Change<K>),
    /// A mark: everything up to the commit with this number was given.
    Mark(u64),
}

/// What a feed gives to a subscription.
#[derive(Clone, Copy, Debug, PartialEq, Eq, Hash)]
pub struct Told<K> {
    /// Which subscription.
    pub to: Subscription,
    /// The change.
    pub change: Change<K>,
}

/// A subscription of a feed, by its number.
#[derive(Clone, Copy, Debug, PartialEq, Eq, Hash, PartialOrd, Ord)]
pub struct Subscription(pub(crate) u64);

impl Subscription {
    /// The number.
    pub fn number(self) -> u64 {
        self.0
    }
}

/// A row, from the library's layout.
pub(crate) fn row<K: Key>(told: ffi::Row) -> Row<K> {
    Row {
        number: told.row,
        key: K::from_words(told.key),
        tag: told.tag,
    }
}

/// A change, from the library's layout, if it is one.
pub(crate) fn change<K: Key>(told: ffi::Item) -> Option<Change<K>> {
    let row = |number| Row {
        number,
        key: K::from_words(told.key),
        tag: told.tag,
    };
    match told.kind {
        2 => Some(Change::Inserted(row(told.number))),
        3 => Some(Change::Deleted {
            commit: told.number,
            row: row(told.ended),
        }),
        4 => Some(Change::Moved {
            row: row(told.number),
            ended: told.ended,
        }),
        _ => None,
    }
}

/// An item of a cursor, from the library's layout, if it is one.
pub(crate) fn item<K: Key>(told: ffi::Item) -> Option<Item<K>> {
    match told.kind {
        1 => Some(Item::Row(Row {
            number: told.number,
            key: K::from_words(told.key),
            tag: told.tag,
        })),
        5 => Some(Item::Mark(told.number)),
        _ => change(told).map(Item::Change),
    }
}
