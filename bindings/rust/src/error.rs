//! Why a call is refused.

use crate::ffi;
use std::error;
use std::fmt;
use std::ops::Range;

/// Why a call was refused. A refused call changes neither the commits nor what a cursor still has to deliver.
///
/// Its text says what is wrong and then what to do.
///
/// ```
/// use gist::{Error, Interval, Store};
///
/// let store = Store::<Interval>::new()?;
/// let refused = store.insert(17..=9, 4711).unwrap_err();
/// assert_eq!(refused, Error::BadEnds);
/// assert_eq!(refused.number(), 26);
/// assert_eq!(refused.name(), "BadEnds");
/// let text = "key's lower end exceeds its upper end: pass the lower end first; an empty range is no key";
/// assert_eq!(refused.to_string(), text);
/// # Ok::<(), Error>(())
/// ```
#[derive(Clone, Copy, Debug, PartialEq, Eq, Hash)]
#[non_exhaustive]
pub enum Error {
    /// Memory ran out. The same call may be made again.
    OutOfMemory,
    /// No class or no relation has the number, or a handle isn't empty. This crate's calls never return it.
    BadConfig,
    /// Fewer than two pages are left of [`Limits::pages`](crate::Limits::pages).
    PagesFull,
    /// There are as many commits as [`Limits::commits`](crate::Limits::commits).
    CommitsFull,
    /// 256 cursors of the store are open, or 4,294,967,295 were opened.
    CursorsFull,
    /// 4,294,967,295 deletes and moves of the store were begun.
    FindersFull,
    /// No insert and no move has the number.
    NoSuchRow,
    /// The row was deleted or moved.
    AlreadyDeleted,
    /// No cursor of the store has the number.
    NoSuchCursor,
    /// The cursor is closed.
    CursorClosed,
    /// The text of a query is wrong.
    QueryText {
        /// The place of the first wrong byte, counted from 0.
        at: usize,
    },
    /// A query is more than 32 deep: a key is 1 deep, and each `and`, `or` and `not` around it adds 1.
    /// [`Query::any_of`](crate::Query::any_of) and the operators of [`Condition`](crate::Condition) join n queries so that
    /// they add only log2 n, rounded up.
    QueryTooDeep {
        /// How deep it is.
        depth: usize,
    },
    /// The text of a query, or of the one that a combination makes, has more than 4,096 bytes.
    QueryTooLong {
        /// How many it has.
        length: usize,
    },
    /// There are no queries to combine.
    NoQueries,
    /// The store or the snapshot has fewer commits than the one to follow, or than the feed has processed.
    FromFuture,
    /// 1,000,000 subscriptions of the feed are open, or 4,294,967,295 were opened.
    FeedFull,
    /// No subscription of the feed with the number is open.
    NotSubscribed,
    /// The ends of a key are out of order.
    BadEnds,
    /// The keys are of another class. This crate's calls never return it, since its types tell the classes apart.
    OtherClass,
    /// A handle is empty. This crate's calls never return it.
    NoHandle,
    /// A limit is out of range; [`Limits`](crate::Limits) has the ranges.
    BadLimits,
    /// A map no longer keeps the changes after the revision. This crate's calls never return it.
    Compacted,
    /// The snapshot is of another map. This crate's calls never return it.
    OtherStore,
    /// A refusal of a later version of the library, by its number.
    Unknown {
        /// The number.
        number: u32,
    },
}

impl Error {
    /// The refusal with a number. `fault` is the wrong byte of a query's text.
    pub(crate) fn of(number: u32, fault: u64) -> Error {
        match number {
            1 => Error::OutOfMemory,
            2 => Error::BadConfig,
            3 => Error::PagesFull,
            4 => Error::CommitsFull,
            5 => Error::CursorsFull,
            6 => Error::FindersFull,
            14 => Error::NoSuchRow,
            15 => Error::AlreadyDeleted,
            16 => Error::NoSuchCursor,
            17 => Error::CursorClosed,
            21 => Error::QueryText { at: fault as usize },
            23 => Error::FromFuture,
            24 => Error::FeedFull,
            25 => Error::NotSubscribed,
            26 => Error::BadEnds,
            27 => Error::OtherClass,
            28 => Error::NoHandle,
            29 => Error::BadLimits,
            30 => Error::Compacted,
            31 => Error::OtherStore,
            _ => Error::Unknown { number },
        }
    }

    /// The number of the refusal in the header for C; 0 for [`Error::NoQueries`], which isn't one of the library's.
    pub fn number(self) -> u32 {
        match self {
            Error::OutOfMemory => 1,
            Error::BadConfig => 2,
            Error::PagesFull => 3,
            Error::CommitsFull => 4,
            Error::CursorsFull => 5,
            Error::FindersFull => 6,
            Error::NoSuchRow => 14,
            Error::AlreadyDeleted => 15,
            Error::NoSuchCursor => 16,
            Error::CursorClosed => 17,
            Error::QueryText { .. } | Error::QueryTooDeep { .. } | Error::QueryTooLong { .. } => 21,
            Error::NoQueries => 0,
            Error::FromFuture => 23,
            Error::FeedFull => 24,
            Error::NotSubscribed => 25,
            Error::BadEnds => 26,
            Error::OtherClass => 27,
            Error::NoHandle => 28,
            Error::BadLimits => 29,
            Error::Compacted => 30,
            Error::OtherStore => 31,
            Error::Unknown { number } => number,
        }
    }

    /// The library's name of the refusal, empty for [`Error::NoQueries`] and [`Error::Unknown`].
    pub fn name(self) -> String {
        let mut name = [0; 16];
        // SAFETY: the buffer has that many bytes.
        let length =
            unsafe { ffi::gist_refusal_name(self.number(), name.as_mut_ptr().cast(), name.len()) };
        String::from_utf8_lossy(&name[..length.min(name.len())]).into_owned()
    }
}

/// What is wrong, then what to do. `include/gist_values.hpp` has the same words.
impl fmt::Display for Error {
    fn fmt(&self, f: &mut fmt::Formatter<'_>) -> fmt::Result {
        let text = match self {
            Error::OutOfMemory => "out of memory: free some and try again",
            Error::BadConfig => {
                "no such class or relation, or the handle is in use: pass a named constant, and an empty handle"
            }
            Error::PagesFull => {
                "store is full: fewer than two of its pages are left; sweep it, or renew it with a higher page limit"
            }
            Error::CommitsFull => {
                "store is full: it has as many commits as its limit; renew it with a limit above its number of live rows"
            }
            Error::CursorsFull => {
                "too many cursors: 256 are open, or 4,294,967,295 were opened; close one, or renew the store"
            }
            Error::FindersFull => "store has used up its 4,294,967,295 deletes and moves: renew it",
            Error::NoSuchRow => {
                "no such row: pass the number of an insert or a move that the store or the snapshot has"
            }
            Error::AlreadyDeleted => {
                "row was deleted or moved: pass the number of a live row; a move returns the row's new number"
            }
            Error::NoSuchCursor => "no such cursor: use one that this store opened",
            Error::CursorClosed => "cursor is closed: open another, or follow the last mark",
            Error::QueryText { at } => {
                return write!(
                    f,
                    "query text is wrong at byte {at}: expected overlaps, within, holds or same with a key, \
                     joined by and, or, not and round brackets, at most 32 deep and 4,096 bytes long"
                );
            }
            Error::QueryTooDeep { depth } => {
                return write!(
                    f,
                    "query is {depth} deep; at most 32: combine alternatives with any_of or all_of, or split it into \
                     several queries"
                );
            }
            Error::QueryTooLong { length } => {
                return write!(
                    f,
                    "query text has {length} bytes; at most 4,096: split it into several queries"
                );
            }
            Error::NoQueries => "queries is empty: pass at least one query",
            Error::FromFuture => {
                "no such commit yet: the store or the snapshot has fewer; pass one that it has, or a later snapshot"
            }
            Error::FeedFull => {
                "too many subscriptions: 1,000,000 are open, or 4,294,967,295 were opened; end one, or begin another feed"
            }
            Error::NotSubscribed => {
                "no such subscription: pass the number of one that is open"
            }
            Error::BadEnds => {
                "key's lower end exceeds its upper end: pass the lower end first; an empty range is no key"
            }
            Error::OtherClass => {
                "different classes of keys: use a query, a feed and a snapshot of the same class"
            }
            Error::NoHandle => {
                "object is empty: it was moved from, closed or never made; make another"
            }
            Error::BadLimits => {
                "limit is out of range: use a fan of 4 to 64, a least of 2 to half of it, 1 to 65,536 pages and 1 to \
                 16,777,216 commits"
            }
            Error::Compacted => {
                "map's changes after that revision are no longer kept: find again, and go on from that snapshot's revision"
            }
            Error::OtherStore => {
                "snapshot is of another map: pass one of the map whose identity the feed has"
            }
            Error::Unknown { number } => {
                return write!(
                    f,
                    "refusal {number} of another version of the library: see the gist.h of that version"
                );
            }
        };
        f.write_str(text)
    }
}

impl error::Error for Error {}

/// A call for many rows or keys that stopped when one was refused.
///
/// ```
/// use gist::{Error, Interval, Store};
///
/// let store = Store::<Interval>::new()?;
/// let stopped = store.insert_all([(1..=2, 71), (4..=3, 72), (5..=6, 73)]).unwrap_err();
/// assert_eq!(stopped.done, 1..2);
/// assert_eq!(stopped.error, Error::BadEnds);
/// # Ok::<(), Error>(())
/// ```
#[derive(Clone, Debug, PartialEq, Eq, Hash)]
pub struct Stopped {
    /// The commits that were made before.
    pub done: Range<u64>,
    /// Why the next one was refused.
    pub error: Error,
}

impl fmt::Display for Stopped {
    fn fmt(&self, f: &mut fmt::Formatter<'_>) -> fmt::Result {
        let done = self.done.end - self.done.start;
        write!(f, "{done} done, then the next was refused: {}", self.error)
    }
}

impl error::Error for Stopped {
    fn source(&self) -> Option<&(dyn error::Error + 'static)> {
        Some(&self.error)
    }
}

impl From<Stopped> for Error {
    fn from(stopped: Stopped) -> Error {
        stopped.error
    }
}

/// Turns a code that isn't 0 into an error.
pub(crate) fn told(answer: u32) -> Result<(), Error> {
    match answer {
        0 => Ok(()),
        number => Err(Error::of(number, 0)),
    }
}
