//! An in-memory index of rows by intervals, boxes or sets, whose readers can follow every change.
//!
//! A [`Store`] has rows, each with a key, a number and a tag, a number that the caller chooses. A [`Snapshot`] is what
//! it had at one moment, and can be searched with a [`Query`] while writers go on; queries combine with `&`, `|` and `!`
//! to a [`Condition`]. A [`Cursor`] delivers the rows that match and then each later change, without a gap and without a
//! repetition; a [`Feed`] does that for up to a million queries at once. Threads share a store as a [`SharedStore`].
//!
//! ```
//! use gist::{Interval, Query, Store};
//!
//! let rooms = Store::<Interval>::new()?;
//! rooms.insert(9..12, 71)?;
//! rooms.insert(14..17, 72)?;
//!
//! let at_noon = Query::overlaps(11..=13)?;
//! for booking in rooms.snapshot()?.find(&at_noon)? {
//!     println!("guest {} has the room in {:?}", booking.tag, booking.key);
//! }
//! # Ok::<(), gist::Error>(())
//! ```
//!
//! The crate calls the library for C, whose functions are proved correct; the crate itself is only tested.
//! `GIST_LIB_DIR` names the folder with `libgist.a` when it is built: `GIST_LIB_DIR=lib cargo build`.

#![deny(missing_docs, unsafe_op_in_unsafe_fn)]

mod condition;
mod cursor;
mod error;
mod feed;
mod ffi;
mod handle;
mod item;
mod key;
mod query;
mod renewal;
mod shared;
mod snapshot;
mod store;

pub use condition::Condition;
pub use cursor::{Cursor, CursorNumber};
pub use error::{Error, Stopped};
pub use feed::{Advance, Feed};
pub use item::{Change, Item, Row, Subscription, Told};
pub use key::{BoxKey, Interval, Key, Relation, Set};
pub use query::Query;
pub use renewal::{Renewal, Replaced};
pub use shared::SharedStore;
pub use snapshot::{Changes, Known, Snapshot};
pub use store::{Figures, Limits, Renewed, Standing, Store};

/// The version of the library that the program runs with: major, minor and patch.
///
/// ```
/// let (major, minor, _) = gist::version();
/// assert_eq!((major, minor), (0, 3));
/// ```
pub fn version() -> (u32, u32, u32) {
    // SAFETY: the call has no preconditions.
    let version = unsafe { ffi::gist_version() };
    (
        version / 1_000_000,
        version / 1_000 % 1_000,
        version % 1_000,
    )
}
