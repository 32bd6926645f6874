//! Feeds.

use crate::error::{told, Error};
use crate::ffi;
use crate::handle::Owned;
use crate::item::{change, Subscription, Told};
use crate::key::Key;
use crate::query::Query;
use crate::snapshot::Snapshot;
use std::fmt;
use std::marker::PhantomData;
use std::mem;

/// Gives many subscribers the changes that each asked for. A commit costs work only for the subscriptions that it may
/// concern.
///
/// It goes from snapshot to snapshot of one store, and never needs the store's lock itself. To get the rows first, find
/// them in a snapshot of n commits and subscribe from n.
///
/// ```
/// use gist::{BoxKey, Feed, Query, Store};
///
/// let map = Store::<BoxKey>::new()?;
/// let mut feed = Feed::new()?;
/// let window = feed.subscribe(&Query::overlaps((0..640, 0..480))?, 0)?;
/// map.insert(BoxKey::point(10, 20), 501)?;
/// map.insert(BoxKey::point(900, 20), 502)?;
///
/// let advance = feed.advance(&map.snapshot()?, u64::MAX)?;
/// assert_eq!(advance.upto, 2);
/// assert_eq!(advance.told.len(), 1);
/// assert_eq!(advance.told[0].to, window);
/// assert_eq!(advance.told[0].change.row().tag, 501);
/// # Ok::<(), gist::Error>(())
/// ```
pub struct Feed<K: Key> {
    handle: Owned<ffi::Feed>,
    /// What was delivered before an error, and hasn't been returned yet.
    kept: Vec<Told<K>>,
    /// Whether the feed may have items that were not taken.
    waits: bool,
    keys: PhantomData<K>,
}

/// The items of an advance.
#[derive(Clone, Debug, PartialEq, Eq, Hash)]
pub struct Advance<K> {
    /// The changes. Those of one subscription are in the order of the commits.
    pub told: Vec<Told<K>>,
    /// The last commit that the feed has processed.
    pub upto: u64,
}

// SAFETY of each call below: the handle is this feed's own and was never copied, `&mut self` excludes any other call,
// and each pointer is to a value that outlives the call.
impl<K: Key> Feed<K> {
    /// The most changes that one call of the library gives.
    const ROOM: usize = 1_024;

    /// A feed without subscriptions, which has gone over no commit yet.
    ///
    /// # Errors
    /// [`Error::OutOfMemory`].
    pub fn new() -> Result<Feed<K>, Error> {
        let handle = Owned::none();
        told(unsafe { ffi::gist_begin(handle.get(), K::NUMBER) })?;
        Ok(Feed {
            handle,
            kept: Vec::new(),
            waits: false,
            keys: PhantomData,
        })
    }

    /// Subscribes to the changes of a query after a commit. If the feed has already processed later commits, its next
    /// advance delivers what was missed.
    ///
    /// # Errors
    /// [`Error::FeedFull`], [`Error::OutOfMemory`].
    pub fn subscribe(&mut self, query: &Query<K>, from: u64) -> Result<Subscription, Error> {
        let mut number = 0;
        told(query.read(|query| unsafe {
            ffi::gist_subscribe(self.handle.get(), query, from, &mut number)
        }))?;
        Ok(Subscription(number))
    }

    /// Ends a subscription.
    ///
    /// # Errors
    /// [`Error::NotSubscribed`].
    ///
    /// ```
    /// use gist::{Error, Feed, Interval, Query};
    ///
    /// let mut feed = Feed::<Interval>::new()?;
    /// let day = feed.subscribe(&Query::overlaps(8..18)?, 0)?;
    /// feed.unsubscribe(day)?;
    /// assert_eq!(feed.unsubscribe(day), Err(Error::NotSubscribed));
    /// # Ok::<(), gist::Error>(())
    /// ```
    pub fn unsubscribe(&mut self, subscription: Subscription) -> Result<(), Error> {
        told(unsafe { ffi::gist_unsubscribe(self.handle.get(), subscription.0) })
    }

    /// Processes at most `most` further commits of a snapshot, and returns the changes for each subscription.
    ///
    /// # Errors
    /// [`Error::FromFuture`] if the snapshot has fewer commits than the feed has processed. [`Error::OutOfMemory`];
    /// nothing is lost then: the next call delivers what this one couldn't.
    ///
    /// ```
    /// use gist::{Feed, Interval, Query, Store};
    ///
    /// let (rooms, mut feed) = (Store::<Interval>::new()?, Feed::new()?);
    /// feed.subscribe(&Query::everything()?, 0)?;
    /// rooms.insert_all((0..10).map(|hour| (hour, 71)))?;
    /// let now = rooms.snapshot()?;
    /// let first = feed.advance(&now, 4)?;
    /// let rest = feed.advance(&now, u64::MAX)?;
    /// assert_eq!((first.told.len(), first.upto), (4, 4));
    /// assert_eq!((rest.told.len(), rest.upto), (6, 10));
    /// # Ok::<(), gist::Error>(())
    /// ```
    pub fn advance(&mut self, snapshot: &Snapshot<K>, most: u64) -> Result<Advance<K>, Error> {
        if self.waits {
            // items that an earlier call left: the feed processes no commit before they are taken
            self.take(snapshot, 0)?;
        }
        let upto = self.take(snapshot, most)?;
        let told = mem::take(&mut self.kept);
        Ok(Advance { told, upto })
    }

    /// Processes commits, and keeps all items that then wait.
    fn take(&mut self, snapshot: &Snapshot<K>, mut most: u64) -> Result<u64, Error> {
        let mut buffer = vec![ffi::Told::default(); Self::ROOM];
        let mut upto = 0;
        loop {
            self.kept.reserve(Self::ROOM);
            let given = self.advance_into(snapshot, most, &mut buffer, &mut upto)?;
            self.waits = given == Self::ROOM;
            self.kept.extend(buffer[..given].iter().filter_map(|it| {
                let change = change(it.item)?;
                Some(Told {
                    to: Subscription(it.subscription),
                    change,
                })
            }));
            if !self.waits {
                return Ok(upto);
            }
            most = 0;
        }
    }

    /// Fills a buffer with the items that wait.
    fn advance_into(
        &mut self,
        snapshot: &Snapshot<K>,
        most: u64,
        buffer: &mut [ffi::Told],
        upto: &mut u64,
    ) -> Result<usize, Error> {
        let mut given = 0;
        told(snapshot.read(|snapshot| unsafe {
            ffi::gist_advance(
                self.handle.get(),
                snapshot,
                most,
                buffer.as_mut_ptr(),
                buffer.len(),
                &mut given,
                upto,
            )
        }))?;
        Ok(given as usize)
    }
}

impl<K: Key> fmt::Debug for Feed<K> {
    fn fmt(&self, f: &mut fmt::Formatter<'_>) -> fmt::Result {
        f.debug_struct("Feed").finish_non_exhaustive()
    }
}
