//! Queries.

use crate::condition::{depth_of, Condition};
use crate::error::{told, Error};
use crate::ffi;
use crate::handle::{Owned, Shared};
use crate::key::{Key, Relation};
use std::fmt;
use std::str::FromStr;
use std::sync::Arc;

/// A query for rows by their keys: a [`Relation`] to a key, a text, or a combination of queries.
///
/// It is made once and may be used any number of times, by any thread. A clone is the same query. Queries are combined by
/// [`Query::any_of`], [`Query::all_of`] and the operators `&`, `|` and `!`, which make a [`Condition`].
///
/// ```
/// use gist::{Interval, Query, Store};
///
/// let rooms = Store::<Interval>::new()?;
/// rooms.insert(9..18, 4711)?;
/// let at_noon: Query<Interval> = "overlaps (12 12) and not within (0 9)".parse()?;
/// assert_eq!(rooms.snapshot()?.find(&at_noon)?.len(), 1);
/// assert_eq!(rooms.snapshot()?.find(&Query::overlaps(18..)?)?.len(), 0);
/// # Ok::<(), gist::Error>(())
/// ```
pub struct Query<K: Key> {
    handle: Arc<Shared<ffi::Query>>,
    source: Source<K>,
}

/// What a query was made of, from which others are made.
#[derive(Clone)]
enum Source<K: Key> {
    By(Relation, K),
    Spelled(Arc<Condition<K>>),
}

impl<K: Key> Query<K> {
    /// Parses a query: `overlaps`, `within`, `holds` and `same` with a key, and `and`, `or`, `not` and round brackets,
    /// at most 32 deep and 4,096 bytes long. Keys are written `(9 17)`, `(x1 y1 x2 y2)` and `{2 5 64}`.
    ///
    /// # Errors
    /// [`Error::QueryText`] with the place of the first wrong byte, [`Error::QueryTooDeep`], [`Error::QueryTooLong`],
    /// [`Error::OutOfMemory`].
    ///
    /// ```
    /// use gist::{Error, Interval, Query};
    ///
    /// Query::<Interval>::new("overlaps (9 17) and not within (0 9)")?;
    /// let refused = Query::<Interval>::new("overlaps 9").unwrap_err();
    /// assert_eq!(refused, Error::QueryText { at: 9 });
    /// # Ok::<(), gist::Error>(())
    /// ```
    pub fn new(text: &str) -> Result<Query<K>, Error> {
        Query::spelled(text, Condition::of_text(text))
    }

    /// Parses the text of a condition.
    pub(crate) fn spelled(text: &str, condition: Condition<K>) -> Result<Query<K>, Error> {
        let (handle, mut fault) = (Owned::none(), 0);
        // SAFETY: the handle is empty, and the text has that many bytes.
        let answer = unsafe {
            ffi::gist_prepare(
                handle.get(),
                K::NUMBER,
                text.as_ptr().cast(),
                text.len(),
                &mut fault,
            )
        };
        match answer {
            0 => Ok(Query::of(handle, Source::Spelled(Arc::new(condition)))),
            number => Err(refused(text, Error::of(number, fault))),
        }
    }

    /// Matches the rows whose keys have a relation to a key. It needs no text.
    ///
    /// # Errors
    /// [`Error::BadEnds`] if the key's ends are out of order, [`Error::OutOfMemory`].
    ///
    /// ```
    /// use gist::{Interval, Query, Relation, Store};
    ///
    /// let rooms = Store::<Interval>::new()?;
    /// rooms.insert(9..12, 71)?;
    /// let now = rooms.snapshot()?;
    /// for relation in [Relation::Overlaps, Relation::Within, Relation::Holds, Relation::Same] {
    ///     assert_eq!(now.count(&Query::by(relation, 9..12)?)?, 1);
    /// }
    /// # Ok::<(), gist::Error>(())
    /// ```
    pub fn by(relation: Relation, key: impl Into<K>) -> Result<Query<K>, Error> {
        let (handle, key) = (Owned::none(), key.into());
        // SAFETY: the handle is empty.
        told(unsafe { ffi::gist_ask(handle.get(), K::NUMBER, relation as u32, key.to_words()) })?;
        Ok(Query::of(handle, Source::By(relation, key)))
    }

    /// Matches the rows whose keys have a point, or an element, in common with a key. Refused as [`Query::by`].
    pub fn overlaps(key: impl Into<K>) -> Result<Query<K>, Error> {
        Query::by(Relation::Overlaps, key)
    }

    /// Matches the rows whose keys are within a key. Refused as [`Query::by`].
    pub fn within(key: impl Into<K>) -> Result<Query<K>, Error> {
        Query::by(Relation::Within, key)
    }

    /// Matches the rows whose keys hold a key. Refused as [`Query::by`].
    pub fn holds(key: impl Into<K>) -> Result<Query<K>, Error> {
        Query::by(Relation::Holds, key)
    }

    /// Matches the rows whose keys are the key. Refused as [`Query::by`].
    pub fn same(key: impl Into<K>) -> Result<Query<K>, Error> {
        Query::by(Relation::Same, key)
    }

    /// Matches all rows.
    ///
    /// # Errors
    /// [`Error::OutOfMemory`].
    pub fn everything() -> Result<Query<K>, Error> {
        let (relation, key) = K::everything();
        Query::by(relation, key)
    }

    /// Matches what any of some queries or conditions matches. Alternatives are joined as a balanced tree, so n of them
    /// make the query only log2 n deeper.
    ///
    /// # Errors
    /// [`Error::NoQueries`] if there are none, [`Error::QueryTooDeep`], [`Error::QueryTooLong`], [`Error::OutOfMemory`].
    ///
    /// ```
    /// use gist::{Error, Interval, Query, Store};
    ///
    /// let rooms = Store::<Interval>::new()?;
    /// rooms.insert_all((0..60).map(|hour| (hour, 71)))?;
    /// let hours = (0..40).map(|hour| Query::same(hour)).collect::<Result<Vec<Query<_>>, _>>()?;
    /// let query = Query::any_of(&hours)?;
    /// assert_eq!(rooms.snapshot()?.count(&query)?, 40);
    /// assert_eq!(Query::<Interval>::any_of(&hours[..0]).err(), Some(Error::NoQueries));
    /// # Ok::<(), gist::Error>(())
    /// ```
    pub fn any_of<I>(queries: I) -> Result<Query<K>, Error>
    where
        I: IntoIterator,
        I::Item: Into<Condition<K>>,
    {
        Condition::any_of(queries)?.query()
    }

    /// Matches what all of some queries or conditions match. It is refused as [`Query::any_of`].
    ///
    /// ```
    /// use gist::{Query, Set, Store};
    ///
    /// let songs = Store::<Set>::new()?;
    /// songs.insert_all([([1, 5], 301), ([5, 9], 302)])?;
    /// let query = Query::all_of([Query::holds([5])?, Query::overlaps([1, 2])?])?;
    /// assert_eq!(songs.snapshot()?.find(&query)?[0].tag, 301);
    /// # Ok::<(), gist::Error>(())
    /// ```
    pub fn all_of<I>(queries: I) -> Result<Query<K>, Error>
    where
        I: IntoIterator,
        I::Item: Into<Condition<K>>,
    {
        Condition::all_of(queries)?.query()
    }

    /// The query as an operand.
    pub(crate) fn condition(&self) -> Condition<K> {
        match &self.source {
            Source::By(relation, key) => Condition::by(*relation, *key),
            Source::Spelled(condition) => Condition::clone(condition),
        }
    }

    fn of(handle: Owned<ffi::Query>, source: Source<K>) -> Query<K> {
        Query {
            handle: Arc::new(Shared::new(handle)),
            source,
        }
    }

    /// Makes a call that reads this query.
    pub(crate) fn read<R>(&self, call: impl FnOnce(*const ffi::Query) -> R) -> R {
        self.handle.read(call)
    }
}

/// Why a text is refused, with its length or its depth if that is the reason.
fn refused(text: &str, error: Error) -> Error {
    let Error::QueryText { at } = error else {
        return error;
    };
    let length = text.len();
    if length > 4_096 {
        return Error::QueryTooLong { length };
    }
    // a text that is right, but too deep, is refused at its first word
    if text.find(|it| it != ' ') == Some(at) {
        let depth = depth_of(text);
        if depth > 32 {
            return Error::QueryTooDeep { depth };
        }
    }
    error
}

impl<K: Key> FromStr for Query<K> {
    type Err = Error;

    fn from_str(text: &str) -> Result<Query<K>, Error> {
        Query::new(text)
    }
}

impl<K: Key> Clone for Query<K> {
    fn clone(&self) -> Query<K> {
        Query {
            handle: Arc::clone(&self.handle),
            source: self.source.clone(),
        }
    }
}

impl<K: Key> fmt::Debug for Query<K> {
    fn fmt(&self, f: &mut fmt::Formatter<'_>) -> fmt::Result {
        f.debug_struct("Query").finish_non_exhaustive()
    }
}
