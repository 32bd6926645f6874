//! The three classes of keys.

use crate::ffi;
use std::fmt;
use std::ops::{Range, RangeFrom, RangeFull, RangeInclusive, RangeTo, RangeToInclusive};

#[cfg(not(target_endian = "little"))]
compile_error!("the library's keys are little-endian");

/// A class of keys: [`Interval`], [`BoxKey`] or [`Set`]. The trait is sealed.
pub trait Key: Copy + Eq + fmt::Debug + Send + Sync + 'static + class::Class {
    /// What every key overlaps, or holds: the query of [`Snapshot::iter`](crate::Snapshot::iter) and the like.
    #[doc(hidden)]
    fn everything() -> (Relation, Self);
}

/// A relation of a row's key to a key that is asked for, with the meaning of the same word in a query's text.
#[derive(Clone, Copy, Debug, PartialEq, Eq, Hash)]
pub enum Relation {
    /// They have a point, or an element, in common.
    Overlaps = 1,
    /// The row's key is within the key that is asked for.
    Within = 2,
    /// The row's key holds the key that is asked for.
    Holds = 3,
    /// The keys are the same.
    Same = 4,
}

pub(crate) mod class {
    use crate::ffi;

    /// How the keys of a class cross to the library.
    pub trait Class: Sized {
        const NUMBER: u32;

        fn to_words(self) -> ffi::Key;

        fn from_words(key: ffi::Key) -> Self;

        /// The key as the text of a query has it.
        fn text(self) -> String;
    }
}

/// A relation's word in the text of a query.
pub(crate) fn word(relation: Relation) -> &'static str {
    match relation {
        Relation::Overlaps => "overlaps",
        Relation::Within => "within",
        Relation::Holds => "holds",
        Relation::Same => "same",
    }
}

/// The whole numbers from `lo` to `hi`, both inside.
///
/// Ranges convert to it: `9..=17` and `9..18` have the same numbers. A key whose ends are out of order, such as that of
/// an empty range, is refused when it is used, as [`Error::BadEnds`](crate::Error::BadEnds).
///
/// ```
/// use gist::Interval;
///
/// assert_eq!(Interval::from(9..18), Interval { lo: 9, hi: 17 });
/// assert_eq!(Interval::from(9..=17), Interval { lo: 9, hi: 17 });
/// assert_eq!(Interval::from(9..), Interval { lo: 9, hi: i64::MAX });
/// assert_eq!(Interval::from(12), Interval { lo: 12, hi: 12 });
/// assert!(Interval::from(9..18).contains(12));
/// ```
#[derive(Clone, Copy, PartialEq, Eq, Hash)]
pub struct Interval {
    /// The least number.
    pub lo: i64,
    /// The greatest number.
    pub hi: i64,
}

impl Interval {
    /// Whether a number is inside.
    pub fn contains(self, number: i64) -> bool {
        (self.lo..=self.hi).contains(&number)
    }
}

impl fmt::Debug for Interval {
    fn fmt(&self, f: &mut fmt::Formatter<'_>) -> fmt::Result {
        write!(f, "({} {})", self.lo, self.hi)
    }
}

impl From<RangeInclusive<i64>> for Interval {
    fn from(range: RangeInclusive<i64>) -> Interval {
        let (lo, hi) = range.into_inner();
        Interval { lo, hi }
    }
}

/// An empty range gives an interval whose ends are out of order.
impl From<Range<i64>> for Interval {
    fn from(range: Range<i64>) -> Interval {
        match range.end.checked_sub(1) {
            Some(hi) => Interval {
                lo: range.start,
                hi,
            },
            None => Interval {
                lo: i64::MAX,
                hi: i64::MIN,
            },
        }
    }
}

impl From<RangeFrom<i64>> for Interval {
    fn from(range: RangeFrom<i64>) -> Interval {
        Interval::from(range.start..=i64::MAX)
    }
}

impl From<RangeTo<i64>> for Interval {
    fn from(range: RangeTo<i64>) -> Interval {
        Interval::from(i64::MIN..range.end)
    }
}

impl From<RangeToInclusive<i64>> for Interval {
    fn from(range: RangeToInclusive<i64>) -> Interval {
        Interval::from(i64::MIN..=range.end)
    }
}

impl From<RangeFull> for Interval {
    fn from(_: RangeFull) -> Interval {
        Interval::from(i64::MIN..=i64::MAX)
    }
}

/// One number.
impl From<i64> for Interval {
    fn from(number: i64) -> Interval {
        Interval {
            lo: number,
            hi: number,
        }
    }
}

impl class::Class for Interval {
    const NUMBER: u32 = 1;

    fn to_words(self) -> ffi::Key {
        ffi::Key {
            words: [self.lo as u64, self.hi as u64],
        }
    }

    fn from_words(key: ffi::Key) -> Interval {
        Interval {
            lo: key.words[0] as i64,
            hi: key.words[1] as i64,
        }
    }

    fn text(self) -> String {
        format!("{self:?}")
    }
}

impl Key for Interval {
    fn everything() -> (Relation, Interval) {
        (Relation::Overlaps, (..).into())
    }
}

/// The whole points (x, y) with `x1 <= x <= x2` and `y1 <= y <= y2`.
///
/// ```
/// use gist::BoxKey;
///
/// let window = BoxKey { x1: 0, y1: 0, x2: 639, y2: 479 };
/// assert_eq!(BoxKey::from((0..640, 0..480)), window);
/// assert_eq!(BoxKey::point(3, 4), BoxKey { x1: 3, y1: 4, x2: 3, y2: 4 });
/// assert!(window.contains(639, 0) && !window.contains(640, 0));
/// ```
#[derive(Clone, Copy, PartialEq, Eq, Hash)]
pub struct BoxKey {
    /// The least x.
    pub x1: i32,
    /// The least y.
    pub y1: i32,
    /// The greatest x.
    pub x2: i32,
    /// The greatest y.
    pub y2: i32,
}

impl BoxKey {
    /// The box of one point.
    pub fn point(x: i32, y: i32) -> BoxKey {
        BoxKey {
            x1: x,
            y1: y,
            x2: x,
            y2: y,
        }
    }

    /// Whether a point is inside.
    pub fn contains(self, x: i32, y: i32) -> bool {
        (self.x1..=self.x2).contains(&x) && (self.y1..=self.y2).contains(&y)
    }
}

impl fmt::Debug for BoxKey {
    fn fmt(&self, f: &mut fmt::Formatter<'_>) -> fmt::Result {
        write!(f, "({} {} {} {})", self.x1, self.y1, self.x2, self.y2)
    }
}

/// The x and the y that a box has.
impl From<(RangeInclusive<i32>, RangeInclusive<i32>)> for BoxKey {
    fn from((x, y): (RangeInclusive<i32>, RangeInclusive<i32>)) -> BoxKey {
        let ((x1, x2), (y1, y2)) = (x.into_inner(), y.into_inner());
        BoxKey { x1, y1, x2, y2 }
    }
}

/// The x and the y that a box has. The ends of an empty range are out of order.
impl From<(Range<i32>, Range<i32>)> for BoxKey {
    fn from((x, y): (Range<i32>, Range<i32>)) -> BoxKey {
        let ends = |range: Range<i32>| match range.end.checked_sub(1) {
            Some(last) => (range.start, last),
            None => (i32::MAX, i32::MIN),
        };
        let ((x1, x2), (y1, y2)) = (ends(x), ends(y));
        BoxKey { x1, y1, x2, y2 }
    }
}

/// Two words hold four ends, each of 32 bits.
impl class::Class for BoxKey {
    const NUMBER: u32 = 2;

    fn to_words(self) -> ffi::Key {
        let word = |x: i32, y: i32| u64::from(x as u32) | u64::from(y as u32) << 32;
        ffi::Key {
            words: [word(self.x1, self.y1), word(self.x2, self.y2)],
        }
    }

    fn from_words(key: ffi::Key) -> BoxKey {
        let [low, high] = key.words;
        BoxKey {
            x1: low as i32,
            y1: (low >> 32) as i32,
            x2: high as i32,
            y2: (high >> 32) as i32,
        }
    }

    fn text(self) -> String {
        format!("{self:?}")
    }
}

impl Key for BoxKey {
    fn everything() -> (Relation, BoxKey) {
        (
            Relation::Overlaps,
            (i32::MIN..=i32::MAX, i32::MIN..=i32::MAX).into(),
        )
    }
}

/// A set of some of the numbers from 0 to 127.
///
/// ```
/// use gist::Set;
///
/// let mut set = Set::from([1, 5, 127]);
/// set.insert(9);
/// assert!(set.contains(9) && !set.contains(2));
/// assert_eq!(set.iter().collect::<Vec<u8>>(), [1, 5, 9, 127]);
/// assert_eq!(set.bits(), 1 << 1 | 1 << 5 | 1 << 9 | 1 << 127);
/// ```
#[derive(Clone, Copy, Default, PartialEq, Eq, Hash)]
pub struct Set(u128);

impl Set {
    /// The empty set.
    pub const EMPTY: Set = Set(0);

    /// The set of the numbers whose bits are set in a mask: bit e for the number e.
    pub const fn from_bits(bits: u128) -> Set {
        Set(bits)
    }

    /// The mask of the set.
    pub const fn bits(self) -> u128 {
        self.0
    }

    /// Adds a number.
    ///
    /// # Panics
    /// If it is above 127.
    pub fn insert(&mut self, number: u8) {
        assert!(
            number < 128,
            "a set has numbers from 0 to 127, not {number}"
        );
        self.0 |= 1 << number;
    }

    /// Whether a number is in the set.
    pub fn contains(self, number: u8) -> bool {
        number < 128 && self.0 >> number & 1 == 1
    }

    /// The set's numbers, rising.
    pub fn iter(self) -> impl Iterator<Item = u8> {
        (0..128).filter(move |&number| self.contains(number))
    }
}

impl fmt::Debug for Set {
    fn fmt(&self, f: &mut fmt::Formatter<'_>) -> fmt::Result {
        f.debug_set().entries(self.iter()).finish()
    }
}

/// # Panics
/// If a number is above 127.
impl FromIterator<u8> for Set {
    fn from_iter<I: IntoIterator<Item = u8>>(numbers: I) -> Set {
        let mut set = Set::EMPTY;
        set.extend(numbers);
        set
    }
}

/// # Panics
/// If a number is above 127.
impl Extend<u8> for Set {
    fn extend<I: IntoIterator<Item = u8>>(&mut self, numbers: I) {
        numbers.into_iter().for_each(|number| self.insert(number));
    }
}

/// # Panics
/// If a number is above 127.
impl<const N: usize> From<[u8; N]> for Set {
    fn from(numbers: [u8; N]) -> Set {
        numbers.into_iter().collect()
    }
}

impl class::Class for Set {
    const NUMBER: u32 = 3;

    fn to_words(self) -> ffi::Key {
        ffi::Key {
            words: [self.0 as u64, (self.0 >> 64) as u64],
        }
    }

    fn from_words(key: ffi::Key) -> Set {
        Set(u128::from(key.words[0]) | u128::from(key.words[1]) << 64)
    }

    fn text(self) -> String {
        let numbers: Vec<_> = self.iter().map(|number| number.to_string()).collect();
        format!("{{{}}}", numbers.join(" "))
    }
}

impl Key for Set {
    fn everything() -> (Relation, Set) {
        (Relation::Holds, Set::EMPTY)
    }
}
