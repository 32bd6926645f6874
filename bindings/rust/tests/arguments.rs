//! Each call that takes a number, with numbers from 0 to 2^64 - 1, and with keys at the ends of their range, for each
//! class of keys: it works, or returns an error that names its cause. None panics, and none allocates memory for a large
//! limit alone.
//!
//! Two calls are left out: `SharedStore::wait_past` waits for a commit however late it is, and `Set::insert` panics
//! above 127, as its documentation says.

use gist::{
    BoxKey, Error, Feed, Interval, Key, Limits, Query, Relation, Renewal, Set, SharedStore, Store,
};
use std::alloc::{GlobalAlloc, Layout, System};
use std::time::Duration;

/// The most that one allocation may take: far more than any call here needs, and far less than the numbers below.
const MOST_BYTES: usize = 64 << 20;

struct Capped;

// SAFETY: it is the system's allocator, which may refuse memory.
unsafe impl GlobalAlloc for Capped {
    unsafe fn alloc(&self, layout: Layout) -> *mut u8 {
        if layout.size() > MOST_BYTES {
            return std::ptr::null_mut();
        }
        // SAFETY: as the caller's.
        unsafe { System.alloc(layout) }
    }

    unsafe fn dealloc(&self, block: *mut u8, layout: Layout) {
        // SAFETY: as the caller's.
        unsafe { System.dealloc(block, layout) }
    }
}

#[global_allocator]
static ALLOCATOR: Capped = Capped;

type Tried = Result<(), Error>;

/// More than one call of the library returns at a time.
const ROWS: u64 = 5_000;

const NUMBERS: [u64; 19] = [
    0,
    1,
    2,
    63,
    64,
    1_023,
    1_024,
    4_096,
    4_097,
    ROWS,
    ROWS + 1,
    1 << 31,
    1 << 32,
    (1 << 32) + 1,
    i64::MAX as u64,
    u64::MAX / 48,
    u64::MAX / 48 + 1,
    u64::MAX - 1,
    u64::MAX,
];

/// A call, the errors that it may return, and what it has to do if it works: false is a failure.
type Call<'a> = (
    &'static str,
    &'a [Error],
    Box<dyn Fn(u64) -> Result<bool, Error> + 'a>,
);

fn try_call((name, errors, works): &Call<'_>, number: u64) {
    match works(number) {
        Ok(right) => assert!(right, "{name} with {number}"),
        Err(error) => {
            assert!(errors.contains(&error), "{name} with {number}: {error}");
            let text = error.to_string();
            assert!(
                text.contains([':', ';']) && text.len() > 30,
                "{name} with {number}: no advice: {text}"
            );
        }
    }
}

fn small() -> Limits {
    Limits {
        fan: 4,
        least: 2,
        pages: 8,
        commits: 8,
    }
}

/// How many of the rows come after a number, at most `most`.
fn expected(from: u64, most: u64) -> u64 {
    ROWS.saturating_sub(from).min(most)
}

fn clamped(number: u64) -> u32 {
    number.try_into().unwrap_or(u32::MAX)
}

fn numbers<K: Key>(key: K) -> Tried {
    let limits = Limits {
        commits: 100_000,
        ..Limits::default()
    };
    let store = Store::<K>::with_limits(limits)?;
    store.insert_all((0..ROWS).map(|tag| (key, tag)))?;
    let (now, query) = (store.snapshot()?, Query::overlaps(key)?);
    let two = || {
        let two = Store::<K>::with_limits(small())?;
        two.insert_all([(key, 1), (key, 2)])?;
        Ok::<_, Error>(two)
    };
    let is_row = |n| (1..=ROWS).contains(&n);

    let calls: Vec<Call<'_>> = vec![
        (
            "Snapshot::known",
            &[Error::NoSuchRow],
            Box::new(|n| Ok(now.known(n)?.row.number == n && is_row(n))),
        ),
        (
            "Snapshot::get",
            &[],
            Box::new(|n| Ok(now.get(n)?.is_some() == is_row(n))),
        ),
        (
            "Snapshot::commit",
            &[],
            Box::new(|n| Ok(now.commit(n).is_some() == is_row(n))),
        ),
        (
            "Snapshot::changes from",
            &[Error::FromFuture],
            Box::new(|n| {
                let found = now.changes(&query, n, 10_000)?;
                let count = found.changes.len() as u64;
                Ok(n <= ROWS && count == expected(n, ROWS) && found.upto == ROWS)
            }),
        ),
        (
            "Snapshot::changes most",
            &[],
            Box::new(|n| {
                let found = now.changes(&query, 0, n as usize)?;
                let count = found.changes.len() as u64;
                Ok(count == expected(0, n) && found.upto == expected(0, n))
            }),
        ),
        (
            "Cursor::next_items",
            &[],
            Box::new(|n| {
                let (mut cursor, mut follower) = (store.open(&query)?, store.follow(&query, 1)?);
                let first = cursor.next_items(n as usize)?.len() as u64;
                let rest = cursor.next_items(10_000)?.len() as u64;
                let followed = follower.next_items(n as usize)?.len() as u64;
                Ok(first == expected(0, n) && first + rest == ROWS && followed == expected(1, n))
            }),
        ),
        (
            "Store::follow",
            &[Error::FromFuture],
            Box::new(|n| {
                let followed = store.follow(&query, n)?.count() as u64;
                Ok(n <= ROWS && followed == expected(n, ROWS))
            }),
        ),
        (
            "Store::insert tag",
            &[],
            Box::new(|n| {
                let store = two()?;
                let row = store.insert(key, n)?;
                Ok(store.snapshot()?.known(row)?.row.tag == n)
            }),
        ),
        (
            "Store::delete",
            &[Error::NoSuchRow],
            Box::new(|n| Ok(two()?.delete(n)? == 3 && (1..=2).contains(&n))),
        ),
        (
            "Store::delete_all",
            &[Error::NoSuchRow, Error::AlreadyDeleted],
            Box::new(|n| Ok(two()?.delete_all(&[2, n])? == (3..5) && n == 1)),
        ),
        (
            "Store::move_to",
            &[Error::NoSuchRow],
            Box::new(|n| Ok(two()?.move_to(n, key)? == 3 && (1..=2).contains(&n))),
        ),
        (
            "Store::insert_all of that many rows",
            &[Error::CommitsFull],
            Box::new(|n| {
                let rows = (0..n).map(|tag| (key, tag));
                Ok(Store::<K>::with_limits(small())?.insert_all(rows)? == (1..n + 1))
            }),
        ),
        (
            "Feed::subscribe",
            &[],
            Box::new(|n| {
                let mut feed = Feed::new()?;
                feed.subscribe(&query, n)?;
                let advance = feed.advance(&now, u64::MAX)?;
                Ok(advance.upto == ROWS && advance.told.len() as u64 == expected(n, ROWS))
            }),
        ),
        (
            "Feed::advance",
            &[],
            Box::new(|n| {
                let mut feed = Feed::new()?;
                feed.subscribe(&query, 0)?;
                let advance = feed.advance(&now, n)?;
                let count = advance.told.len() as u64;
                Ok(advance.upto == expected(0, n) && count == expected(0, n))
            }),
        ),
        (
            "Limits::pages and commits",
            &[Error::BadLimits],
            Box::new(|n| {
                let (pages, commits) = (clamped(n), clamped(n));
                let one = Store::<K>::with_limits(Limits { pages, ..small() })?;
                let other = Store::<K>::with_limits(Limits { commits, ..small() })?;
                Ok(one.figures().page_limit == n && other.figures().commit_limit == n)
            }),
        ),
        (
            "Limits::fan and least",
            &[Error::BadLimits],
            Box::new(|n| {
                let (fan, least) = (clamped(n), clamped(n));
                Store::<K>::with_limits(Limits { fan, ..small() })?;
                let fan = 64;
                let both = Limits {
                    fan,
                    least,
                    ..small()
                };
                Ok(Store::<K>::with_limits(both)?.commits() == 0)
            }),
        ),
        (
            "Snapshot::renew and Renewal::begin",
            &[Error::BadLimits, Error::CommitsFull],
            Box::new(|n| {
                let commits = clamped(n);
                let limits = Limits { commits, ..limits };
                let renewed = now.renew(limits)?;
                let caught_up = Renewal::begin(&now, limits)?.catch_up(&now)?;
                Ok(renewed.numbers.iter().copied().eq(1..=ROWS) && caught_up == 0)
            }),
        ),
    ];
    for call in &calls {
        for number in NUMBERS {
            try_call(call, number);
        }
    }
    Ok(())
}

#[test]
fn numbers_with_intervals() -> Tried {
    numbers(Interval::from(i64::MIN..=i64::MAX))
}

#[test]
fn numbers_with_boxes() -> Tried {
    numbers(BoxKey::from((i32::MIN..=i32::MAX, -1..=0)))
}

#[test]
fn numbers_with_sets() -> Tried {
    numbers(Set::from([0, 63, 64, 127]))
}

/// A key is refused only if its ends are out of order.
fn ends<K: Key>(widest: K, key: K, is_key: bool) -> Tried {
    let store = Store::with_limits(small())?;
    let row = store.insert(widest, 7)?;
    let now = store.snapshot()?;
    let calls: Vec<Call<'_>> = vec![
        (
            "Store::insert",
            &[Error::BadEnds],
            Box::new(|_| Ok(store.insert(key, 7)? > row && is_key)),
        ),
        (
            "Store::insert_all",
            &[Error::BadEnds],
            Box::new(|_| Ok(store.insert_all([(key, 7)])?.count() == 1 && is_key)),
        ),
        (
            "Store::move_to",
            &[Error::BadEnds],
            Box::new(|_| Ok(store.move_to(row, key)? > row && is_key)),
        ),
        (
            "Snapshot::find_each",
            &[Error::BadEnds],
            Box::new(|_| Ok(now.find_each(Relation::Overlaps, &[key])?[0].len() == 1 && is_key)),
        ),
        (
            "Query::by",
            &[Error::BadEnds],
            Box::new(|_| {
                for relation in [Relation::Within, Relation::Holds, Relation::Same] {
                    Query::<K>::by(relation, key)?;
                }
                Ok(now.count(&Query::overlaps(key)?)? == 1 && is_key)
            }),
        ),
    ];
    for call in &calls {
        try_call(call, 0);
    }
    Ok(())
}

#[test]
#[allow(clippy::reversed_empty_ranges)]
fn ends_of_intervals() -> Tried {
    const ENDS: [i64; 6] = [i64::MIN, -1, 0, 1, 1 << 32, i64::MAX];
    for lo in ENDS {
        for hi in ENDS {
            ends((..).into(), Interval::from(lo..=hi), lo <= hi)?;
            ends((..).into(), Interval::from(lo..hi), lo < hi)?;
            assert_eq!(Interval::from(lo..=hi).contains(hi), lo <= hi);
        }
        ends((..).into(), Interval::from(lo), true)?;
        ends((..).into(), Interval::from(lo..), true)?;
        ends((..).into(), Interval::from(..=lo), true)?;
        ends((..).into(), Interval::from(..lo), lo > i64::MIN)?;
    }
    Ok(())
}

#[test]
fn ends_of_boxes() -> Tried {
    const ENDS: [i32; 5] = [i32::MIN, -1, 0, 1, i32::MAX];
    let widest = BoxKey::from((i32::MIN..=i32::MAX, i32::MIN..=i32::MAX));
    for lo in ENDS {
        for hi in ENDS {
            ends(widest, BoxKey::from((lo..=hi, 0..=1)), lo <= hi)?;
            ends(widest, BoxKey::from((0..1, lo..hi)), lo < hi)?;
            ends(widest, BoxKey::point(lo, hi), true)?;
        }
    }
    Ok(())
}

#[test]
fn cursors_of_another_store_are_refused() -> Tried {
    let (one, other) = (Store::<Set>::new()?, Store::<Set>::new()?);
    let everything = Query::everything()?;
    for number in [1, 2] {
        let of_one = one.open(&everything)?.detach();
        assert_eq!(of_one.number(), number);
        let mut cursor = other.attach(of_one);
        assert_eq!(cursor.next_items(usize::MAX), Err(Error::NoSuchCursor));
        assert_eq!(cursor.next_items(0), Ok(Vec::new()));
        assert_eq!(cursor.mark(), Err(Error::NoSuchCursor));
        assert_eq!(cursor.next(), Some(Err(Error::NoSuchCursor)));
        assert_eq!(cursor.close(), Err(Error::NoSuchCursor));
    }
    // a number of the other store that is closed there
    other.open(&everything)?.close()?;
    let third = Store::new()?;
    let mut closed = other.attach(third.open(&everything)?.detach());
    assert_eq!(closed.next_items(usize::MAX), Err(Error::CursorClosed));
    assert_eq!(closed.mark(), Err(Error::CursorClosed));
    Ok(())
}

#[test]
fn subscriptions_of_another_feed_are_refused() -> Tried {
    let (mut one, mut other) = (Feed::<Set>::new()?, Feed::<Set>::new()?);
    let query = Query::everything()?;
    let of_one = one.subscribe(&query, u64::MAX)?;
    assert_eq!(other.unsubscribe(of_one), Err(Error::NotSubscribed));
    one.unsubscribe(of_one)?;
    assert_eq!(one.unsubscribe(of_one), Err(Error::NotSubscribed));
    Ok(())
}

#[test]
fn waits_may_be_of_any_length() -> Tried {
    let rooms = SharedStore::new(Store::<Interval>::new()?);
    rooms.write(|store| store.insert(1, 71))?;
    for longest in [Duration::ZERO, Duration::from_millis(1), Duration::MAX] {
        assert!(rooms.wait_past_for(0, longest)?.is_some());
    }
    for commit in [1, 1 << 32, u64::MAX] {
        assert!(rooms.wait_past_for(commit, Duration::ZERO)?.is_none());
    }
    Ok(())
}

#[test]
fn a_renewal_refuses_commits_of_another_store() -> Tried {
    let (one, other) = (Store::<Interval>::new()?, Store::<Interval>::new()?);
    one.insert(1, 71)?;
    one.delete(1)?;
    let mut renewal = Renewal::begin(&one.snapshot()?, Limits::default())?;
    other.insert_all([(1, 71), (2, 72)])?;
    let row = other.move_to(1, 3)?;
    let now = other.snapshot()?;
    assert_eq!(renewal.catch_up(&now), Err(Error::NoSuchRow));
    other.delete(row)?;
    assert_eq!(renewal.catch_up(&now), Err(Error::NoSuchRow));
    Ok(())
}
