//! Each call, refusal, relation, field and limit by its name, for each class of keys.

use gist::{
    BoxKey, Change, Error, Feed, Interval, Item, Key, Limits, Query, Relation, Renewal, Row, Set,
    Snapshot, Stopped, Store,
};
use std::error::Error as _;

type Tried = Result<(), Box<dyn std::error::Error>>;

/// Some keys of a class: the first overlaps the second, and neither overlaps the third.
struct Keys<K> {
    one: K,
    two: K,
    far: K,
    text: &'static str,
}

const INTERVALS: Keys<Interval> = Keys {
    one: Interval { lo: -5, hi: 9 },
    two: Interval {
        lo: 9,
        hi: i64::MAX,
    },
    far: Interval {
        lo: i64::MIN,
        hi: -6,
    },
    text: "overlaps (-5 9)",
};

const BOXES: Keys<BoxKey> = Keys {
    one: BoxKey {
        x1: -3,
        y1: -3,
        x2: 4,
        y2: i32::MAX,
    },
    two: BoxKey {
        x1: 4,
        y1: 0,
        x2: 9,
        y2: 0,
    },
    far: BoxKey {
        x1: i32::MIN,
        y1: i32::MIN,
        x2: -4,
        y2: i32::MAX,
    },
    text: "overlaps (-3 -3 4 2147483647)",
};

const SETS: Keys<Set> = Keys {
    one: Set::from_bits(0b110),
    two: Set::from_bits(0b100 | 1 << 64),
    far: Set::from_bits(1 << 127),
    text: "overlaps {1 2}",
};

/// Runs a test with the keys of each class.
macro_rules! for_each_class {
    ($($tried:ident)*) => {
        $(
            mod $tried {
                #[test]
                fn intervals() -> super::Tried {
                    super::$tried(super::INTERVALS)
                }

                #[test]
                fn boxes() -> super::Tried {
                    super::$tried(super::BOXES)
                }

                #[test]
                fn sets() -> super::Tried {
                    super::$tried(super::SETS)
                }
            }
        )*
    };
}

for_each_class! { rows commits_and_changes cursors refusals renewals renewals_beside feeds }

fn small() -> Limits {
    Limits {
        fan: 4,
        least: 2,
        pages: 64,
        commits: 12,
    }
}

fn row<K>(number: u64, key: K, tag: u64) -> Row<K> {
    Row { number, key, tag }
}

/// A store of three rows.
fn three<K: Key>(keys: &Keys<K>) -> Result<Store<K>, Error> {
    let store = Store::with_limits(small())?;
    let numbers = store.insert_all([(keys.one, 10), (keys.two, 20), (keys.far, 30)])?;
    assert_eq!(numbers, 1..4);
    Ok(store)
}

fn rows<K: Key>(keys: Keys<K>) -> Tried {
    let store = three(&keys)?;
    let now = store.snapshot()?;
    let [one, two, far] = [
        row(1, keys.one, 10),
        row(2, keys.two, 20),
        row(3, keys.far, 30),
    ];
    assert_eq!(now.find(&Query::new(keys.text)?)?, [one, two]);
    assert_eq!(now.find(&keys.text.parse()?)?, [one, two]);
    let mut any = now.find_any(&Query::overlaps(keys.one)?)?;
    any.sort_by_key(|row| row.number);
    assert_eq!(any, [one, two]);
    assert_eq!(now.find(&Query::overlaps(keys.one)?)?, [one, two]);
    assert_eq!(now.find(&Query::within(keys.far)?)?, [far]);
    assert_eq!(now.find(&Query::holds(keys.far)?)?, [far]);
    assert_eq!(now.find(&Query::same(keys.two)?)?, [two]);
    for relation in [
        Relation::Overlaps,
        Relation::Within,
        Relation::Holds,
        Relation::Same,
    ] {
        assert_eq!(now.find(&Query::by(relation, keys.far)?)?, [far]);
        assert_eq!(now.find_each(relation, &[keys.far])?, [vec![far]]);
    }
    let each = now.find_each(Relation::Overlaps, &[keys.one, keys.far])?;
    assert_eq!(each, [vec![one, two], vec![far]]);
    assert_eq!(now.find_each(Relation::Same, &[])?, Vec::<Vec<_>>::new());
    assert_eq!(now.count(&Query::overlaps(keys.one)?)?, 2);
    assert_eq!((now.len()?, now.is_empty()?), (3, false));
    assert!(now.iter()?.eq([one, two, far]));
    assert_eq!(
        (now.get(2)?, now.get(0)?, now.get(4)?),
        (Some(two), None, None)
    );

    assert_eq!(store.move_to(1, keys.far)?, 4);
    assert_eq!(store.delete(2)?, 5);
    let later = store.snapshot()?;
    assert_eq!((now.commits(), later.commits(), store.commits()), (3, 5, 5));
    let known = later.known(1)?;
    assert_eq!((known.row, known.lives), (one, false));
    assert_eq!(later.get(1)?, None);
    assert_eq!(later.get(4)?, Some(row(4, keys.far, 10)));
    assert_eq!(later.known(5), Err(Error::NoSuchRow));
    assert_eq!(
        (later.count(&Query::overlaps(keys.one)?)?, now.len()?),
        (0, 3)
    );
    assert_eq!(now.clone().commits(), 3);
    Ok(())
}

fn commits_and_changes<K: Key>(keys: Keys<K>) -> Tried {
    let store = three(&keys)?;
    store.move_to(1, keys.far)?;
    store.delete(2)?;
    let now = store.snapshot()?;
    let moved = Change::Moved {
        row: row(4, keys.far, 10),
        ended: 1,
    };
    let deleted = Change::Deleted {
        commit: 5,
        row: row(2, keys.two, 20),
    };
    let left = Change::Deleted {
        commit: 4,
        row: row(1, keys.one, 10),
    };
    let first = Change::Inserted(row(1, keys.one, 10));
    let second = Change::Inserted(row(2, keys.two, 20));
    assert_eq!(
        (now.commit(0), now.commit(1), now.commit(6)),
        (None, Some(first), None)
    );
    assert_eq!((now.commit(4), now.commit(5)), (Some(moved), Some(deleted)));
    assert_eq!(
        (moved.commit(), moved.row().tag, deleted.commit()),
        (4, 10, 5)
    );

    let query = Query::new(keys.text)?;
    let all = now.changes(&query, 0, usize::MAX)?;
    assert_eq!(all.changes, [first, second, left, deleted]);
    assert_eq!(all.upto, 5);
    let some = now.changes(&query, 0, 3)?;
    assert_eq!((&some.changes[..], some.upto), (&all.changes[..3], 4));
    assert_eq!(now.changes(&query, some.upto, 9)?.changes, [deleted]);
    assert_eq!(now.changes(&query, 0, 0)?.changes, []);
    assert_eq!(now.changes(&query, 6, 9), Err(Error::FromFuture));
    Ok(())
}

fn cursors<K: Key>(keys: Keys<K>) -> Tried {
    let store = three(&keys)?;
    let query = Query::new(keys.text)?;
    let mut cursor = store.open(&query)?;
    let mut follower = store.follow(&query, 1)?;
    assert_eq!(store.figures().cursors, 2);
    let mut there = cursor.by_ref().collect::<Result<Vec<_>, _>>()?;
    there.sort_by_key(|item| matches!(item, Item::Row(row) if row.number == 2));
    assert_eq!(
        there,
        [
            Item::Row(row(1, keys.one, 10)),
            Item::Row(row(2, keys.two, 20))
        ]
    );
    assert!(cursor.next().is_none());

    store.move_to(1, keys.far)?;
    cursor.mark()?;
    let left = Item::Change(Change::Deleted {
        commit: 4,
        row: row(1, keys.one, 10),
    });
    assert_eq!(cursor.next_items(9)?, [left, Item::Mark(4)]);
    assert_eq!(cursor.next_items(9)?, []);
    assert_eq!(cursor.next_items(0)?, []);
    assert_eq!(
        follower.next_items(1)?,
        [Item::Change(Change::Inserted(row(2, keys.two, 20)))]
    );
    assert_eq!(follower.next_items(9)?, [left]);

    store.insert(keys.one, 30)?;
    let standings: Vec<_> = store.standings().collect();
    assert_eq!(standings.len(), 2);
    assert_eq!((standings[0].opened, standings[0].lag), (3, 1));
    assert_eq!((standings[1].opened, standings[1].lag), (1, 1));
    assert!(standings.iter().all(|it| !it.is_scanning));
    follower.close()?;
    let number = cursor.detach();
    assert_eq!(standings[0].cursor, number.number());
    assert_eq!((number.number(), store.figures().cursors), (1, 1));
    drop(store.attach(number));
    assert_eq!(store.figures().cursors, 0);
    assert_eq!(store.follow(&query, 6).err(), Some(Error::FromFuture));
    assert_eq!(store.sweep()?, 1);
    Ok(())
}

fn refusals<K: Key>(keys: Keys<K>) -> Tried {
    let store = three(&keys)?;
    assert_eq!(store.delete(4), Err(Error::NoSuchRow));
    assert_eq!(store.move_to(0, keys.one), Err(Error::NoSuchRow));
    let stopped = Stopped {
        done: 4..6,
        error: Error::AlreadyDeleted,
    };
    assert_eq!(store.delete_all(&[1, 2, 2, 3]), Err(stopped.clone()));
    assert_eq!(
        stopped.source().map(|it| it.to_string()),
        Some(stopped.error.to_string())
    );
    assert_eq!(store.move_to(1, keys.one), Err(Error::AlreadyDeleted));
    assert_eq!(
        (store.delete_all(&[])?, store.insert_all::<_, K>([])?),
        (6..6, 6..6)
    );
    let full = Stopped {
        done: 6..13,
        error: Error::CommitsFull,
    };
    assert_eq!(store.insert_all([(keys.one, 0); 9]), Err(full));
    assert_eq!(store.move_to(3, keys.one), Err(Error::CommitsFull));
    assert_eq!(store.delete(3), Err(Error::CommitsFull));
    let query = Query::new(keys.text)?;
    let open = (0..256)
        .map(|_| store.open(&query))
        .collect::<Result<Vec<_>, _>>()?;
    assert_eq!(store.open(&query).err(), Some(Error::CursorsFull));
    assert_eq!(store.follow(&query, 0).err(), Some(Error::CursorsFull));
    drop(open);
    store.open(&query)?.close()?;
    Ok(())
}

fn renewals<K: Key>(keys: Keys<K>) -> Tried {
    let store = three(&keys)?;
    store.move_to(1, keys.far)?;
    store.delete(2)?;
    let now = store.snapshot()?;
    let two = Limits {
        commits: 2,
        ..small()
    };
    let renewed = now.renew(two)?;
    assert_eq!(renewed.numbers, [3, 4]);
    let rows = renewed.store.snapshot()?.iter()?.collect::<Vec<_>>();
    assert_eq!(rows, [row(1, keys.far, 30), row(2, keys.far, 10)]);
    assert_eq!(renewed.store.insert(keys.one, 0), Err(Error::CommitsFull));
    let one = Limits {
        commits: 1,
        ..small()
    };
    assert_eq!(now.renew(one).err(), Some(Error::CommitsFull));
    let none = Limits {
        commits: 0,
        ..small()
    };
    assert_eq!(now.renew(none).err(), Some(Error::BadLimits));
    assert!(Store::<K>::new()?
        .snapshot()?
        .renew(two)?
        .numbers
        .is_empty());
    Ok(())
}

/// A store is renewed while rows come, move and go.
fn renewals_beside<K: Key>(keys: Keys<K>) -> Tried {
    let mut store = three(&keys)?;
    store.delete(2)?;
    let begun = store.snapshot()?;
    let mut renewal = Renewal::begin(&begun, small())?;
    assert_eq!(renewal.catch_up(&begun)?, 0);

    store.insert(keys.two, 40)?;
    store.move_to(1, keys.two)?;
    assert_eq!(renewal.catch_up(&store.snapshot()?)?, 2);
    assert_eq!(renewal.catch_up(&begun)?, 0);
    store.delete(5)?;
    store.move_to(6, keys.one)?;
    let replaced = renewal.finish(&mut store)?;

    assert_eq!(replaced.before.commits(), 8);
    let numbers = [(3, 2), (8, 6)];
    assert_eq!(replaced.numbers, numbers.into_iter().collect());
    let rows = [row(2, keys.far, 30), row(6, keys.one, 10)];
    assert!(store.snapshot()?.iter()?.eq(rows));
    assert_eq!(store.commits(), 6);

    let few = Limits {
        commits: 2,
        ..small()
    };
    let mut renewal = Renewal::begin(&store.snapshot()?, few)?;
    store.delete(2)?;
    assert_eq!(
        renewal.catch_up(&store.snapshot()?),
        Err(Error::CommitsFull)
    );
    assert_eq!(renewal.finish(&mut store).err(), Some(Error::CommitsFull));
    assert_eq!(store.commits(), 7);
    Ok(())
}

fn feeds<K: Key>(keys: Keys<K>) -> Tried {
    let store = Store::with_limits(small())?;
    let mut feed = Feed::new()?;
    let near = feed.subscribe(&Query::new(keys.text)?, 0)?;
    let far = feed.subscribe(&Query::same(keys.far)?, 2)?;
    assert_eq!((near.number(), far.number()), (1, 2));
    store.insert_all([(keys.one, 10), (keys.two, 20), (keys.far, 30)])?;
    let some = feed.advance(&store.snapshot()?, 2)?;
    let told: Vec<_> = some
        .told
        .iter()
        .map(|it| (it.to, it.change.commit()))
        .collect();
    assert_eq!((told, some.upto), (vec![(near, 1), (near, 2)], 2));
    let rest = feed.advance(&store.snapshot()?, u64::MAX)?;
    assert_eq!((rest.told.len(), rest.upto), (1, 3));
    assert_eq!(rest.told[0].to, far);
    assert_eq!(rest.told[0].change, Change::Inserted(row(3, keys.far, 30)));
    feed.unsubscribe(far)?;
    assert_eq!(feed.unsubscribe(far), Err(Error::NotSubscribed));
    store.move_to(1, keys.far)?;
    let left = Change::Deleted {
        commit: 4,
        row: row(1, keys.one, 10),
    };
    assert_eq!(feed.advance(&store.snapshot()?, 9)?.told[0].change, left);
    let empty = Store::new()?.snapshot()?;
    assert_eq!(feed.advance(&empty, 9), Err(Error::FromFuture));
    Ok(())
}

#[test]
fn more_is_told_than_a_buffer_holds() -> Tried {
    let (store, mut feed) = (Store::<Interval>::new()?, Feed::new()?);
    for _ in 0..100 {
        feed.subscribe(&Query::everything()?, 0)?;
    }
    store.insert_all((0..300).map(|n| (n, n as u64)))?;
    let some = feed.advance(&store.snapshot()?, 200)?;
    assert_eq!((some.told.len(), some.upto), (20_000, 200));
    assert_eq!(
        feed.advance(&store.snapshot()?, u64::MAX)?.told.len(),
        10_000
    );
    Ok(())
}

#[test]
fn many_keys_are_asked_for_at_once() -> Tried {
    let store = Store::<Interval>::new()?;
    store.insert_all((0..1_000).map(|n| (n..=n + n % 5, n as u64)))?;
    let keys: Vec<_> = (0..40).map(|n| Interval { lo: n, hi: n * n }).collect();
    let now = store.snapshot()?;
    let found = now.find_each(Relation::Overlaps, &keys)?;
    for (rows, key) in found.iter().zip(keys) {
        assert_eq!(rows, &now.find(&Query::overlaps(key)?)?);
    }
    assert_eq!(now.iter()?.len(), 1_000);
    Ok(())
}

#[test]
#[allow(clippy::reversed_empty_ranges)]
fn ends_out_of_order_are_refused() -> Tried {
    let bad = [
        Interval::from(2..=1),
        Interval::from(5..5),
        Interval::from(5..i64::MIN),
    ];
    let store = Store::<Interval>::new()?;
    for key in bad {
        assert_eq!(store.insert(key, 0), Err(Error::BadEnds));
        assert_eq!(store.move_to(1, key), Err(Error::BadEnds));
        assert_eq!(
            Query::overlaps(key).map(|_: Query<Interval>| ()),
            Err(Error::BadEnds)
        );
        assert_eq!(
            store.snapshot()?.find_each(Relation::Same, &[key]),
            Err(Error::BadEnds)
        );
    }
    let stopped = Stopped {
        done: 1..2,
        error: Error::BadEnds,
    };
    assert_eq!(store.insert_all([(0.into(), 0), (bad[0], 0)]), Err(stopped));
    let boxes = Store::<BoxKey>::new()?;
    assert_eq!(boxes.insert((0..0, 0..1), 0), Err(Error::BadEnds));
    assert_eq!(boxes.insert((0..1, 0..i32::MIN), 0), Err(Error::BadEnds));
    Ok(())
}

#[test]
fn texts_are_refused_at_a_byte() {
    let at = |text| {
        Query::<Interval>::new(text)
            .map(|_| ())
            .map_err(Error::place)
    };
    assert_eq!(at("overlaps ?"), Err(Some(9)));
    assert_eq!(at("same (2 1)"), Err(Some(5)));
    assert_eq!(at(""), Err(Some(0)));
}

/// The place of the wrong byte in a refused text.
trait At {
    fn place(self) -> Option<usize>;
}

impl At for Error {
    fn place(self) -> Option<usize> {
        match self {
            Error::QueryText { at } => Some(at),
            _ => None,
        }
    }
}

#[test]
fn limits_have_both_ends() -> Tried {
    let least = Limits {
        fan: 4,
        least: 2,
        pages: 1,
        commits: 1,
    };
    let greatest = Limits {
        fan: 64,
        least: 32,
        pages: 65_536,
        commits: 16_777_216,
    };
    for limits in [least, greatest, Limits::default()] {
        let figures = Store::<Set>::with_limits(limits)?.figures();
        assert_eq!(figures.commit_limit, u64::from(limits.commits));
        assert_eq!(figures.page_limit, u64::from(limits.pages));
    }
    let wrong = [
        Limits { fan: 3, ..least },
        Limits {
            fan: 65,
            ..greatest
        },
        Limits { least: 1, ..least },
        Limits { least: 3, ..least },
        Limits {
            least: 33,
            ..greatest
        },
        Limits { pages: 0, ..least },
        Limits {
            pages: 65_537,
            ..greatest
        },
        Limits {
            commits: 0,
            ..least
        },
        Limits {
            commits: 16_777_217,
            ..greatest
        },
    ];
    for limits in wrong {
        assert_eq!(
            Store::<Set>::with_limits(limits).err(),
            Some(Error::BadLimits),
            "{limits:?}"
        );
    }
    Ok(())
}

#[test]
fn pages_run_out() -> Tried {
    let store = Store::<Interval>::with_limits(Limits {
        pages: 6,
        commits: 1_000,
        ..small()
    })?;
    let stopped = store
        .insert_all((0..1_000).map(|n| (n, 0)))
        .expect_err("six pages are few");
    assert_eq!(stopped.error, Error::PagesFull);
    let figures = store.figures();
    assert_eq!(stopped.done.end, figures.commits + 1);
    assert!(figures.pages + 2 > figures.page_limit);
    assert_eq!(figures.horizon, figures.commits);
    Ok(())
}

#[test]
fn a_refusal_has_the_name_of_the_library() {
    let all = [
        (Error::OutOfMemory, 1, "OutOfMemory"),
        (Error::BadConfig, 2, "BadConfig"),
        (Error::PagesFull, 3, "PagesFull"),
        (Error::CommitsFull, 4, "CommitsFull"),
        (Error::CursorsFull, 5, "CursorsFull"),
        (Error::FindersFull, 6, "FindersFull"),
        (Error::NoSuchRow, 14, "NoSuchRow"),
        (Error::AlreadyDeleted, 15, "AlreadyDeleted"),
        (Error::NoSuchCursor, 16, "NoSuchCursor"),
        (Error::CursorClosed, 17, "CursorClosed"),
        (Error::QueryText { at: 9 }, 21, "QueryText"),
        (Error::QueryTooDeep { depth: 33 }, 21, "QueryText"),
        (Error::QueryTooLong { length: 4_097 }, 21, "QueryText"),
        (Error::NoQueries, 0, ""),
        (Error::FromFuture, 23, "FromFuture"),
        (Error::FeedFull, 24, "FeedFull"),
        (Error::NotSubscribed, 25, "NotSubscribed"),
        (Error::BadEnds, 26, "BadEnds"),
        (Error::OtherClass, 27, "OtherClass"),
        (Error::NoHandle, 28, "NoHandle"),
        (Error::BadLimits, 29, "BadLimits"),
        (Error::Compacted, 30, "Compacted"),
        (Error::OtherStore, 31, "OtherStore"),
        (Error::Unknown { number: 32 }, 32, ""),
    ];
    for (error, number, name) in all {
        assert_eq!((error.number(), error.name().as_str()), (number, name));
        // what is wrong, and then what to do
        let text = error.to_string();
        let advice = text.split_once([':', ';']).expect("there is advice").1;
        assert!(advice.len() > 8, "{error}");
    }
    let told = Query::<Interval>::new("same (2 1)")
        .expect_err("the ends are out of order")
        .to_string();
    assert!(
        told.starts_with("query text is wrong at byte 5: expected overlaps"),
        "{told}"
    );
}

#[test]
#[should_panic(expected = "a store can't be extended: 0 done, then the next was refused")]
fn a_store_that_cannot_be_extended_panics() {
    let mut store = Store::<Interval>::new().expect("there is memory");
    store.extend([(Interval { lo: 2, hi: 1 }, 0)]);
}

#[test]
fn ranges_are_keys() -> Tried {
    assert_eq!(Interval::from(..), Interval::from(i64::MIN..=i64::MAX));
    assert_eq!(Interval::from(..5), Interval::from(..=4));
    assert_eq!(Interval::from(5..), Interval::from(5..=i64::MAX));
    assert_eq!(BoxKey::from((1..3, 4..6)), BoxKey::from((1..=2, 4..=5)));
    assert_eq!(
        Set::from_iter([1, 127]).iter().collect::<Vec<_>>(),
        [1, 127]
    );
    let mut store = Store::<Set>::new()?;
    store.extend([(Set::EMPTY, 1), ([0, 64].into(), 2)]);
    assert_eq!(
        store.snapshot()?.find(&Query::holds([64])?)?[0].key,
        [0, 64].into()
    );
    assert_eq!(format!("{:?}", Set::from([5, 1])), "{1, 5}");
    assert_eq!(
        format!("{:?} {:?}", INTERVALS.one, BOXES.two),
        "(-5 9) (4 0 9 0)"
    );
    Ok(())
}

#[test]
fn all_can_be_shown() -> Tried {
    let store = three(&SETS)?;
    let now: Snapshot<Set> = store.snapshot()?;
    let query = Query::new(SETS.text)?;
    assert!(
        format!("{store:?}").starts_with("Store(Figures { commits: 3, commit_limit: 12, pages: ")
    );
    assert_eq!(
        format!("{now:?} {query:?}"),
        "Snapshot { commits: 3, .. } Query { .. }"
    );
    assert_eq!(
        format!("{:?}", store.open(&query)?),
        "Cursor { number: 1, .. }"
    );
    assert_eq!(format!("{:?}", Feed::<Set>::new()?), "Feed { .. }");
    Ok(())
}
