//! Threads that share a store, a snapshot and a query.

use gist::{Error, Feed, Interval, Limits, Query, Renewal, SharedStore, Snapshot, Store};
use std::panic::{catch_unwind, AssertUnwindSafe};
use std::sync::Mutex;
use std::thread;
use std::time::Duration;

const ROWS: i64 = 4_000;
const AT_ONCE: i64 = 10;

fn is_send<T: Send>() {}

fn is_shared<T: Send + Sync>() {}

#[test]
fn what_may_go_to_other_threads() {
    is_send::<Store<Interval>>();
    is_send::<Feed<Interval>>();
    is_shared::<Snapshot<Interval>>();
    is_shared::<Query<Interval>>();
    is_shared::<SharedStore<Interval>>();
    is_shared::<Error>();
}

/// Each snapshot has as many rows as commits, and one that is shared stays as it was.
fn look(
    rooms: &SharedStore<Interval>,
    first: &Snapshot<Interval>,
    query: &Query<Interval>,
) -> Result<(), Error> {
    for _ in 0..60 {
        let now = rooms.snapshot()?;
        assert_eq!(now.count(query)?, now.commits());
        assert_eq!(first.count(query)?, 1);
    }
    Ok(())
}

#[test]
fn readers_search_beside_a_writer() -> Result<(), Error> {
    let rooms = SharedStore::new(Store::<Interval>::new()?);
    rooms.write(|store| store.insert(0, 0))?;
    let (first, query) = (rooms.snapshot()?, Query::everything()?);
    thread::scope(|scope| {
        let writer = scope.spawn(|| {
            for n in (1..ROWS).step_by(AT_ONCE as usize) {
                let some = (n..n + AT_ONCE).map(|n| (n..=n + 5, n as u64));
                rooms.write(|store| store.insert_all(some))?;
            }
            Ok::<(), Error>(())
        });
        let readers: Vec<_> = (0..3)
            .map(|_| scope.spawn(|| look(&rooms, &first, &query)))
            .collect();
        for reader in readers {
            reader.join().expect("a reader finds what is there")?;
        }
        writer.join().expect("a writer doesn't panic")
    })?;
    assert_eq!(rooms.snapshot()?.commits() as i64, ROWS + 1);
    Ok(())
}

#[test]
fn who_waits_is_woken() -> Result<(), Error> {
    let rooms = SharedStore::from(Store::<Interval>::new()?);
    assert!(rooms.wait_past_for(0, Duration::from_millis(5))?.is_none());
    thread::scope(|scope| {
        let waits = scope.spawn(|| rooms.wait_past(1));
        let waits_for_long = scope.spawn(|| rooms.wait_past_for(1, Duration::from_secs(60)));
        rooms.write(|store| store.insert(1..3, 71))?;
        rooms.write(|store| store.insert(5..6, 72))?;
        let found = waits.join().expect("who waits doesn't panic")?;
        assert_eq!(found.commits(), 2);
        let found = waits_for_long.join().expect("who waits doesn't panic")?;
        assert_eq!(found.map(|it| it.commits()), Some(2));
        Ok(())
    })
}

#[test]
fn a_store_stays_good_where_work_on_it_panics() -> Result<(), Error> {
    let rooms = SharedStore::new(Store::<Interval>::new()?);
    let work = AssertUnwindSafe(|| {
        rooms.write(|store| {
            store.insert(1..3, 71).expect("there is room");
            panic!("on purpose");
        })
    });
    assert!(catch_unwind(work).is_err());
    assert_eq!(rooms.clone().snapshot()?.len()?, 1);
    assert!(format!("{rooms:?}").starts_with("SharedStore(Store(Figures { commits: 1,"));
    Ok(())
}

/// A writer moves a row on and on, and another thread renews the store meanwhile: no move is lost or made twice.
#[test]
fn a_store_is_renewed_beside_a_writer() -> Result<(), Error> {
    const MOVES: i64 = 2_000;
    let rooms = SharedStore::new(Store::<Interval>::new()?);
    let mine = Mutex::new(rooms.write(|store| store.insert(0, 71))?);
    rooms.write(|store| store.insert_all((0..ROWS).map(|n| (n, 0))))?;
    let replaced = thread::scope(|scope| {
        let writer = scope.spawn(|| {
            for n in 1..=MOVES {
                rooms.write(|store| {
                    let mut mine = mine.lock().expect("nobody panics");
                    *mine = store.move_to(*mine, n)?;
                    Ok::<(), Error>(())
                })?;
            }
            Ok::<(), Error>(())
        });
        let mut renewal = Renewal::begin(&rooms.snapshot()?, Limits::default())?;
        renewal.catch_up(&rooms.snapshot()?)?;
        let replaced = rooms.write(|store| {
            let replaced = renewal.finish(store)?;
            let mut mine = mine.lock().expect("nobody panics");
            *mine = replaced.numbers[&mine];
            Ok::<_, Error>(replaced)
        })?;
        writer.join().expect("a writer doesn't panic")?;
        Ok::<_, Error>(replaced)
    })?;
    let (now, mine) = (rooms.snapshot()?, *mine.lock().expect("nobody panics"));
    assert_eq!(replaced.numbers.len() as i64, ROWS + 1);
    assert_eq!(
        now.get(mine)?.map(|row| (row.key, row.tag)),
        Some((MOVES.into(), 71))
    );
    assert_eq!(now.len()? as i64, ROWS + 1);
    let moves_before = replaced.before.commits() as i64 - ROWS - 1;
    assert!(now.commits() as i64 >= ROWS + 1 + MOVES - moves_before);
    Ok(())
}
