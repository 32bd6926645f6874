//! A live map: 100,000 vehicles move, two readers count in windows of their own, and 2,000 viewers are told by a feed
//! what comes into their windows, moves in them and leaves them. The store is renewed before its commits are used up,
//! by a thread of its own, while all of them go on.
//!
//!     GIST_LIB_DIR=FOLDER cargo run --release --example live_map [VEHICLES]
//!
//! With another number of vehicles there are viewers and moves in proportion. It ends with status 0 only if
//! each viewer, at the end, has exactly the vehicles in its window.

use gist::{
    BoxKey, Change, Error, Feed, Limits, Query, Renewal, Row, Snapshot, Store, Subscription,
};
use std::collections::HashMap;
use std::sync::atomic::{AtomicBool, Ordering};
use std::sync::mpsc::{sync_channel, Receiver, SyncSender};
use std::sync::{Mutex, PoisonError};
use std::thread;

const VEHICLES: usize = 100_000;
const ROUNDS: usize = 12;
const SIDE: i32 = 100_000;
const WINDOW: i32 = 1_000;

/// How large the map is.
#[derive(Clone, Copy)]
struct Size {
    vehicles: usize,
    viewers: usize,
    moves_a_round: usize,
    limits: Limits,
}

impl Size {
    /// After the vehicles came there are commits for five rounds; by the fifth the store is renewed.
    fn of(vehicles: usize) -> Size {
        let limits = Limits {
            commits: 2 * vehicles as u32,
            ..Limits::default()
        };
        Size {
            vehicles,
            viewers: vehicles / 50,
            moves_a_round: vehicles / 5,
            limits,
        }
    }
}

/// Numbers that look random, and are the same in each run (xorshift64).
struct Dice(u64);

impl Dice {
    fn below(&mut self, end: i32) -> i32 {
        self.0 ^= self.0 << 13;
        self.0 ^= self.0 >> 7;
        self.0 ^= self.0 << 17;
        (self.0 % end as u64) as i32
    }

    fn place(&mut self) -> BoxKey {
        BoxKey::point(self.below(SIDE), self.below(SIDE))
    }

    fn window(&mut self) -> BoxKey {
        let (x, y) = (self.below(SIDE), self.below(SIDE));
        (x..x + WINDOW, y..y + WINDOW).into()
    }
}

/// What the writer sends to the thread with the feed.
enum News {
    /// There are more commits.
    Grown(Snapshot<BoxKey>),
    /// The store was renewed: its commits are numbered from 1 again.
    Renewed(Snapshot<BoxKey>),
}

/// The vehicles: a vehicle's number is its row's tag, and `rows` has the number of its row.
struct Fleet {
    size: Size,
    store: Store<BoxKey>,
    rows: Vec<u64>,
    renewals: usize,
}

impl Fleet {
    fn new(size: Size, dice: &mut Dice) -> Result<Fleet, Error> {
        let store = Store::with_limits(size.limits)?;
        let vehicles = 0..size.vehicles as u64;
        let rows = store.insert_all(vehicles.map(|vehicle| (dice.place(), vehicle)))?;
        Ok(Fleet {
            size,
            store,
            rows: rows.collect(),
            renewals: 0,
        })
    }

    /// Moves some vehicles, each by a commit.
    fn drive(&mut self, dice: &mut Dice) -> Result<(), Error> {
        for _ in 0..self.size.moves_a_round {
            let row = &mut self.rows[dice.below(self.size.vehicles as i32) as usize];
            *row = self.store.move_to(*row, dice.place())?;
        }
        self.store.sweep().map(|_swept| ())
    }

    /// Whether there are commits for no more than the next round.
    fn is_nearly_full(&self) -> bool {
        let figures = self.store.figures();
        figures.commits + 2 * self.size.moves_a_round as u64 > figures.commit_limit
    }

    /// Moves some vehicles while another thread makes a store of the rows that live, which then takes the place of this
    /// one. Gives all commits of the store before.
    fn drive_and_renew(&mut self, dice: &mut Dice) -> Result<Snapshot<BoxKey>, Error> {
        let (now, limits) = (self.store.snapshot()?, self.size.limits);
        let renewal = thread::scope(|scope| {
            let renewing = scope.spawn(|| Renewal::begin(&now, limits));
            self.drive(dice)?;
            renewing.join().expect("a renewal doesn't panic")
        })?;
        let replaced = renewal.finish(&mut self.store)?;
        for row in &mut self.rows {
            *row = replaced.numbers[row];
        }
        self.renewals += 1;
        replaced.before.snapshot()
    }
}

/// Moves the vehicles, shows each round's snapshot to the readers, and announces it.
fn write(
    fleet: &mut Fleet,
    dice: &mut Dice,
    latest: &Mutex<Snapshot<BoxKey>>,
    news: &SyncSender<News>,
) -> Result<(), Error> {
    let publish = |snapshot: &Snapshot<BoxKey>| {
        *latest.lock().unwrap_or_else(PoisonError::into_inner) = snapshot.clone();
    };
    let tell = |it| {
        news.send(it)
            .expect("the feed's thread goes on until the end");
    };
    for _ in 0..ROUNDS {
        if fleet.is_nearly_full() {
            let last = fleet.drive_and_renew(dice)?;
            let first = fleet.store.snapshot()?;
            publish(&first);
            tell(News::Grown(last));
            tell(News::Renewed(first));
        } else {
            fleet.drive(dice)?;
            let now = fleet.store.snapshot()?;
            publish(&now);
            tell(News::Grown(now));
        }
    }
    Ok(())
}

/// Counts vehicles as long as they drive: in all there are always as many as there were. Tells how often it looked.
fn read(
    latest: &Mutex<Snapshot<BoxKey>>,
    is_over: &AtomicBool,
    vehicles: usize,
    mut dice: Dice,
) -> Result<usize, Error> {
    let mut looks = 0;
    while looks == 0 || !is_over.load(Ordering::Relaxed) {
        let now = latest
            .lock()
            .unwrap_or_else(PoisonError::into_inner)
            .clone();
        assert_eq!(now.len()?, vehicles as u64);
        now.count(&Query::overlaps(dice.window())?)?;
        looks += 1;
    }
    Ok(looks)
}

/// A viewer of a window: its query, and the vehicles that it knows of, with their places.
struct Viewer {
    query: Query<BoxKey>,
    shown: HashMap<u64, BoxKey>,
}

impl Viewer {
    fn new(window: BoxKey, now: &Snapshot<BoxKey>) -> Result<Viewer, Error> {
        let query = Query::overlaps(window)?;
        let shown = now
            .find(&query)?
            .into_iter()
            .map(|row| (row.tag, row.key))
            .collect();
        Ok(Viewer { query, shown })
    }

    fn take(&mut self, change: Change<BoxKey>) {
        match change {
            Change::Inserted(Row { key, tag, .. })
            | Change::Moved {
                row: Row { key, tag, .. },
                ..
            } => self.shown.insert(tag, key),
            Change::Deleted { row, .. } => self.shown.remove(&row.tag),
        };
    }

    fn is_right(&self, now: &Snapshot<BoxKey>) -> Result<bool, Error> {
        let rows = now.find(&self.query)?;
        let all = rows
            .iter()
            .all(|row| self.shown.get(&row.tag) == Some(&row.key));
        Ok(all && rows.len() == self.shown.len())
    }
}

/// A feed of one store, and the viewer of each subscription.
struct Subscribers {
    feed: Feed<BoxKey>,
    viewers: HashMap<Subscription, usize>,
}

impl Subscribers {
    /// Subscribes all viewers from the commits of a snapshot on, to which they are up to date.
    fn new(viewers: &[Viewer], from: &Snapshot<BoxKey>) -> Result<Subscribers, Error> {
        let mut feed = Feed::new()?;
        let mut serials = HashMap::new();
        for (place, viewer) in viewers.iter().enumerate() {
            serials.insert(feed.subscribe(&viewer.query, from.commits())?, place);
        }
        Ok(Subscribers {
            feed,
            viewers: serials,
        })
    }

    /// Gives each viewer what is new to it, and counts the changes.
    fn advance(&mut self, viewers: &mut [Viewer], now: &Snapshot<BoxKey>) -> Result<usize, Error> {
        let told = self.feed.advance(now, u64::MAX)?.told;
        for it in &told {
            viewers[self.viewers[&it.to]].take(it.change);
        }
        Ok(told.len())
    }
}

/// Runs the feed until the writer is done, and counts the viewers that have exactly what is in their windows.
fn feed(
    viewers: usize,
    first: Snapshot<BoxKey>,
    news: Receiver<News>,
) -> Result<(usize, usize), Error> {
    let mut dice = Dice(7);
    let mut viewers = (0..viewers)
        .map(|_| Viewer::new(dice.window(), &first))
        .collect::<Result<Vec<_>, _>>()?;
    let mut subscribers = Subscribers::new(&viewers, &first)?;
    let (mut last, mut told) = (first, 0);
    for it in news {
        last = match it {
            News::Grown(now) => {
                told += subscribers.advance(&mut viewers, &now)?;
                now
            }
            // all commits of the previous store were reported, so the viewers are up to date with the renewed one
            News::Renewed(now) => {
                subscribers = Subscribers::new(&viewers, &now)?;
                now
            }
        };
    }
    let mut right = 0;
    for viewer in &viewers {
        right += usize::from(viewer.is_right(&last)?);
    }
    Ok((told, right))
}

fn main() -> Result<(), Error> {
    let vehicles = std::env::args()
        .nth(1)
        .map_or(VEHICLES, |it| it.parse().expect("a number"));
    let size = Size::of(vehicles);
    let mut dice = Dice(1);
    let mut fleet = Fleet::new(size, &mut dice)?;
    let first = fleet.store.snapshot()?;
    let latest = Mutex::new(first.clone());
    let is_over = AtomicBool::new(false);
    let (sender, receiver) = sync_channel(2);

    let (told, right) = thread::scope(|scope| {
        let viewing = scope.spawn(|| feed(size.viewers, first, receiver));
        let readers = [21, 22].map(|seed| {
            let (latest, is_over) = (&latest, &is_over);
            scope.spawn(move || read(latest, is_over, size.vehicles, Dice(seed)))
        });
        let written = write(&mut fleet, &mut dice, &latest, &sender);
        drop(sender);
        is_over.store(true, Ordering::Relaxed);
        for reader in readers {
            assert!(reader.join().expect("a reader finds all vehicles")? > 0);
        }
        let told = viewing
            .join()
            .expect("the feed's thread goes on until the end")?;
        written.map(|()| told)
    })?;

    println!(
        "{} vehicles, {} moves, {} renewals",
        size.vehicles,
        ROUNDS * size.moves_a_round,
        fleet.renewals
    );
    println!(
        "{told} changes were told; {right} of {} viewers have what stands in their windows",
        size.viewers
    );
    assert!(right == size.viewers && fleet.renewals == 2);
    Ok(())
}
