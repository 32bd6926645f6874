//! A window on a map: what is in it now, and then what comes into it, moves in it and leaves it.
//!
//!     GIST_LIB_DIR=FOLDER cargo run --example window

use gist::{BoxKey, Change, Cursor, Error, Item, Query, Store};

/// Prints what a cursor gives now.
fn show(window: &mut Cursor<'_, BoxKey>) -> Result<(), Error> {
    for item in window {
        match item? {
            Item::Change(Change::Deleted { row, .. }) => println!("{} has left", row.tag),
            Item::Row(row) | Item::Change(Change::Inserted(row) | Change::Moved { row, .. }) => {
                println!("{} is at {} {}", row.tag, row.key.x1, row.key.y1)
            }
            _ => {}
        }
    }
    Ok(())
}

fn main() -> Result<(), Error> {
    let vehicles = Store::<BoxKey>::new()?;
    let bus = vehicles.insert((0..=2, 0..=2), 101)?;
    let truck = vehicles.insert((5..=6, 5..=6), 102)?;

    let mut window = vehicles.open(&Query::overlaps((1..=9, 1..=9))?)?;
    show(&mut window)?; // 101 is at 0 0, 102 is at 5 5

    vehicles.move_to(bus, (20..=22, 20..=22))?;
    vehicles.move_to(truck, (7..=8, 5..=6))?;
    show(&mut window) // 101 has left, 102 is at 7 5
}
