//! The declarations of `include/gist.h`.

use std::ffi::{c_char, c_void};

// so a count of the library is a `usize`, too
#[cfg(not(target_pointer_width = "64"))]
compile_error!("the library is only built for processors of 64 bits");

/// Every handle has the same two fields, which belong to the library.
macro_rules! handles {
    ($($name:ident dropped by $drop:ident;)*) => {
        $(
            #[repr(C)]
            pub struct $name {
                is_open: bool,
                inside: *mut c_void,
            }

            impl Handle for $name {
                const NONE: $name = $name { is_open: false, inside: std::ptr::null_mut() };

                unsafe fn drop_inside(handle: *mut $name) {
                    // SAFETY: the caller's handle is of this type.
                    unsafe { $drop(handle) }
                }
            }
        )*
    };
}

/// A handle of a store, a snapshot, a query or a feed.
pub trait Handle {
    /// An empty handle.
    const NONE: Self;

    /// Frees what a handle holds.
    ///
    /// # Safety
    /// The pointer is to a handle that no other call uses meanwhile.
    unsafe fn drop_inside(handle: *mut Self);
}

handles! {
    Store dropped by gist_destroy;
    Snapshot dropped by gist_drop;
    Query dropped by gist_forget;
    Feed dropped by gist_end;
}

/// A key, as two words. In C it is a union, which is passed in the same way.
#[repr(C)]
#[derive(Clone, Copy, Debug, Default)]
pub struct Key {
    pub words: [u64; 2],
}

#[repr(C)]
#[derive(Clone, Copy)]
pub struct Entry {
    pub key: Key,
    pub tag: u64,
}

#[repr(C)]
#[derive(Clone, Copy, Default)]
pub struct Row {
    pub row: u64,
    pub tag: u64,
    pub key: Key,
}

#[repr(C)]
#[derive(Clone, Copy, Default)]
pub struct Item {
    pub kind: u32,
    pub number: u64,
    pub ended: u64,
    pub tag: u64,
    pub key: Key,
}

#[repr(C)]
#[derive(Clone, Copy, Default)]
pub struct Told {
    pub subscription: u64,
    pub item: Item,
}

#[repr(C)]
pub struct Limits {
    pub fan: u32,
    pub least: u32,
    pub pages: u32,
    pub commits: u32,
}

#[repr(C)]
#[derive(Default)]
pub struct Figures {
    pub commits: u64,
    pub commit_limit: u64,
    pub pages: u64,
    pub page_limit: u64,
    pub cursors: u64,
    pub horizon: u64,
}

#[repr(C)]
#[derive(Default)]
pub struct Standing {
    pub cursor: u64,
    pub opened: u64,
    pub lag: u64,
    pub is_scanning: bool,
}

extern "C" {
    pub fn gist_version() -> u32;
    pub fn gist_refusal_name(refusal: u32, name: *mut c_char, room: usize) -> usize;

    pub fn gist_create(store: *mut Store, key_class: u32, limits: *const Limits) -> u32;
    pub fn gist_destroy(store: *mut Store);
    pub fn gist_stats(store: *const Store, figures: *mut Figures) -> u32;
    pub fn gist_standing_of(store: *const Store, place: u64, standing: *mut Standing) -> u32;
    pub fn gist_insert(store: *mut Store, rows: *const Entry, n: usize, added: *mut u64) -> u32;
    pub fn gist_move(store: *mut Store, row: u64, key: Key, moved: *mut u64) -> u32;
    pub fn gist_delete(store: *mut Store, rows: *const u64, n: usize, deleted: *mut u64) -> u32;
    pub fn gist_sweep(store: *mut Store, removed: *mut u64) -> u32;

    pub fn gist_prepare(
        query: *mut Query,
        key_class: u32,
        text: *const c_char,
        length: usize,
        fault: *mut u64,
    ) -> u32;
    pub fn gist_ask(query: *mut Query, key_class: u32, relation: u32, key: Key) -> u32;
    pub fn gist_forget(query: *mut Query);

    pub fn gist_take(store: *mut Store, snapshot: *mut Snapshot) -> u32;
    pub fn gist_drop(snapshot: *mut Snapshot);
    pub fn gist_commits(snapshot: *const Snapshot, commits: *mut u64) -> u32;
    pub fn gist_row_of(
        snapshot: *const Snapshot,
        number: u64,
        row: *mut Row,
        lives: *mut bool,
    ) -> u32;
    pub fn gist_commit_of(snapshot: *const Snapshot, number: u64, commit: *mut Item) -> u32;
    pub fn gist_find(
        snapshot: *const Snapshot,
        query: *const Query,
        rows: *mut Row,
        room: usize,
        found: *mut u64,
    ) -> u32;
    pub fn gist_find_any(
        snapshot: *const Snapshot,
        query: *const Query,
        rows: *mut Row,
        room: usize,
        found: *mut u64,
    ) -> u32;
    pub fn gist_count(snapshot: *const Snapshot, query: *const Query, count: *mut u64) -> u32;
    pub fn gist_find_each(
        snapshot: *const Snapshot,
        relation: u32,
        keys: *const Key,
        n: usize,
        rows: *mut Row,
        room: usize,
        ends: *mut u64,
        places: usize,
        answered: *mut u64,
    ) -> u32;
    pub fn gist_changes(
        snapshot: *const Snapshot,
        query: *const Query,
        from: u64,
        items: *mut Item,
        room: usize,
        given: *mut u64,
        upto: *mut u64,
    ) -> u32;
    pub fn gist_renew(
        snapshot: *const Snapshot,
        limits: *const Limits,
        store: *mut Store,
        numbers: *mut u64,
        room: usize,
        living: *mut u64,
    ) -> u32;

    pub fn gist_open(store: *mut Store, query: *const Query, cursor: *mut u64) -> u32;
    pub fn gist_follow(
        store: *mut Store,
        query: *const Query,
        commit: u64,
        cursor: *mut u64,
    ) -> u32;
    pub fn gist_next(
        store: *mut Store,
        cursor: u64,
        items: *mut Item,
        room: usize,
        given: *mut u64,
    ) -> u32;
    pub fn gist_mark(store: *mut Store, cursor: u64) -> u32;
    pub fn gist_close(store: *mut Store, cursor: u64) -> u32;

    pub fn gist_begin(feed: *mut Feed, key_class: u32) -> u32;
    pub fn gist_end(feed: *mut Feed);
    pub fn gist_subscribe(
        feed: *mut Feed,
        query: *const Query,
        from: u64,
        subscription: *mut u64,
    ) -> u32;
    pub fn gist_unsubscribe(feed: *mut Feed, subscription: u64) -> u32;
    pub fn gist_advance(
        feed: *mut Feed,
        snapshot: *const Snapshot,
        most: u64,
        told: *mut Told,
        room: usize,
        given: *mut u64,
        upto: *mut u64,
    ) -> u32;
}
