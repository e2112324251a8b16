//! Numbers that patched places note and the driver reads after the call.

use std::cell::Cell;

thread_local! {
    static ROWS: Cell<usize> = const { Cell::new(0) };
    static SETS: Cell<usize> = const { Cell::new(0) };
}

pub(crate) fn rows_before_dedup(count: usize) {
    ROWS.with(|cell| cell.set(count));
}

pub(crate) fn last_rows_before_dedup() -> usize {
    ROWS.with(Cell::get)
}

pub(crate) fn sets_before_simplifying(count: usize) {
    SETS.with(|cell| cell.set(count));
}

pub(crate) fn last_sets_before_simplifying() -> usize {
    SETS.with(Cell::get)
}
