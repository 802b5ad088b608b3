//! The crate root that the folder lacks: its modules, and a count of the nodes that `visit` hands out. With the cfg `uncounted`, for the benchmark, it counts none,
//! as the Rust itself doesn't.

pub mod extent;
pub mod force;
pub mod lcg;
pub mod quadtree;

use std::cell::Cell;

thread_local! {
    static VISITS: Cell<u64> = Cell::new(0);
}

/// Called by `visit` for every node that it hands out.
#[inline(always)]
pub fn count_visit() {
    #[cfg(not(uncounted))]
    VISITS.with(|v| v.set(v.get() + 1));
}

/// The nodes handed out since the last call.
pub fn take_visits() -> u64 {
    VISITS.with(|v| v.replace(0))
}
