//! The end of each ride in plain sight, for those who write rides.

use std::fmt::Write;

use super::facts::Fact;
use super::{Ridden, Ride};
use crate::table::WIDTH;
use crate::task::Task;

pub fn print(ride: &Ride, ridden: &Ridden) -> String {
    let mut out = format!("ride {}\n", ride.title);
    let root = Fact::Root.of(ridden);
    let state = &ridden.end.state;
    // Writing to a string cannot fail.
    let _ = writeln!(
        out,
        "  m {} u {} root {root:?} settled {:?}",
        state.m, state.u, ridden.settled
    );
    for (index, task) in state.tasks.iter().enumerate() {
        if let Task::Busy(busy) = task {
            let _ = writeln!(
                out,
                "  task {index}: {} at {}, {:?}",
                busy.number, busy.price, busy.phase
            );
        }
    }
    for (slot, cells) in ridden.end.table.chunks(WIDTH).enumerate() {
        if cells.iter().any(|&cell| cell != 0) {
            let _ = writeln!(out, "  slot {slot}: {cells:?}");
        }
    }
    out
}
