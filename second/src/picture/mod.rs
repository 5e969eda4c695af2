//! The tree after a ride, to look at.

pub mod svg;
pub mod tasks;
pub mod text;

use crate::answer::Damaged;
use crate::callfile::{Program, RECORD_BYTES};
use crate::reach::{figures, reached, Figures, Reached};
use crate::table::{get, whole_slots, Record, ENTRY, TAKEN_OFF};
use crate::task::{Busy, Task};
use crate::words::cents;

/// What there is to see after a ride.
pub struct Scene {
    /// Call records of the ride.
    pub records: usize,
    pub figures: Figures,
    /// What the entry reaches, a record before those below it.
    pub nodes: Vec<Reached>,
    pub taken_off: Vec<(u32, Record)>,
    /// The busy tasks.
    pub tasks: Vec<(usize, Busy)>,
}

impl Scene {
    pub fn after(file: &[u8]) -> Result<Scene, Damaged> {
        let Program { table, state, .. } = Program::after(file);
        let slots = (0..whole_slots(&table)).filter_map(|slot| Some((slot, get(&table, slot)?)));
        let tasks = state.tasks.iter().enumerate();
        Ok(Scene {
            records: file.len().div_ceil(RECORD_BYTES),
            figures: figures(&table, &state).1,
            nodes: reached(&table)?,
            taken_off: slots
                .filter(|(_, record)| record.state == TAKEN_OFF)
                .collect(),
            tasks: tasks
                .filter_map(|(index, task)| match task {
                    Task::Busy(busy) => Some((index, *busy)),
                    Task::Idle => None,
                })
                .collect(),
        })
    }

    pub fn title(&self) -> String {
        let root = self.nodes.iter().find(|node| node.depth == Some(0));
        let rank = match root {
            Some(root) if !root.record.is_sentinel() => format!("root rank {}", root.record.rank),
            _ => "no root record".into(),
        };
        format!(
            "Tree after {}: {}, {rank}, height {}",
            plural(self.records, "record"),
            plural(self.figures.fares as usize, "fare"),
            self.figures.height
        )
    }

    /// The tasks that stand at a slot.
    pub fn tasks_at(&self, slot: u32) -> Vec<usize> {
        let here = |busy: &Busy| busy.phase.path().is_some_and(|path| path.here == slot);
        let tasks = self.tasks.iter().filter(|(_, busy)| here(busy));
        tasks.map(|(index, _)| *index).collect()
    }
}

pub fn plural(count: usize, what: &str) -> String {
    match count {
        1 => format!("1 {what}"),
        _ => format!("{count} {what}s"),
    }
}

/// A record in a few words, without its rank.
pub fn name(slot: u32, record: &Record) -> String {
    if slot == ENTRY {
        "entry".into()
    } else if record.is_sentinel() {
        "sentinel".into()
    } else if record.is_leaf() {
        format!("{} at {}", record.number, cents(record.price))
    } else {
        record.number.to_string()
    }
}
