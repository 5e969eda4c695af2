//! The facts that a ride may want at its end.

use super::Ridden;
use crate::reach::figures;
use crate::table::{get, whole_slots, Record, FREE, NO_LINK};

#[derive(Clone, Copy, Debug, PartialEq, Eq)]
pub enum Fact {
    Used,
    Fresh,
    Root,
    Below,
    Height,
    Level,
    C,
    M,
    U,
    Fares,
    Free,
    Allowed,
    Busy,
    Settled,
}

const NAMES: [(&str, Fact); 14] = [
    ("used", Fact::Used),
    ("fresh", Fact::Fresh),
    ("root", Fact::Root),
    ("below", Fact::Below),
    ("height", Fact::Height),
    ("level", Fact::Level),
    ("c", Fact::C),
    ("m", Fact::M),
    ("u", Fact::U),
    ("fares", Fact::Fares),
    ("free", Fact::Free),
    ("allowed", Fact::Allowed),
    ("busy", Fact::Busy),
    ("settled", Fact::Settled),
];

impl Fact {
    pub fn named(word: &str) -> Option<Fact> {
        NAMES
            .iter()
            .find(|(name, _)| *name == word)
            .map(|(_, fact)| *fact)
    }

    /// What holds at the end of a ride.
    pub fn of(self, ridden: &Ridden) -> Vec<u32> {
        let end = &ridden.end;
        let figures = || figures(&end.table, &end.state).1;
        match self {
            Fact::Used => vec![used_slots(&end.table).count() as u32],
            Fact::Fresh => fresh(ridden),
            Fact::Root => marks(root(&end.table)),
            Fact::Below => below(&end.table),
            Fact::Height => vec![figures().height],
            Fact::Level => vec![figures().level_records],
            Fact::C => vec![figures().c],
            Fact::M => vec![end.state.m],
            Fact::U => vec![end.state.u],
            Fact::Fares => vec![figures().fares],
            Fact::Free => vec![figures().free_slots],
            Fact::Allowed => vec![figures().allowed_rank],
            Fact::Busy => end.state.busy_tasks(),
            Fact::Settled => ridden.settled.clone(),
        }
    }
}

fn in_use(table: &[u32], slot: u32) -> bool {
    get(table, slot).is_some_and(|record| record.state != FREE)
}

fn used_slots(table: &[u32]) -> impl Iterator<Item = u32> + '_ {
    (0..whole_slots(table)).filter(|&slot| in_use(table, slot))
}

/// Slots free at the start of the ride and in use at its end.
fn fresh(ridden: &Ridden) -> Vec<u32> {
    used_slots(&ridden.end.table)
        .filter(|&slot| !in_use(&ridden.start.table, slot))
        .collect()
}

/// The record behind a link. 0 is no link.
fn linked(table: &[u32], slot: u32) -> Option<Record> {
    if slot == NO_LINK {
        None
    } else {
        get(table, slot)
    }
}

/// The left child of the entry's left child.
fn root(table: &[u32]) -> Option<Record> {
    let child = linked(table, get(table, 0)?.links.left)?;
    linked(table, child.links.left)
}

/// Number and rank; zeros where there is no record.
fn marks(record: Option<Record>) -> Vec<u32> {
    record.map_or(vec![0, 0], |record| vec![record.number, record.rank])
}

/// Number and rank of the root's left child, then of its right child.
fn below(table: &[u32]) -> Vec<u32> {
    let child = |slot| marks(linked(table, slot));
    root(table).map_or(vec![], |root| {
        [child(root.links.left), child(root.links.right)].concat()
    })
}
