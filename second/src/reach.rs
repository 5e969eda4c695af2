//! What the entry reaches, and the calls that look at all of it: tidy,
//! figures and list.

use crate::allowed::allowed_rank;
use crate::answer::{sound, Answer, Damaged, Ground};
use crate::table::{
    get, read, set, slot_count, whole_slots, Record, Side, ENTRY, FREE, NO_LINK, TAKEN_OFF,
};
use crate::task::State;

/// The seven numbers of figures, in the order in which they are printed.
#[derive(Clone, Copy, Debug, Default, PartialEq, Eq)]
pub struct Figures {
    pub height: u32,
    pub level_records: u32,
    pub c: u32,
    pub m: u32,
    pub fares: u32,
    pub free_slots: u32,
    pub allowed_rank: u32,
}

impl Figures {
    pub fn numbers(&self) -> [u32; 7] {
        [
            self.height,
            self.level_records,
            self.c,
            self.m,
            self.fares,
            self.free_slots,
            self.allowed_rank,
        ]
    }
}

/// A record that the entry reaches. `links` counts the links from the entry,
/// `depth` those from the root record; it is there only for that record and
/// those below it.
pub struct Reached {
    pub slot: u32,
    pub record: Record,
    pub level: bool,
    pub links: u32,
    pub depth: Option<u32>,
}

impl Reached {
    pub fn is_fare(&self) -> bool {
        self.record.is_leaf() && !self.record.is_sentinel()
    }
}

/// A link still to follow: where it leads, from which record, and by how
/// many links from the entry or below the root record.
struct Ahead {
    slot: u32,
    parent: Option<Record>,
    depth: Option<u32>,
    links: u32,
}

/// Everything the entry reaches, a record before those below it and left
/// before right, or 17.
pub fn reached(table: &[u32]) -> Result<Vec<Reached>, Damaged> {
    let mut met = vec![false; whole_slots(table) as usize];
    let mut found = Vec::new();
    let mut ahead = vec![Ahead {
        slot: ENTRY,
        parent: None,
        depth: None,
        links: 0,
    }];
    while let Some(next) = ahead.pop() {
        let unformed = |_| Damaged(Ground::ReachedNotWellFormed);
        let record = read(table, next.slot).map_err(unformed)?;
        sound(record.state != TAKEN_OFF, Ground::ReachedTakenOff)?;
        sound(!met[next.slot as usize], Ground::ReachedTwice)?;
        met[next.slot as usize] = true;
        // The right one first, so that the left one is followed first.
        for side in [Side::Right, Side::Left] {
            if record.links.on(side) != NO_LINK {
                ahead.push(below(&next, record, side));
            }
        }
        found.push(Reached {
            slot: next.slot,
            record,
            level: next.parent.is_some_and(|p| record.is_level_below(&p)),
            links: next.links,
            depth: next.depth,
        });
    }
    Ok(found)
}

fn below(from: &Ahead, record: Record, side: Side) -> Ahead {
    // The root record: the left child of the entry's left child.
    let is_root = from.links == 1 && side == Side::Left;
    Ahead {
        slot: record.links.on(side),
        parent: Some(record),
        depth: if is_root {
            Some(0)
        } else {
            from.depth.map(|depth| depth + 1)
        },
        links: from.links + 1,
    }
}

/// The reachable records, for a call that has met no earlier refusal.
fn look_over(table: &[u32], state: &State) -> Result<Vec<Reached>, Damaged> {
    state.check_counts()?;
    reached(table)
}

pub fn tidy(table: &mut [u32], state: &State) -> Answer {
    if slot_count(table).is_none() {
        return Answer::BadLength;
    }
    if !state.busy_tasks().is_empty() {
        return Answer::SomeTaskBusy;
    }
    let all = match look_over(table, state) {
        Ok(all) => all,
        Err(Damaged(ground)) => return Answer::Damaged(ground),
    };
    let mut kept = vec![false; whole_slots(table) as usize];
    for one in &all {
        kept[one.slot as usize] = true;
    }
    for slot in 0..whole_slots(table) {
        if !kept[slot as usize] {
            set(table, slot, Record::ZERO);
        }
    }
    Answer::Accepted
}

/// Refused figures hand back zeros beside the refusal.
pub fn figures(table: &[u32], state: &State) -> (Answer, Figures) {
    if slot_count(table).is_none() {
        return (Answer::BadLength, Figures::default());
    }
    let all = match look_over(table, state) {
        Ok(all) => all,
        Err(Damaged(ground)) => return (Answer::Damaged(ground), Figures::default()),
    };
    let fares = || all.iter().filter(|one| one.is_fare());
    let figures = Figures {
        height: fares().filter_map(|one| one.depth).max().unwrap_or(0),
        level_records: all.iter().filter(|one| one.level).count() as u32,
        // c is at most m here, so it fits.
        c: state.unsettled() as u32,
        m: state.m,
        fares: fares().count() as u32,
        free_slots: count_free(table),
        allowed_rank: allowed_rank(state.m),
    };
    (Answer::Accepted, figures)
}

/// Slots in state 0, slot 0 among them.
fn count_free(table: &[u32]) -> u32 {
    let free = |&slot: &u32| get(table, slot).is_some_and(|record| record.state == FREE);
    (0..whole_slots(table)).filter(free).count() as u32
}

/// Number and price of each fare, leftmost leaf first. Places in `lent`
/// behind the last fare stay as they are.
pub fn list(table: &[u32], state: &State, lent: &mut [u32]) -> Answer {
    if slot_count(table).is_none() {
        return Answer::BadLength;
    }
    let all = match look_over(table, state) {
        Ok(all) => all,
        Err(Damaged(ground)) => return Answer::Damaged(ground),
    };
    let fares: Vec<&Reached> = all.iter().filter(|one| one.is_fare()).collect();
    if lent.len() < 2 * fares.len() {
        return Answer::NoRoom;
    }
    for (place, fare) in lent.chunks_exact_mut(2).zip(fares) {
        place.copy_from_slice(&[fare.record.number, fare.record.price]);
    }
    Answer::Accepted
}
