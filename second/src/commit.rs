//! The commit (SCX): what every commit looks at, the put-in and the take-out.

use crate::answer::{sound, Answer, Damaged, Ground};
use crate::step::Next;
use crate::table::{
    free_slots, get, read, set, Links, Record, IN_TREE, NO_LINK, SENTINEL_RANK, TAKEN_OFF,
};
use crate::task::{Busy, Goal, Operation, Path, Phase, State, LAST_PUT_IN};

/// A record that was read, its noted links, and how it stands now.
pub struct Seen {
    pub slot: u32,
    pub noted: Links,
    pub now: Record,
}

/// The records read, as they stand now, each well formed.
pub fn see(table: &[u32], slots: &[u32], notes: &[Links]) -> Result<Vec<Seen>, Damaged> {
    let pairs = slots.iter().zip(notes);
    pairs
        .map(|(&slot, &noted)| {
            let now = read(table, slot)?;
            Ok(Seen { slot, noted, now })
        })
        .collect()
}

pub fn all_differ(seen: &[Seen]) -> bool {
    let twice = |i: usize| seen[..i].iter().any(|other| other.slot == seen[i].slot);
    !(0..seen.len()).any(twice)
}

/// The test: every record read is in state 1 with both links as noted.
pub fn unchanged(seen: &[Seen]) -> bool {
    seen.iter()
        .all(|one| one.now.state == IN_TREE && one.now.links == one.noted)
}

/// The lowest free slots, or nothing if there are too few.
pub fn room<const N: usize>(table: &[u32]) -> Option<[u32; N]> {
    let slots: Vec<u32> = free_slots(table).take(N).collect();
    slots.try_into().ok()
}

/// Only the state of a record taken off changes.
pub fn take_off(table: &mut [u32], slot: u32) {
    if let Some(record) = get(table, slot) {
        let state = TAKEN_OFF;
        set(table, slot, Record { state, ..record });
    }
}

pub fn turn_link(table: &mut [u32], above: &Seen, from: u32, to: u32) {
    let links = above.now.links.turned(from, to);
    set(table, above.slot, Record { links, ..above.now });
}

pub fn commit_put_in(
    table: &mut [u32],
    state: &mut State,
    busy: &Busy,
    path: Path,
    notes: [Links; 2],
) -> Result<Next, Damaged> {
    sound(path.here != NO_LINK, Ground::Missing)?;
    let seen = see(table, &[path.parent, path.here], &notes)?;
    let (parent, leaf) = (&seen[0], &seen[1]);
    sound(all_differ(&seen), Ground::SameRecord)?;
    sound(parent.noted.lead_to(path.here), Ground::NotLedTo)?;
    let other = leaf.now.is_leaf() && leaf.now.number != busy.number;
    sound(other, Ground::PutInLeaf)?;
    if !unchanged(&seen) {
        return Ok(Next::GoOn(Phase::Start(Goal::Serve(Operation::PutIn))));
    }
    if state.m >= LAST_PUT_IN {
        return Ok(Next::End(Answer::LimitReached));
    }
    let Some([top, left, right]) = room(table) else {
        return Ok(Next::End(Answer::NoRoom));
    };
    let (inner, small, large) = put_in_records(busy, &leaf.now, Links { left, right });
    take_off(table, leaf.slot);
    set(table, top, inner);
    set(table, left, small);
    set(table, right, large);
    turn_link(table, parent, leaf.slot, top);
    state.m += 1;
    Ok(if parent.now.rank == 1 && inner.rank == 1 {
        Next::GoOn(Phase::Start(Goal::Settle))
    } else {
        Next::End(Answer::PutIn)
    })
}

/// The new inner record and its two leaves, the smaller number first.
fn put_in_records(busy: &Busy, old: &Record, links: Links) -> (Record, Record, Record) {
    let fresh = Record {
        state: IN_TREE,
        number: busy.number,
        price: busy.price,
        rank: 0,
        links: Links::NONE,
    };
    let kept = Record {
        state: IN_TREE,
        ..*old
    };
    let (small, large) = if busy.number < old.number {
        (fresh, kept)
    } else {
        (kept, fresh)
    };
    let inner = Record {
        state: IN_TREE,
        number: large.number,
        price: 0,
        rank: if old.is_sentinel() { SENTINEL_RANK } else { 1 },
        links,
    };
    (inner, small, large)
}

pub fn commit_take_out(
    table: &mut [u32],
    busy: &Busy,
    path: Path,
    notes: [Links; 4],
) -> Result<Next, Damaged> {
    let children = notes[1];
    let both = children.left != NO_LINK && children.right != NO_LINK;
    sound(both, Ground::Missing)?;
    let slots = [path.grand, path.parent, children.left, children.right];
    let seen = see(table, &slots, &notes)?;
    sound(all_differ(&seen), Ground::SameRecord)?;
    sound(seen[0].noted.lead_to(path.parent), Ground::NotLedTo)?;
    sound(children.lead_to(path.here), Ground::NotLedTo)?;
    let (leaf, sibling) = if children.left == path.here {
        (&seen[2], &seen[3])
    } else {
        (&seen[3], &seen[2])
    };
    let own = leaf.now.is_leaf() && leaf.now.number == busy.number;
    sound(own, Ground::TakeOutLeaf)?;
    if !unchanged(&seen) {
        return Ok(Next::GoOn(Phase::Start(Goal::Serve(Operation::TakeOut))));
    }
    let Some([copy]) = room(table) else {
        return Ok(Next::End(Answer::NoRoom));
    };
    set(table, copy, sibling.now);
    for gone in &seen[1..] {
        take_off(table, gone.slot);
    }
    turn_link(table, &seen[0], path.parent, copy);
    Ok(Next::End(Answer::TakenOut))
}
