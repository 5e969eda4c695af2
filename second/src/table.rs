//! The table: slots of six numbers, and when the record in one is well formed.

use crate::answer::{sound, Damaged, Ground};

pub const WIDTH: usize = 6;
pub const ENTRY: u32 = 0;
pub const NO_LINK: u32 = 0;

pub const FREE: u32 = 0;
pub const IN_TREE: u32 = 1;
pub const TAKEN_OFF: u32 = 2;

pub const LAST_NUMBER: u32 = 999_999;
pub const LAST_PRICE: u32 = 99_999;
pub const LAST_RANK: u32 = 28;
pub const SENTINEL_NUMBER: u32 = u32::MAX;
pub const SENTINEL_RANK: u32 = 255;

#[derive(Clone, Copy, Debug, PartialEq, Eq)]
pub struct Links {
    pub left: u32,
    pub right: u32,
}

#[derive(Clone, Copy, Debug, PartialEq, Eq)]
pub enum Side {
    Left,
    Right,
}

impl Side {
    pub fn other(self) -> Side {
        match self {
            Side::Left => Side::Right,
            Side::Right => Side::Left,
        }
    }
}

impl Links {
    pub const NONE: Links = Links {
        left: NO_LINK,
        right: NO_LINK,
    };

    pub fn on(self, side: Side) -> u32 {
        match side {
            Side::Left => self.left,
            Side::Right => self.right,
        }
    }

    /// Two links, the first of them on the side named.
    pub fn sided(side: Side, first: u32, second: u32) -> Links {
        match side {
            Side::Left => Links {
                left: first,
                right: second,
            },
            Side::Right => Links {
                left: second,
                right: first,
            },
        }
    }

    /// A link of 0 is no link, so it leads nowhere, not to the entry.
    pub fn lead_to(self, slot: u32) -> bool {
        slot != NO_LINK && (self.left == slot || self.right == slot)
    }

    pub fn turned(self, from: u32, to: u32) -> Links {
        if self.left == from {
            Links { left: to, ..self }
        } else {
            Links { right: to, ..self }
        }
    }
}

#[derive(Clone, Copy, Debug, PartialEq, Eq)]
pub struct Record {
    pub state: u32,
    pub number: u32,
    pub price: u32,
    pub rank: u32,
    pub links: Links,
}

impl Record {
    pub const ZERO: Record = Record {
        state: FREE,
        number: 0,
        price: 0,
        rank: 0,
        links: Links::NONE,
    };

    pub fn is_leaf(&self) -> bool {
        self.links == Links::NONE
    }

    /// Of a well formed record: number and rank are marks together.
    pub fn is_sentinel(&self) -> bool {
        self.number == SENTINEL_NUMBER
    }

    pub fn is_level_below(&self, parent: &Record) -> bool {
        !self.is_sentinel() && self.rank == parent.rank
    }

    fn marks_fit(&self) -> bool {
        let sentinel = self.number == SENTINEL_NUMBER && self.rank == SENTINEL_RANK;
        let ordinary = self.number <= LAST_NUMBER && self.rank <= LAST_RANK;
        (sentinel && self.price == 0) || (ordinary && self.price <= LAST_PRICE)
    }

    fn fits_entry(&self, slots: u32) -> bool {
        let one_link = self.links.left != NO_LINK && self.links.right == NO_LINK;
        one_link && self.links.left < slots && self.is_sentinel()
    }

    fn fits_leaf(&self) -> bool {
        self.is_leaf() && (self.rank == 0 || self.rank == SENTINEL_RANK)
    }

    fn fits_inner(&self, slots: u32) -> bool {
        let Links { left, right } = self.links;
        let two_links = left != NO_LINK && right != NO_LINK && left != right;
        two_links && left < slots && right < slots && self.rank != 0 && self.price == 0
    }

    pub fn is_well_formed(&self, slot: u32, slots: u32) -> bool {
        let in_use = self.state == IN_TREE || self.state == TAKEN_OFF;
        let shape = if slot == ENTRY {
            self.fits_entry(slots)
        } else {
            self.fits_leaf() || self.fits_inner(slots)
        };
        in_use && self.marks_fit() && shape
    }
}

/// The slot count, or nothing for a table of a wrong length (answer 18).
pub fn slot_count(table: &[u32]) -> Option<u32> {
    let slots = table.len() / WIDTH;
    let fits = table.len().is_multiple_of(WIDTH) && (8..=4096).contains(&slots);
    fits.then_some(slots as u32)
}

/// The whole slots that a table of any length has.
pub fn whole_slots(table: &[u32]) -> u32 {
    (table.len() / WIDTH).min(u32::MAX as usize) as u32
}

/// What stands in a slot, well formed or not.
pub fn get(table: &[u32], slot: u32) -> Option<Record> {
    let at = (slot as usize).checked_mul(WIDTH)?;
    let cells = table.get(at..at.checked_add(WIDTH)?)?;
    Some(Record {
        state: cells[0],
        number: cells[1],
        price: cells[2],
        rank: cells[3],
        links: Links {
            left: cells[4],
            right: cells[5],
        },
    })
}

pub fn set(table: &mut [u32], slot: u32, record: Record) {
    let at = slot as usize * WIDTH;
    table[at..at + WIDTH].copy_from_slice(&[
        record.state,
        record.number,
        record.price,
        record.rank,
        record.links.left,
        record.links.right,
    ]);
}

/// A record that a rule must read: in the table and well formed, else 17.
pub fn read(table: &[u32], slot: u32) -> Result<Record, Damaged> {
    // No table has this slot; it stands for a grandparent that is not there.
    sound(slot != u32::MAX, Ground::Missing)?;
    let record = get(table, slot).ok_or(Damaged(Ground::Outside))?;
    let formed = record.is_well_formed(slot, whole_slots(table));
    sound(formed, Ground::NotWellFormed)?;
    Ok(record)
}

/// The same for a record reached by a link, where 0 means "missing".
pub fn read_linked(table: &[u32], slot: u32) -> Result<Record, Damaged> {
    sound(slot != NO_LINK, Ground::Missing)?;
    read(table, slot)
}

/// Slots in state 0, lowest first. Slot 0 is nobody's child, so it is
/// never taken for a new record.
pub fn free_slots(table: &[u32]) -> impl Iterator<Item = u32> + '_ {
    (1..whole_slots(table)).filter(|&slot| table[slot as usize * WIDTH] == FREE)
}
