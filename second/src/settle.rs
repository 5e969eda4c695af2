//! Settling: the readings of pz, z, x and y, the choice of a row, its commit.

use crate::answer::{sound, Answer, Damaged, Ground};
use crate::commit::{all_differ, room, see, take_off, turn_link, unchanged, Seen};
use crate::step::{after_reading, noted, Next};
use crate::table::{read, read_linked, set, Links, Record, Side, IN_TREE, LAST_RANK};
use crate::task::{Goal, Path, Phase, SettlePhase, State};

/// The rows of the settling table; the two promote cases are one row there.
#[derive(Clone, Copy, Debug, PartialEq, Eq)]
pub enum Row {
    PromoteOne,
    PromoteTwo,
    RotateOne,
    RotateTwo,
    Double,
}

/// A settling commit that was made, and the side of z on which x stood.
#[derive(Clone, Copy, Debug, PartialEq, Eq)]
pub struct Settled {
    pub row: Row,
    pub side: Side,
}

impl Settled {
    /// 10 times the row (1 to 5), and 1 more if x was the right child.
    pub fn code(self) -> u32 {
        let row = match self.row {
            Row::PromoteOne => 1,
            Row::PromoteTwo => 2,
            Row::RotateOne => 3,
            Row::RotateTwo => 4,
            Row::Double => 5,
        };
        10 * row + u32::from(self.side == Side::Right)
    }
}

/// What a step with pz and z noted does, by the ranks that it finds now.
#[derive(Clone, Copy, Debug, PartialEq, Eq)]
enum Choice {
    ReadX,
    ReadY,
    Commit(Row),
    /// The ranks allow no move. It is still a commit: its test comes first.
    NoMove(Ground),
}

/// The slots around x, by the links noted so far. Without x's links y and w
/// are not known.
struct Around {
    side: Side,
    s: u32,
    below: Option<(u32, u32)>,
}

impl Around {
    fn new(path: Path, notes: &[Links]) -> Around {
        let z = notes[1];
        let side = if z.left == path.here {
            Side::Left
        } else {
            Side::Right
        };
        let across = side.other();
        Around {
            side,
            s: z.on(across),
            below: notes.get(2).map(|x| (x.on(across), x.on(side))),
        }
    }
}

type Told = (Next, Option<Settled>);

pub fn settling(
    table: &mut [u32],
    state: &mut State,
    path: Path,
    phase: SettlePhase,
) -> Result<Told, Damaged> {
    let go = |phase| Phase::Settling(path, phase);
    match phase {
        SettlePhase::Grand => {
            // "No grandparent" is no slot of any table, so this gives 17.
            let links = noted(&read(table, path.grand)?, Some(path.parent));
            Ok(quiet(links, |pz| go(SettlePhase::Parent([pz]))))
        }
        SettlePhase::Parent([pz]) => {
            let links = noted(&read(table, path.parent)?, Some(path.here));
            Ok(quiet(links, |z| go(SettlePhase::Choose([pz, z]))))
        }
        SettlePhase::Choose(notes) => choose_on(table, state, path, &notes),
        SettlePhase::Rotate(notes) => choose_on(table, state, path, &notes),
        SettlePhase::Double(notes) => choose_on(table, state, path, &notes),
    }
}

/// A reading makes no commit to tell of.
fn quiet(links: Option<Links>, onward: impl FnOnce(Links) -> Phase) -> Told {
    (after_reading(Goal::Settle, links, onward), None)
}

fn choose_on(
    table: &mut [u32],
    state: &mut State,
    path: Path,
    notes: &[Links],
) -> Result<Told, Damaged> {
    let around = Around::new(path, notes);
    match choose(table, path, &around, notes.len())? {
        Choice::ReadX => {
            let links = noted(&read_linked(table, path.here)?, None);
            let on = |x| SettlePhase::Rotate([notes[0], notes[1], x]);
            Ok(quiet(links, |x| Phase::Settling(path, on(x))))
        }
        Choice::ReadY => {
            let (y, _) = around.below.ok_or(Damaged(Ground::Missing))?;
            let links = noted(&read_linked(table, y)?, None);
            let on = |y| SettlePhase::Double([notes[0], notes[1], notes[2], y]);
            Ok(quiet(links, |y| Phase::Settling(path, on(y))))
        }
        Choice::Commit(row) => commit(table, state, path, notes, &around, Ok(row)),
        Choice::NoMove(ground) => {
            let row = Err(Damaged(ground));
            commit(table, state, path, notes, &around, row)
        }
    }
}

/// Parent's rank less child's.
fn difference(parent: &Record, child: &Record) -> i64 {
    i64::from(parent.rank) - i64::from(child.rank)
}

/// z, s and x must be there; y and w only where z stands 2 or more above s.
fn choose(table: &[u32], path: Path, around: &Around, readings: usize) -> Result<Choice, Damaged> {
    let z = read(table, path.parent)?;
    let x = read_linked(table, path.here)?;
    let s = read_linked(table, around.s)?;
    Ok(match (difference(&z, &s), around.below) {
        (i64::MIN..=-1, _) => Choice::NoMove(Ground::SiblingOutranks),
        (0, _) => Choice::Commit(Row::PromoteOne),
        (1, _) => Choice::Commit(Row::PromoteTwo),
        (2.., None) => Choice::ReadX,
        (2.., Some((y, w))) => {
            let y = read_linked(table, y)?;
            let w = read_linked(table, w)?;
            rotation(difference(&x, &y), difference(&x, &w), readings)
        }
    })
}

/// The row of a rotation, by x minus y and x minus w.
fn rotation(x_minus_y: i64, x_minus_w: i64, readings: usize) -> Choice {
    match (x_minus_y, x_minus_w) {
        (i64::MIN..=-1, _) => Choice::NoMove(Ground::YOutranks),
        (_, i64::MIN..=-1) => Choice::NoMove(Ground::WOutranks),
        (2.., _) => Choice::Commit(Row::RotateOne),
        (1, 1) => Choice::Commit(Row::RotateTwo),
        (1, 2..) if readings < 4 => Choice::ReadY,
        (1, 2..) => Choice::Commit(Row::Double),
        _ => Choice::NoMove(Ground::NoRow),
    }
}

fn commit(
    table: &mut [u32],
    state: &mut State,
    path: Path,
    notes: &[Links],
    around: &Around,
    row: Result<Row, Damaged>,
) -> Result<Told, Damaged> {
    let seen = seen_by(table, path, notes, around)?;
    let x = read_linked(table, path.here)?;
    sound(all_differ(&seen), Ground::SameRecord)?;
    let led = notes[0].lead_to(path.parent) && notes[1].lead_to(path.here);
    sound(led, Ground::NotLedTo)?;
    sound(x.is_level_below(&seen[1].now), Ground::NotLevel)?;
    if !unchanged(&seen) {
        return Ok((Next::GoOn(Phase::Start(Goal::Settle)), None));
    }
    let row = row?;
    let change = Change {
        path,
        around,
        seen: &seen,
        x,
    };
    Ok(match change.make(table, row)? {
        Some(()) => {
            let side = around.side;
            let told = Some(Settled { row, side });
            (Next::GoOn(Phase::Start(Goal::Settle)), told)
        }
        None => {
            state.u += 1;
            (Next::End(Answer::PutInUnsettled), None)
        }
    })
}

/// The records read so far: pz, z, then x, then y.
fn seen_by(
    table: &[u32],
    path: Path,
    notes: &[Links],
    around: &Around,
) -> Result<Vec<Seen>, Damaged> {
    let mut slots = vec![path.grand, path.parent];
    if let Some((y, _)) = around.below {
        slots.extend([path.here, y]);
    }
    let seen = see(table, &slots, notes)?;
    // pz and z may be the entry; x and y hang on a link, which 0 is not.
    let linked = seen.iter().skip(2).all(|one| one.slot != 0);
    sound(linked, Ground::Missing)?;
    Ok(seen)
}

/// A settling commit whose test has held.
struct Change<'a> {
    path: Path,
    around: &'a Around,
    seen: &'a [Seen],
    x: Record,
}

/// A fresh copy keeps the fare number.
fn copy(old: &Record, rank: u32, links: Links) -> Record {
    Record {
        state: IN_TREE,
        number: old.number,
        price: old.price,
        rank,
        links,
    }
}

impl Change<'_> {
    /// `None`: too few slots.
    fn make(&self, table: &mut [u32], row: Row) -> Result<Option<()>, Damaged> {
        let (x, z) = (self.x.rank, self.z().rank);
        let top_rank = match row {
            Row::PromoteOne | Row::PromoteTwo => z + 1,
            Row::RotateOne | Row::Double => x,
            Row::RotateTwo => x + 1,
        };
        sound(top_rank <= LAST_RANK, Ground::RankAbove28)?;
        Ok(match row {
            Row::PromoteOne | Row::PromoteTwo => self.promote(table),
            Row::RotateOne => self.rotate(table, x, z - 1),
            Row::RotateTwo => self.rotate(table, x + 1, z),
            Row::Double => self.double(table),
        })
    }

    fn z(&self) -> &Record {
        &self.seen[1].now
    }

    /// Hang the new top under pz and take off the records it replaces.
    fn replace(&self, table: &mut [u32], top: u32, gone: &[u32]) {
        for &slot in gone {
            take_off(table, slot);
        }
        turn_link(table, &self.seen[0], self.path.parent, top);
    }

    fn promote(&self, table: &mut [u32]) -> Option<()> {
        let [top] = room(table)?;
        let z = self.z();
        set(table, top, copy(z, z.rank + 1, z.links));
        self.replace(table, top, &[self.path.parent]);
        Some(())
    }

    /// x on top, z below it on the side of s, y going over to z.
    fn rotate(&self, table: &mut [u32], x_rank: u32, z_rank: u32) -> Option<()> {
        let [top, below] = room(table)?;
        let (y, w) = self.around.below?;
        let side = self.around.side;
        let z_links = Links::sided(side, y, self.around.s);
        set(
            table,
            top,
            copy(&self.x, x_rank, Links::sided(side, w, below)),
        );
        set(table, below, copy(self.z(), z_rank, z_links));
        self.replace(table, top, &[self.path.parent, self.path.here]);
        Some(())
    }

    /// y on top, x on its own side below, z on the side of s.
    fn double(&self, table: &mut [u32]) -> Option<()> {
        let [top, left, right] = room(table)?;
        let (y_slot, w) = self.around.below?;
        let y = &self.seen[3].now;
        let side = self.around.side;
        let children = Links { left, right };
        let x_links = Links::sided(side, w, y.links.on(side));
        let z_links = Links::sided(side, y.links.on(side.other()), self.around.s);
        set(table, top, copy(y, y.rank + 1, children));
        set(
            table,
            children.on(side),
            copy(&self.x, self.x.rank - 1, x_links),
        );
        set(
            table,
            children.on(side.other()),
            copy(self.z(), self.z().rank - 1, z_links),
        );
        self.replace(table, top, &[self.path.parent, self.path.here, y_slot]);
        Some(())
    }
}
