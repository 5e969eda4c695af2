//! What a call answers, with document 01's number and price.

#[derive(Clone, Copy, Debug, PartialEq, Eq)]
pub enum Answer {
    /// Accepted, or the operation goes on.
    Accepted,
    Found {
        price: u32,
    },
    NotHeld,
    PutIn,
    HeldAlready,
    TakenOut,
    PutInUnsettled,
    TaskAboveSeven,
    OutOfRange,
    TaskBusy,
    TaskIdle,
    SomeTaskBusy,
    NoRoom,
    LimitReached,
    Damaged(Ground),
    BadLength,
    /// Only the program gives this one.
    BadCallRecord,
}

impl Answer {
    pub fn number(self) -> u32 {
        match self {
            Answer::Accepted => 0,
            Answer::Found { .. } => 1,
            Answer::NotHeld => 2,
            Answer::PutIn => 3,
            Answer::HeldAlready => 4,
            Answer::TakenOut => 5,
            Answer::PutInUnsettled => 6,
            Answer::TaskAboveSeven => 10,
            Answer::OutOfRange => 11,
            Answer::TaskBusy => 12,
            Answer::TaskIdle => 13,
            Answer::SomeTaskBusy => 14,
            Answer::NoRoom => 15,
            Answer::LimitReached => 16,
            Answer::Damaged(_) => 17,
            Answer::BadLength => 18,
            Answer::BadCallRecord => 19,
        }
    }

    /// 0 in every answer but "found".
    pub fn price(self) -> u32 {
        match self {
            Answer::Found { price } => price,
            _ => 0,
        }
    }
}

/// The grounds of answer 17. The answer is the same for all of them; they
/// are told apart only to count how often each one comes.
#[derive(Clone, Copy, Debug, PartialEq, Eq, PartialOrd, Ord)]
pub enum Ground {
    /// m is above 1,000,000.
    TooManyPutIns,
    /// u plus the settling tasks is above m.
    TooManyUnsettled,
    TaskNumber,
    TaskPrice,
    /// A record that the step must read hangs on a link of 0, or is no
    /// grandparent.
    Missing,
    Outside,
    NotWellFormed,
    ArrivalOutranks,
    SameRecord,
    NotLedTo,
    PutInLeaf,
    TakeOutLeaf,
    NotLevel,
    SiblingOutranks,
    YOutranks,
    WOutranks,
    RankAbove28,
    NoRow,
    ReachedNotWellFormed,
    ReachedTakenOff,
    ReachedTwice,
}

pub const GROUNDS: [(&str, Ground); 21] = [
    ("m-above-limit", Ground::TooManyPutIns),
    ("unsettled-above-m", Ground::TooManyUnsettled),
    ("task-number", Ground::TaskNumber),
    ("task-price", Ground::TaskPrice),
    ("missing", Ground::Missing),
    ("outside", Ground::Outside),
    ("not-well-formed", Ground::NotWellFormed),
    ("arrival-outranks", Ground::ArrivalOutranks),
    ("same-record", Ground::SameRecord),
    ("not-led-to", Ground::NotLedTo),
    ("put-in-leaf", Ground::PutInLeaf),
    ("take-out-leaf", Ground::TakeOutLeaf),
    ("not-level", Ground::NotLevel),
    ("s-outranks-z", Ground::SiblingOutranks),
    ("y-outranks-x", Ground::YOutranks),
    ("w-outranks-x", Ground::WOutranks),
    ("rank-above-28", Ground::RankAbove28),
    ("no-row", Ground::NoRow),
    ("reached-not-well-formed", Ground::ReachedNotWellFormed),
    ("reached-taken-off", Ground::ReachedTakenOff),
    ("reached-twice", Ground::ReachedTwice),
];

/// One ground of answer 17 holds. Rules that can meet damage give it as
/// their error, so that `?` ends them before anything has changed.
#[derive(Clone, Copy, Debug, PartialEq, Eq)]
pub struct Damaged(pub Ground);

/// `Ok` if the ground of a 17 does not hold.
pub fn sound(holds: bool, ground: Ground) -> Result<(), Damaged> {
    if holds {
        Ok(())
    } else {
        Err(Damaged(ground))
    }
}
