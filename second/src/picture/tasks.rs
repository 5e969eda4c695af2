//! A busy task in words: what it was asked, and where it stands.

use crate::task::{Busy, Goal, Operation, Path, Phase, PutPhase, SettlePhase, TakePhase};
use crate::words::cents;

pub fn told(busy: &Busy) -> String {
    format!("{}: {}", errand(busy), standing(&busy.phase))
}

fn errand(busy: &Busy) -> String {
    let Busy { number, price, .. } = *busy;
    match busy.phase.goal() {
        Goal::Serve(Operation::LookUp) => format!("look up {number}"),
        Goal::Serve(Operation::PutIn) => format!("put in {number} at {}", cents(price)),
        Goal::Serve(Operation::TakeOut) => format!("take out {number}"),
        Goal::Settle => format!("settle {number}"),
    }
}

fn standing(phase: &Phase) -> String {
    let (path, next) = match *phase {
        Phase::Start(_) => return "about to walk from the entry".into(),
        Phase::Walk(_, path) => (path, "walks on".into()),
        Phase::PuttingIn(path, phase) => (path, next_of_put(path, phase)),
        Phase::TakingOut(path, phase) => (path, next_of_take(path, phase)),
        Phase::Settling(path, phase) => (path, next_of_settle(path, phase)),
    };
    format!("at slot {}, {next}", path.here)
}

fn reads(what: &str, slot: u32) -> String {
    format!("next reads the {what}, slot {slot}")
}

fn next_of_put(path: Path, phase: PutPhase) -> String {
    match phase {
        PutPhase::Parent => reads("parent", path.parent),
        PutPhase::Leaf(_) => reads("leaf", path.here),
        PutPhase::Commit(_) => "next commits".into(),
    }
}

fn next_of_take(path: Path, phase: TakePhase) -> String {
    match phase {
        TakePhase::Grand => reads("grandparent", path.grand),
        TakePhase::Parent(_) => reads("parent", path.parent),
        TakePhase::Left([_, parent]) => reads("left child", parent.left),
        TakePhase::Right([_, parent, _]) => reads("right child", parent.right),
        TakePhase::Commit(_) => "next commits".into(),
    }
}

fn next_of_settle(path: Path, phase: SettlePhase) -> String {
    match phase {
        SettlePhase::Grand => reads("grandparent pz", path.grand),
        SettlePhase::Parent(_) => reads("parent z", path.parent),
        SettlePhase::Choose(_) => "next promotes z or reads x".into(),
        SettlePhase::Rotate(_) => "next rotates or reads y".into(),
        SettlePhase::Double(_) => "next rotates twice".into(),
    }
}
