//! Printing rides as one list of records in the prover's notation.

use std::fmt::Write;

use super::facts::Fact;
use super::{Act, After, Damage, Line, Ridden, Ride, Start, World};
use crate::reach::{figures, list};
use crate::table::{Links, WIDTH};
use crate::task::{Busy, Goal, Operation, Path, Phase, PutPhase, SettlePhase, TakePhase, Task};

/// Lines are kept about this wide; a longer list of numbers has rows.
const WIDEST: usize = 140;
const ROW: usize = 10;

/// All rides as one list.
pub fn print(rides: &[(Ride, Ridden)]) -> String {
    let mut out = String::new();
    for (place, (ride, ridden)) in rides.iter().enumerate() {
        let cons = if place == 0 { "" } else { "∷ " };
        // Writing to a string cannot fail.
        let _ = writeln!(out, "    -- {}", ride.title);
        let _ = writeln!(out, "    {cons}record {{");
        let _ = writeln!(out, "      start = {};", start(ride.start));
        let _ = writeln!(out, "      lines =");
        let lines: Vec<String> = ride.lines.iter().map(|at| line(&at.what)).collect();
        rows(&mut out, "          ", &lines);
        after(&mut out, ride.after.what, ridden);
        let _ = writeln!(out, "    }}");
    }
    out.push_str(if rides.is_empty() {
        "    []\n"
    } else {
        "    ∷ []\n"
    });
    out
}

fn start(start: Start) -> String {
    match start {
        Start::Anew(slots) => format!("anew {slots}"),
        Start::Onward => "onward".into(),
        Start::Beside => "beside".into(),
    }
}

/// A list with one item a line, and the semicolon behind it.
fn rows(out: &mut String, indent: &str, items: &[String]) {
    for (place, item) in items.iter().enumerate() {
        let cons = if place == 0 { "" } else { "∷ " };
        let _ = writeln!(out, "{indent}{cons}{item}");
    }
    let end = if items.is_empty() { "[];" } else { "∷ [];" };
    let _ = writeln!(out, "{indent}{end}");
}

/// A field that is a list of numbers, on one line if it is short.
fn numbers(out: &mut String, name: &str, items: &[u32]) {
    let mut words: Vec<String> = items.iter().map(u32::to_string).collect();
    words.push("[]".into());
    let line = format!("            {name} = {};", words.join(" ∷ "));
    if line.chars().count() <= WIDEST {
        let _ = writeln!(out, "{line}");
        return;
    }
    let _ = writeln!(out, "            {name} =");
    let rows: Vec<String> = words.chunks(ROW).map(|row| row.join(" ∷ ")).collect();
    let _ = writeln!(
        out,
        "                {};",
        rows.join("\n                ∷ ")
    );
}

fn after(out: &mut String, after: After, ridden: &Ridden) {
    if after == After::Same {
        let _ = writeln!(out, "      after = same;");
        return;
    }
    let _ = writeln!(out, "      after =");
    let _ = writeln!(out, "          left (record {{");
    for (name, fact) in [
        ("used", Fact::Used),
        ("root", Fact::Root),
        ("settled", Fact::Settled),
        ("busy", Fact::Busy),
    ] {
        let found = fact.of(ridden);
        match fact {
            Fact::Used => {
                let _ = writeln!(out, "            used = {};", found[0]);
            }
            _ => numbers(out, name, &found),
        }
    }
    numbers(out, "fares", &listed(&ridden.end));
    numbers(out, "figures", &figured(&ridden.end));
    let _ = writeln!(out, "            table =");
    rows(out, "                ", &slots(&ridden.end.table));
    let _ = writeln!(out, "          }});");
}

/// The answer of a list with room enough, then number and price of each fare.
fn listed(end: &World) -> Vec<u32> {
    let mut lent = vec![0; end.table.len()];
    let answer = list(&end.table, &end.state, &mut lent).number();
    let fares = figures(&end.table, &end.state).1.fares as usize;
    let mut all = vec![answer];
    all.extend(&lent[..2 * fares]);
    all
}

fn figured(end: &World) -> Vec<u32> {
    let (answer, figures) = figures(&end.table, &end.state);
    let mut all = vec![answer.number()];
    all.extend(figures.numbers());
    all
}

/// The slots up to the last one that is not all zero.
fn slots(table: &[u32]) -> Vec<String> {
    let all: Vec<&[u32]> = table.chunks_exact(WIDTH).collect();
    let used = all
        .iter()
        .rposition(|slot| slot.iter().any(|&cell| cell != 0))
        .map_or(0, |last| last + 1);
    let told = |slot: &&[u32]| {
        let cells: Vec<String> = slot.iter().map(|cell| cell.to_string()).collect();
        format!("rec {}", cells.join(" "))
    };
    all[..used].iter().map(told).collect()
}

fn line(line: &Line) -> String {
    match line {
        Line::Call { act, answer, price } => format!("call {} {answer} {price}", told_act(act)),
        Line::Damage(damage) => format!("damage {}", told_damage(damage)),
    }
}

fn told_act(act: &Act) -> String {
    match *act {
        Act::Begin {
            task,
            operation,
            number,
            price,
        } => format!("(begin {task} {} {number} {price})", named(operation)),
        Act::Step { task, count } => format!("(step {task} {count})"),
        Act::Abandon { task } => format!("(abandon {task})"),
        Act::Tidy => "tidy".into(),
        Act::Figures => "figures".into(),
        Act::List { room } => format!("(list {room})"),
    }
}

fn named(operation: Operation) -> &'static str {
    match operation {
        Operation::LookUp => "LookUp",
        Operation::PutIn => "PutIn",
        Operation::TakeOut => "TakeOut",
    }
}

fn told_damage(damage: &Damage) -> String {
    match *damage {
        Damage::Field { slot, field, value } => format!("(field {slot} {field} {value})"),
        Damage::M(m) => format!("(m_is {m})"),
        Damage::U(u) => format!("(u_is {u})"),
        Damage::Length(length) => format!("(length_is {length})"),
        Damage::Task { task, left } => format!("(task_is {task} {})", told_task(left)),
    }
}

fn told_task(task: Task) -> String {
    match task {
        Task::Idle => "idle_task".into(),
        Task::Busy(Busy {
            number,
            price,
            phase,
        }) => format!("(busy {number} {price} {})", told_phase(phase)),
    }
}

fn told_phase(phase: Phase) -> String {
    match phase {
        Phase::Start(goal) => format!("(Start {})", told_goal(goal)),
        Phase::Walk(goal, path) => format!("(Walk {} {})", told_goal(goal), told_path(path)),
        Phase::PuttingIn(path, phase) => {
            format!("(PuttingIn {} {})", told_path(path), told_put(phase))
        }
        Phase::TakingOut(path, phase) => {
            format!("(TakingOut {} {})", told_path(path), told_take(phase))
        }
        Phase::Settling(path, phase) => {
            format!("(Settling {} {})", told_path(path), told_settle(phase))
        }
    }
}

fn told_goal(goal: Goal) -> String {
    match goal {
        Goal::Serve(operation) => format!("(Serve {})", named(operation)),
        Goal::Settle => "Settle".into(),
    }
}

/// "No grandparent" is kept as a number, so it prints as that number.
fn told_path(path: Path) -> String {
    format!("(path {} {} {})", path.grand, path.parent, path.here)
}

fn with_notes(name: &str, notes: &[Links]) -> String {
    let told = |one: &Links| format!(" (links {} {})", one.left, one.right);
    let notes: String = notes.iter().map(told).collect();
    format!("({name}{notes})")
}

fn told_put(phase: PutPhase) -> String {
    match phase {
        PutPhase::Parent => "PutParent".into(),
        PutPhase::Leaf(notes) => with_notes("PutLeaf", &notes),
        PutPhase::Commit(notes) => with_notes("PutCommit", &notes),
    }
}

fn told_take(phase: TakePhase) -> String {
    match phase {
        TakePhase::Grand => "TakeGrand".into(),
        TakePhase::Parent(notes) => with_notes("TakeParent", &notes),
        TakePhase::Left(notes) => with_notes("TakeLeft", &notes),
        TakePhase::Right(notes) => with_notes("TakeRight", &notes),
        TakePhase::Commit(notes) => with_notes("TakeCommit", &notes),
    }
}

fn told_settle(phase: SettlePhase) -> String {
    match phase {
        SettlePhase::Grand => "SettleGrand".into(),
        SettlePhase::Parent(notes) => with_notes("SettleParent", &notes),
        SettlePhase::Choose(notes) => with_notes("SettleChoose", &notes),
        SettlePhase::Rotate(notes) => with_notes("SettleRotate", &notes),
        SettlePhase::Double(notes) => with_notes("SettleDouble", &notes),
    }
}
