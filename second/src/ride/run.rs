//! Running rides and comparing.

use super::{Act, After, At, Damage, Line, Ridden, Ride, Start, Trouble, World};
use crate::answer::Answer;
use crate::calls::{abandon, begin};
use crate::reach::{figures, list, tidy};
use crate::step::step_told;
use crate::table::{whole_slots, WIDTH};
use crate::task::Task;

/// Runs the rides of one file in order.
pub fn run_all(rides: &[Ride]) -> Result<Vec<Ridden>, Trouble> {
    let mut all: Vec<Ridden> = Vec::new();
    for ride in rides {
        let ridden = run(ride, all.last())?;
        all.push(ridden);
    }
    Ok(all)
}

/// Runs one ride. The first ride of a file starts anew, so `before` is there
/// wherever it is needed.
fn run(ride: &Ride, before: Option<&Ridden>) -> Result<Ridden, Trouble> {
    let start = match (ride.start, before) {
        (Start::Anew(slots), _) => World::anew(slots),
        (Start::Onward, Some(before)) => before.end.clone(),
        (Start::Beside, Some(before)) => before.start.clone(),
        (_, None) => return Err(Trouble::new(0, "no ride before this one")),
    };
    let mut ridden = Ridden {
        end: start.clone(),
        start,
        settled: Vec::new(),
    };
    let mut before_last = ridden.end.clone();
    for line in &ride.lines {
        match line.what {
            Line::Damage(damage) => hurt(&mut ridden.end, damage, line.line)?,
            Line::Call { act, answer, price } => {
                before_last = ridden.end.clone();
                let got = call_line(&mut ridden, act, line.line)?;
                compare_answers(line.line, act, (answer, price), &got)?;
            }
        }
    }
    compare_end(ride, &ridden, &before_last)?;
    Ok(ridden)
}

/// The answers of a line in order: one, or one for each step made.
fn call_line(ridden: &mut Ridden, act: Act, line: usize) -> Result<Vec<Answer>, Trouble> {
    let times = match act {
        Act::Step { count, .. } => count,
        _ => 1,
    };
    let mut answers = Vec::new();
    for _ in 0..times {
        let before = ridden.end.clone();
        let answer = call(ridden, act);
        if let Some(promise) = broken_promise(act, answer, &before, &ridden.end) {
            return Err(Trouble::new(line, promise));
        }
        answers.push(answer);
        if answer != Answer::Accepted {
            break;
        }
    }
    Ok(answers)
}

fn call(ridden: &mut Ridden, act: Act) -> Answer {
    let World { table, state } = &mut ridden.end;
    match act {
        Act::Begin {
            task,
            operation,
            number,
            price,
        } => begin(table, state, task, operation, number, price),
        Act::Step { task, .. } => {
            let (answer, told) = step_told(table, state, task);
            ridden.settled.extend(told.map(|one| one.code()));
            answer
        }
        Act::Abandon { task } => abandon(table, state, task),
        Act::Tidy => tidy(table, state),
        Act::Figures => figures(table, state).0,
        Act::List { room } => list(table, state, &mut vec![0; room as usize]),
    }
}

/// What the answer's row in document 01 says of table and state.
fn broken_promise(act: Act, answer: Answer, before: &World, now: &World) -> Option<String> {
    let number = answer.number();
    let kept = match (number, act) {
        (10..=14 | 17 | 18, _) => now == before,
        (15 | 16, Act::Step { task, .. }) => {
            let mut idle = before.clone();
            idle.state.tasks[task as usize] = Task::Idle;
            *now == idle
        }
        (15, _) => now == before,
        (1..=6, Act::Step { task, .. }) => now.state.tasks[task as usize] == Task::Idle,
        _ => true,
    };
    (!kept).then(|| format!("answer {number} left something else than it promises"))
}

/// Every step before the last answers 0, and the count is exact.
fn compare_answers(
    line: usize,
    act: Act,
    wanted: (u32, u32),
    got: &[Answer],
) -> Result<(), Trouble> {
    let last = got.last().map_or((0, 0), |one| (one.number(), one.price()));
    if let Act::Step { count, .. } = act {
        if got.len() < count as usize {
            let message = format!(
                "wanted {count} steps, got answer {} at step {}",
                last.0,
                got.len()
            );
            return Err(Trouble::new(line, message));
        }
    }
    if last == wanted {
        return Ok(());
    }
    let told = |(answer, price): (u32, u32)| format!("answer {answer} price {price}");
    let message = format!("wanted {}, got {}", told(wanted), told(last));
    Err(Trouble::new(line, message))
}

fn hurt(world: &mut World, damage: Damage, line: usize) -> Result<(), Trouble> {
    match damage {
        Damage::Field { slot, field, value } => {
            if slot >= whole_slots(&world.table) {
                return Err(Trouble::new(line, format!("the table has no slot {slot}")));
            }
            world.table[slot as usize * WIDTH + field] = value;
        }
        Damage::M(m) => world.state.m = m,
        Damage::U(u) => world.state.u = u,
        Damage::Length(length) => world.table.resize(length as usize, 0),
        Damage::Task { task, left } => world.state.tasks[task] = left,
    }
    Ok(())
}

fn compare_end(ride: &Ride, ridden: &Ridden, before_last: &World) -> Result<(), Trouble> {
    let At { line, what } = ride.after;
    if what == After::Same && ridden.end != *before_last {
        return Err(Trouble::new(line, "wanted the same, got a change"));
    }
    for want in &ride.wants {
        let got = want.what.fact.of(ridden);
        if got != want.what.numbers {
            let message = format!("wanted {:?}, got {got:?}", want.what.numbers);
            return Err(Trouble::new(want.line, message));
        }
    }
    Ok(())
}
