//! Reading a file of rides.

use super::facts::Fact;
use super::{Act, After, At, Damage, Line, Ride, Start, Trouble, Want};
use crate::line::{Parsed, Words};
use crate::table::Links;
use crate::task::{
    Busy, Goal, Operation, Path, Phase, PutPhase, SettlePhase, TakePhase, Task, NO_GRAND, TASKS,
};

const FIELDS: [&str; 6] = ["state", "number", "price", "rank", "left", "right"];
const MOST_STEPS: u32 = 65_535;
const MOST_ROOM: u32 = 65_536;
const MOST_LENGTH: u32 = 65_536;

pub fn parse(text: &str) -> Result<Vec<Ride>, Trouble> {
    let mut rides = Vec::new();
    let mut open: Option<Draft> = None;
    for (index, raw) in text.lines().enumerate() {
        let line = index + 1;
        let told = raw.split('#').next().unwrap_or("").trim();
        if let Some(title) = told.strip_prefix("ride ") {
            rides.extend(open.take().map(Draft::close).transpose()?);
            open = Some(Draft::new(title.trim(), line));
        } else if !told.is_empty() {
            let draft = open
                .as_mut()
                .ok_or_else(|| Trouble::new(line, "a line before the first ride"))?;
            draft
                .add(told, line)
                .map_err(|message| Trouble::new(line, message))?;
        }
    }
    rides.extend(open.take().map(Draft::close).transpose()?);
    first_starts_anew(&rides)?;
    Ok(rides)
}

/// Each file stands by itself.
fn first_starts_anew(rides: &[Ride]) -> Result<(), Trouble> {
    match rides.first() {
        None => Err(Trouble::new(1, "no ride in this file")),
        Some(ride) if matches!(ride.start, Start::Anew(_)) => Ok(()),
        Some(ride) => Err(Trouble::new(
            ride.lines[0].line,
            "the first ride of a file must start anew",
        )),
    }
}

/// A ride as far as it was read.
struct Draft {
    line: usize,
    title: String,
    start: Option<Start>,
    lines: Vec<At<Line>>,
    after: Option<At<After>>,
    wants: Vec<At<Want>>,
}

impl Draft {
    fn new(title: &str, line: usize) -> Draft {
        Draft {
            line,
            title: title.to_string(),
            start: None,
            lines: Vec::new(),
            after: None,
            wants: Vec::new(),
        }
    }

    fn add(&mut self, told: &str, line: usize) -> Parsed<()> {
        let mut words = Words::new(told);
        let first = words.word("first word")?;
        match first {
            "start" => self.set_start(&mut words)?,
            "after" => self.set_after(&mut words, line)?,
            "want" => {
                let what = want(&mut words)?;
                self.wants.push(At { line, what });
            }
            _ => {
                let what = line_of(first, &mut words)?;
                self.add_line(At { line, what })?;
            }
        }
        words.end()
    }

    fn set_start(&mut self, words: &mut Words) -> Parsed<()> {
        let start = start(words)?;
        match self.start.replace(start) {
            None if self.lines.is_empty() => Ok(()),
            _ => Err("start stands once, before the calls".into()),
        }
    }

    fn set_after(&mut self, words: &mut Words, line: usize) -> Parsed<()> {
        let what = after(words)?;
        match self.after.replace(At { line, what }) {
            None => Ok(()),
            Some(_) => Err("after stands once".into()),
        }
    }

    fn add_line(&mut self, line: At<Line>) -> Parsed<()> {
        if self.start.is_none() || self.after.is_some() {
            return Err("a call or damage stands between start and after".into());
        }
        self.lines.push(line);
        Ok(())
    }

    fn close(self) -> Result<Ride, Trouble> {
        let lacks = |what: &str| Trouble::new(self.line, format!("this ride has no {what}"));
        let start = self.start.ok_or_else(|| lacks("start"))?;
        let after = self.after.clone().ok_or_else(|| lacks("after"))?;
        let last = self.lines.last().ok_or_else(|| lacks("call"))?;
        same_is_clear(&after, last)?;
        Ok(Ride {
            title: self.title,
            start,
            after,
            lines: self.lines,
            wants: self.wants,
        })
    }
}

/// "Before the last call" must be one moment: no steps before it in its line.
fn same_is_clear(after: &At<After>, last: &At<Line>) -> Result<(), Trouble> {
    let clear = match last.what {
        Line::Damage(_) => false,
        Line::Call {
            act: Act::Step { count, .. },
            ..
        } => count == 1,
        Line::Call { .. } => true,
    };
    if clear || after.what == After::Left {
        Ok(())
    } else {
        let message = "after same needs a last line that is one call or one step";
        Err(Trouble::new(after.line, message))
    }
}

fn links<const N: usize>(words: &mut Words) -> Parsed<[Links; N]> {
    let mut links = [Links::NONE; N];
    for one in &mut links {
        one.left = words.number("left link")?;
        one.right = words.number("right link")?;
    }
    Ok(links)
}

fn start(words: &mut Words) -> Parsed<Start> {
    match words.word("anew, then or beside")? {
        "anew" => Ok(Start::Anew(words.between("slot count", 8..=4096)?)),
        "then" => Ok(Start::Onward),
        "beside" => Ok(Start::Beside),
        word => Err(format!("start is anew N, then or beside, not `{word}`")),
    }
}

fn after(words: &mut Words) -> Parsed<After> {
    match words.word("same or left")? {
        "same" => Ok(After::Same),
        "left" => Ok(After::Left),
        word => Err(format!("after is same or left, not `{word}`")),
    }
}

fn want(words: &mut Words) -> Parsed<Want> {
    let word = words.word("fact")?;
    let fact = Fact::named(word).ok_or_else(|| format!("no fact is named `{word}`"))?;
    let mut numbers = Vec::new();
    while !words.is_spent() {
        numbers.push(words.number("number")?);
    }
    Ok(Want { fact, numbers })
}

fn line_of(first: &str, words: &mut Words) -> Parsed<Line> {
    if first == "damage" {
        return Ok(Line::Damage(damage(words)?));
    }
    let act = act(first, words)?;
    words.expect("->")?;
    let answer = words.number("answer")?;
    let price = if words.is_spent() {
        0
    } else {
        words.number("price")?
    };
    Ok(Line::Call { act, answer, price })
}

fn act(first: &str, words: &mut Words) -> Parsed<Act> {
    match first {
        "look" => begin(Operation::LookUp, words),
        "put" => begin(Operation::PutIn, words),
        "take" => begin(Operation::TakeOut, words),
        "step" => {
            let task = words.number("task")?;
            let count = words.between("count", 1..=MOST_STEPS)?;
            Ok(Act::Step { task, count })
        }
        "abandon" => Ok(Act::Abandon {
            task: words.number("task")?,
        }),
        "tidy" => Ok(Act::Tidy),
        "figures" => Ok(Act::Figures),
        "list" => Ok(Act::List {
            room: words.between("room", 0..=MOST_ROOM)?,
        }),
        word => Err(format!("no call is named `{word}`")),
    }
}

/// The price may be left out where it is 0.
fn begin(operation: Operation, words: &mut Words) -> Parsed<Act> {
    let number = words.number("fare number")?;
    let price = if words.take("at") {
        words.number("price")?
    } else {
        0
    };
    words.expect("by")?;
    Ok(Act::Begin {
        task: words.number("task")?,
        operation,
        number,
        price,
    })
}

fn damage(words: &mut Words) -> Parsed<Damage> {
    match words.word("what is damaged")? {
        "slot" => {
            let slot = words.number("slot")?;
            let name = words.word("field")?;
            let field = FIELDS.iter().position(|one| *one == name);
            Ok(Damage::Field {
                slot,
                field: field.ok_or_else(|| format!("no field is named `{name}`"))?,
                value: words.number("value")?,
            })
        }
        "m" => Ok(Damage::M(words.number("m")?)),
        "u" => Ok(Damage::U(words.number("u")?)),
        "length" => Ok(Damage::Length(words.between("length", 0..=MOST_LENGTH)?)),
        "task" => {
            let task = words.between("task", 0..=TASKS as u32 - 1)? as usize;
            let left = task_state(words)?;
            Ok(Damage::Task { task, left })
        }
        word => Err(format!("`{word}` cannot be damaged")),
    }
}

fn task_state(words: &mut Words) -> Parsed<Task> {
    if words.take("idle") {
        return Ok(Task::Idle);
    }
    let number = words.number("fare number")?;
    let price = words.number("price")?;
    let phase = match words.word("what the task does")? {
        "start" => Phase::Start(goal(words)?),
        "walk" => {
            let goal = goal(words)?;
            Phase::Walk(goal, path(words)?)
        }
        "put" => Phase::PuttingIn(path(words)?, put_phase(words)?),
        "take" => Phase::TakingOut(path(words)?, take_phase(words)?),
        "settle" => Phase::Settling(path(words)?, settle_phase(words)?),
        word => return Err(format!("no task does `{word}`")),
    };
    Ok(Task::Busy(Busy {
        number,
        price,
        phase,
    }))
}

fn goal(words: &mut Words) -> Parsed<Goal> {
    match words.word("what the walk is for")? {
        "look" => Ok(Goal::Serve(Operation::LookUp)),
        "put" => Ok(Goal::Serve(Operation::PutIn)),
        "take" => Ok(Goal::Serve(Operation::TakeOut)),
        "settle" => Ok(Goal::Settle),
        word => Err(format!("no walk is made for `{word}`")),
    }
}

fn path(words: &mut Words) -> Parsed<Path> {
    let grand = if words.take("none") {
        NO_GRAND
    } else {
        words.number("grandparent")?
    };
    Ok(Path {
        grand,
        parent: words.number("parent")?,
        here: words.number("record here")?,
    })
}

fn put_phase(words: &mut Words) -> Parsed<PutPhase> {
    match words.word("stage")? {
        "parent" => Ok(PutPhase::Parent),
        "leaf" => Ok(PutPhase::Leaf(links(words)?)),
        "commit" => Ok(PutPhase::Commit(links(words)?)),
        word => Err(format!("a put-in has no `{word}`")),
    }
}

fn take_phase(words: &mut Words) -> Parsed<TakePhase> {
    match words.word("stage")? {
        "grand" => Ok(TakePhase::Grand),
        "parent" => Ok(TakePhase::Parent(links(words)?)),
        "left" => Ok(TakePhase::Left(links(words)?)),
        "right" => Ok(TakePhase::Right(links(words)?)),
        "commit" => Ok(TakePhase::Commit(links(words)?)),
        word => Err(format!("a take-out has no `{word}`")),
    }
}

fn settle_phase(words: &mut Words) -> Parsed<SettlePhase> {
    match words.word("stage")? {
        "grand" => Ok(SettlePhase::Grand),
        "parent" => Ok(SettlePhase::Parent(links(words)?)),
        "choose" => Ok(SettlePhase::Choose(links(words)?)),
        "rotate" => Ok(SettlePhase::Rotate(links(words)?)),
        "double" => Ok(SettlePhase::Double(links(words)?)),
        word => Err(format!("settling has no `{word}`")),
    }
}
