//! The tree as indented text.

use std::fmt::Write;

use super::{name, plural, tasks, Scene};
use crate::reach::Reached;
use crate::table::{Record, NO_LINK};

pub fn print(scene: &Scene) -> String {
    let mut out = scene.title() + "\n\n";
    out.push_str(&tree(scene));
    out.push('\n');
    out.push_str(&taken_off(scene));
    out.push('\n');
    out.push_str(&busy_tasks(scene));
    out
}

fn tree(scene: &Scene) -> String {
    let drawn = drawn(&scene.nodes);
    let width = widest(drawn.iter());
    let mut out = format!("{:width$}  rank  slot\n", "");
    for (node, told) in scene.nodes.iter().zip(&drawn) {
        let Record { rank, .. } = node.record;
        let row = format!("{told:<width$}  {rank:>4}  {:>4}", node.slot);
        push_row(&mut out, &row, &notes(scene, node.slot, node.level));
    }
    out
}

/// Every record behind the lines that join it to the one above.
fn drawn(nodes: &[Reached]) -> Vec<String> {
    // For each record on the way from the entry: whether it comes last below its parent.
    let mut way: Vec<bool> = Vec::new();
    let mut above: Vec<&Record> = Vec::new();
    let mut out = Vec::new();
    for node in nodes {
        let depth = node.links as usize;
        way.truncate(depth);
        above.truncate(depth);
        let last = above
            .last()
            .is_none_or(|parent| parent.links.right == NO_LINK || parent.links.right == node.slot);
        let mut told: String = way
            .iter()
            .skip(1)
            .map(|&last| if last { "   " } else { "│  " })
            .collect();
        if depth > 0 {
            told.push_str(if last { "└─ " } else { "├─ " });
        }
        out.push(told + &name(node.slot, &node.record));
        way.push(last);
        above.push(&node.record);
    }
    out
}

/// In characters, not bytes.
fn widest<'a>(told: impl Iterator<Item = &'a String>) -> usize {
    told.map(|one| one.chars().count()).max().unwrap_or(0)
}

fn push_row(out: &mut String, row: &str, notes: &str) {
    // Writing to a string cannot fail.
    let _ = writeln!(out, "{}", format!("{row}  {notes}").trim_end());
}

fn notes(scene: &Scene, slot: u32, level: bool) -> String {
    let mut notes = Vec::new();
    if level {
        notes.push("level".to_string());
    }
    let tasks = scene.tasks_at(slot);
    notes.extend(tasks.iter().map(|task| format!("task {task} is here")));
    notes.join(", ")
}

fn taken_off(scene: &Scene) -> String {
    if scene.taken_off.is_empty() {
        return "No slot is taken off.\n".into();
    }
    let mut out = format!("Taken off, {}:\n", plural(scene.taken_off.len(), "slot"));
    let names: Vec<String> = scene
        .taken_off
        .iter()
        .map(|(slot, record)| name(*slot, record))
        .collect();
    let width = widest(names.iter());
    for ((slot, record), name) in scene.taken_off.iter().zip(&names) {
        let links = if record.is_leaf() {
            String::new()
        } else {
            format!(
                "  links to {} and {}",
                record.links.left, record.links.right
            )
        };
        let row = format!(
            "  slot {slot:>4}  {name:<width$}  rank {:>3}{links}",
            record.rank
        );
        push_row(&mut out, &row, &notes(scene, *slot, false));
    }
    out
}

fn busy_tasks(scene: &Scene) -> String {
    if scene.tasks.is_empty() {
        return "All tasks are idle.\n".into();
    }
    let told = scene
        .tasks
        .iter()
        .map(|(task, busy)| format!("  task {task}  {}\n", tasks::told(busy)));
    "Busy tasks:\n".to_string() + &told.collect::<String>()
}
