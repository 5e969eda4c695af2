//! The tree as an SVG picture.

use std::fmt::Write;

use super::{tasks, Scene};
use crate::reach::Reached;
use crate::table::{Record, ENTRY, NO_LINK};

// All lengths are in pixels.
const MARGIN: u32 = 24;
const BOX_WIDTH: u32 = 52;
const BOX_HEIGHT: u32 = 46;
/// From one leaf to the next, and from one row of the tree to the next.
const COLUMN: u32 = BOX_WIDTH + 6;
const ROW: u32 = BOX_HEIGHT + 30;
const LINE: u32 = 18;
const NARROWEST: u32 = 840;

pub fn print(scene: &Scene) -> String {
    let places = places(&scene.nodes);
    let right = places.iter().map(|place| place.x).max().unwrap_or(0);
    let mut page = Page {
        width: NARROWEST.max(right + BOX_WIDTH / 2 + MARGIN),
        y: MARGIN + 16,
        body: String::new(),
    };
    let title = scene.title();
    page.text(MARGIN, page.y, "title", &title);
    page.y += 24;
    draw_tree(&mut page, scene, &places);
    draw_taken_off(&mut page, scene);
    draw_tasks(&mut page, scene);
    draw_legend(&mut page);
    page.whole(&title)
}

// --- the page

/// What was drawn so far, down to `y`.
struct Page {
    width: u32,
    y: u32,
    body: String,
}

const STYLE: &str = "text { font-family: 'DejaVu Sans', Arial, sans-serif; font-size: 11px; text-anchor: middle; fill: #222 }
.title { font-size: 16px; font-weight: bold; text-anchor: start }
.head { font-size: 13px; font-weight: bold; text-anchor: start }
.line { font-size: 12px; text-anchor: start }
.number { font-size: 12px; font-weight: bold }
.slot { font-size: 9px; fill: #666 }
.task { font-size: 10px; font-weight: bold; fill: #b00020 }
path { stroke: #888; fill: none }
.inner { fill: #dbe9f6; stroke: #34658f }
.fare { fill: #e6f2e1; stroke: #4c8a3a }
.level { fill: #ffd08a; stroke: #c76a00; stroke-width: 2 }
.sentinel { fill: #fff; stroke: #777; stroke-dasharray: 4 3 }
.off { fill: #e4e4e4; stroke: #aaa }
";

impl Page {
    fn add(&mut self, element: std::fmt::Arguments) {
        // Writing to a string cannot fail.
        let _ = writeln!(self.body, "{element}");
    }

    /// None of the texts has a character that SVG would take for its own.
    fn text(&mut self, x: u32, y: u32, class: &str, told: &str) {
        self.add(format_args!(
            "<text x=\"{x}\" y=\"{y}\" class=\"{class}\">{told}</text>"
        ));
    }

    fn rectangle(&mut self, x: u32, y: u32, width: u32, height: u32, kind: Kind) {
        let (class, round) = (kind.class(), kind.round());
        self.add(format_args!(
            "<rect x=\"{x}\" y=\"{y}\" width=\"{width}\" height=\"{height}\" rx=\"{round}\" class=\"{class}\"/>"
        ));
    }

    fn head(&mut self, told: &str) {
        self.y += 28;
        self.text(MARGIN, self.y, "head", told);
        self.y += 10;
    }

    fn whole(&self, title: &str) -> String {
        let (width, height) = (self.width, self.y + MARGIN);
        format!(
            "<svg xmlns=\"http://www.w3.org/2000/svg\" width=\"{width}\" height=\"{height}\" viewBox=\"0 0 {width} {height}\">\n\
             <title>{title}</title>\n<style>\n{STYLE}</style>\n\
             <rect width=\"100%\" height=\"100%\" fill=\"#fff\"/>\n{}</svg>\n",
            self.body
        )
    }
}

// --- records

#[derive(Clone, Copy)]
enum Kind {
    Inner,
    Fare,
    Level,
    Sentinel,
    Off,
}

impl Kind {
    fn class(self) -> &'static str {
        match self {
            Kind::Inner => "inner",
            Kind::Fare => "fare",
            Kind::Level => "level",
            Kind::Sentinel => "sentinel",
            Kind::Off => "off",
        }
    }

    /// Inner records have round corners.
    fn round(self) -> u32 {
        match self {
            Kind::Inner | Kind::Level => 14,
            _ => 2,
        }
    }

    fn of(node: &Reached) -> Kind {
        if node.level {
            Kind::Level
        } else if node.record.is_sentinel() {
            Kind::Sentinel
        } else if node.record.is_leaf() {
            Kind::Fare
        } else {
            Kind::Inner
        }
    }
}

/// Where a record stands: the middle of its upper edge.
#[derive(Clone, Copy)]
struct Place {
    x: u32,
    y: u32,
}

fn draw_record(page: &mut Page, scene: &Scene, at: Place, slot: u32, record: &Record, kind: Kind) {
    let Place { x, y } = at;
    page.rectangle(x - BOX_WIDTH / 2, y, BOX_WIDTH, BOX_HEIGHT, kind);
    let (first, second) = if slot == ENTRY {
        ("entry".into(), String::new())
    } else if record.is_sentinel() {
        ("sentinel".into(), String::new())
    } else if record.is_leaf() {
        (record.number.to_string(), format!("{} ct", record.price))
    } else {
        (record.number.to_string(), format!("rank {}", record.rank))
    };
    let class = if record.is_sentinel() { "" } else { "number" };
    page.text(x, y + 15, class, &first);
    page.text(x, y + 28, "", &second);
    page.text(x, y + 41, "slot", &format!("slot {slot}"));
    let here: Vec<String> = scene
        .tasks_at(slot)
        .iter()
        .map(|task| format!("t{task}"))
        .collect();
    if !here.is_empty() {
        page.text(x, y + BOX_HEIGHT + 11, "task", &here.join(" "));
    }
}

// --- the tree

/// Leaves stand side by side, every other record above the middle of those below it.
fn places(nodes: &[Reached]) -> Vec<Place> {
    let mut places: Vec<Place> = nodes
        .iter()
        .map(|node| Place {
            x: 0,
            y: node.links * ROW,
        })
        .collect();
    let mut x = MARGIN + BOX_WIDTH / 2;
    for (place, node) in places.iter_mut().zip(nodes) {
        if node.record.is_leaf() {
            place.x = x;
            x += COLUMN;
        }
    }
    // From the back, so that what is below comes first.
    for index in (0..nodes.len()).rev() {
        let below = below(nodes, index);
        if !below.is_empty() {
            let sum: u32 = below.iter().map(|&one| places[one].x).sum();
            places[index].x = sum / below.len() as u32;
        }
    }
    places
}

/// The children of a record, by their places in the list.
fn below(nodes: &[Reached], index: usize) -> Vec<usize> {
    let links = nodes[index].record.links;
    let find = |slot| nodes.iter().position(|node| node.slot == slot);
    let linked = [links.left, links.right]
        .into_iter()
        .filter(|&slot| slot != NO_LINK);
    linked.filter_map(find).collect()
}

fn draw_tree(page: &mut Page, scene: &Scene, places: &[Place]) {
    let top = page.y;
    let nodes = &scene.nodes;
    for (index, from) in places.iter().enumerate() {
        for one in below(nodes, index) {
            let to = places[one];
            let (from_y, to_y) = (top + from.y + BOX_HEIGHT, top + to.y);
            page.add(format_args!(
                "<path d=\"M{} {from_y} L{} {to_y}\"/>",
                from.x, to.x
            ));
        }
    }
    for (node, place) in nodes.iter().zip(places) {
        let at = Place {
            x: place.x,
            y: top + place.y,
        };
        draw_record(page, scene, at, node.slot, &node.record, Kind::of(node));
        page.y = page.y.max(at.y + ROW);
    }
}

// --- below the tree

fn draw_taken_off(page: &mut Page, scene: &Scene) {
    if scene.taken_off.is_empty() {
        page.head("No slot is taken off");
        return;
    }
    page.head("Taken off");
    let in_a_row = ((page.width - 2 * MARGIN) / COLUMN) as usize;
    for row in scene.taken_off.chunks(in_a_row) {
        let mut at = Place {
            x: MARGIN + BOX_WIDTH / 2,
            y: page.y,
        };
        for (slot, record) in row {
            draw_record(page, scene, at, *slot, record, Kind::Off);
            at.x += COLUMN;
        }
        page.y += BOX_HEIGHT + 16;
    }
}

fn draw_tasks(page: &mut Page, scene: &Scene) {
    if scene.tasks.is_empty() {
        page.head("All tasks are idle");
        return;
    }
    page.head("Busy tasks");
    for (task, busy) in &scene.tasks {
        page.y += LINE;
        let told = format!("t{task}: {}", tasks::told(busy));
        page.text(MARGIN, page.y - 4, "line", &told);
    }
}

fn draw_legend(page: &mut Page) {
    page.head("Legend");
    let mut x = MARGIN;
    for (kind, told, width) in [
        (Kind::Inner, "inner record: number, rank", 200),
        (Kind::Fare, "fare: number, price in cents", 210),
        (Kind::Level, "level record", 120),
        (Kind::Sentinel, "sentinel", 100),
        (Kind::Off, "taken off", 100),
    ] {
        page.rectangle(x, page.y, 20, 14, kind);
        page.text(x + 27, page.y + 11, "line", told);
        x += width;
    }
    page.y += LINE + 16;
    page.text(
        MARGIN,
        page.y,
        "line",
        "t3 below a record: task 3 stands there. Fares have rank 0, sentinels 255.",
    );
}
