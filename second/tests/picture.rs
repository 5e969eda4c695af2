//! Pictures of the tree, as text and as SVG.

mod common;

use std::fs;

use second::callfile::RECORD_BYTES;
use second::calltext::{bytes, parse};
use second::make::{make, KINDS};
use second::picture::{svg, text, Scene};

fn scene(file: &[u8]) -> Scene {
    Scene::after(file).expect("a table that is not damaged")
}

fn ride(told: &str) -> Scene {
    let lines = parse(told).unwrap_or_else(|troubles| panic!("{troubles:?}"));
    scene(&bytes(&lines))
}

/// Some scenes of every kind, tasks in the middle of their work.
fn random_scenes() -> Vec<Scene> {
    let mut scenes = Vec::new();
    for (_, kind) in KINDS {
        let file = make(kind, 5, 900);
        for records in [0, 7, 40, 150, 400, 401, 402, 899] {
            scenes.push(scene(&file[..records * RECORD_BYTES]));
        }
    }
    scenes
}

#[test]
fn a_tree_as_text() {
    let told =
        "put 10 at 1 by 0\nstep 0 9\nput 20 at 300 by 0\nstep 0 9\nput 30 at 350 by 0\nstep 0 6\n\
                look 10 by 1\nstep 1 2\ntake 20 by 2\nstep 2 5\nput 5 at 7 by 3\n";
    let wanted = "Tree after 11 records: 3 fares, root rank 1, height 2

                             rank  slot
entry                         255     0
└─ sentinel                   255     2
   ├─ 20                        1     5  task 1 is here
   │  ├─ 10 at 1 cent           0     6
   │  └─ 30                     1     8  level
   │     ├─ 20 at 300 cents     0     9  task 2 is here
   │     └─ 30 at 350 cents     0    10
   └─ sentinel                255     4

Taken off, 3 slots:
  slot    1  sentinel         rank 255
  slot    3  10 at 1 cent     rank   0
  slot    7  20 at 300 cents  rank   0

Busy tasks:
  task 0  settle 30: about to walk from the entry
  task 1  look up 10: at slot 5, walks on
  task 2  take out 20: at slot 9, next reads the parent, slot 8
  task 3  put in 5 at 7 cents: about to walk from the entry
";
    assert_eq!(text::print(&ride(told)), wanted);
}

#[test]
fn an_empty_tree() {
    let got = text::print(&ride(""));
    assert!(
        got.starts_with("Tree after 0 records: 0 fares, no root record, height 0\n"),
        "{got}"
    );
    assert!(
        got.ends_with("\nNo slot is taken off.\n\nAll tasks are idle.\n"),
        "{got}"
    );
    let got = text::print(&ride(
        "put 10 at 1 by 0\nstep 0 9\ntake 10 by 0\nstep 0 9\n",
    ));
    assert!(
        got.contains("  slot    2  sentinel      rank 255  links to 3 and 4\n"),
        "{got}"
    );
}

/// A call in a tree of 10, 20 and 30, and where its task stands after each step.
const STANDINGS: [(&str, &[&str]); 3] = [
    (
        "put 40 at 140",
        &[
            "at slot 2, walks on",
            "at slot 11, walks on",
            "at slot 8, walks on",
            "at slot 10, next reads the parent, slot 8",
            "at slot 10, next reads the leaf, slot 10",
            "at slot 10, next commits",
            "about to walk from the entry",
            "at slot 2, walks on",
            "at slot 11, walks on",
            "at slot 8, walks on",
            "at slot 12, next reads the grandparent pz, slot 11",
            "at slot 12, next reads the parent z, slot 8",
            "at slot 12, next promotes z or reads x",
        ],
    ),
    (
        "take 30",
        &[
            "at slot 2, walks on",
            "at slot 11, walks on",
            "at slot 8, walks on",
            "at slot 10, next reads the grandparent, slot 11",
            "at slot 10, next reads the parent, slot 8",
            "at slot 10, next reads the left child, slot 9",
            "at slot 10, next reads the right child, slot 10",
            "at slot 10, next commits",
        ],
    ),
    ("look 10", &["at slot 2, walks on", "at slot 11, walks on"]),
];

#[test]
fn tasks_are_told_where_they_stand() {
    let tree = "put 10 at 110 by 0\nstep 0 9\nput 20 at 120 by 0\nstep 0 9\nput 30 at 130 by 0\nstep 0 20\n";
    for (call, standings) in STANDINGS {
        for (index, standing) in standings.iter().enumerate() {
            let steps = index + 1;
            let told = text::print(&ride(&format!("{tree}{call} by 1\nstep 1 {steps}\n")));
            assert!(
                told.ends_with(&format!(": {standing}\n")),
                "{call}, {steps}: {told}"
            );
        }
    }
}

/// Rides 4 and 6 of document 01, stopped where they rotate.
#[test]
fn rotations_are_told() {
    let put = |number: u32, steps: u32| format!("put {number} at 1 by 0\nstep 0 {steps}\n");
    let (first, last) = ("next rotates or reads y\n", "next rotates twice\n");
    let once = [put(10, 9), put(20, 9), put(30, 20), put(40, 20)].concat();
    let twice = [put(10, 9), put(30, 9), put(20, 20), put(25, 21)].concat();
    for (told, wanted) in [(once, first), (twice, last)] {
        let told = text::print(&ride(&told));
        assert!(told.ends_with(wanted), "{told}");
    }
}

#[test]
fn text_shows_all_there_is() {
    for scene in random_scenes() {
        let told = text::print(&scene);
        let parts: Vec<&str> = told.split("\n\n").collect();
        let [_, tree, off, tasks] = parts[..] else {
            panic!("{told}");
        };
        assert_eq!(tree.lines().count(), scene.nodes.len() + 1);
        assert_eq!(off.lines().count(), scene.taken_off.len() + 1);
        assert_eq!(tasks.lines().count(), scene.tasks.len() + 1);
        let level = tree.matches("  level").count();
        assert_eq!(level, scene.figures.level_records as usize);
    }
}

/// The numbers of the slots end in one column, with or without notes behind.
#[test]
fn text_is_aligned() {
    for scene in random_scenes() {
        let told = text::print(&scene);
        let tree = told.split("\n\n").nth(1).expect("the tree");
        let column = tree.find("slot").expect("a head") + "slot".len();
        for row in tree.lines().skip(1) {
            let row: Vec<char> = row.chars().collect();
            assert!(row[column - 1].is_ascii_digit(), "{told}");
            assert!(row.get(column).is_none_or(|&after| after == ' '), "{told}");
        }
    }
}

/// x, y, width, height and class of every rectangle but the page's own.
fn rectangles(drawn: &str) -> Vec<([u32; 4], String)> {
    let field = |line: &str, name: &str| {
        let from = line.split(&format!(" {name}=\"")).nth(1).expect("a field");
        from.split('"').next().expect("its value").to_string()
    };
    let lines = drawn.lines().filter(|line| line.starts_with("<rect x="));
    lines
        .map(|line| {
            let numbers = ["x", "y", "width", "height"]
                .map(|name| field(line, name).parse().expect("a number"));
            (numbers, field(line, "class"))
        })
        .collect()
}

#[test]
fn svg_shows_all_there_is() {
    for scene in random_scenes() {
        let all = rectangles(&svg::print(&scene));
        let of = |class: &str| all.iter().filter(|(_, one)| one == class).count();
        // One more of each in the legend.
        assert_eq!(of("fare"), scene.figures.fares as usize + 1);
        assert_eq!(of("level"), scene.figures.level_records as usize + 1);
        assert_eq!(of("off"), scene.taken_off.len() + 1);
        assert_eq!(all.len(), scene.nodes.len() + scene.taken_off.len() + 5);
    }
}

#[test]
fn svg_boxes_stand_apart_and_on_the_page() {
    for scene in random_scenes() {
        let drawn = svg::print(&scene);
        let size = drawn.split("viewBox=\"0 0 ").nth(1).expect("a size");
        let size: Vec<u32> = size
            .split('"')
            .next()
            .expect("a size")
            .split(' ')
            .map(|n| n.parse().expect("a number"))
            .collect();
        let all = rectangles(&drawn);
        for (index, ([x, y, width, height], _)) in all.iter().enumerate() {
            assert!(x + width < size[0] && y + height < size[1]);
            for ([x2, y2, width2, height2], _) in &all[..index] {
                let apart =
                    x + width < *x2 || x2 + width2 < *x || y + height < *y2 || y2 + height2 < *y;
                assert!(apart, "{x} {y} and {x2} {y2}");
            }
        }
    }
}

/// Every element is closed, and no text breaks out of its place.
#[test]
fn svg_is_well_formed() {
    let morning =
        fs::read_to_string(common::folder("examples").join("morning.txt")).expect("an example");
    let drawn = svg::print(&ride(&morning));
    assert!(drawn.starts_with("<svg xmlns=\"http://www.w3.org/2000/svg\""));
    assert!(drawn.ends_with("</svg>\n"));
    let mut open = Vec::new();
    for tag in drawn.split('<').skip(1) {
        let (tag, after) = tag.split_once('>').expect("an end");
        assert!(!after.contains(['>', '&']));
        if let Some(name) = tag.strip_prefix('/') {
            assert_eq!(open.pop(), Some(name));
        } else if !tag.ends_with('/') {
            open.push(tag.split(' ').next().expect("a name"));
        }
    }
    assert!(open.is_empty());
}
