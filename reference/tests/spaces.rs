//! Working spaces: how a step line names one, and that answers under `srgb` are those of rules 4.

mod common;

use common::*;
use reference::cases::calls::{answers, Entry};
use reference::cases::Case;
use reference::fault::Fault;
use reference::print;
use reference::space::straight;
use reference::space::Space::{self, Linear, Srgb};
use reference::step::{Region, Step};
use reference::text::steps_of;
use std::path::Path;

fn space(line: &str) -> Option<Space> {
    let read = steps_of(format!("{line}\n").replace(' ', "\t").as_bytes(), Fault::None);
    read.ok().map(|steps| steps[0].space)
}

const KINDS: [&str; 12] = [
    "flood 0 0 1 1 1 2 3 0.5",
    "offset 0 0 1 1 src 1 0",
    "blur 0 0 1 1 src 1 0",
    "erode 0 0 1 1 src 1 0",
    "matrix 0 0 1 1 src 1 2 3 4 5 6 7 8 9 10 11 12 13 14 15 16 17 18 19 20",
    "saturate 0 0 1 1 src 1",
    "lumalpha 0 0 1 1 src",
    "curve 0 0 1 1 src identity table 2 0 1 discrete 1 0.5 linear 1 0",
    "curve 0 0 1 1 src identity identity identity identity",
    "over 0 0 1 1 src alpha",
    "arith 0 0 1 1 src alpha 1 2 3 4",
    "merge 0 0 1 1 src",
];

#[test]
fn the_last_field_is_the_space() {
    for line in KINDS {
        assert_eq!(space(line), Some(Linear), "{line}");
        assert_eq!(space(&format!("{line} linear")), Some(Linear), "{line}");
        assert_eq!(space(&format!("{line} srgb")), Some(Srgb), "{line}");
        for wrong in
            ["sRGB", "Linear", "linearRGB", "auto", "", "srgb srgb", "srgb linear", "srgb ", "srgb src", "srgb 0"]
        {
            assert_eq!(space(&format!("{line} {wrong}")), None, "{line} {wrong}");
        }
        let (before, last) = line.rsplit_once(' ').expect("many fields");
        assert_eq!(space(&format!("{before} srgb {last}")), None, "{line}");
        // In the place of the last field of its kind, a space is a field too few.
        assert_eq!(space(&format!("{before} srgb")), None, "{line}");
    }
}

#[test]
fn merges_of_one_to_four() {
    for inputs in 0..=6 {
        let line = format!("merge 0 0 1 1{}", " src".repeat(inputs));
        for (ending, named) in [("", Linear), (" linear", Linear), (" srgb", Srgb)] {
            let right = (1..=4).contains(&inputs).then_some(named);
            assert_eq!(space(&format!("{line}{ending}")), right, "{line}{ending}");
        }
    }
}

#[test]
fn a_blank_record_is_linear() {
    assert_eq!(Step::BLANK.space, Linear);
}

/// Entries as `reference calls` writes them.
fn entries(mut bytes: &[u8]) -> Vec<Entry> {
    let mut all = Vec::new();
    while !bytes.is_empty() {
        let (head, rest) = bytes.split_at(13 + 12 * 16 + 1);
        let head = std::str::from_utf8(head).expect("a text");
        let field = |n: usize| usize::from_str_radix(&head[13 + 16 * n..][..16], 16).expect("hex");
        let mut at = 0;
        let mut part = |n: usize| {
            at += field(n);
            rest[at - field(n)..at].to_vec()
        };
        let [steps, source, workspace, scratch] = [8, 9, 10, 11].map(&mut part);
        let rect = Region { x: field(2), y: field(3), width: field(4), height: field(5) };
        let case = Case { width: field(0), height: field(1), steps, rect, source, workspace, scratch };
        let (count, layer) = (field(6), field(7));
        all.push(Entry {
            name: head[..12].trim_end().into(),
            show: head[12..].chars().next().expect("one"),
            count,
            layer,
            case,
        });
        bytes = &rest[at..];
    }
    all
}

/// Calls of rules 4 and what they left, from a time before there were spaces: the same with `srgb` on every step.
#[test]
fn answers_of_rules_4_stay() {
    let mut all = entries(include_bytes!("rules4/calls.in"));
    assert!(all.len() > 300);
    for entry in &mut all {
        let lines = String::from_utf8(entry.case.steps.clone()).expect("a text");
        entry.case.steps = print::in_srgb(&lines).into_bytes();
    }
    assert_eq!(answers(&all, Fault::None), include_str!("rules4/calls.expected"));
}

/// Of the same calls without it most leave something else.
#[test]
fn the_default_is_another_space() {
    let all = entries(include_bytes!("rules4/calls.in"));
    let (ours, before) = (answers(&all, Fault::None), include_str!("rules4/calls.expected"));
    let other = ours.lines().zip(before.lines()).filter(|(now, then)| now != then).count();
    assert!(other > 200, "{other}");
    assert_eq!(answers(&all, Fault::AbsentIsSrgb), before);
}

/// Every sheet of the repository prints what lies beside it.
#[test]
fn sheets_print_their_outputs() {
    let root = Path::new(env!("CARGO_MANIFEST_DIR")).join("..");
    let mut seen = 0;
    for folder in ["examples", "tests/examples", "tests/curves"] {
        for file in std::fs::read_dir(root.join(folder)).expect("a folder") {
            let path = file.expect("a file").path();
            if path.extension().is_some_and(|ending| ending == "sheet") {
                let printed = print::sheet(&std::fs::read(&path).expect("a sheet"), Fault::None);
                assert_eq!(
                    printed,
                    std::fs::read(path.with_extension("out")).expect("an output"),
                    "{}",
                    path.display()
                );
                seen += 1;
            }
        }
    }
    assert!(seen >= 50);
}

/// The words of RULES 4.5: two roundings for a flood, none for what is in its space already.
#[test]
fn layers_are_kept_in_their_step_s_space() {
    let source = pixels("804020ff");
    // 128, 64 and 32 are 55, 13 and 4 in linear light.
    let workspace = drawn(1, 1, &as_written("offset 0 0 1 1 src 0 0\n"), &source).1;
    assert_eq!(workspace, pixels("370d04ff"));
    let both = drawn(1, 1, &as_written("offset 0 0 1 1 src 0 0 srgb\noffset 0 0 1 1 0 0 0 linear\n"), &source).1;
    assert_eq!(both, pixels("804020ff 370d04ff"));
    let back = drawn(1, 1, &as_written("offset 0 0 1 1 src 0 0\noffset 0 0 1 1 0 0 0 srgb\n"), &source).1;
    // 55, 13 and 4 are 128, 64 and 34 in sRGB.
    assert_eq!(back, pixels("370d04ff 804022ff"));
}

/// The tables that RULES 4.5 prints: 16 lines of 16 entries each, linear first.
#[test]
fn the_page_prints_the_tables() {
    let page = include_str!("../../docs/RULES.md");
    let section = page.split("### 4.5").nth(1).expect("the section").split("## 5.").next().expect("its end");
    let printed: Vec<i128> = section
        .split("```")
        .skip(1)
        .step_by(2)
        .flat_map(|block| block.split_whitespace().map(|entry| entry.parse().expect("a byte")))
        .collect();
    let ours = [Linear, Srgb].into_iter().flat_map(|to| (0..256).map(move |i| straight(to, i, Fault::None)));
    assert_eq!(printed, ours.collect::<Vec<_>>());
}
