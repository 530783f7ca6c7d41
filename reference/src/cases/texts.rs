//! Texts for `sheet`: valid ones, refused ones, malformed ones, and junk.

use crate::cases::{convolutions, curves, damage_picture, picture, sheet, spoil, step, style};
use crate::line::LONGEST_TEXT_SIDE;
use crate::print::{self, Style};
use crate::random::Random;
use crate::space::Space;
use crate::step::{Input, Kind, Region, Step, KINDS, MOST_INPUTS, MOST_STEPS};
use crate::text::{EARLIER, LONGEST_TEXT};

/// The example of RULES 9.9.
pub const EXAMPLE: &str =
    "canvas\t2\t1\nflood\t0\t0\t1\t1\t255\t0\t0\t0.5\tsrgb\nover\t0\t0\t2\t1\t0\tsrc\tsrgb\nrow\t0000ffff\t00000080\n";

/// A sheet and a picture as text.
pub fn written(width: usize, height: usize, steps: &[Step], source: &[u8], style: Style) -> Vec<u8> {
    let rows = if width == 0 { "row\n".repeat(height) } else { print::rows(width, source) };
    format!("canvas\t{width}\t{height}\n{}{rows}", print::steps(steps, style)).into_bytes()
}

/// A well-formed text; a wild one may earn a refusal.
fn well_formed(random: &mut Random, wild: bool) -> Vec<u8> {
    let count = match random.below(16) {
        0 if wild => 0,
        1 => random.pick(&[16, 17, MOST_STEPS - 1, MOST_STEPS, MOST_STEPS + 1]),
        2 if random.once_in(2) => random.within(17, MOST_STEPS as i64) as usize,
        _ => 1 + random.below(4),
    };
    // A text of many steps takes about as long on a small canvas.
    let longest = if count > 16 { 2 } else { 7 };
    let mut sides = [0, 0].map(|_| random.pick(&[1, 2, 3, 3, 4, 5, 7]).min(longest));
    if random.once_in(8) {
        sides[random.below(2)] = LONGEST_TEXT_SIDE;
    }
    if wild && random.once_in(16) {
        sides[random.below(2)] = 0;
    }
    let [width, height] = sides;
    let steps = sheet(random, count, width, height, wild);
    let mut source = picture(random, width * height);
    if wild && random.once_in(4) {
        damage_picture(random, &mut source);
    }
    written(width, height, &steps, &source, style(random))
}

/// Changes a text once or twice.
pub fn mutate(random: &mut Random, text: &mut Vec<u8>) {
    spoil::anywhere(random, text);
    if random.once_in(4) {
        spoil::anywhere(random, text);
    }
}

fn junk(random: &mut Random) -> Vec<u8> {
    let length = random.pick(&[0, 1, 2, 16, 300, 3000]);
    match random.below(3) {
        0 => (0..length).map(|_| random.byte()).collect(),
        1 => (0..length).map(|_| random.pick(b"\t\n0123456789abcdefx.- ")).collect(),
        _ => {
            // Too long, or just not.
            let mut text = well_formed(random, false);
            let more = random.pick(&[EARLIER.bytes + 1, LONGEST_TEXT - 1, LONGEST_TEXT, LONGEST_TEXT + 1]);
            let byte = random.pick(b"\n0\t ");
            text.resize(more, byte);
            text
        }
    }
}

/// A text of one step of a kind on one pixel, the step's line given.
fn one_step(line: &[u8]) -> Vec<u8> {
    [b"canvas\t1\t1\n", line, b"\nrow\t20406080\n"].concat()
}

/// A step of the kind as a line, without a space and without its line feed.
fn line_of(random: &mut Random, word: &str) -> Vec<u8> {
    loop {
        let step = step(random, 0, 1, 1, false);
        if step.kind.word() == word {
            return bare(step);
        }
    }
}

fn bare(step: Step) -> Vec<u8> {
    let line = print::step(&Step { space: Space::Linear, ..step }, 0, Style::default());
    line.trim_end_matches('\n').into()
}

/// Every kind, and merges of none to five, with every ending; and with the space before the last field.
fn endings(random: &mut Random) -> Vec<Vec<u8>> {
    let mut lines: Vec<Vec<u8>> = KINDS.iter().map(|(word, _)| line_of(random, word)).collect();
    let region = Region { x: 0, y: 0, width: 1, height: 1 };
    let merge = |inputs| Step { kind: Kind::Merge, region, inputs: vec![Input::Source; inputs], ..Step::BLANK };
    lines.extend((0..=MOST_INPUTS + 1).map(|inputs| bare(merge(inputs))));
    let each = |line: &Vec<u8>| {
        let ends = spoil::ENDINGS.map(|ending| one_step(&[line, ending.as_bytes()].concat()));
        let mut before = line.clone();
        spoil::space_before_last(&mut before);
        [ends.to_vec(), vec![one_step(&before)]].concat()
    };
    lines.iter().flat_map(each).collect()
}

/// Any text.
pub fn text(random: &mut Random) -> Vec<u8> {
    match random.below(33) {
        0..=8 => well_formed(random, false),
        9..=17 => well_formed(random, true),
        18..=23 => {
            let wild = random.once_in(2);
            let mut text = well_formed(random, wild);
            mutate(random, &mut text);
            text
        }
        24..=28 => {
            let word = random.pick(&KINDS).0;
            let line = [line_of(random, word), random.pick(&spoil::ENDINGS[..3]).into()].concat();
            let changed = spoil::every_field(&line);
            one_step(&changed[random.below(changed.len())])
        }
        29 => {
            let listed: Vec<Vec<u8>> = curves::lines().collect();
            one_step(&listed[random.below(listed.len())])
        }
        30 => {
            let (listed, spoilt) = (convolutions::listed(), convolutions::spoilt());
            let lines = if random.once_in(2) { &listed } else { spoilt };
            one_step(&lines[random.below(lines.len())])
        }
        31 => {
            let mut text = EXAMPLE.into();
            mutate(random, &mut text);
            text
        }
        _ => junk(random),
    }
}

/// Texts that need little chance: the example with every field and line changed in every way, the ends of every limit,
/// each kind with every ending, and with its fields changed in a third of the ways; the listed curves and convolutions.
pub fn listed(random: &mut Random) -> Vec<Vec<u8>> {
    let mut all: Vec<Vec<u8>> =
        vec![EXAMPLE.into(), Vec::new(), b"\n".to_vec(), b"canvas".to_vec(), b"canvas\t0\t0\n".to_vec()];
    for length in [EARLIER.bytes, EARLIER.bytes + 1, LONGEST_TEXT, LONGEST_TEXT + 1] {
        let mut text: Vec<u8> = EXAMPLE.into();
        text.resize(length, b'\n');
        all.push(text);
        all.push(vec![0; length]);
    }
    for count in [16, 17, MOST_STEPS - 1, MOST_STEPS, MOST_STEPS + 1] {
        let (steps, source) = (sheet(random, count, 2, 2, false), picture(random, 4));
        all.push(written(2, 2, &steps, &source, Style::default()));
    }
    // The largest workspace: 65,536 bytes.
    let side = LONGEST_TEXT_SIDE;
    let (steps, source) = (sheet(random, MOST_STEPS, side, side, false), picture(random, side * side));
    all.push(written(side, side, &steps, &source, Style::default()));
    all.extend(endings(random));
    all.extend(curves::lines().map(|line| one_step(&line)));
    all.extend(convolutions::listed().iter().chain(convolutions::spoilt()).map(|line| one_step(line)));
    let example = spoil::split(EXAMPLE.as_bytes());
    for at in 0..example.len() {
        for way in 0..spoil::LINE_WAYS {
            let mut lines = example.clone();
            spoil::lines(&mut lines, at, way);
            all.push(spoil::join(&lines));
        }
        for line in spoil::every_field(&example[at]) {
            let mut lines = example.clone();
            lines[at] = line;
            all.push(spoil::join(&lines));
        }
    }
    for (word, _) in KINDS {
        // The numbers of a matrix are all alike: the first few will do.
        let most = spoil::FIELD_WAYS * 9;
        let line = line_of(random, word);
        for changed in spoil::every_field(&line).iter().take(most) {
            if random.once_in(3) {
                all.push(one_step(changed));
            }
        }
    }
    all
}

/// The listed texts, then random ones, `count` in all where that is more.
pub fn many(random: &mut Random, count: usize) -> Vec<Vec<u8>> {
    let mut all = listed(random);
    while all.len() < count {
        all.push(text(random));
    }
    all
}

/// A line for each number with how many of the answers have it, 0 for `ok`; then how many there are.
pub fn by_number(answers: &[Vec<u8>]) -> String {
    let mut said = String::new();
    for number in 0..18 {
        let begin = if number == 0 { "ok\n".to_string() } else { format!("refused\t{number}\t") };
        said +=
            &format!("{number}\t{}\n", answers.iter().filter(|answer| answer.starts_with(begin.as_bytes())).count());
    }
    said + &format!("{} texts\n", answers.len())
}
