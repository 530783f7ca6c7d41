//! Lent lists of step records: what a reader stores in them, what counts of them, records that no text is read into, and
//! readers of other limits.

mod common;

use common::records::{convolutions, curves, one_step};
use common::*;
use reference::cases::{picture, sheet, style, texts::written};
use reference::check::Answer;
use reference::fault::{Fault, OF_LISTS};
use reference::print;
use reference::random::Random;
use reference::render::{redraw, render, Sheet};
use reference::step::Step;
use reference::text::{read, read_steps, steps_of, Limits, Reading, EARLIER, LIMITS, LONGEST_TEXT};

const LINE: &str = "lumalpha\t0\t0\t1\t1\tsrc\tsrgb\n";

/// A list of records that no text here has.
fn list(records: usize) -> Vec<Step> {
    vec![steps("flood 0 0 1 1 1 2 3 0.5\n").remove(0); records]
}

/// A text of so many steps, and a last row.
fn text(steps: usize, row: &str) -> Vec<u8> {
    format!("canvas\t1\t1\n{}row\t{row}\n", LINE.repeat(steps)).into_bytes()
}

/// What a reader says of a whole text and of step lines, and the records afterwards.
type Said = (Result<usize, Answer>, Vec<Step>);

fn whole(text: &[u8], records: usize, limits: Limits, fault: Fault) -> Said {
    let mut list = list(records);
    let said = read(text, &mut list, limits, fault);
    (said.map(|reading| reading.count), list)
}

fn alone(text: &[u8], records: usize, limits: Limits, fault: Fault) -> Said {
    let mut list = list(records);
    (read_steps(text, &mut list, limits, fault), list)
}

fn filled(steps: usize, records: usize) -> Said {
    (Ok(steps), [vec![one_step(); steps], list(records - steps)].concat())
}

fn refused(number: u8, place: usize, records: usize) -> Said {
    (Err(Answer::refused(number, place)), list(records))
}

/// Fewer, as many and more records than steps.
fn records(fault: Fault) -> Vec<(Said, Said)> {
    let mut all = Vec::new();
    for count in [1, 17, 63, 64] {
        for room in [0, count - 1, count, count + 1, 70] {
            let right = if room < count { refused(21, 0, room) } else { filled(count, room) };
            all.push((whole(&text(count, "00000000"), room, LIMITS, fault), right.clone()));
            all.push((alone(LINE.repeat(count).as_bytes(), room, LIMITS, fault), right));
        }
    }
    all
}

/// 15 comes first: a bad last row, a bad last step, a step too many.
fn fifteen_first(fault: Fault) -> Vec<(Said, Said)> {
    let mut all = Vec::new();
    for room in [0, 1, 2, 17, 64, 65] {
        all.push((whole(&text(17, "0000000G"), room, LIMITS, fault), refused(15, 19, room)));
        all.push((whole(&text(65, "00000000"), room, LIMITS, fault), refused(15, 66, room)));
        let bad = format!("{}over\n", LINE.repeat(17));
        all.push((alone(bad.as_bytes(), room, LIMITS, fault), refused(15, 18, room)));
        all.push((alone(LINE.repeat(65).as_bytes(), room, LIMITS, fault), refused(15, 65, room)));
        all.push((whole(&vec![b'\n'; LONGEST_TEXT + 1], room, LIMITS, fault), refused(15, 0, room)));
    }
    all
}

/// A list that is longer than its count draws as its first records do, and one that is shorter as it is.
fn counted(fault: Fault) -> Vec<(Answer, Vec<u8>, u64)> {
    let mut random = Random::new(64);
    let (steps, source) = (sheet(&mut random, 64, 3, 2, false), picture(&mut random, 6));
    let mut all = Vec::new();
    for (records, count, layers) in [(16, 16, 16), (64, 16, 16), (17, 16, 16), (16, 64, 16), (16, usize::MAX, 16)] {
        let sheet = Sheet { width: 3, height: 2, steps: &steps[..records], count };
        let (mut workspace, mut scratch) = (vec![0; 24 * layers], vec![0; 48]);
        let answer = render(sheet, &source, &mut workspace, &mut scratch, fault);
        all.push((answer, workspace, 0));
        let mut workspace = vec![0; 24 * layers];
        let (answer, worked) = redraw(sheet, region(1, 0, 1, 1), &source, &mut workspace, &mut scratch, fault);
        all.push((answer, workspace, worked));
    }
    all
}

/// A list of 65 records is a sheet of 64 steps, of none, or of 65, as its count says.
fn long_list(fault: Fault) -> Vec<u8> {
    let steps = vec![one_step(); 65];
    let answer = |count: usize| {
        let sheet = Sheet { width: 1, height: 1, steps: &steps, count };
        render(sheet, &[0; 4], &mut vec![0; 4 * count.min(65)], &mut [0; 8], fault).number
    };
    [64, 0, 65, 66].map(answer).into()
}

fn all_right(fault: Fault) -> bool {
    let same = |all: Vec<(Said, Said)>| all.into_iter().all(|(said, right)| said == right);
    let drawn = counted(fault);
    long_list(fault) == [0, 3, 3, 3]
        && same(records(fault))
        && same(fifteen_first(fault))
        && curves(fault).into_iter().all(|(said, right)| said == right)
        && convolutions(fault).into_iter().all(|(said, right)| said == right)
        && drawn.chunks(2).all(|two| two == &drawn[..2])
}

#[test]
fn records_are_filled_or_stay() {
    for (said, right) in records(Fault::None) {
        assert_eq!(said, right);
    }
}

#[test]
fn a_wrong_line_comes_before_a_short_list() {
    for (said, right) in fifteen_first(Fault::None) {
        assert_eq!(said, right);
    }
}

#[test]
fn a_list_counts_by_its_first_records() {
    let drawn = counted(Fault::None);
    assert_eq!(drawn[0].0, Answer::DONE);
    assert!(drawn.chunks(2).all(|two| two == &drawn[..2]));
}

/// "A table of 0 or more than 16 entries is 16, place step, checked after 7."
#[test]
fn counts_of_entries() {
    for (said, right) in curves(Fault::None) {
        assert_eq!(said, right);
    }
}

/// "17, place step, for a bad order .. or target, after 7."
#[test]
fn orders_and_targets() {
    for (said, right) in convolutions(Fault::None) {
        assert_eq!(said, right);
    }
}

#[test]
fn counts_of_a_long_list() {
    assert_eq!(long_list(Fault::None), [0, 3, 3, 3]);
}

/// No call of the library takes a list, so the comparison cannot find these.
#[test]
fn every_fault_of_a_list_shows() {
    assert!(all_right(Fault::None));
    let missed: Vec<&str> = OF_LISTS.iter().filter(|(fault, _)| all_right(*fault)).map(|(_, text)| *text).collect();
    assert_eq!(missed, Vec::<&str>::new());
}

/// The first layers of a longer sheet are those of the shorter one.
#[test]
fn sixteen_of_sixty_four() {
    let mut random = Random::new(9);
    for _ in 0..50 {
        let (steps, source) = (sheet(&mut random, 64, 4, 3, false), picture(&mut random, 12));
        let (answer, all) = drawn(4, 3, &steps, &source);
        let (first, some) = drawn(4, 3, &steps[..16], &source);
        assert_eq!((answer, first), (Answer::DONE, Answer::DONE));
        assert_eq!(all[..48 * 16], some);
    }
}

/// "Saved sheets stay readable unchanged": what the earlier reader takes is read the same.
#[test]
fn saved_sheets_stay_readable() {
    let mut random = Random::new(10);
    for count in 0..=16 {
        let (steps, source) = (sheet(&mut random, count, 5, 4, false), picture(&mut random, 20));
        let text = written(5, 4, &steps, &source, style(&mut random));
        let (mut old, mut new) = (list(64), list(64));
        let said = read(&text, &mut old, EARLIER, Fault::None);
        assert_eq!(said, Ok(Reading { width: 5, height: 4, count, source }));
        assert_eq!(read(&text, &mut new, LIMITS, Fault::None), said);
        assert_eq!(old, new);
        assert_eq!(print::sheet_within(&text, EARLIER, Fault::None), print::sheet(&text, Fault::None));
    }
}

/// "Old readers refuse a new sheet by line at its seventeenth step, or at place 0 above 32,768 bytes, and never draw part
/// of it."
#[test]
fn earlier_readers_refuse_a_longer_sheet() {
    for count in [17, 18, 63, 64] {
        assert_eq!(whole(&text(count, "00000000"), 64, EARLIER, Fault::None), refused(15, 18, 64));
        assert_eq!(alone(LINE.repeat(count).as_bytes(), 64, EARLIER, Fault::None), refused(15, 17, 64));
        assert_eq!(print::sheet_within(&text(count, "00000000"), EARLIER, Fault::None), b"refused\t15\t18\n");
        assert_eq!(steps_of(LINE.repeat(count).as_bytes(), Fault::None).map(|steps| steps.len()), Ok(count));
    }
    // No text of the form that those readers knew is so long; these are refused at their line by the reader in force.
    let mut long = text(17, "00000000");
    for (length, place) in [(EARLIER.bytes, 18), (EARLIER.bytes + 1, 0), (LONGEST_TEXT, 0)] {
        long.resize(length, b'\n');
        assert_eq!(whole(&long, 64, EARLIER, Fault::None), refused(15, place, 64));
        assert_eq!(whole(&long, 64, LIMITS, Fault::None), refused(15, 20, 64));
        assert_eq!(print::sheet_within(&long, EARLIER, Fault::None), format!("refused\t15\t{place}\n").into_bytes());
    }
}
