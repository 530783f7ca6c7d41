//! How a `curve` line is read: four channels, each a word, a count where it has entries, its numbers; then the space.

use reference::fault::Fault;
use reference::number::Number;
use reference::print::{self, Style};
use reference::space::Space::{self, Linear as InLinear, Srgb};
use reference::step::{Kind, Step};
use reference::text::steps_of;
use reference::transfer::Transfer::{Discrete, Identity, Linear, Table};
use reference::transfer::Transfers;

/// What follows the input, with spaces for tabs.
fn read(rest: &str) -> Option<Step> {
    let line = format!("curve 0 0 1 1 src {rest}\n").replace(' ', "\t");
    steps_of(line.as_bytes(), Fault::None).ok().map(|mut steps| steps.remove(0))
}

fn transfers(rest: &str) -> Option<Transfers> {
    read(rest).map(|step| match step.kind {
        Kind::Curve(transfers) => transfers,
        other => panic!("{other:?}"),
    })
}

fn space(rest: &str) -> Option<Space> {
    read(rest).map(|step| step.space)
}

#[test]
fn words_counts_and_numbers() {
    let step = read("linear 0.5 -2 identity table 3 0 x3f000000 1 discrete 1 1 srgb").expect("of the form");
    assert_eq!(step.kind, Kind::Curve([Linear, Identity, Table(3), Discrete(1)]));
    let decimals = |all: &[i64]| all.iter().map(|n| Number::Decimal(*n)).collect::<Vec<_>>();
    let numbers = [decimals(&[5_000, -20_000, 0]), vec![Number::Single(0x3f00_0000)], decimals(&[10_000, 10_000])];
    assert_eq!(step.numbers, numbers.concat());
    assert_eq!(step.space, Srgb);
    let line = "curve\t0\t0\t1\t1\tsrc\tlinear\t0.5\t-2\tidentity\ttable\t3\t0\tx3f000000\t1\tdiscrete\t1\t1\tsrgb\n";
    assert_eq!(print::step(&step, 0, Style::default()), line);
}

/// "An optional last field `srgb` or `linear`", told from the curve's own `linear` by its place.
#[test]
fn the_space_by_its_place() {
    let four = "identity identity identity identity";
    let own = "identity identity identity linear 1 0";
    for rest in [four, own, "linear 1 0 linear 1 0 linear 1 0 linear 1 0", "linear 1 0 table 1 1 identity discrete 1 0"]
    {
        assert_eq!(space(rest), Some(InLinear), "{rest}");
        assert_eq!(space(&format!("{rest} linear")), Some(InLinear), "{rest}");
        assert_eq!(space(&format!("{rest} srgb")), Some(Srgb), "{rest}");
        for wrong in ["", "sRGB", "0", "identity", "linear 1 0", "linear linear", "srgb linear", "srgb srgb"] {
            assert_eq!(space(&format!("{rest} {wrong}")), None, "{rest} {wrong}");
        }
    }
    // The fourth channel's word: a `linear` without numbers, or no word at all.
    assert_eq!(space("identity identity identity linear"), None);
    assert_eq!(space("identity identity identity linear linear"), None);
    assert_eq!(space("identity identity identity srgb"), None);
    assert_eq!(space("identity identity identity"), None);
    assert_eq!(space("srgb identity identity identity identity"), None);
}

/// A count is a whole field of 1 to 16: "in text such a count is 15 at its line".
#[test]
fn counts() {
    let rest = "identity identity identity";
    for word in ["table", "discrete"] {
        for count in 0..=20 {
            let read = transfers(&format!("{word} {count}{} {rest}", " 0.5".repeat(count)));
            let one = if word == "table" { Table(count) } else { Discrete(count) };
            let right = (1..=16).contains(&count).then_some([one, Identity, Identity, Identity]);
            assert_eq!(read, right, "{word} {count}");
        }
        for count in ["", "01", "+1", "-1", "1.0", "1 ", "x00000001", "one", "9999", "10000"] {
            assert_eq!(transfers(&format!("{word} {count} 0.5 {rest}")), None, "{word} {count}");
        }
        // One number too few, and one too many.
        assert_eq!(transfers(&format!("{word} 2 0.5 {rest}")), None);
        assert_eq!(transfers(&format!("{word} 2 0.5 0.5 0.5 {rest}")), None);
        assert_eq!(transfers(&format!("{word} {rest}")), None);
        assert_eq!(transfers(&format!("{rest} {word}")), None);
        assert_eq!(transfers(&format!("{rest} {word} 1")), None);
    }
}

#[test]
fn words() {
    let rest = "identity identity identity";
    assert_eq!(transfers(&format!("identity {rest}")), Some([Identity; 4]));
    for word in ["", "Identity", "IDENTITY", "identity ", "id", "gamma", "gamma 1 1 0", "src", "0", "table", "linear 1"]
    {
        assert_eq!(transfers(&format!("{word} {rest}")), None, "{word}");
        assert_eq!(transfers(&format!("{rest} {word}")), None, "{word}");
    }
    // A number where a word must stand, a word where a number must.
    assert_eq!(transfers(&format!("linear 1 0 0 {rest}")), None);
    assert_eq!(transfers(&format!("linear identity 0 {rest}")), None);
    assert_eq!(transfers(&format!("linear 1 linear {rest}")), None);
}

#[test]
fn short_lines_and_other_inputs() {
    for line in ["curve", "curve 0 0 1 1", "curve 0 0 1 1 src", "curve 0 0 1 1 identity identity identity identity"] {
        let line = format!("{line}\n").replace(' ', "\t");
        assert!(steps_of(line.as_bytes(), Fault::None).is_err(), "{line}");
    }
    let two = "curve 0 0 1 1 src src identity identity identity identity\n".replace(' ', "\t");
    assert!(steps_of(two.as_bytes(), Fault::None).is_err());
    let later = "curve 0 0 1 1 9 identity identity identity identity\n".replace(' ', "\t");
    assert!(steps_of(later.as_bytes(), Fault::None).is_ok());
}
