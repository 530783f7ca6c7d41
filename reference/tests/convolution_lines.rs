//! How a `conv` line is read: orders, values by rows, divisor, bias, target, preserve-alpha, edge mode; then the space.

use reference::convolve::{Convolution, Edge};
use reference::fault::Fault;
use reference::number::Number;
use reference::print::{self, Style};
use reference::space::Space::{Linear, Srgb};
use reference::step::{Kind, Step};
use reference::text::steps_of;

/// What follows the input, with spaces for tabs; two spaces are an empty field between.
fn read(rest: &str) -> Option<Step> {
    let line = format!("conv 0 0 1 1 src {rest}\n").replace(' ', "\t");
    steps_of(line.as_bytes(), Fault::None).ok().map(|mut steps| steps.remove(0))
}

fn shape(rest: &str) -> Option<Convolution> {
    read(rest).map(|step| match step.kind {
        Kind::Convolve(shape) => shape,
        other => panic!("{other:?}"),
    })
}

fn decimals(all: &[i64]) -> Vec<Number> {
    all.iter().map(|n| Number::Decimal(10_000 * n)).collect()
}

#[test]
fn fields_in_order() {
    let step = read("2 3 1 2 3 4 5 6 7 8 1 2 true wrap srgb").expect("of the form");
    let all = Convolution { columns: 2, rows: 3, divided: true, column: 1, row: 2, preserve: true, edge: Edge::Wrap };
    assert_eq!(step.kind, Kind::Convolve(all));
    assert_eq!(step.numbers, decimals(&[1, 2, 3, 4, 5, 6, 7, 8]));
    assert_eq!(step.space, Srgb);
    let line = "conv\t0\t0\t1\t1\tsrc\t2\t3\t1\t2\t3\t4\t5\t6\t7\t8\t1\t2\ttrue\twrap\tsrgb\n";
    assert_eq!(print::step(&step, 0, Style::default()), line);
}

/// "An absent divisor as an empty field": it is there, and no number.
#[test]
fn an_absent_divisor() {
    let step = read("2 1 1 2  8 0 0 false none").expect("of the form");
    let all = Convolution { columns: 2, rows: 1, divided: false, column: 0, row: 0, preserve: false, edge: Edge::None };
    assert_eq!(step.kind, Kind::Convolve(all));
    assert_eq!(step.numbers, decimals(&[1, 2, 8]));
    assert_eq!(step.space, Linear);
    let line = "conv\t0\t0\t1\t1\tsrc\t2\t1\t1\t2\t\t8\t0\t0\tfalse\tnone\n";
    assert_eq!(print::step(&step, 0, Style::default()), line);
    // Left out, or in another place.
    assert_eq!(shape("2 1 1 2 8 0 0 false none"), None);
    assert_eq!(shape("2 1 1 2 8  0 0 false none"), None);
    assert_eq!(shape("2 1  2 8 0 0 0 false none"), None);
    assert_eq!(shape("2 1 1 2   0 0 false none"), None);
}

/// "A bad order (in text 15)": 1 to 5, whole fields.
#[test]
fn orders() {
    for (columns, rows) in (0..8).flat_map(|c| (0..8).map(move |r| (c, r))) {
        let right = (1..=5).contains(&columns) && (1..=5).contains(&rows);
        let read = shape(&format!("{columns} {rows}{}  0 0 0 false none", " 1".repeat(columns * rows)));
        assert_eq!(read.map(|shape| (shape.columns, shape.rows)), right.then_some((columns, rows)));
    }
    for order in ["", "01", "+1", "-1", "1.0", "x3f800000", "one", "9999", "10000"] {
        assert_eq!(shape(&format!("{order} 1 1  0 0 0 false none")), None, "{order}");
        assert_eq!(shape(&format!("1 {order} 1  0 0 0 false none")), None, "{order}");
    }
    // One value too few, and one too many.
    assert_eq!(shape("2 2 1 1 1  0 0 0 false none"), None);
    assert_eq!(shape("2 2 1 1 1 1 1  0 0 0 false none"), None);
}

/// A target is any whole field: what lies outside the kernel is 17, not 15.
#[test]
fn targets() {
    for (column, row) in [(0, 0), (1, 0), (0, 1), (9999, 9999)] {
        let read = shape(&format!("1 1 1  0 {column} {row} false none"));
        assert_eq!(read.map(|shape| (shape.column, shape.row)), Some((column, row)));
    }
    for target in ["", "00", "+0", "-0", "0.0", "x00000000", "10000", "src"] {
        assert_eq!(shape(&format!("1 1 1  0 {target} 0 false none")), None, "{target}");
        assert_eq!(shape(&format!("1 1 1  0 0 {target} false none")), None, "{target}");
    }
}

#[test]
fn words() {
    for (edge, mode) in [("duplicate", Edge::Duplicate), ("wrap", Edge::Wrap), ("none", Edge::None)] {
        for (word, preserve) in [("true", true), ("false", false)] {
            let read = shape(&format!("1 1 1  0 0 0 {word} {edge}"));
            assert_eq!(read.map(|shape| (shape.preserve, shape.edge)), Some((preserve, mode)));
        }
    }
    for word in ["", "True", "TRUE", "yes", "1", "0", "true ", "none", "srgb"] {
        assert_eq!(shape(&format!("1 1 1  0 0 0 {word} none")), None, "{word}");
    }
    for edge in ["", "None", "WRAP", "mirror", "reflect", "none ", "true", "srgb", "linear"] {
        assert_eq!(shape(&format!("1 1 1  0 0 0 true {edge}")), None, "{edge}");
    }
}

/// The space stands after the edge mode, or nothing does.
#[test]
fn the_space() {
    for rest in ["1 1 1  0 0 0 true none", "1 1 1 1 0 0 0 true none"] {
        assert_eq!(read(rest).map(|step| step.space), Some(Linear));
        assert_eq!(read(&format!("{rest} linear")).map(|step| step.space), Some(Linear));
        assert_eq!(read(&format!("{rest} srgb")).map(|step| step.space), Some(Srgb));
        for wrong in ["", "sRGB", "0", "none", "srgb srgb", "linear srgb"] {
            assert_eq!(read(&format!("{rest} {wrong}")), None, "{rest} {wrong}");
        }
    }
}

/// Cut short at every field.
#[test]
fn short_lines() {
    let line = "conv\t0\t0\t1\t1\tsrc\t2\t1\t1\t2\t3\t0\t1\t0\ttrue\twrap";
    let fields: Vec<&str> = line.split('\t').collect();
    for count in 1..fields.len() {
        let short = fields[..count].join("\t") + "\n";
        assert!(steps_of(short.as_bytes(), Fault::None).is_err(), "{short}");
    }
    assert!(steps_of(format!("{line}\n").as_bytes(), Fault::None).is_ok());
    let later = "conv\t0\t0\t1\t1\t9\t1\t1\t1\t\t0\t0\t0\ttrue\twrap\n";
    assert!(steps_of(later.as_bytes(), Fault::None).is_ok());
    let two = "conv\t0\t0\t1\t1\tsrc\tsrc\t1\t1\t1\t\t0\t0\t0\ttrue\twrap\n";
    assert!(steps_of(two.as_bytes(), Fault::None).is_err());
}
