//! The text form: each way in which it can be wrong, with its line.

mod common;

use reference::cases::{sheet, style, texts};
use reference::fault::Fault;
use reference::print;
use reference::random::Random;
use reference::text::{steps_of, LONGEST_TEXT};

fn printed(text: &str) -> String {
    let bytes = text.replace(' ', "\t").into_bytes();
    String::from_utf8(print::sheet(&bytes, Fault::None)).expect("plain text")
}

fn refused(text: &str, number: u8, place: usize) {
    assert_eq!(printed(text), format!("refused\t{number}\t{place}\n"), "{text}");
}

const OK: &str = "ok\nrow\t00000000\n";

#[test]
fn missing_and_surplus_lines() {
    refused("", 15, 1);
    refused("\n", 15, 1);
    refused("canvas 1 1", 15, 1);
    refused("canvas 1 1\n", 15, 2);
    refused("canvas 1 1\nlumalpha 0 0 1 1 src\n", 15, 3);
    refused("canvas 1 1\nlumalpha 0 0 1 1 src\nrow 00000000", 15, 3);
    refused("canvas 1 1\nlumalpha 0 0 1 1 src\nrow 00000000\nrow 00000000\n", 15, 4);
    refused("canvas 1 1\nlumalpha 0 0 1 1 src\nrow 00000000\n\n", 15, 4);
    refused("canvas 1 1\nlumalpha 0 0 1 1 src\nrow 00000000\nx", 15, 4);
    refused("canvas 1 2\nrow 00000000\nlumalpha 0 0 1 1 src\nrow 00000000\n", 15, 3);
    refused("row 00000000\ncanvas 1 1\n", 15, 1);
    assert_eq!(printed("canvas 1 1\nlumalpha 0 0 1 1 src\nrow 00000000\n"), OK);
}

#[test]
fn empty_sides_and_sheets() {
    refused("canvas 0 0\n", 1, 0);
    refused("canvas 0 2\nrow\nrow\n", 1, 0);
    refused("canvas 0 2\nrow\nrow \n", 15, 3);
    refused("canvas 2 0\nlumalpha 0 0 1 1 src\n", 1, 0);
    refused("canvas 2 0\nrow 00000000 00000000\n", 15, 2);
    refused("canvas 1 1\nrow 00000000\n", 3, 0);
    refused("canvas 17 1\n", 15, 1);
    refused("canvas 16\n", 15, 1);
    refused("canvas 1 1 1\nrow 00000000\n", 15, 1);
}

#[test]
fn sixty_four_steps_and_one_more() {
    let step = "lumalpha 0 0 1 1 src\n";
    let tabs = step.replace(' ', "\t");
    for count in [16, 17, 63, 64] {
        assert_eq!(printed(&format!("canvas 1 1\n{}row 00000000\n", step.repeat(count))), OK);
        assert_eq!(steps_of(tabs.repeat(count).as_bytes(), Fault::None).map(|steps| steps.len()), Ok(count));
    }
    refused(&format!("canvas 1 1\n{}row 00000000\n", step.repeat(65)), 15, 66);
    assert_eq!(
        steps_of(tabs.repeat(65).as_bytes(), Fault::None).map_err(|answer| (answer.number, answer.place)),
        Err((15, 65))
    );
    assert_eq!(steps_of(b"", Fault::None), Ok(Vec::new()));
}

#[test]
fn number_fields() {
    let blur = |field: &str| printed(&format!("canvas 1 1\nblur 0 0 1 1 src {field} 0\nrow 00000000\n"));
    for field in ["0", "-0", "-0.0000", "0.0", "1.5", "31.9999", "x00000000", "x80000000", "x3fc00000"] {
        assert_eq!(blur(field), OK, "{field}");
    }
    for field in [
        "",
        "00",
        "01",
        "+1",
        "1.",
        ".5",
        "1.00000",
        "100000",
        "000000",
        "--1",
        "-",
        "-x00000000",
        "x0000000",
        "x000000000",
        "X00000000",
        "x7FC00000",
        "1e1",
        "1,5",
        "1.5.5",
        "nan",
    ] {
        assert_eq!(blur(field), "refused\t15\t2\n", "{field}");
    }
    for (field, number) in
        [("99999", 10), ("99999.9999", 10), ("-99999", 9), ("-0.0001", 9), ("32.0001", 10), ("xffc00000", 8)]
    {
        assert_eq!(blur(field), format!("refused\t{number}\t0\n"), "{field}");
    }
}

#[test]
fn whole_fields_inputs_and_words() {
    let line = |line: &str| printed(&format!("canvas 1 1\n{line}\nrow 00000000\n"));
    for wrong in [
        "lumalpha 00 0 1 1 src",
        "lumalpha 0 -0 1 1 src",
        "lumalpha 0 0 1.0 1 src",
        "lumalpha 10000 0 1 1 src",
        "lumalpha 0 0 1 1 01",
        "lumalpha 0 0 1 1 Src",
    ] {
        assert_eq!(line(wrong), "refused\t15\t2\n", "{wrong}");
    }
    for wrong in [
        "Blur 0 0 1 1 src 0 0",
        "gauss 0 0 1 1 src 0 0",
        "blur 0 0 1 1 src 0",
        "blur 0 0 1 1 src 0 0 0",
        "blur 0 0 1 1 0 0",
        "over 0 0 1 1 src",
        "merge 0 0 1 1",
        "merge 0 0 1 1 src src src src src",
    ] {
        assert_eq!(line(wrong), "refused\t15\t2\n", "{wrong}");
    }
    for wrong in [
        "flood 0 0 1 1 256 0 0 1",
        "flood 0 0 1 1 0 0 1",
        "flood 0 0 1 1 src 0 0 0 1",
        "flood 0 0 1 1 0 0 0 0 1",
        "flood 0 0 1 1 1.0 0 0 1",
    ] {
        assert_eq!(line(wrong), "refused\t15\t2\n", "{wrong}");
    }
    assert_eq!(line("lumalpha 0 0 1 1 9999"), "refused\t7\t0\n");
    assert_eq!(line("lumalpha 9999 0 1 1 src"), "refused\t13\t0\n");
    assert_eq!(line("flood 0 0 1 1 255 0 9 1 srgb"), "ok\nrow\tff0009ff\n");
}

#[test]
fn fifteen_comes_first() {
    refused("canvas 0 1\nlumalpha 0 0 1 1 9\nrow 00000000\n", 15, 3);
    refused("canvas 1 1\nlumalpha 0 0 1 1 9\nrow 0000000G\n", 15, 3);
    refused("canvas 1 1\nlumalpha 0 0 1 1 9\nrow 00000100\n", 7, 0);
    refused("canvas 1 1\nlumalpha 0 0 1 1 src\nrow 00000100\n", 14, 0);
}

#[test]
fn tabs_and_returns() {
    for wrong in ["canvas 1 1\r\n", "canvas  1 1\n", " canvas 1 1\n", "canvas 1 1 \n"] {
        refused(wrong, 15, 1);
    }
    assert_eq!(print::sheet(b"canvas 1 1\n", Fault::None), b"refused\t15\t1\n");
}

#[test]
fn longest_text() {
    let mut text = vec![b'\n'; LONGEST_TEXT];
    assert_eq!(print::sheet(&text, Fault::None), b"refused\t15\t1\n");
    text.push(b'\n');
    assert_eq!(print::sheet(&text, Fault::None), b"refused\t15\t0\n");
}

/// No text of the form reaches the limit: the longest has 64 curves of 855 bytes and 16 rows of 148.
#[test]
fn longest_text_of_the_form() {
    let channel = format!(" discrete 16{}", " -99999.9999".repeat(16));
    let step = format!("curve 9999 9999 9999 9999 alpha{} linear\n", channel.repeat(4));
    let row = format!("row{}\n", " 00000000".repeat(16));
    let text = format!("canvas 16 16\n{}{}", step.repeat(64), row.repeat(16));
    assert_eq!((step.len(), row.len(), text.len()), (855, 148, 57_101));
    refused(&text, 9, 0);
}

#[test]
fn what_is_written_is_read() {
    let mut random = Random::new(8);
    for n in 0..1_000 {
        let steps: Vec<_> = sheet(&mut random, 1 + n % 64, 7, 5, false);
        let text = print::steps(&steps, style(&mut random));
        assert_eq!(steps_of(text.as_bytes(), Fault::None), Ok(steps));
    }
}

/// The list of texts has every refusal that a text can earn; 16 is none of them.
#[test]
fn texts_of_every_answer() {
    let mut random = Random::new(1);
    let mut all = texts::listed(&mut random);
    assert!(all.len() > 2_000);
    all.extend((0..3_000).map(|_| texts::text(&mut random)));
    let answers: Vec<Vec<u8>> = all.iter().map(|text| print::sheet(text, Fault::None)).collect();
    for number in [1, 3, 7, 8, 9, 10, 11, 13, 14, 15] {
        let begin = format!("refused\t{number}\t");
        assert!(answers.iter().filter(|answer| answer.starts_with(begin.as_bytes())).count() >= 5, "{number}");
    }
    assert!(!answers.iter().any(|answer| answer.starts_with(b"refused\t16\t")));
    assert!(answers.iter().filter(|answer| answer.starts_with(b"ok\n")).count() > 500);
}
