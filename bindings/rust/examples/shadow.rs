//! Draws a drop shadow under a picture: `cargo run --example shadow IN.pam OUT.pam [DX DY DEVIATION]`.
//!
//! The files are PAM (RGB_ALPHA, 8 bit), at most 1,024 by 1,024. The numbers go into the step lines as they are typed: the
//! library judges them, and says which step it refuses.

mod pam;

use std::process::ExitCode;

/// The shadow's steps, all in sRGB: the picture's alpha blurred and moved, a dark blue inside it, the picture on top.
fn steps(width: usize, height: usize, dx: &str, dy: &str, deviation: &str) -> String {
    let line = |kind: &str, rest: &[&str]| format!("{kind}\t0\t0\t{width}\t{height}\t{}\tsrgb\n", rest.join("\t"));
    [
        line("blur", &["alpha", deviation, deviation]),
        line("offset", &["0", dx, dy]),
        line("flood", &["16", "16", "64", "0.6"]),
        line("in", &["2", "1"]),
        line("merge", &["3", "src"]),
    ]
    .concat()
}

/// The picture with its shadow.
fn shadowed(picture: &pam::Picture, dx: &str, dy: &str, deviation: &str) -> Result<pam::Picture, twillgoose::Refusal> {
    let pam::Picture { width, height, pixels } = picture;
    let (width, height) = (*width, *height);
    let steps = steps(width, height, dx, dy, deviation);
    let count = steps.lines().count();
    let mut workspace = vec![0; twillgoose::workspace_len(width, height, count)];
    let mut scratch = vec![0; twillgoose::scratch_len(width, height)];
    twillgoose::render(width, height, &steps, &pam::premultiply(pixels), &mut workspace, &mut scratch)?;
    let last = twillgoose::layer(width, height, count, count - 1, &workspace).unwrap_or_default();
    Ok(pam::Picture { width, height, pixels: pam::unpremultiply(last) })
}

fn run(words: &[String]) -> Result<(), String> {
    let words: Vec<&str> = words.iter().map(String::as_str).collect();
    let (from, to, dx, dy, deviation) = match words[..] {
        [from, to] => (from, to, "6", "5", "2.5"),
        [from, to, dx, dy, deviation] => (from, to, dx, dy, deviation),
        _ => return Err("usage: shadow IN.pam OUT.pam [DX DY DEVIATION]".into()),
    };
    let file = std::fs::read(from).map_err(|error| format!("{from}: {error}"))?;
    let picture = pam::read(&file).map_err(|error| format!("{from}: {error}"))?;
    let drawn = shadowed(&picture, dx, dy, deviation)
        .map_err(|refusal| format!("refused {} at {}: {refusal}", refusal.number(), refusal.place()))?;
    std::fs::write(to, pam::write(&drawn)).map_err(|error| format!("{to}: {error}"))
}

fn main() -> ExitCode {
    match run(&std::env::args().skip(1).collect::<Vec<_>>()) {
        Ok(()) => ExitCode::SUCCESS,
        Err(error) => {
            eprintln!("{error}");
            ExitCode::FAILURE
        }
    }
}
