//! The comparison with a program `sheet`, run on each text.

use crate::budget::Tally;
use crate::cases::texts;
use crate::fault::Fault;
use crate::print;
use crate::random::Random;
use std::io::Write;
use std::path::Path;
use std::process::{Command, Stdio};

/// What the program prints for the text; nothing where it fails or complains.
fn printed(program: &Path, text: &[u8]) -> std::io::Result<Option<Vec<u8>>> {
    let mut child =
        Command::new(program).stdin(Stdio::piped()).stdout(Stdio::piped()).stderr(Stdio::piped()).spawn()?;
    // A program that has read enough may close its input before the end.
    let _ = child.stdin.take().expect("piped").write_all(text);
    let output = child.wait_with_output()?;
    Ok((output.status.success() && output.stderr.is_empty()).then_some(output.stdout))
}

/// Runs the program on `count` texts, the listed ones first, and on one far longer than a sheet may be; says how many answers of each number there were.
pub fn compare(program: &Path, count: usize, seed: u64) -> std::io::Result<Tally> {
    let mut random = Random::new(seed);
    let mut tally = Tally::default();
    let mut all = texts::many(&mut random, count);
    all.push(vec![b'\n'; 1_000_000]);
    let answers: Vec<Vec<u8>> = all.iter().map(|text| print::sheet(text, Fault::None)).collect();
    print!("{}", texts::by_number(&answers));
    for (n, (text, rules)) in all.iter().zip(&answers).enumerate() {
        let failures = match printed(program, text)? {
            Some(ours) if ours == *rules => Vec::new(),
            ours => {
                let shown = |bytes: &[u8]| String::from_utf8_lossy(bytes).into_owned();
                vec![format!(
                    "printed {:?}, rules {:?}, text {:?}",
                    ours.as_deref().map(shown),
                    shown(rules),
                    shown(text)
                )]
            }
        };
        tally.add(&format!("text {n}"), 1, &failures);
    }
    Ok(tally)
}
