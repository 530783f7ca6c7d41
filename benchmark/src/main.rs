//! Prints the tables; with `rows` and names, the rows of these names.
use benchmark::calls::{library::Library, partial, whole};
use benchmark::picture::{picture, ONE};
use benchmark::plain::Plain;
use benchmark::{kernels, others, rows};
use std::process::ExitCode;

const SIDE: usize = 1024;

const PARTS: partial::Parts =
    partial::Parts { scan: |pixels, side| assert!(kernels::first_invalid(pixels, side, side) == side * side), clear: kernels::clear };

fn tables() -> Result<(), String> {
    kernels::table::print();
    println!();
    whole::print(SIDE, &Library, &Plain)?;
    println!();
    partial::print(SIDE, &Library, &Plain, &PARTS)?;
    println!();
    others::print(SIDE, &Library);
    Ok(())
}

fn named_rows(names: &[String]) -> Result<(), String> {
    let source = picture(SIDE, ONE);
    let mut all = kernels::table::rows();
    all.extend(whole::rows(SIDE, &source, &Library, &Plain));
    all.extend(partial::rows(SIDE, &source, &Library, &Plain, &PARTS));
    rows::print(&all, names)
}

fn main() -> ExitCode {
    let words: Vec<String> = std::env::args().skip(1).collect();
    let done = match words.split_first() {
        None => tables(),
        Some((word, names)) if word == "rows" => named_rows(names),
        Some(_) => Err("usage: benchmark [rows [NAME..]]".into()),
    };
    match done {
        Ok(()) => ExitCode::SUCCESS,
        Err(error) => {
            eprintln!("not measured: {error}");
            ExitCode::FAILURE
        }
    }
}
