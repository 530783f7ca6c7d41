//! The table of full renders.
use super::sheets::{all, Sheet};
use super::{same, Desk, Renderer};
use crate::picture::{picture, ONE};
use crate::rows::{Best, Named};
use crate::turns::take_turns;
use std::cell::RefCell;
use std::hint::black_box;

/// Best times in milliseconds.
struct Row {
    ours: f64,
    plain: f64,
    pass: f64,
}

fn measure(side: usize, sheet: &Sheet, source: &[u8], ours: &dyn Renderer, plain: &dyn Renderer) -> Result<Row, String> {
    let desk = Desk::new(side, &sheet.steps, source);
    let desk = RefCell::new(same::rendered(&desk, ours, plain)?);
    let mut copy = source.to_vec();
    let [ours, plain, pass] = take_turns([
        &mut || assert!(black_box(&mut *desk.borrow_mut()).render(ours).number == 0),
        &mut || assert!(black_box(&mut *desk.borrow_mut()).render(plain).number == 0),
        &mut || black_box(&mut copy).copy_from_slice(black_box(source)),
    ]);
    Ok(Row { ours: ours.best(), plain: plain.best(), pass: pass.best() })
}

/// Each full render, to be measured by itself.
pub fn rows<'a>(side: usize, source: &'a [u8], ours: &'a dyn Renderer, plain: &'a dyn Renderer) -> Vec<Named<'a>> {
    let row = |sheet: Sheet| {
        let name = sheet.name.clone();
        Named::new("render", &name, move || {
            let Row { ours, plain, pass } = measure(side, &sheet, source, ours, plain)?;
            Ok(Best { ours, plain: Some(plain), pass })
        })
    };
    all(side).into_iter().map(row).collect()
}

pub fn print(side: usize, ours: &dyn Renderer, plain: &dyn Renderer) -> Result<(), String> {
    let source = picture(side, ONE);
    println!("| Full render | ours, ms | plain, ms | ours / plain | ours, passes | plain, passes |");
    println!("|---|---|---|---|---|---|");
    for sheet in all(side) {
        let row = measure(side, &sheet, &source, ours, plain).map_err(|error| format!("{}: {error}", sheet.name))?;
        let Row { ours, plain, pass } = row;
        let (ratio, one, other) = (ours / plain, ours / pass, plain / pass);
        println!("| {} | {ours:.2} | {plain:.2} | {ratio:.2} | {one:.1} | {other:.1} |", sheet.name);
    }
    println!("\nBefore a row was measured, ours and the plain version gave the same bytes in every layer.");
    Ok(())
}
