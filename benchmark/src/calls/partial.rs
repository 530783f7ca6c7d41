//! The table of redraws after a small edit, split into what a call spends its time on.
use super::sheets::{all, Sheet};
use super::{same, Desk, Region, Renderer};
use crate::picture::{picture, ONE};
use crate::rows::{Best, Named};
use crate::turns::{take_turns, take_turns_for};
use std::cell::RefCell;
use std::hint::black_box;
use std::time::Duration;

/// Drawing is what a call takes longer than one whose rectangle is empty: a small part of it, so there are many turns.
const LONGEST: Duration = Duration::from_millis(2000);

/// The kernels that stand for the two parts of a call that do not depend on the edit.
pub struct Parts {
    pub scan: fn(&[u8], usize),
    pub clear: fn(&mut [u8]),
}

/// Best times in milliseconds.
struct Row {
    ours: f64,
    scans: f64,
    clearing: f64,
    plain: f64,
    pass: f64,
}

/// 16 × 16 pixels about the middle.
pub fn edit(side: usize) -> Region {
    Region { x: side * 500 / 1024, y: side * 300 / 1024, width: 16, height: 16 }
}

/// The source after the edit: white where it was drawn on.
pub fn edited(side: usize, source: &[u8]) -> Vec<u8> {
    let (mut source, Region { x, y, width, height }) = (source.to_vec(), edit(side));
    source.chunks_exact_mut(4 * side).skip(y).take(height).for_each(|row| row[4 * x..4 * (x + width)].fill(255));
    source
}

/// A desk with the layers of `source`, to be redrawn on the edited one.
pub fn old_layers<'a>(side: usize, sheet: &'a Sheet, source: &[u8], edited: &'a [u8], by: &dyn Renderer) -> Desk<'a> {
    let mut old = Desk::new(side, &sheet.steps, source);
    old.render(by);
    let mut desk = Desk::new(side, &sheet.steps, edited);
    desk.workspace = old.workspace;
    desk
}

fn redraw(desk: &RefCell<Desk>, by: &dyn Renderer, changed: Region) {
    assert!(black_box(&mut *desk.borrow_mut()).redraw(by, changed).number == 0);
}

/// The median and its error.
fn drawing(desk: &RefCell<Desk>, ours: &dyn Renderer) -> (f64, f64) {
    let changed = edit(desk.borrow().side);
    let empty = Region { width: 0, height: 0, ..changed };
    let [whole, nothing] = take_turns_for(LONGEST, [&mut || redraw(desk, ours, changed), &mut || redraw(desk, ours, empty)]);
    whole.longer_than(&nothing)
}

fn measure(desk: &RefCell<Desk>, ours: &dyn Renderer, plain: &dyn Renderer, parts: &Parts) -> Row {
    let (source, side) = (desk.borrow().source, desk.borrow().side);
    let (changed, mut copy) = (edit(side), source.to_vec());
    let times = take_turns([
        &mut || redraw(desk, ours, changed),
        &mut || redraw(desk, plain, changed),
        &mut || {
            let desk = &*desk.borrow();
            let layers = desk.workspace.chunks_exact(source.len());
            layers.chain([source]).for_each(|picture| (parts.scan)(black_box(picture), side));
        },
        &mut || (parts.clear)(black_box(&mut desk.borrow_mut().scratch)),
        &mut || black_box(&mut copy).copy_from_slice(black_box(source)),
    ]);
    let [ours, plain, scans, clearing, pass] = times.map(|times| times.best());
    Row { ours, scans, clearing, plain, pass }
}

/// Each redraw, to be measured by itself.
pub fn rows<'a>(side: usize, source: &'a [u8], ours: &'a dyn Renderer, plain: &'a dyn Renderer, parts: &'a Parts) -> Vec<Named<'a>> {
    let row = |sheet: Sheet| {
        let name = sheet.name.clone();
        Named::new("redraw", &name, move || {
            let edited = edited(side, source);
            let old = old_layers(side, &sheet, source, &edited, plain);
            same::redrawn(&old, edit(side), ours, plain)?;
            let Row { ours, plain, pass, .. } = measure(&RefCell::new(old), ours, plain, parts);
            Ok(Best { ours, plain: Some(plain), pass })
        })
    };
    all(side).into_iter().filter(|sheet| sheet.redrawn).map(row).collect()
}

pub fn print(side: usize, ours: &dyn Renderer, plain: &dyn Renderer, parts: &Parts) -> Result<(), String> {
    let source = picture(side, ONE);
    let edited = edited(side, &source);
    println!("| Redraw | pixels | ours, ms | scans | clearing | drawing | rest | plain, ms | ours / plain | ours, passes |");
    println!("|---|---|---|---|---|---|---|---|---|---|");
    for sheet in all(side).iter().filter(|sheet| sheet.redrawn) {
        let old = old_layers(side, sheet, &source, &edited, plain);
        let count = same::redrawn(&old, edit(side), ours, plain).map_err(|error| format!("{}: {error}", sheet.name))?;
        let desk = RefCell::new(old);
        let (drawing, error) = drawing(&desk, ours);
        let Row { ours, scans, clearing, plain, pass } = measure(&desk, ours, plain, parts);
        let (rest, ratio, passes) = (ours - scans - clearing - drawing, ours / plain, ours / pass);
        let split = format!("{scans:.2} | {clearing:.2} | {drawing:.3} ± {error:.3} | {rest:.2}");
        println!("| {} | {count} | {ours:.2} | {split} | {plain:.2} | {ratio:.2} | {passes:.1} |", sheet.name);
    }
    Ok(())
}
