//! Other programs beside ours, where they are installed.
mod librsvg;
mod opencv;
mod pixman;
mod shared;

use crate::calls::sheets::all as sheets;
use crate::calls::{Desk, Renderer};
use crate::picture::{picture, ONE, OTHER};
use crate::turns::take_turns;
use std::hint::black_box;

/// An operation of another program.
pub struct Other {
    name: String,
    /// The sheet of ours that does the same.
    beside: String,
    run: Box<dyn FnMut()>,
    /// What is no part of the operation and is taken off.
    without: Option<Box<dyn FnMut()>>,
    /// What is not the same.
    differs: &'static str,
}

/// librsvg and OpenCV are to work in one thread, as ours does; librsvg reads this when it first draws.
fn one_thread() {
    std::env::set_var("RAYON_NUM_THREADS", "1");
}

pub fn print(side: usize, ours: &dyn Renderer) {
    one_thread();
    let (a, b) = (picture(side, ONE), picture(side, OTHER));
    let found = [("pixman", pixman::all(side, &a, &b)), ("OpenCV", opencv::all(side, &a)), ("librsvg", librsvg::all(side))];
    let missing: Vec<&str> = found.iter().filter(|(_, others)| others.is_none()).map(|(name, _)| *name).collect();
    let others: Vec<Other> = found.into_iter().filter_map(|(_, others)| others).flatten().collect();
    if !others.is_empty() {
        println!("| Another program | ours, ms | theirs, ms | ours / theirs | what differs |");
        println!("|---|---|---|---|---|");
    }
    for other in others {
        print_row(side, &a, ours, other);
    }
    if !missing.is_empty() {
        println!("Not installed, so not measured: {}.", missing.join(", "));
    }
}

fn print_row(side: usize, source: &[u8], ours: &dyn Renderer, mut other: Other) {
    let sheet = sheets(side).into_iter().find(|sheet| sheet.name == other.beside).expect("a sheet of that name");
    let mut desk = Desk::new(side, &sheet.steps, source);
    let mut without = other.without.unwrap_or(Box::new(|| ()));
    let times = take_turns([&mut || assert!(black_box(&mut desk).render(ours).number == 0), &mut || (other.run)(), &mut || without()]);
    let [ours, whole, without] = times.map(|times| times.best());
    let theirs = whole - without;
    println!("| {} | {ours:.2} | {theirs:.2} | {:.2} | {} |", other.name, ours / theirs, other.differs);
}
