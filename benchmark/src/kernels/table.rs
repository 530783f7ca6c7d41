//! The table of kernels: each as a multiple of one memory pass, memcpy of the same picture.
use super::canvas::Canvas;
use super::steps::{all, Step};
use crate::rows::{Best, Named};
use crate::turns::take_turns;
use std::cell::RefCell;
use std::hint::black_box;
use std::rc::Rc;

/// The best time of a memory pass and of the step, which take turns.
fn measure(canvas: &RefCell<Canvas>, step: &Step) -> (f64, f64) {
    let mut pass = || {
        let c = &mut *canvas.borrow_mut();
        black_box(&mut c.out).copy_from_slice(black_box(&c.a));
    };
    let mut work = || (step.run)(black_box(&mut canvas.borrow_mut()));
    let [pass, work] = take_turns([&mut pass, &mut work]);
    (pass.best(), work.best())
}

/// Each kernel over the large picture, to be measured by itself.
pub fn rows() -> Vec<Named<'static>> {
    let canvas = Rc::new(RefCell::new(Canvas::new(1024)));
    let row = |step: Step| {
        let (name, canvas) = (step.name.clone(), canvas.clone());
        Named::new("kernel", &name, move || {
            let (pass, ours) = measure(&canvas, &step);
            Ok(Best { ours, plain: None, pass })
        })
    };
    all().into_iter().map(row).collect()
}

pub fn print() {
    let canvases = [1024, 256].map(|side| RefCell::new(Canvas::new(side)));
    let mut passes = [f64::INFINITY; 2];
    println!("| Kernel | 1,024 × 1,024 | 256 × 256 | Target |");
    println!("|---|---|---|---|");
    for step in all() {
        let [large, small] = [0, 1].map(|n| {
            let (pass, work) = measure(&canvases[n], &step);
            passes[n] = passes[n].min(pass);
            work / pass
        });
        let target = step.target.map_or(String::new(), |t| format!("≤ {t}"));
        println!("| {} | {large:.2} | {small:.2} | {target} |", step.name);
    }
    let [large, small] = passes;
    println!("\nOne memory pass: {large:.3} ms for 1,024 × 1,024, {small:.4} ms for 256 × 256 (the best of all).");
}
