//! Two renderers give the same: a benchmark of different results would say nothing.
use super::{Answer, Desk, Region, Renderer};

/// A full render by both, into desks that hold other bytes before. The layers that both have drawn.
pub fn rendered<'a>(desk: &Desk<'a>, ours: &dyn Renderer, plain: &dyn Renderer) -> Result<Desk<'a>, String> {
    let (mut one, mut other) = (desk.clone(), desk.clone());
    let answers = [one.render(ours), other.render(plain)];
    compared(&one, &other, answers)?;
    Ok(one)
}

/// A redraw by both, of a desk that holds old layers; and it is the full render of what the desk is drawn on. The count.
pub fn redrawn(old: &Desk, changed: Region, ours: &dyn Renderer, plain: &dyn Renderer) -> Result<u64, String> {
    let (mut one, mut other, mut full) = (old.clone(), old.clone(), old.clone());
    let answers = [one.redraw(ours, changed), other.redraw(plain, changed)];
    compared(&one, &other, answers)?;
    full.render(plain);
    if one.workspace != full.workspace {
        return Err("a redraw is not the full render".into());
    }
    Ok(answers[0].count)
}

fn compared(one: &Desk, other: &Desk, answers: [Answer; 2]) -> Result<(), String> {
    if answers[0] != answers[1] || answers[0].number != 0 {
        return Err(format!("answers differ or refuse: {answers:?}"));
    }
    let size = 4 * one.side * one.side;
    let layers = one.workspace.chunks_exact(size).zip(other.workspace.chunks_exact(size));
    for (n, (a, b)) in layers.enumerate() {
        if let Some(byte) = a.iter().zip(b).position(|(a, b)| a != b) {
            return Err(format!("layer {n} differs at byte {byte}: {} and {}", a[byte], b[byte]));
        }
    }
    if one.scratch.iter().chain(&other.scratch).any(|byte| *byte != 0) {
        return Err("scratch is not cleared".into());
    }
    Ok(())
}
