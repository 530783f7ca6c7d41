//! The proved library, through its Rust wrapper.
use super::{Answer, Call, Region, Renderer};
use twillgoose::{Rect, Refusal};

pub struct Library;

fn answer(result: Result<u64, Refusal>) -> Answer {
    match result {
        Ok(count) => Answer { count, ..Answer::default() },
        Err(refusal) => Answer { number: refusal.number().into(), place: refusal.place() as u64, count: 0 },
    }
}

impl Renderer for Library {
    fn render(&self, call: Call) -> Answer {
        let Call { width, height, steps, source, workspace, scratch } = call;
        answer(twillgoose::render(width, height, steps, source, workspace, scratch).map(|()| 0))
    }

    fn redraw(&self, call: Call, changed: Region) -> Answer {
        let Call { width, height, steps, source, workspace, scratch } = call;
        let rect = Rect { x: changed.x, y: changed.y, width: changed.width, height: changed.height };
        answer(twillgoose::redraw(width, height, steps, rect, source, workspace, scratch))
    }
}
