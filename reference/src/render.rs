//! Full render, partial redraw, and the view of a layer.

use crate::check::{check, side_is_wrong, Answer, Call};
use crate::damage::{count, rectangles};
use crate::fault::Fault;
use crate::filter::{patch, work, Stand};
use crate::picture::Picture;
use crate::rect::Rect;
use crate::step::{Checked, Region, Step, MOST_STEPS};

/// A sheet on a canvas: "a lent list of step records", of which the first `count` are its steps.
#[derive(Clone, Copy)]
pub struct Sheet<'a> {
    pub width: usize,
    pub height: usize,
    pub steps: &'a [Step],
    pub count: usize,
}

impl<'a> Sheet<'a> {
    /// The sheet that a list is as a whole.
    pub fn whole(width: usize, height: usize, steps: &'a [Step]) -> Sheet<'a> {
        Sheet { width, height, steps, count: steps.len() }
    }

    /// Its steps: all, where the list has fewer records than the count says.
    fn counted(&self, fault: Fault) -> &'a [Step] {
        let all = self.steps.len();
        &self.steps[..fault.choose(Fault::WholeListCounts, self.count.min(all), all)]
    }

    fn checked(
        &self,
        rect: Option<Region>,
        source: &[u8],
        workspace: &[u8],
        scratch: &mut [u8],
        fault: Fault,
    ) -> Result<Vec<Checked>, Answer> {
        let steps = self.counted(fault);
        let call = Call { width: self.width, height: self.height, steps, rect, source, workspace, scratch };
        let steps = check(&call, fault);
        // "A refusal changes nothing that was lent"; scratch "is all zero after an accepted call".
        let clears = match steps {
            Ok(_) => !fault.is(Fault::ScratchLeft),
            Err(_) => fault.is(Fault::RefusalClears),
        };
        if clears {
            scratch.fill(0);
        }
        steps
    }
}

/// "Step n makes layer n; the workspace holds the layers one after another."
pub fn render(sheet: Sheet, source: &[u8], workspace: &mut [u8], scratch: &mut [u8], fault: Fault) -> Answer {
    let steps = match sheet.checked(None, source, workspace, scratch, fault) {
        Ok(steps) => steps,
        Err(answer) => return answer,
    };
    let blank = Picture::blank(sheet.width, sheet.height);
    let source = Picture::from_bytes(sheet.width, sheet.height, source);
    let mut stand = Stand::new(source, vec![blank.clone(); steps.len()], &steps, fault);
    for (n, step) in drawn(&steps, fault) {
        let cut = fault.choose(
            Fault::RegionNotCut,
            Rect::of(step.region),
            Rect { left: 0, top: 0, right: 2048, bottom: 2048 },
        );
        stand.layers[n] = patch(cut, &work(step, &stand, fault), &blank);
    }
    store(&stand.layers, workspace);
    Answer::DONE
}

/// "Inside it each pixel is worked from the inputs as they stand after earlier steps; outside, the layer keeps its bytes."
pub fn redraw(
    sheet: Sheet,
    rect: Region,
    source: &[u8],
    workspace: &mut [u8],
    scratch: &mut [u8],
    fault: Fault,
) -> (Answer, u64) {
    let steps = match sheet.checked(Some(rect), source, workspace, scratch, fault) {
        Ok(steps) => steps,
        Err(answer) => return (answer, 0),
    };
    let changed = Rect::of(rect);
    let rects = rectangles(sheet.width, sheet.height, &steps, changed, fault);
    let source = Picture::from_bytes(sheet.width, sheet.height, source);
    let size = 4 * sheet.width * sheet.height;
    let old: Vec<Picture> =
        workspace.chunks_exact(size).map(|layer| Picture::from_bytes(sheet.width, sheet.height, layer)).collect();
    let mut stand = Stand::new(source.clone(), old.clone(), &steps, fault);
    let before = Stand::new(source, old, &steps, fault);
    for (n, step) in drawn(&steps, fault) {
        let from = if fault.is(Fault::RedrawnFromOld) { &before } else { &stand };
        let rect = fault.choose(Fault::WholeRegionRedrawn, rects[n], Rect::of(step.region));
        let layer = patch(rect, &work(step, from, fault), &stand.layers[n]);
        stand.layers[n] = layer;
    }
    store(&stand.layers, workspace);
    (Answer::DONE, count(&rects, changed, fault))
}

/// Every step with its number.
fn drawn(steps: &[Checked], fault: Fault) -> impl Iterator<Item = (usize, &Checked)> {
    steps.iter().enumerate().take(fault.choose(Fault::SixteenDrawn, steps.len(), 16))
}

fn store(layers: &[Picture], workspace: &mut [u8]) {
    let bytes: Vec<u8> = layers.iter().flat_map(Picture::bytes).collect();
    workspace.copy_from_slice(&bytes);
}

/// "For valid W, H, step count and workspace length and a layer below the count, the view is that layer's own bytes
/// in the lent workspace, all 4·W·H; otherwise an empty part at its start." Where it begins, and its length, in a workspace
/// of so many bytes.
pub fn layer(width: usize, height: usize, steps: usize, n: usize, workspace: usize, fault: Fault) -> (usize, usize) {
    let sizes = side_is_wrong(width) || side_is_wrong(height) || steps == 0 || steps > MOST_STEPS;
    if fault.is(Fault::ViewOfSixteen) && n >= 16 {
        return (0, 0);
    }
    if sizes || workspace != 4 * width * height * steps || n >= steps + fault.choose(Fault::ViewBeyondLast, 0, 1) {
        return (0, 0);
    }
    let size = 4 * width * height;
    (n * size, size)
}
