//! The comparison: a renderer against the rules, on seeded cases, byte for byte.

use crate::cases::{case, picture, texts, Case};
use crate::check::Answer;
use crate::fault::Fault;
use crate::print;
use crate::random::Random;
use crate::render::{layer, redraw, render, Sheet};
use crate::step::Region;
use crate::text::{steps_of, LONGEST_TEXT};

/// The longest answer of `sheet` is far shorter.
pub const ROOM: usize = 4096;

/// What is compared: the library's functions. Steps are lines of text; `render` and `redraw` return the number, `layer` the
/// length of a layer in a workspace of so many bytes, `sheet` the length of what is printed, stored where it fits.
pub trait Renderer {
    #[allow(clippy::too_many_arguments)]
    fn render(
        &self,
        width: usize,
        height: usize,
        steps: &[u8],
        source: &[u8],
        workspace: &mut [u8],
        scratch: &mut [u8],
        place: &mut u64,
    ) -> u64;
    #[allow(clippy::too_many_arguments)]
    fn redraw(
        &self,
        width: usize,
        height: usize,
        steps: &[u8],
        rect: Region,
        source: &[u8],
        workspace: &mut [u8],
        scratch: &mut [u8],
        place: &mut u64,
        count: &mut u64,
    ) -> u64;
    fn layer(&self, width: usize, height: usize, steps: usize, n: usize, workspace: usize, offset: &mut u64) -> u64;
    fn sheet(&self, text: &[u8], out: &mut [u8]) -> u64;
}

/// The rules of this package, with a fault or without.
pub struct Reference(pub Fault);

impl Renderer for Reference {
    fn render(
        &self,
        width: usize,
        height: usize,
        steps: &[u8],
        source: &[u8],
        workspace: &mut [u8],
        scratch: &mut [u8],
        place: &mut u64,
    ) -> u64 {
        let answer = steps_of(steps, self.0)
            .map(|steps| render(Sheet::whole(width, height, &steps), source, workspace, scratch, self.0));
        told(answer.unwrap_or_else(|refused| refused), place)
    }

    fn redraw(
        &self,
        width: usize,
        height: usize,
        steps: &[u8],
        rect: Region,
        source: &[u8],
        workspace: &mut [u8],
        scratch: &mut [u8],
        place: &mut u64,
        count: &mut u64,
    ) -> u64 {
        let redrawn = steps_of(steps, self.0)
            .map(|steps| redraw(Sheet::whole(width, height, &steps), rect, source, workspace, scratch, self.0));
        let (answer, worked) = redrawn.unwrap_or_else(|refused| (refused, 0));
        if answer == Answer::DONE || !self.0.is(Fault::RefusalKeepsCount) {
            *count = worked;
        }
        told(answer, place)
    }

    fn layer(&self, width: usize, height: usize, steps: usize, n: usize, workspace: usize, offset: &mut u64) -> u64 {
        let (from, length) = layer(width, height, steps, n, workspace, self.0);
        *offset = from as u64;
        length as u64
    }

    fn sheet(&self, text: &[u8], out: &mut [u8]) -> u64 {
        let printed = print::sheet(text, self.0);
        let fits = printed.len() <= out.len();
        if fits || self.0.is(Fault::PrintedInPart) {
            let length = printed.len().min(out.len());
            out[..length].copy_from_slice(&printed[..length]);
        }
        printed.len() as u64
    }
}

/// Number and place apart.
fn told(answer: Answer, place: &mut u64) -> u64 {
    *place = answer.place;
    u64::from(answer.number)
}

/// Everything that a call leaves.
#[derive(PartialEq, Eq)]
pub struct After {
    number: u64,
    place: u64,
    count: u64,
    source: Vec<u8>,
    workspace: Vec<u8>,
    scratch: Vec<u8>,
}

impl After {
    fn refused(&self) -> bool {
        self.number != 0
    }

    /// What differs from the other, in words.
    fn difference(&self, rules: &After) -> Option<String> {
        let first = |a: &[u8], b: &[u8]| a.iter().zip(b).position(|(a, b)| a != b);
        if (self.number, self.place) != (rules.number, rules.place) {
            let say = |after: &After| format!("{} at {}", after.number, after.place);
            return Some(format!("answer {}, rules {}", say(self), say(rules)));
        }
        if self.count != rules.count {
            return Some(format!("count {}, rules {}", self.count, rules.count));
        }
        for (name, a, b) in [
            ("source", &self.source, &rules.source),
            ("workspace", &self.workspace, &rules.workspace),
            ("scratch", &self.scratch, &rules.scratch),
        ] {
            if let Some(byte) = first(a, b) {
                return Some(format!("{name} byte {byte} is {}, rules {}", a[byte], b[byte]));
            }
        }
        None
    }
}

/// What stands in an out parameter before a call, and stays where the call does not set it.
const UNSET: u64 = 77_777_777;

/// A full render of the case, or a redraw of its rectangle.
pub fn call(renderer: &dyn Renderer, case: &Case, partly: bool) -> After {
    let Case { width, height, steps, rect, source, workspace, scratch } = case.clone();
    let mut after = After { number: 0, place: UNSET, count: 0, source, workspace, scratch };
    let After { source, workspace, scratch, place, count, .. } = &mut after;
    after.number = if partly {
        *count = UNSET;
        renderer.redraw(width, height, &steps, rect, source, workspace, scratch, place, count)
    } else {
        renderer.render(width, height, &steps, source, workspace, scratch, place)
    };
    after
}

/// Render or redraw of the case by both; a refusal leaves every buffer as it was.
pub fn same_call(renderer: &dyn Renderer, case: &Case, partly: bool) -> Result<(), String> {
    let (ours, rules) = (call(renderer, case, partly), call(&Reference(Fault::None), case, partly));
    let name = if partly { "redraw" } else { "render" };
    if let Some(difference) = ours.difference(&rules) {
        return Err(format!("{name}: {difference}"));
    }
    if ours.refused() && (ours.workspace != case.workspace || ours.scratch != case.scratch || ours.count != 0) {
        return Err(format!("{name}: a refusal changed a buffer"));
    }
    Ok(())
}

/// "Redraw equals render": with the layers of an old picture that agrees outside the rectangle, a redraw gives the
/// layers of the new one.
pub fn redraw_is_render(renderer: &dyn Renderer, case: &Case, random: &mut Random) -> Result<(), String> {
    let new = call(renderer, case, false);
    if new.refused() {
        return Ok(());
    }
    let Region { x, y, width, height } = case.rect;
    if x.saturating_add(width) > case.width || y.saturating_add(height) > case.height {
        return Ok(());
    }
    let mut old = case.clone();
    let other = picture(random, case.width * case.height);
    for row in y..y + height {
        let (from, to) = (4 * (row * case.width + x), 4 * (row * case.width + x + width));
        old.source[from..to].copy_from_slice(&other[from..to]);
    }
    let mut again = case.clone();
    again.workspace = call(renderer, &old, false).workspace;
    let redrawn = call(renderer, &again, true);
    if redrawn.refused() || redrawn.workspace != new.workspace {
        return Err("redraw of the old layers is not the render of the new picture".into());
    }
    same_call(renderer, &again, true)
}

pub fn same_view(renderer: &dyn Renderer, random: &mut Random) -> Result<(), String> {
    let side = |random: &mut Random| random.pick(&[0, 1, 2, 3, 7, 1024, 1025, usize::MAX]);
    let (width, height, steps) =
        (side(random), side(random), random.pick(&[0, 1, 2, 3, 16, 17, 63, 64, 65, usize::MAX]));
    let exact = width.wrapping_mul(height).wrapping_mul(4).wrapping_mul(steps);
    let length = exact.wrapping_add(random.pick(&[0, 0, 0, 1, 4, usize::MAX]));
    let n = random.pick(&[0, steps.wrapping_sub(1), steps, steps / 2, usize::MAX]);
    let view = |renderer: &dyn Renderer| {
        let mut offset = UNSET;
        let long = renderer.layer(width, height, steps, n, length, &mut offset);
        (offset, long)
    };
    let (ours, rules) = (view(renderer), view(&Reference(Fault::None)));
    if ours == rules {
        Ok(())
    } else {
        Err(format!("layer {n} of {steps} on {width} x {height}, {length} bytes: {ours:?}, rules {rules:?}"))
    }
}

/// The printed answer, in room enough, in exactly its own, or in too little: there nothing is stored.
pub fn same_text(renderer: &dyn Renderer, text: &[u8], random: &mut Random) -> Result<(), String> {
    let rules = print::sheet(text, Fault::None);
    let room = random.pick(&[ROOM, ROOM, rules.len(), rules.len() - 1, 0]);
    let mut out = vec![0xaa; room];
    let length = renderer.sheet(text, &mut out) as usize;
    let mut expected = vec![0xaa; room];
    if rules.len() <= room {
        expected[..rules.len()].copy_from_slice(&rules);
    }
    if length == rules.len() && out == expected {
        return Ok(());
    }
    let ours = String::from_utf8_lossy(&out[..length.min(room)]).into_owned();
    Err(format!(
        "sheet printed {length} bytes into {room}, {ours:?}, rules {:?}, text {:?}",
        String::from_utf8_lossy(&rules),
        String::from_utf8_lossy(text)
    ))
}

/// How many comparisons a seeded case makes.
pub const CHECKS: usize = 8;

/// One seeded case: four texts, a render, a redraw, a redraw of old layers, a view. What went wrong, for each.
pub fn seeded(renderer: &dyn Renderer, seed: u64) -> Vec<String> {
    let mut random = Random::new(seed.wrapping_mul(0x5851_f42d_4c95_7f2d));
    let [a, b, c, d] = [(); 4].map(|()| {
        let text = texts::text(&mut random);
        same_text(renderer, &text, &mut random)
    });
    let mut case = case(&mut random);
    if random.once_in(100) {
        // Longer than a whole sheet may be: step lines alone have no such limit.
        let byte = random.pick(b"\n0\t ");
        case.steps.resize(LONGEST_TEXT + 1, byte);
    }
    let told = |result: Result<(), String>| result.map_err(|failure| format!("{failure}; {}", case.summary()));
    let full = told(same_call(renderer, &case, false));
    let part = told(same_call(renderer, &case, true));
    let again = told(redraw_is_render(renderer, &case, &mut random));
    let results = [a, b, c, d, full, part, again, same_view(renderer, &mut random)];
    results.into_iter().filter_map(Result::err).collect()
}
