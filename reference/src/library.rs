//! The proved library through its C functions. A slice passes as pointer, then length.

use crate::compare::Renderer;
use crate::step::Region;

extern "C" {
    fn twillgoose_render(
        width: usize,
        height: usize,
        steps: *const u8,
        steps_length: usize,
        source: *const u8,
        source_length: usize,
        workspace: *mut u8,
        workspace_length: usize,
        scratch: *mut u8,
        scratch_length: usize,
        place: *mut u64,
    ) -> u64;

    fn twillgoose_redraw(
        width: usize,
        height: usize,
        steps: *const u8,
        steps_length: usize,
        x: usize,
        y: usize,
        rect_width: usize,
        rect_height: usize,
        source: *const u8,
        source_length: usize,
        workspace: *mut u8,
        workspace_length: usize,
        scratch: *mut u8,
        scratch_length: usize,
        place: *mut u64,
        count: *mut u64,
    ) -> u64;

    fn twillgoose_layer(
        width: usize,
        height: usize,
        steps: usize,
        n: usize,
        workspace_length: usize,
        offset: *mut u64,
    ) -> u64;

    fn twillgoose_sheet(text: *const u8, text_length: usize, out: *mut u8, out_length: usize) -> u64;
}

/// The library under comparison.
pub struct Library;

// SAFETY of every call: each pointer and length come from one slice, or a pointer from one number, that lives through the
// call, and the library writes only to what is lent to it as mutable.
impl Renderer for Library {
    fn render(
        &self,
        width: usize,
        height: usize,
        steps: &[u8],
        source: &[u8],
        workspace: &mut [u8],
        scratch: &mut [u8],
        place: &mut u64,
    ) -> u64 {
        unsafe {
            twillgoose_render(
                width,
                height,
                steps.as_ptr(),
                steps.len(),
                source.as_ptr(),
                source.len(),
                workspace.as_mut_ptr(),
                workspace.len(),
                scratch.as_mut_ptr(),
                scratch.len(),
                place,
            )
        }
    }

    fn redraw(
        &self,
        width: usize,
        height: usize,
        steps: &[u8],
        rect: Region,
        source: &[u8],
        workspace: &mut [u8],
        scratch: &mut [u8],
        place: &mut u64,
        count: &mut u64,
    ) -> u64 {
        unsafe {
            twillgoose_redraw(
                width,
                height,
                steps.as_ptr(),
                steps.len(),
                rect.x,
                rect.y,
                rect.width,
                rect.height,
                source.as_ptr(),
                source.len(),
                workspace.as_mut_ptr(),
                workspace.len(),
                scratch.as_mut_ptr(),
                scratch.len(),
                place,
                count,
            )
        }
    }

    fn layer(&self, width: usize, height: usize, steps: usize, n: usize, workspace: usize, offset: &mut u64) -> u64 {
        unsafe { twillgoose_layer(width, height, steps, n, workspace, offset) }
    }

    fn sheet(&self, text: &[u8], out: &mut [u8]) -> u64 {
        unsafe { twillgoose_sheet(text.as_ptr(), text.len(), out.as_mut_ptr(), out.len()) }
    }
}
