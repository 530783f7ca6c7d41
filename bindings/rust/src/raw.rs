//! The library's C functions (`../c/twillgoose.h`). A slice passes as pointer, then length.

use crate::Rect;

extern "C" {
    fn twillgoose_render(
        width: usize,
        height: usize,
        steps: *const u8,
        steps_length: usize,
        source: *const u8,
        source_length: usize,
        workspace: *mut u8,
        workspace_length: usize,
        scratch: *mut u8,
        scratch_length: usize,
        place: *mut u64,
    ) -> u64;

    fn twillgoose_redraw(
        width: usize,
        height: usize,
        steps: *const u8,
        steps_length: usize,
        x: usize,
        y: usize,
        rect_width: usize,
        rect_height: usize,
        source: *const u8,
        source_length: usize,
        workspace: *mut u8,
        workspace_length: usize,
        scratch: *mut u8,
        scratch_length: usize,
        place: *mut u64,
        count: *mut u64,
    ) -> u64;

    fn twillgoose_layer(
        width: usize,
        height: usize,
        steps: usize,
        n: usize,
        workspace_length: usize,
        offset: *mut u64,
    ) -> u64;

    fn twillgoose_sheet(text: *const u8, text_length: usize, out: *mut u8, out_length: usize) -> u64;

    fn twillgoose_rules() -> u64;
}

// SAFETY of every call: each pointer and length come from one slice, or a pointer from one number, that lives through the
// call; the library reads and writes only there, and writes only to what is borrowed as mutable.

/// Number and place.
pub fn render(
    width: usize,
    height: usize,
    steps: &[u8],
    source: &[u8],
    workspace: &mut [u8],
    scratch: &mut [u8],
) -> (u64, u64) {
    let mut place = 0;
    let number = unsafe {
        twillgoose_render(
            width,
            height,
            steps.as_ptr(),
            steps.len(),
            source.as_ptr(),
            source.len(),
            workspace.as_mut_ptr(),
            workspace.len(),
            scratch.as_mut_ptr(),
            scratch.len(),
            &mut place,
        )
    };
    (number, place)
}

/// Number, place and count.
pub fn redraw(
    width: usize,
    height: usize,
    steps: &[u8],
    rect: Rect,
    source: &[u8],
    workspace: &mut [u8],
    scratch: &mut [u8],
) -> (u64, u64, u64) {
    let (mut place, mut count) = (0, 0);
    let number = unsafe {
        twillgoose_redraw(
            width,
            height,
            steps.as_ptr(),
            steps.len(),
            rect.x,
            rect.y,
            rect.width,
            rect.height,
            source.as_ptr(),
            source.len(),
            workspace.as_mut_ptr(),
            workspace.len(),
            scratch.as_mut_ptr(),
            scratch.len(),
            &mut place,
            &mut count,
        )
    };
    (number, place, count)
}

/// Offset and length.
pub fn layer(width: usize, height: usize, steps: usize, n: usize, workspace_length: usize) -> (usize, usize) {
    let mut offset = 0;
    let length = unsafe { twillgoose_layer(width, height, steps, n, workspace_length, &mut offset) };
    (offset as usize, length as usize)
}

/// The length of the answer, stored where it fits.
pub fn sheet(text: &[u8], out: &mut [u8]) -> usize {
    unsafe { twillgoose_sheet(text.as_ptr(), text.len(), out.as_mut_ptr(), out.len()) as usize }
}

/// The number of the rules.
pub fn rules() -> u64 {
    unsafe { twillgoose_rules() }
}
