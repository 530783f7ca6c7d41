//! OpenCV's box filter, erode and dilate, through its C functions.
use super::shared::Shared;
use super::Other;
use std::ffi::{c_int, c_void};
use std::ptr::null_mut;

type CreateMat = unsafe extern "C" fn(c_int, c_int, c_int) -> *mut c_void;
type GetRawData = unsafe extern "C" fn(*const c_void, *mut *mut u8, *mut c_int, *mut c_void);
type SetNumThreads = unsafe extern "C" fn(c_int);
type CreateKernel = unsafe extern "C" fn(c_int, c_int, c_int, c_int, c_int, *mut c_int) -> *mut c_void;
type Morph = unsafe extern "C" fn(*const c_void, *mut c_void, *mut c_void, c_int);
type Smooth = unsafe extern "C" fn(*const c_void, *mut c_void, c_int, c_int, c_int, f64, f64);

/// CV_8UC4, CV_BLUR, CV_SHAPE_RECT.
const BYTES: c_int = 24;
const BLUR: c_int = 1;
const RECT: c_int = 0;

const BLUR_DIFFERS: &str = "three boxes of both directions at once; the border repeats; no checks; wider vectors";
const MORPH_DIFFERS: &str = "the border repeats; no checks; wider vectors";

/// The libraries have the version in their name: 406 is 4.6.
fn open(part: &str) -> Option<Shared> {
    (400..500).rev().find_map(|version| Shared::open(&format!("libopencv_{part}.so.{version}")))
}

fn matrix(core: &Shared, side: usize, picture: &[u8]) -> Option<*mut c_void> {
    let create: CreateMat = unsafe { core.function("cvCreateMat")? };
    let raw: GetRawData = unsafe { core.function("cvGetRawData")? };
    let (mut bytes, mut step) = (null_mut(), 0);
    let matrix = unsafe { create(side as c_int, side as c_int, BYTES) };
    unsafe { raw(matrix, &mut bytes, &mut step, null_mut()) };
    assert!(step as usize == 4 * side);
    unsafe { std::slice::from_raw_parts_mut(bytes, picture.len()) }.copy_from_slice(picture);
    Some(matrix)
}

pub fn all(side: usize, a: &[u8]) -> Option<Vec<Other>> {
    let (core, process) = (open("core")?, open("imgproc")?);
    let threads: SetNumThreads = unsafe { core.function("cvSetNumThreads")? };
    let kernel: CreateKernel = unsafe { process.function("cvCreateStructuringElementEx")? };
    let smooth: Smooth = unsafe { process.function("cvSmooth")? };
    let (src, dst) = (matrix(&core, side, a)?, matrix(&core, side, a)?);
    unsafe { threads(1) };
    let other =
        |beside: String, differs, run: Box<dyn FnMut()>| Other { name: format!("OpenCV: {beside}"), beside, run, without: None, differs };

    let mut others = Vec::new();
    for (beside, sizes) in [("blur 1.5", [3; 3]), ("blur 32", [60, 60, 61])] {
        let pass = move |from, size| unsafe { smooth(from, dst, BLUR, size, size, 0.0, 0.0) };
        let run = move || {
            pass(src, sizes[0]);
            sizes[1..].iter().for_each(|size| pass(dst, *size));
        };
        others.push(other(beside.into(), BLUR_DIFFERS, Box::new(run)));
    }
    for (kind, function) in [("erode", "cvErode"), ("dilate", "cvDilate")] {
        let morph: Morph = unsafe { process.function(function)? };
        for radius in [1, 8, 64] {
            let size = 2 * radius + 1;
            let window = unsafe { kernel(size, size, radius, radius, RECT, null_mut()) };
            let run = move || unsafe { morph(src, dst, window, 1) };
            others.push(other(format!("{kind} {radius}"), MORPH_DIFFERS, Box::new(run)));
        }
    }
    Some(others)
}
