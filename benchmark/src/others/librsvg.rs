//! librsvg's filters: a document with the filter, less the same document without it.
use super::shared::Shared;
use super::Other;
use std::ffi::{c_int, c_void};
use std::ptr::null_mut;

type Read = unsafe extern "C" fn(*const u8, usize, *mut c_void) -> *mut c_void;
type Render = unsafe extern "C" fn(*mut c_void, *mut c_void, *const [f64; 4], *mut c_void) -> c_int;
type CreateSurface = unsafe extern "C" fn(c_int, c_int, c_int) -> *mut c_void;
type Create = unsafe extern "C" fn(*mut c_void) -> *mut c_void;

/// CAIRO_FORMAT_ARGB32.
const FORMAT: c_int = 0;

const DIFFERS: &str = "all that a filter costs a document; no boxes below 2; other rounding";

/// The sheets that they stand beside. Larger radii take seconds.
const FILTERS: [(&str, &str); 6] = [
    ("blur 1.5", "<feGaussianBlur stdDeviation='1.5'/>"),
    ("blur 32", "<feGaussianBlur stdDeviation='32'/>"),
    ("dilate 1", "<feMorphology operator='dilate' radius='1'/>"),
    ("saturate", "<feColorMatrix type='saturate' values='0.5'/>"),
    ("over", "<feComposite in='SourceGraphic' in2='SourceAlpha' operator='over'/>"),
    ("arithmetic", "<feComposite in='SourceGraphic' in2='SourceAlpha' operator='arithmetic' k1='0.2' k2='0.6' k3='0.3' k4='0.01'/>"),
];

fn document(side: usize, filter: &str, attribute: &str) -> String {
    format!(
        "<svg xmlns='http://www.w3.org/2000/svg' width='{side}' height='{side}'>\
         <filter id='f' x='0' y='0' width='{side}' height='{side}' filterUnits='userSpaceOnUse' color-interpolation-filters='sRGB'>\
         {filter}</filter><rect width='{side}' height='{side}' fill='#4080c0' fill-opacity='0.5' {attribute}/></svg>"
    )
}

pub fn all(side: usize) -> Option<Vec<Other>> {
    let (cairo, rsvg) = (Shared::open("libcairo.so.2")?, Shared::open("librsvg-2.so.2")?);
    let surface: CreateSurface = unsafe { cairo.function("cairo_image_surface_create")? };
    let create: Create = unsafe { cairo.function("cairo_create")? };
    let read: Read = unsafe { rsvg.function("rsvg_handle_new_from_data")? };
    let render: Render = unsafe { rsvg.function("rsvg_handle_render_document")? };
    let canvas = unsafe { create(surface(FORMAT, side as c_int, side as c_int)) };
    let drawn = |text: String| {
        let handle = unsafe { read(text.as_ptr(), text.len(), null_mut()) };
        let viewport = [0.0, 0.0, side as f64, side as f64];
        move || assert!(unsafe { render(handle, canvas, &viewport, null_mut()) } != 0)
    };
    let other = |(beside, filter): (&'static str, &'static str)| Other {
        name: format!("librsvg: {beside}"),
        beside: beside.into(),
        run: Box::new(drawn(document(side, filter, "filter='url(#f)'"))),
        without: Some(Box::new(drawn(document(side, filter, "")))),
        differs: DIFFERS,
    };
    Some(FILTERS.into_iter().map(other).collect())
}
