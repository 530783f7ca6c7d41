//! The names of crate `kernels`. A slice is a pointer and a length; the contracts stand in crates/kernels/src.
mod canvas;
pub mod convolve;
mod steps;
pub mod table;

extern "C" {
    fn twillgoose_kernel_copy(src: *const u8, src_len: usize, dst: *mut u8, dst_len: usize);
    fn twillgoose_kernel_clear(dst: *mut u8, dst_len: usize);
    fn twillgoose_kernel_fill(dst: *mut u8, dst_len: usize, n: usize, r: u8, g: u8, b: u8, a: u8);
    fn twillgoose_kernel_alpha_row(src: *const u8, src_len: usize, dst: *mut u8, dst_len: usize, n: usize);
    fn twillgoose_kernel_shift_row(
        src: *const u8,
        src_len: usize,
        w: usize,
        right: usize,
        left: usize,
        dst: *mut u8,
        dst_len: usize,
        from: usize,
        to: usize,
    );
    fn twillgoose_kernel_first_invalid(s: *const u8, s_len: usize, w: usize, h: usize) -> usize;
    fn twillgoose_kernel_composite_row(
        op: u8,
        a: *const u8,
        a_len: usize,
        b: *const u8,
        b_len: usize,
        f: *mut u8,
        f_len: usize,
        g: *mut u8,
        g_len: usize,
        dst: *mut u8,
        dst_len: usize,
        n: usize,
    );
    fn twillgoose_kernel_prepare_arithmetic(k1: u64, k2: u64, k3: u64, k4: u64, table: *mut u8, table_len: usize);
    fn twillgoose_kernel_combine_row(
        k1: u64,
        k2: u64,
        k3: u64,
        k4: u64,
        table: *const u8,
        table_len: usize,
        a: *const u8,
        a_len: usize,
        b: *const u8,
        b_len: usize,
        dst: *mut u8,
        dst_len: usize,
        n: usize,
    );
    fn twillgoose_kernel_prepare_unpremultiply(table: *mut u32, table_len: usize);
    fn twillgoose_kernel_prepare_saturate(s: u64, table: *mut u64, table_len: usize);
    fn twillgoose_kernel_saturate_row(
        s: u64,
        table: *const u64,
        table_len: usize,
        inverse: *const u32,
        inverse_len: usize,
        src: *const u8,
        src_len: usize,
        dst: *mut u8,
        dst_len: usize,
        n: usize,
    );
    fn twillgoose_kernel_prepare_luminance(table: *mut u32, table_len: usize);
    fn twillgoose_kernel_luminance_row(
        table: *const u32,
        table_len: usize,
        inverse: *const u32,
        inverse_len: usize,
        src: *const u8,
        src_len: usize,
        dst: *mut u8,
        dst_len: usize,
        n: usize,
    );
    fn twillgoose_kernel_prepare_convert(linear: bool, table: *mut u8, table_len: usize);
    fn twillgoose_kernel_convert_row(linear: bool, row: *mut u8, row_len: usize, count: usize, table: *const u8, table_len: usize);
    fn twillgoose_kernel_prepare_curve(maps: *const u8, maps_len: usize, tables: *mut u8, tables_len: usize);
    fn twillgoose_kernel_curve(
        maps: *const u8,
        maps_len: usize,
        tables: *const u8,
        tables_len: usize,
        src: *const u8,
        src_len: usize,
        dst: *mut u8,
        dst_len: usize,
        n: usize,
    );
    fn twillgoose_kernel_blur_lines(
        buf: *mut u8,
        buf_len: usize,
        a: usize,
        b: usize,
        n: usize,
        count: usize,
        d: usize,
        sums: *mut u16,
        sums_len: usize,
    );
    fn twillgoose_kernel_spread(row: *const u8, row_len: usize, dst: *mut u8, dst_len: usize, at: usize, w: usize);
    fn twillgoose_kernel_gather(src: *const u8, src_len: usize, at: usize, row: *mut u8, row_len: usize, w: usize);
    fn twillgoose_kernel_extreme_lines(
        largest: bool,
        buf: *mut u8,
        buf_len: usize,
        a: usize,
        b: usize,
        n: usize,
        count: usize,
        back: usize,
        ahead: usize,
    ) -> usize;
}

/// Arithmetic coefficients in units, k1 to k4.
pub type Coefficients = [u64; 4];

// Each function below asserts what the kernel's contract requires, except that pixels are valid and that tables are those of `prepare_*`.

pub fn copy(src: &[u8], dst: &mut [u8]) {
    assert!(src.len() == dst.len());
    unsafe { twillgoose_kernel_copy(src.as_ptr(), src.len(), dst.as_mut_ptr(), dst.len()) }
}

pub fn clear(dst: &mut [u8]) {
    unsafe { twillgoose_kernel_clear(dst.as_mut_ptr(), dst.len()) }
}

pub fn fill(dst: &mut [u8], [r, g, b, a]: [u8; 4]) {
    unsafe { twillgoose_kernel_fill(dst.as_mut_ptr(), dst.len(), dst.len() / 4, r, g, b, a) }
}

pub fn alpha_row(src: &[u8], dst: &mut [u8]) {
    assert!(src.len() == dst.len());
    unsafe { twillgoose_kernel_alpha_row(src.as_ptr(), src.len(), dst.as_mut_ptr(), dst.len(), dst.len() / 4) }
}

pub fn shift_row(src: &[u8], right: usize, dst: &mut [u8]) {
    let w = dst.len() / 4;
    assert!(src.len() == dst.len() && w <= 1024 && right <= 1024);
    unsafe { twillgoose_kernel_shift_row(src.as_ptr(), src.len(), w, right, 0, dst.as_mut_ptr(), dst.len(), 0, w) }
}

pub fn first_invalid(s: &[u8], w: usize, h: usize) -> usize {
    assert!(s.len() == 4 * w * h);
    unsafe { twillgoose_kernel_first_invalid(s.as_ptr(), s.len(), w, h) }
}

pub fn composite_row(op: u8, a: &[u8], b: &[u8], f: &mut [u8], g: &mut [u8], dst: &mut [u8]) {
    let m = dst.len();
    assert!(m.is_multiple_of(4) && a.len() == m && b.len() == m && f.len() == m && g.len() == m);
    let (f, g, d) = (f.as_mut_ptr(), g.as_mut_ptr(), dst.as_mut_ptr());
    unsafe { twillgoose_kernel_composite_row(op, a.as_ptr(), m, b.as_ptr(), m, f, m, g, m, d, m, m / 4) }
}

pub fn prepare_arithmetic([k1, k2, k3, k4]: Coefficients, table: &mut [u8; 65536]) {
    assert!([k1, k2, k3, k4].iter().all(|&k| k <= 16777216));
    unsafe { twillgoose_kernel_prepare_arithmetic(k1, k2, k3, k4, table.as_mut_ptr(), table.len()) }
}

pub fn combine_row([k1, k2, k3, k4]: Coefficients, table: &[u8; 65536], a: &[u8], b: &[u8], dst: &mut [u8]) {
    let m = dst.len();
    assert!(m.is_multiple_of(4) && a.len() == m && b.len() == m);
    let (t, d) = (table.as_ptr(), dst.as_mut_ptr());
    unsafe { twillgoose_kernel_combine_row(k1, k2, k3, k4, t, 65536, a.as_ptr(), m, b.as_ptr(), m, d, m, m / 4) }
}

pub fn prepare_unpremultiply(table: &mut [u32; 512]) {
    unsafe { twillgoose_kernel_prepare_unpremultiply(table.as_mut_ptr(), table.len()) }
}

pub fn prepare_saturate(s: u64, table: &mut [u64; 4096]) {
    assert!(s <= 65536);
    unsafe { twillgoose_kernel_prepare_saturate(s, table.as_mut_ptr(), table.len()) }
}

pub fn saturate_row(s: u64, table: &[u64; 4096], inverse: &[u32; 512], src: &[u8], dst: &mut [u8]) {
    let m = dst.len();
    assert!(s <= 65536 && m.is_multiple_of(4) && m <= 4096 && src.len() == m);
    let (t, i, d) = (table.as_ptr(), inverse.as_ptr(), dst.as_mut_ptr());
    unsafe { twillgoose_kernel_saturate_row(s, t, 4096, i, 512, src.as_ptr(), m, d, m, m / 4) }
}

pub fn prepare_luminance(table: &mut [u32; 768]) {
    unsafe { twillgoose_kernel_prepare_luminance(table.as_mut_ptr(), table.len()) }
}

pub fn luminance_row(table: &[u32; 768], inverse: &[u32; 512], src: &[u8], dst: &mut [u8]) {
    let m = dst.len();
    assert!(m.is_multiple_of(4) && src.len() == m);
    let (t, i, d) = (table.as_ptr(), inverse.as_ptr(), dst.as_mut_ptr());
    unsafe { twillgoose_kernel_luminance_row(t, 768, i, 512, src.as_ptr(), m, d, m, m / 4) }
}

/// The table of a conversion, into linear light or into sRGB.
pub fn prepare_convert(linear: bool, table: &mut [u8; 65536]) {
    unsafe { twillgoose_kernel_prepare_convert(linear, table.as_mut_ptr(), table.len()) }
}

/// In place, by the table of that conversion.
pub fn convert_row(linear: bool, row: &mut [u8], table: &[u8; 65536]) {
    unsafe { twillgoose_kernel_convert_row(linear, row.as_mut_ptr(), row.len(), row.len() / 4, table.as_ptr(), table.len()) }
}

/// The tables of a component transfer, for R, G and B in turn: place 256·a + c has the new colour of the colour c at the alpha a. The maps are
/// those of R, G, B and A in turn.
pub fn prepare_curve(maps: &[u8; 1024], tables: &mut [u8; 196608]) {
    unsafe { twillgoose_kernel_prepare_curve(maps.as_ptr(), maps.len(), tables.as_mut_ptr(), tables.len()) }
}

/// By the tables of these maps.
pub fn curve_row(maps: &[u8; 1024], tables: &[u8; 196608], src: &[u8], dst: &mut [u8]) {
    let m = dst.len();
    assert!(m.is_multiple_of(4) && src.len() == m);
    let (p, t, d) = (maps.as_ptr(), tables.as_ptr(), dst.as_mut_ptr());
    unsafe { twillgoose_kernel_curve(p, 1024, t, 196608, src.as_ptr(), m, d, m, m / 4) }
}

/// From the count lines of n bytes at the start of buf to the count lines after them.
pub fn blur_lines(buf: &mut [u8], n: usize, count: usize, d: usize, sums: &mut [u16]) {
    assert!(2 * n * count <= buf.len() && n <= sums.len() && count <= 65536 && (2..=60).contains(&d));
    let (b, s) = (buf.as_mut_ptr(), sums.as_mut_ptr());
    unsafe { twillgoose_kernel_blur_lines(b, buf.len(), 0, n * count, n, count, d, s, sums.len()) }
}

pub fn spread(row: &[u8], dst: &mut [u8], at: usize) {
    let w = row.len() / 4;
    assert!(at + 32 * w <= dst.len() + 28);
    unsafe { twillgoose_kernel_spread(row.as_ptr(), row.len(), dst.as_mut_ptr(), dst.len(), at, w) }
}

pub fn gather(src: &[u8], at: usize, row: &mut [u8]) {
    let w = row.len() / 4;
    assert!(at + 32 * w <= src.len() + 28);
    unsafe { twillgoose_kernel_gather(src.as_ptr(), src.len(), at, row.as_mut_ptr(), row.len(), w) }
}

/// Of the count lines of n bytes at the start of buf; the count lines after them are scratch. The answer is where the result starts.
pub fn extreme_lines(largest: bool, buf: &mut [u8], n: usize, count: usize, r: usize) -> usize {
    assert!(2 * n * count <= buf.len() && 0 < count && r <= 64);
    let b = buf.as_mut_ptr();
    unsafe { twillgoose_kernel_extreme_lines(largest, b, buf.len(), 0, n * count, n, count, r, r) }
}
