//! Pictures as PAM files: RGB_ALPHA, 8 bit, colours not multiplied by their alpha.

/// A picture with colours as the file has them.
#[derive(Clone, PartialEq, Eq, Debug)]
pub struct Picture {
    pub width: usize,
    pub height: usize,
    pub pixels: Vec<u8>,
}

/// Reads a PAM file. Pixels with tuple type RGB_ALPHA are taken, nothing else.
pub fn read(file: &[u8]) -> Result<Picture, String> {
    let end = b"\nENDHDR\n";
    let header = file.windows(end.len()).position(|part| part == end).ok_or("no ENDHDR")?;
    let text = std::str::from_utf8(&file[..header]).map_err(|_| "the header is no text")?;
    let mut lines = text.lines().filter(|line| !line.starts_with('#'));
    if lines.next() != Some("P7") {
        return Err("not a PAM file".into());
    }
    let mut fields = std::collections::HashMap::new();
    for line in lines {
        if let Some((name, value)) = line.split_once(char::is_whitespace) {
            fields.insert(name, value.trim());
        }
    }
    let field = |name: &str| fields.get(name).copied().ok_or(format!("no {name}"));
    if (field("DEPTH")?, field("MAXVAL")?, field("TUPLTYPE")?) != ("4", "255", "RGB_ALPHA") {
        return Err("not RGB_ALPHA with 8 bits".into());
    }
    let side = |name: &str| field(name)?.parse::<usize>().map_err(|_| format!("{name} is no number"));
    let (width, height) = (side("WIDTH")?, side("HEIGHT")?);
    let pixels = file[header + end.len()..].to_vec();
    if Some(pixels.len()) != width.checked_mul(height).and_then(|size| size.checked_mul(4)) {
        return Err("the pixels do not fit the header".into());
    }
    Ok(Picture { width, height, pixels })
}

/// Writes a PAM file.
pub fn write(picture: &Picture) -> Vec<u8> {
    let Picture { width, height, pixels } = picture;
    let header = format!("P7\nWIDTH {width}\nHEIGHT {height}\nDEPTH 4\nMAXVAL 255\nTUPLTYPE RGB_ALPHA\nENDHDR\n");
    [header.as_bytes(), pixels].concat()
}

/// Each colour u becomes (u · a + 127) ÷ 255.
pub fn premultiply(pixels: &[u8]) -> Vec<u8> {
    by_alpha(pixels, |u, a| (u * a + 127) / 255)
}

/// Each colour c becomes (255 · c + a ÷ 2) ÷ a, and 0 where a is 0.
pub fn unpremultiply(pixels: &[u8]) -> Vec<u8> {
    by_alpha(pixels, |c, a| (255 * c + a / 2).checked_div(a).unwrap_or(0))
}

fn by_alpha(pixels: &[u8], change: impl Fn(u32, u32) -> u32) -> Vec<u8> {
    let mut changed = pixels.to_vec();
    for pixel in changed.chunks_exact_mut(4) {
        let alpha = u32::from(pixel[3]);
        for colour in &mut pixel[..3] {
            *colour = change(u32::from(*colour), alpha) as u8;
        }
    }
    changed
}
