//! A picture in which no colour exceeds its alpha, by a xorshift generator.

pub fn picture(side: usize, mut state: u64) -> Vec<u8> {
    let mut pixels = Vec::with_capacity(4 * side * side);
    for _ in 0..side * side {
        state ^= state << 13;
        state ^= state >> 7;
        state ^= state << 17;
        let alpha = (state >> 56) as u32;
        for shift in [0, 16, 32] {
            let color = (state >> shift) as u16 as u32;
            pixels.push((color % (alpha + 1)) as u8);
        }
        pixels.push(alpha as u8);
    }
    pixels
}

pub const ONE: u64 = 0x9e3779b97f4a7c15;
pub const OTHER: u64 = 0xd1b54a32d192ed03;
