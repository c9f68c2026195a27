//! The remainder of a message by the generator, bit by bit: the plain rule that the benches make and check messages with.
pub const GENERATOR: u32 = 0x1FF_F409;

pub fn divide(msg: &[u8]) -> u32 {
    let mut r = 0u32;
    for &b in msg {
        for k in (0..8).rev() {
            r = r << 1 | (b >> k & 1) as u32;
            if r & 0x100_0000 != 0 {
                r ^= GENERATOR;
            }
        }
    }
    r
}
