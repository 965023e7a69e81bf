//! What a draw takes (document 01, "What one draw takes and gives").

pub const VRAM_LEN: usize = 131_072;
pub const PALETTE_LEN: usize = 1_024;
pub const OAM_LEN: usize = 1_024;
pub const REGISTERS_LEN: usize = 86;
pub const ENTRIES_LEN: usize = 960;
pub const OUTPUT_LEN: usize = 960;

/// A draw's parameters, less the two buffers that it writes.
#[derive(Clone, Copy)]
pub struct Input<'a> {
    pub reading: u32,
    pub line: u32,
    /// x2, y2, x3, y3: the Rust's `internal_x` and `internal_y` of backgrounds 2 and 3.
    pub references: [i32; 4],
    pub vram: &'a [u8],
    pub palette: &'a [u8],
    pub oam: &'a [u8],
    pub registers: &'a [u8],
}
