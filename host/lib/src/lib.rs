//! Ashlarkin draws lines of the Game Boy Advance's picture from captured video memory. The drawing is the proved
//! library `libashlarkin.a`; this crate makes its nine functions safe to call.
//!
//! A draw takes memory and registers as bytes and a row of 240 object entries, and writes 240 pixels. Whatever it is
//! given, it draws the whole line, or gives a [`Refusal`] and changes no byte.
//!
//! ```
//! use ashlarkin::{ENTRIES_LEN, Input, OUTPUT_LEN, READING_H, Refusal};
//!
//! let (vram, palette, oam) = ([0; 131_072], [0x1f; 1024], [0; 1024]);
//! let registers = [0; 86];
//! let (mut entries, mut output) = ([0; ENTRIES_LEN], [0; OUTPUT_LEN]);
//!
//! // An empty screen shows the backdrop, palette halfword 0.
//! ashlarkin::reset(&mut entries)?;
//! let input = Input {
//!     reading: READING_H,
//!     line: 0,
//!     references: [0; 4],
//!     vram: &vram,
//!     palette: &palette,
//!     oam: &oam,
//!     registers: &registers,
//! };
//! ashlarkin::draw(&input, &mut entries, &mut output)?;
//! assert_eq!(output[..4], [0x38, 0xc0, 0xf8, 0]); // blue, green, red
//!
//! // There is no mode 7.
//! let mut registers = [0; 86];
//! registers[0] = 7;
//! let input = Input { registers: &registers, ..input };
//! let refusal = ashlarkin::draw(&input, &mut entries, &mut output).unwrap_err();
//! assert_eq!((refusal, refusal.number()), (Refusal::Mode, 4));
//! # Ok::<(), Refusal>(())
//! ```
//!
//! [`explain`] says why a column has its colour: the window that it lies in, its two layers, and what was done with
//! them. [`draw_records`] and [`step_records`] are draw and step over the emulator's records, [`ObjBufferEntry`] and
//! [`BgAffine`]. [`read8`], [`store8`] and [`store16`] are the bus: memory read and changed by address, for who builds a
//! capture by replaying stores.
//!
//! Nothing is kept between calls, so that threads may draw at the same time.

#![warn(missing_docs)]

mod bus;
mod explain;
mod ffi;
mod records;
mod refusal;

pub use bus::{Memories, read8, store8, store16};
pub use explain::{Effect, Layer, Reason, Region, Shown, explain};
pub use records::{BgAffine, ObjBufferEntry, draw_records, step_records};
pub use refusal::Refusal;

/// The pixels of a line.
pub const WIDTH: usize = 240;
/// The lines of a frame.
pub const HEIGHT: u32 = 160;

/// The length of video memory.
pub const VRAM_LEN: usize = 131_072;
/// The length of the palette.
pub const PALETTE_LEN: usize = 1_024;
/// The length of OAM.
pub const OAM_LEN: usize = 1_024;
/// The length of the registers, I/O offsets 0x00 to 0x55.
pub const REGISTERS_LEN: usize = 86;
/// The length of a row of object entries: 240 of 4 bytes.
pub const ENTRIES_LEN: usize = 960;
/// The length of a drawn line: 240 words of 4 bytes, little-endian, each 0x00RRGGBB.
pub const OUTPUT_LEN: usize = 960;
/// The length of the four references as bytes.
pub const REFERENCES_LEN: usize = 16;

/// The reading that draws as the emulator's Rust does.
pub const READING_R: u32 = 0;
/// The reading that draws as the hardware notes say, where they part from the Rust.
pub const READING_H: u32 = 1;

/// What a draw reads. Any values and lengths are answered; those that can't be drawn, by a [`Refusal`].
#[derive(Clone, Copy)]
pub struct Input<'a> {
    /// [`READING_R`] or [`READING_H`].
    pub reading: u32,
    /// 0 to 159.
    pub line: u32,
    /// The running reference points of backgrounds 2 and 3: x2, y2, x3, y3. The registers' own aren't read.
    pub references: [i32; 4],
    /// [`VRAM_LEN`] bytes.
    pub vram: &'a [u8],
    /// [`PALETTE_LEN`] bytes.
    pub palette: &'a [u8],
    /// [`OAM_LEN`] bytes.
    pub oam: &'a [u8],
    /// [`REGISTERS_LEN`] bytes, little-endian.
    pub registers: &'a [u8],
}

/// Draws one line: writes all 240 pixels of `output`, and puts the line's sprites into `entries`.
///
/// A refusal changes no byte.
pub fn draw(input: &Input, entries: &mut [u8], output: &mut [u8]) -> Result<(), Refusal> {
    let [x2, y2, x3, y3] = input.references;
    let Input { vram, palette, oam, registers, .. } = input;
    // SAFETY: each pointer has its slice's length behind it, and the borrows keep the two written ones apart.
    refusal::answer(unsafe {
        ffi::ashlarkin_draw(
            input.reading,
            input.line,
            x2,
            y2,
            x3,
            y3,
            vram.as_ptr(),
            vram.len(),
            palette.as_ptr(),
            palette.len(),
            oam.as_ptr(),
            oam.len(),
            registers.as_ptr(),
            registers.len(),
            entries.as_mut_ptr(),
            entries.len(),
            output.as_mut_ptr(),
            output.len(),
        )
    })
}

/// Makes a row of 240 reset entries, with which each line of a frame starts.
///
/// ```
/// let mut entries = [0; ashlarkin::ENTRIES_LEN];
/// ashlarkin::reset(&mut entries)?;
/// assert_eq!(entries[..4], [0x00, 0x80, 4, 0]); // colour 0x8000, priority 4, no marks
/// assert_eq!(ashlarkin::reset(&mut entries[1..]), Err(ashlarkin::Refusal::Length));
/// # Ok::<(), ashlarkin::Refusal>(())
/// ```
pub fn reset(entries: &mut [u8]) -> Result<(), Refusal> {
    // SAFETY: the pointer has the slice's length behind it, lent to this call alone.
    refusal::answer(unsafe { ffi::ashlarkin_reset(entries.as_mut_ptr(), entries.len()) })
}

/// Steps the references at a line's end. `steps` are pb2, pd2, pb3, pd3 of the registers; `references` are x2, y2, x3,
/// y3 in [`REFERENCES_LEN`] bytes, little-endian.
///
/// A refusal changes no byte. [`stepped`] takes the references as numbers.
pub fn step(steps: [i16; 4], references: &mut [u8]) -> Result<(), Refusal> {
    let [pb2, pd2, pb3, pd3] = steps;
    // SAFETY: the pointer has the slice's length behind it, lent to this call alone.
    refusal::answer(unsafe { ffi::ashlarkin_step(pb2, pd2, pb3, pd3, references.as_mut_ptr(), references.len()) })
}

/// The references x2, y2, x3, y3 after a [`step`].
///
/// ```
/// assert_eq!(ashlarkin::stepped([3, -5, 7, -11], [100, 200, 300, 400]), Ok([103, 195, 307, 389]));
/// assert_eq!(ashlarkin::stepped([1, 0, 0, 0], [(1 << 28) - 1, 0, 0, 0]), Err(ashlarkin::Refusal::Reference));
/// ```
pub fn stepped(steps: [i16; 4], references: [i32; 4]) -> Result<[i32; 4], Refusal> {
    let mut words = references.map(i32::to_le_bytes);
    step(steps, words.as_flattened_mut())?;
    Ok(words.map(i32::from_le_bytes))
}
