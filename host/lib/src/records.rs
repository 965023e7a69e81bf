//! The draw and the step over the emulator's records, with the answers of the byte forms.

use crate::{Input, Refusal, ffi, refusal};

/// A background's numbers for rotation and scaling.
#[repr(C)]
#[derive(Clone, Copy, Debug, PartialEq, Eq, Hash, Default)]
#[cfg_attr(feature = "serde", derive(serde::Deserialize, serde::Serialize), serde(deny_unknown_fields))]
pub struct BgAffine {
    /// Added to x at each column.
    pub pa: i16,
    /// Added to x at a line's end.
    pub pb: i16,
    /// Added to y at each column.
    pub pc: i16,
    /// Added to y at a line's end.
    pub pd: i16,
    /// The reference point as it was written.
    pub x: i32,
    /// The reference point as it was written.
    pub y: i32,
    /// The running reference point, which a step moves.
    pub internal_x: i32,
    /// The running reference point, which a step moves.
    pub internal_y: i32,
}

/// An object entry. The default is the reset entry: colour 0x8000, priority 4, no marks.
#[repr(C)]
#[derive(Clone, Copy, Debug, PartialEq, Eq, Hash)]
#[cfg_attr(feature = "serde", derive(serde::Deserialize, serde::Serialize), serde(deny_unknown_fields))]
pub struct ObjBufferEntry {
    /// In the object window.
    pub window: bool,
    /// Semi-transparent.
    pub alpha: bool,
    /// 15 bits, or 0x8000 where there is no pixel.
    pub color: u16,
    /// 0 to 3, or 4 where there is no pixel. It is judged whole: 260 isn't 4.
    pub priority: u16,
}

// As `include/ashlarkin.h` lays them out.
const _: () = assert!(size_of::<BgAffine>() == 24 && size_of::<ObjBufferEntry>() == 6);

impl Default for ObjBufferEntry {
    fn default() -> ObjBufferEntry {
        ObjBufferEntry { window: false, alpha: false, color: 0x8000, priority: 4 }
    }
}

/// Steps both backgrounds at a line's end, each by its own `pb` and `pd`. Only `internal_x` and `internal_y` are judged
/// and moved.
///
/// A refusal, which can only be [`Refusal::Reference`], changes neither.
///
/// ```
/// use ashlarkin::{BgAffine, Refusal};
///
/// let mut bg2 = BgAffine { pb: 3, pd: -5, internal_x: 100, internal_y: 200, ..BgAffine::default() };
/// let mut bg3 = BgAffine { pb: 1, internal_x: (1 << 28) - 2, ..BgAffine::default() };
/// ashlarkin::step_records(&mut bg2, &mut bg3)?;
/// assert_eq!((bg2.internal_x, bg2.internal_y, bg3.internal_x), (103, 195, (1 << 28) - 1));
///
/// // Background 3 has come to its end, so neither moves.
/// assert_eq!(ashlarkin::step_records(&mut bg2, &mut bg3), Err(Refusal::Reference));
/// assert_eq!(bg2.internal_x, 103);
/// # Ok::<(), Refusal>(())
/// ```
pub fn step_records(bg2: &mut BgAffine, bg3: &mut BgAffine) -> Result<(), Refusal> {
    // SAFETY: each pointer has one record behind it, and the borrows keep the two apart.
    refusal::answer(unsafe { ffi::ashlarkin_step_records(bg2, bg3) })
}

/// Draws one line, as [`draw`](crate::draw) does, over a row of [`WIDTH`](crate::WIDTH) records.
///
/// The answers are those of [`draw`](crate::draw): a row of another length gives [`Refusal::Length`], and a priority of
/// 256 and more [`Refusal::Entry`]. A refusal changes nothing, and forced blank leaves every record as it was.
///
/// ```
/// use ashlarkin::{Input, OUTPUT_LEN, ObjBufferEntry, READING_H, Refusal, WIDTH};
///
/// let (vram, palette, oam, registers) = ([0; 131_072], [0x1f; 1024], [0; 1024], [0; 86]);
/// let input = Input {
///     reading: READING_H,
///     line: 0,
///     references: [0; 4],
///     vram: &vram,
///     palette: &palette,
///     oam: &oam,
///     registers: &registers,
/// };
/// let (mut row, mut output) = ([ObjBufferEntry::default(); WIDTH], [0; OUTPUT_LEN]);
/// ashlarkin::draw_records(&input, &mut row, &mut output)?;
/// assert_eq!(output[..4], [0x38, 0xc0, 0xf8, 0]); // blue, green, red
///
/// assert_eq!(ashlarkin::draw_records(&input, &mut row[1..], &mut output), Err(Refusal::Length));
/// row[7].priority = 260;
/// assert_eq!(ashlarkin::draw_records(&input, &mut row, &mut output), Err(Refusal::Entry));
/// # Ok::<(), Refusal>(())
/// ```
pub fn draw_records(input: &Input, entries: &mut [ObjBufferEntry], output: &mut [u8]) -> Result<(), Refusal> {
    let [x2, y2, x3, y3] = input.references;
    let Input { vram, palette, oam, registers, .. } = input;
    // SAFETY: each pointer has its slice's length behind it, the borrows keep the two written ones apart, and the
    // library writes no other value than 0 or 1 to a bool.
    refusal::answer(unsafe {
        ffi::ashlarkin_draw_records(
            input.reading,
            input.line,
            x2,
            y2,
            x3,
            y3,
            vram.as_ptr(),
            vram.len(),
            palette.as_ptr(),
            palette.len(),
            oam.as_ptr(),
            oam.len(),
            registers.as_ptr(),
            registers.len(),
            entries.as_mut_ptr(),
            entries.len(),
            output.as_mut_ptr(),
            output.len(),
        )
    })
}
