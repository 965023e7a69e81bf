//! Why a column has its colour.

use crate::{Input, Refusal, ffi, refusal};

/// Why a column has its colour.
#[derive(Clone, Copy, Debug, PartialEq, Eq, Hash)]
#[cfg_attr(feature = "serde", derive(serde::Deserialize, serde::Serialize), serde(deny_unknown_fields))]
pub enum Reason {
    /// Forced blank: every pixel is 0xf8f8f8, and no layer is named.
    ForcedBlank,
    /// Two layers and what was done with them.
    Shown(Shown),
}

/// The two layers of a column, and what was done with them.
#[derive(Clone, Copy, Debug, PartialEq, Eq, Hash)]
#[cfg_attr(feature = "serde", derive(serde::Deserialize, serde::Serialize), serde(deny_unknown_fields))]
pub struct Shown {
    /// Which window the column lies in.
    pub region: Region,
    /// The layer in front.
    pub top: Layer,
    /// The layer behind it; where nothing but the backdrop is there, the backdrop again.
    pub bottom: Layer,
    /// What becomes of the top's colour.
    pub effect: Effect,
    /// As the layer has it: 15 bits, and bit 15 as it was.
    pub top_color: u16,
    /// As the layer has it: 15 bits, and bit 15 as it was.
    pub bottom_color: u16,
    /// What the top's channels are multiplied by, in sixteenths.
    pub first_weight: u16,
    /// What the channels of the other colour are multiplied by: the bottom's, white or black; 0 without an effect.
    pub second_weight: u16,
    /// The colour that follows, 0x00RRGGBB.
    pub pixel: u32,
}

/// The window that a column lies in.
#[derive(Clone, Copy, Debug, PartialEq, Eq, Hash)]
#[cfg_attr(feature = "serde", derive(serde::Deserialize, serde::Serialize))]
pub enum Region {
    /// No window is on.
    NoWindows,
    /// Window 0 holds it.
    Window0,
    /// Window 1 holds it, and window 0 doesn't.
    Window1,
    /// A window sprite holds it, and neither window does.
    ObjectWindow,
    /// None of the windows that are on holds it.
    Outside,
}

/// A layer, in the order of the bits of BLDCNT.
#[derive(Clone, Copy, Debug, PartialEq, Eq, Hash)]
#[cfg_attr(feature = "serde", derive(serde::Deserialize, serde::Serialize))]
pub enum Layer {
    /// Background 0.
    Background0,
    /// Background 1.
    Background1,
    /// Background 2.
    Background2,
    /// Background 3.
    Background3,
    /// The sprites.
    Objects,
    /// Palette entry 0, behind all others.
    Backdrop,
}

/// What becomes of the top layer's colour. It is named by its case, not by what it changes: white by 0 sixteenths is
/// white.
#[derive(Clone, Copy, Debug, PartialEq, Eq, Hash)]
#[cfg_attr(feature = "serde", derive(serde::Deserialize, serde::Serialize))]
pub enum Effect {
    /// It shows as it is.
    None,
    /// A semi-transparent sprite blends with the layer behind it.
    SpriteBlend,
    /// BLDCNT's blend with the layer behind it.
    ControlBlend,
    /// BLDCNT's increase of brightness.
    White,
    /// BLDCNT's decrease of brightness.
    Black,
}

/// A reason as `include/ashlarkin.h` lays it out.
#[repr(C)]
pub(crate) struct Numbers {
    number: u32,
    blank: u32,
    region: u32,
    top: u32,
    bottom: u32,
    effect: u32,
    top_color: u16,
    bottom_color: u16,
    first_weight: u16,
    second_weight: u16,
    pixel: u32,
}

const _: () = assert!(size_of::<Numbers>() == 36);

const REGIONS: [Region; 5] =
    [Region::NoWindows, Region::Window0, Region::Window1, Region::ObjectWindow, Region::Outside];

const LAYERS: [Layer; 6] =
    [Layer::Background0, Layer::Background1, Layer::Background2, Layer::Background3, Layer::Objects, Layer::Backdrop];

const EFFECTS: [Effect; 5] = [Effect::None, Effect::SpriteBlend, Effect::ControlBlend, Effect::White, Effect::Black];

/// Says why a column has the colour that [`draw`](crate::draw) gives it on these entries. They are the row before that
/// draw, and the reason speaks of the row after it. Nothing is drawn or changed.
///
/// It refuses what the draw refuses, in the draw's order, and then a column of 240 or more.
///
/// ```
/// use ashlarkin::{ENTRIES_LEN, Effect, Input, Layer, READING_H, Reason, Refusal, Region};
///
/// let (vram, palette, oam) = ([0; 131_072], [0x1f; 1024], [0; 1024]);
/// let registers = [0; 86];
/// let mut entries = [0; ENTRIES_LEN];
/// ashlarkin::reset(&mut entries)?;
/// let input = Input {
///     reading: READING_H,
///     line: 0,
///     references: [0; 4],
///     vram: &vram,
///     palette: &palette,
///     oam: &oam,
///     registers: &registers,
/// };
///
/// // Nothing is on, so the backdrop shows.
/// let Reason::Shown(shown) = ashlarkin::explain(&input, &entries, 0)? else { panic!("forced blank is off") };
/// assert_eq!((shown.region, shown.top, shown.effect), (Region::NoWindows, Layer::Backdrop, Effect::None));
/// assert_eq!((shown.top_color, shown.pixel), (0x1f1f, 0xf8c038));
///
/// assert_eq!(ashlarkin::explain(&input, &entries, 240), Err(Refusal::Column));
/// # Ok::<(), Refusal>(())
/// ```
pub fn explain(input: &Input, entries: &[u8], column: u32) -> Result<Reason, Refusal> {
    let [x2, y2, x3, y3] = input.references;
    let Input { vram, palette, oam, registers, .. } = input;
    // SAFETY: each pointer has its slice's length behind it, and nothing is written.
    let numbers = unsafe {
        ffi::ashlarkin_explain(
            input.reading,
            input.line,
            x2,
            y2,
            x3,
            y3,
            vram.as_ptr(),
            vram.len(),
            palette.as_ptr(),
            palette.len(),
            oam.as_ptr(),
            oam.len(),
            registers.as_ptr(),
            registers.len(),
            entries.as_ptr(),
            entries.len(),
            column,
        )
    };
    refusal::answer(numbers.number)?;
    Ok(numbers.reason())
}

impl Numbers {
    /// The proved library gives no number that these tables don't have.
    fn reason(&self) -> Reason {
        if self.blank == 1 {
            return Reason::ForcedBlank;
        }
        Reason::Shown(Shown {
            region: REGIONS[self.region as usize],
            top: LAYERS[self.top as usize],
            bottom: LAYERS[self.bottom as usize],
            effect: EFFECTS[self.effect as usize],
            top_color: self.top_color,
            bottom_color: self.bottom_color,
            first_weight: self.first_weight,
            second_weight: self.second_weight,
            pixel: self.pixel,
        })
    }
}

impl Reason {
    /// The colour that follows, 0x00RRGGBB.
    pub fn pixel(&self) -> u32 {
        match self {
            Reason::ForcedBlank => 0xf8f8f8,
            Reason::Shown(shown) => shown.pixel,
        }
    }
}
