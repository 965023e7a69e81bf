//! Document 01, "Windows and blending (sfx.rs)": the order of the layers and the effects.

use super::backgrounds::{self, Background};
use super::{Draw, Entry, Mutant, bit, bits, halfword, windows};

/// A layer's pixel; its target number is its bit in BLDCNT (0-3 backgrounds, 4 objects, 5 backdrop).
#[derive(Clone, Copy)]
struct Layer {
    colour: i64,
    priority: i64,
    target: u32,
    semi_transparent: bool,
}

/// "Windows and blending": the colour that a column shows.
pub fn pixel(d: &Draw, order: &[Background], entry: &Entry, column: i64) -> i64 {
    let permitted = windows::permitted(d, entry, column);
    let (top, bottom) = two_backgrounds(d, order, column, permitted);
    let (mut top, bottom) = with_object(d, top, bottom, entry, permitted);
    if entry.semi_transparent && d.is(Mutant::SemiTransparentBelowBlends) {
        top.semi_transparent = true;
    }
    shown(d, &top, &bottom, bit(permitted, 5))
}

/// "Windows and blending": the first two opaque backgrounds that the region permits; the backdrop fills in.
fn two_backgrounds(d: &Draw, order: &[Background], column: i64, permitted: i64) -> (Layer, Layer) {
    let mut found = Vec::with_capacity(4);
    for background in order {
        let target = background.number as u32;
        let counts = bit(permitted, target) || found.len() == 1 && d.is(Mutant::ForbiddenBackgroundAsBottom);
        if found.len() == 2 || !counts {
            continue;
        }
        if let Some(colour) = backgrounds::pixel(d, background, column) {
            found.push(Layer { colour, priority: background.priority, target, semi_transparent: false });
        }
    }
    found.push(backdrop(d));
    found.push(backdrop(d));
    (found[0], found[1])
}

/// "Windows and blending": an opaque object pixel goes on top, second, or not at all.
fn with_object(d: &Draw, top: Layer, bottom: Layer, entry: &Entry, permitted: i64) -> (Layer, Layer) {
    let sprites_on = d.sprites_on || d.is(Mutant::ObjectsShownWithSpritesOff);
    if !bit(permitted, 4) || !sprites_on || entry.colour == 0x8000 {
        return (top, bottom);
    }
    let Entry { colour, priority, semi_transparent, .. } = *entry;
    let object = Layer { colour, priority, target: 4, semi_transparent };
    let behind = priority == top.priority && d.is(Mutant::ObjectBehindEqualPriority);
    if priority <= top.priority && !behind {
        return (object, top);
    }
    if priority <= bottom.priority && !d.is(Mutant::ObjectNeverSecond) {
        return (top, object);
    }
    (top, bottom)
}

/// "Backgrounds", Palette: the backdrop is halfword 0, taken whole and never transparent; its priority number is 4.
fn backdrop(d: &Draw) -> Layer {
    let word = halfword(d.input.palette, 0);
    let colour = if bit(word, 15) && d.is(Mutant::BackdropBit15Transparent) { 0 } else { word };
    Layer { colour, priority: 4, target: 5, semi_transparent: false }
}

/// "Windows and blending": the semi-transparent object, otherwise the control's effect, else the top as it is.
fn shown(d: &Draw, top: &Layer, bottom: &Layer, effects: bool) -> i64 {
    let control = d.register(0x50);
    let first = bit(control, top.target) && !(top.target == 5 && d.is(Mutant::BackdropNeverFirstTarget));
    let itself = top.target == 5 && d.is(Mutant::BackdropNotUnderItself);
    let second = bit(control, 8 + bottom.target) && !itself;
    let stopped = !effects && d.is(Mutant::SemiTransparentStoppedByWindow)
        || !first && d.is(Mutant::SemiTransparentNeedsFirstTarget);
    if top.semi_transparent && second && !stopped {
        return blend(d, top.colour, bottom.colour);
    }
    if top.semi_transparent && d.is(Mutant::SemiTransparentTakesNoOtherEffect) {
        return top.colour;
    }
    if !first || !effects && !d.is(Mutant::EffectIgnoresWindow) {
        return top.colour;
    }
    match bits(control, 6, 2) {
        1 if second || d.is(Mutant::BlendWithoutSecondTarget) => blend(d, top.colour, bottom.colour),
        2 | 3 if !second && d.is(Mutant::FadeNeedsSecondTarget) => top.colour,
        2 if !d.is(Mutant::WhiteAndBlackExchanged) => fade(d, top.colour, 0x7fff),
        2 => fade(d, top.colour, 0),
        3 if !d.is(Mutant::WhiteAndBlackExchanged) => fade(d, top.colour, 0),
        3 => fade(d, top.colour, 0x7fff),
        _ => top.colour,
    }
}

/// "Two readings", Weights: under H 17 to 31 count as 16 for EVA and EVB, under R they are as they are.
fn blend(d: &Draw, top: i64, bottom: i64) -> i64 {
    let alpha = d.register(0x52);
    let (mut eva, mut evb) = (bits(alpha, 0, 5), bits(alpha, 8, 5));
    let capped = if d.hardware { !d.is(Mutant::AlphaNotCappedUnderH) } else { d.is(Mutant::AlphaCappedUnderR) };
    if capped {
        (eva, evb) = (eva.min(16), evb.min(16));
    }
    if d.is(Mutant::WeightsExchanged) {
        (eva, evb) = (evb, eva);
    }
    mix(d, top, eva, bottom, evb)
}

/// "Windows and blending": white and black use weights 16 - evy and evy (under H 17 to 31 count as 16).
fn fade(d: &Draw, top: i64, toward: i64) -> i64 {
    let mut evy = bits(d.register(0x54), 0, 5);
    if d.hardware && !d.is(Mutant::EvyNotCappedUnderH) {
        evy = evy.min(16);
    }
    mix(d, top, 16 - evy, toward, evy)
}

/// "Windows and blending": each channel is min(31, (a * wa + b * wb) / 16 rounded down).
fn mix(d: &Draw, a: i64, weight_a: i64, b: i64, weight_b: i64) -> i64 {
    let mut colour = 0;
    for lowest in [0, 5, 10] {
        let sum = bits(a, lowest, 5) * weight_a + bits(b, lowest, 5) * weight_b;
        let sixteenths = if d.is(Mutant::BlendRoundedUp) { sum + 15 } else { sum };
        let channel = sixteenths.div_euclid(16);
        let capped = if d.is(Mutant::BlendNotCapped) { channel } else { channel.min(31) };
        colour += (capped & 31) << lowest;
    }
    colour
}

/// "Windows and blending": r * 2^19 + g * 2^11 + b * 2^3.
pub fn to_24_bits(d: &Draw, colour: i64) -> u32 {
    let (mut r, g, mut b) = (bits(colour, 0, 5), bits(colour, 5, 5), bits(colour, 10, 5));
    if d.is(Mutant::RedAndBlueExchanged) {
        (r, b) = (b, r);
    }
    ((r << 19) + (g << 11) + (b << 3)) as u32
}
