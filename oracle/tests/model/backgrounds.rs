//! Document 01, "Backgrounds (text.rs, bitmap.rs)".

use super::{Draw, Mutant, bit, bits};

/// A background that the mode has and that is enabled.
pub struct Background {
    pub number: usize,
    pub priority: i64,
    kind: Kind,
}

enum Kind {
    Regular,
    Affine,
    Bitmap,
}

/// "Windows and blending": the mode's enabled backgrounds in order of (priority, number).
pub fn in_order(d: &Draw) -> Vec<Background> {
    let mut order = Vec::new();
    for number in 0..4 {
        let Some(kind) = kind(d, number) else { continue };
        let always = d.mode >= 3 && d.is(Mutant::SwitchIgnoredInBitmapModes);
        if bit(d.display, 8 + number as u32) || always {
            order.push(Background { number, priority: bits(control(d, number), 0, 2), kind });
        }
    }
    if d.is(Mutant::BackgroundTieToHigherNumber) {
        order.reverse();
    }
    order.sort_by_key(|background| background.priority);
    order
}

/// "Backgrounds": which backgrounds a mode has.
fn kind(d: &Draw, number: usize) -> Option<Kind> {
    match (d.mode, number) {
        (0, _) | (1, 0 | 1) => Some(Kind::Regular),
        (1, 2) | (2, 2 | 3) => Some(Kind::Affine),
        (1, 3) if d.is(Mutant::Mode1HasBackground3) => Some(Kind::Affine),
        (3..=5, 2) => Some(Kind::Bitmap),
        _ => None,
    }
}

/// "Backgrounds": a background's pixel, none where it is transparent.
pub fn pixel(d: &Draw, background: &Background, column: i64) -> Option<i64> {
    match background.kind {
        Kind::Regular => regular(d, background.number, column),
        Kind::Affine => affine(d, background.number, column),
        Kind::Bitmap => bitmap(d, column),
    }
}

/// "Backgrounds", Regular: the pixel at (column, line).
fn regular(d: &Draw, number: usize, column: i64) -> Option<i64> {
    let control = control(d, number);
    let (width, height) = [(256, 256), (512, 256), (256, 512), (512, 512)][bits(control, 14, 2) as usize];
    let x = (column + d.register(0x10 + 4 * number)) % width;
    let y = (d.line + d.register(0x12 + 4 * number)) % height;
    let block = map_block(d, x, y, width, height);
    let entry = d.video_halfword(screen_base(control) + 0x800 * block + 2 * ((x / 8 % 32) + 32 * (y / 8 % 32)));
    let (across, down) = if d.is(Mutant::BackgroundFlipsExchanged) { (11, 10) } else { (10, 11) };
    let tile_x = if bit(entry, across) { 7 - x % 8 } else { x % 8 };
    let tile_y = if bit(entry, down) { 7 - y % 8 } else { y % 8 };
    let eight_bits = bit(control, 7);
    let tile = tile_base(control) + bits(entry, 0, 10) * if eight_bits { 64 } else { 32 };
    let bank = if eight_bits && !d.is(Mutant::BankUsedFor8bppBackground) { 0 } else { bits(entry, 12, 4) };
    d.colour(0, d.tile_pixel(tile, eight_bits, tile_x, tile_y), bank)
}

/// "Backgrounds", Regular: the map block is X/256 + (W/256)(Y/256).
fn map_block(d: &Draw, x: i64, y: i64, width: i64, height: i64) -> i64 {
    if width == 512 && height == 512 && d.is(Mutant::BlocksOf512Transposed) {
        return y / 256 + 2 * (x / 256);
    }
    let a_row = if d.is(Mutant::BlockBelowIsAlways2) { 2 } else { width / 256 };
    x / 256 + a_row * (y / 256)
}

/// "Backgrounds", Affine: one byte a tile, 64-byte tiles, a square of 128 * 2^size.
fn affine(d: &Draw, number: usize, column: i64) -> Option<i64> {
    let control = control(d, number);
    let side = 128 << bits(control, 14, 2);
    let (x, y) = point(d, number, column, side, side)?;
    let map_width = if d.is(Mutant::AffineMapAlways32Wide) { 32 } else { side / 8 };
    let number_of_tile = d.video(screen_base(control) + map_width * (y / 8) + x / 8);
    let index = d.tile_pixel(tile_base(control) + 64 * number_of_tile, true, x % 8, y % 8);
    d.colour(0, index, 0)
}

/// "Backgrounds", Affine: the point, rounded down, if it lies in the picture or is wrapped into it.
fn point(d: &Draw, number: usize, column: i64, width: i64, height: i64) -> Option<(i64, i64)> {
    let matrix = 0x20 + 0x10 * (number - 2);
    let first = if number == 3 && !d.is(Mutant::ReferenceOf3From2) { 2 } else { 0 };
    let pc = if d.is(Mutant::BackgroundMatrixPbForPc) { matrix + 2 } else { matrix + 4 };
    let x = d.input.references[first] as i64 + column * d.signed_register(matrix);
    let y = d.input.references[first + 1] as i64 + column * d.signed_register(pc);
    Some((inside(d, number, down(d, x), width)?, inside(d, number, down(d, y), height)?))
}

/// "Backgrounds", Affine: divided by 256, rounded down.
fn down(d: &Draw, number: i64) -> i64 {
    if d.is(Mutant::AffinePointTowardZero) { number / 256 } else { number.div_euclid(256) }
}

/// "Backgrounds", Affine: outside is transparent, or wrapped by the non-negative remainder.
fn inside(d: &Draw, number: usize, at: i64, length: i64) -> Option<i64> {
    let unwrapped = d.mode >= 3 && d.is(Mutant::WrapIgnoredInBitmapModes);
    if bit(control(d, number), 13) && !unwrapped {
        let absolute = d.is(Mutant::WrapByAbsoluteRemainder);
        return Some(if absolute { (at % length).abs() } else { at.rem_euclid(length) });
    }
    let edge = at == length && d.is(Mutant::AffineEdgeInclusive);
    if 0 <= at && at < length || edge { Some(at) } else { None }
}

/// "Backgrounds": modes 3 to 5, background 2 alone.
fn bitmap(d: &Draw, column: i64) -> Option<i64> {
    let (width, height) = if d.mode == 5 { (160, 128) } else { (240, 160) };
    let (x, y) = point(d, 2, column, width, height)?;
    let framed = match d.mode {
        3 => d.is(Mutant::FrameHonouredInMode3),
        4 => !d.is(Mutant::FrameIgnoredInMode4),
        _ => !d.is(Mutant::FrameIgnoredInMode5),
    };
    let start = if framed && bit(d.display, 4) { 0xa000 } else { 0 };
    if d.mode == 4 {
        return d.colour(0, d.video(start + width * y + x), 0);
    }
    let word = d.video_halfword(start + 2 * (width * y + x));
    let masked =
        d.mode == 3 && d.is(Mutant::Bit15MaskedFirstInMode3) || d.mode == 5 && d.is(Mutant::Bit15MaskedFirstInMode5);
    let transparent = if d.is(Mutant::Bit15MeansTransparent) { bit(word, 15) } else { word == 0x8000 };
    if transparent && !masked { None } else { Some(word) }
}

/// GBATEK, BG Control: a background's control word.
fn control(d: &Draw, number: usize) -> i64 {
    d.register(8 + 2 * number)
}

/// "Backgrounds", Regular: the screen base (GBATEK, BG Control bits 8-12).
fn screen_base(control: i64) -> i64 {
    0x800 * bits(control, 8, 5)
}

/// "Backgrounds": where a background's tiles start (GBATEK, BG Control bits 2-3).
fn tile_base(control: i64) -> i64 {
    0x4000 * bits(control, 2, 2)
}
