//! Document 01, "Sprites (obj.rs)".

use super::sizes::SIZES;
use super::{Draw, Entry, Mutant, bit, bits, halfword};

#[derive(Clone, Copy, PartialEq)]
enum Mode {
    Ordinary,
    SemiTransparent,
    Window,
    Prohibited,
}

#[derive(Clone, Copy, PartialEq)]
enum Type {
    Normal,
    Affine,
    Hidden,
    AffineDouble,
}

struct Sprite {
    x: i64,
    y: i64,
    mode: Mode,
    kind: Type,
    eight_bits: bool,
    width: i64,
    height: i64,
    box_width: i64,
    box_height: i64,
    second: i64,
    tile: i64,
    priority: i64,
    bank: i64,
}

/// "Sprites": run in OAM order 0 to 127 over the row of entries.
pub fn run(d: &Draw, row: &mut [Entry; 240]) {
    for number in 0..128 {
        let sprite = decode(d, number);
        if !is_drawn(d, &sprite) {
            continue;
        }
        for column in sprite.x.max(0)..(sprite.x + sprite.box_width).min(240) {
            let entry = &mut row[column as usize];
            if passed_over(d, &sprite, entry) {
                continue;
            }
            if let Some(colour) = pixel(d, &sprite, column) {
                put(d, &sprite, entry, colour);
            } else if d.is(Mutant::TransparentPixelTakesPriority) && entry.priority < 4 {
                entry.priority = entry.priority.min(sprite.priority);
            }
        }
    }
}

/// "Sprites": the three halfwords of a sprite (GBATEK, OAM Attributes).
fn decode(d: &Draw, number: usize) -> Sprite {
    let first = halfword(d.input.oam, 8 * number);
    let second = halfword(d.input.oam, 8 * number + 2);
    let third = halfword(d.input.oam, 8 * number + 4);
    let kind = [Type::Normal, Type::Affine, Type::Hidden, Type::AffineDouble][bits(first, 8, 2) as usize];
    let mode = [Mode::Ordinary, Mode::SemiTransparent, Mode::Window, Mode::Prohibited][bits(first, 10, 2) as usize];
    let (width, height) = size(d, bits(second, 14, 2) as usize, bits(first, 14, 2) as usize);
    let doubled = kind == Type::AffineDouble && !d.is(Mutant::BoxNotDoubled);
    let times = if doubled { 2 } else { 1 };
    Sprite {
        x: place_x(d, bits(second, 0, 9)),
        y: place_y(d, bits(first, 0, 8)),
        mode,
        kind,
        eight_bits: bit(first, 13),
        width,
        height,
        box_width: times * width,
        box_height: times * height,
        second,
        tile: bits(third, 0, 10),
        priority: bits(third, 10, 2),
        bank: bits(third, 12, 4),
    }
}

/// "Sprites": Y of 160 or more is Y - 256.
fn place_y(d: &Draw, y: i64) -> i64 {
    let positive = y < 160 || y == 160 && d.is(Mutant::Y160Positive);
    if positive { y } else { y - 256 }
}

/// "Sprites": X of 240 or more is X - 512.
fn place_x(d: &Draw, x: i64) -> i64 {
    let positive = x < 240 || d.is(Mutant::XNeverNegative);
    if positive { x } else { x - 512 }
}

/// "Sprites": sizes by (size, shape).
fn size(d: &Draw, size: usize, shape: usize) -> (i64, i64) {
    let exchanged = d.is(Mutant::WideAndTallExchanged) || size == 1 && d.is(Mutant::WideAndTallOfSize1Exchanged);
    match shape {
        _ if d.is(Mutant::SizeAndShapeExchanged) => SIZES[shape][size],
        1 if exchanged => SIZES[size][2],
        2 if exchanged => SIZES[size][1],
        3 if d.is(Mutant::Shape3Square) => SIZES[size][0],
        _ => SIZES[size][shape],
    }
}

/// "Sprites": a sprite is drawn on a line if all four conditions hold.
fn is_drawn(d: &Draw, sprite: &Sprite) -> bool {
    let hidden = sprite.kind == Type::Hidden && !d.is(Mutant::HiddenSpritesDrawn);
    let prohibited = sprite.mode == Mode::Prohibited && !d.is(Mutant::ProhibitedModeDrawn);
    let on_line = sprite.y <= d.line && d.line < sprite.y + sprite.box_height;
    let tiles_start = if d.mode >= 3 && !d.is(Mutant::LowTilesShownInBitmapModes) { 0x14000 } else { 0x10000 };
    !hidden && !prohibited && on_line && 0x10000 + 32 * tile_number(d, sprite) >= tiles_start
}

/// "Sprites": a non-window sprite is passed over where the entry's priority is less than or equal to its own.
fn passed_over(d: &Draw, sprite: &Sprite, entry: &Entry) -> bool {
    if sprite.mode == Mode::Window && !d.is(Mutant::WindowSpriteTestsPriority) {
        return false;
    }
    let later_wins = d.is(Mutant::TieToLaterSprite);
    if later_wins { entry.priority < sprite.priority } else { entry.priority <= sprite.priority }
}

/// "Sprites": a window sprite sets only the window mark, another the colour, priority and semi-transparent mark.
fn put(d: &Draw, sprite: &Sprite, entry: &mut Entry, colour: i64) {
    let window = sprite.mode == Mode::Window;
    if window {
        entry.window = true;
    }
    if !window || d.is(Mutant::WindowSpriteWritesColour) {
        let kept = entry.semi_transparent && d.is(Mutant::SemiTransparentMarkKept);
        entry.colour = colour;
        entry.priority = sprite.priority;
        entry.semi_transparent = sprite.mode == Mode::SemiTransparent || kept;
        entry.window &= window || !d.is(Mutant::SpriteClearsWindowMark);
    }
}

/// "Sprites": the sprite's pixel at (column, line), none where there is none or it is transparent.
fn pixel(d: &Draw, sprite: &Sprite, column: i64) -> Option<i64> {
    let (x, y) = match sprite.kind {
        Type::Normal | Type::Hidden => normal_point(d, sprite, column),
        Type::Affine | Type::AffineDouble => affine_point(d, sprite, column)?,
    };
    let tile_bytes = if sprite.eight_bits { 64 } else { 32 };
    let tile = first_tile(d, sprite) + tile_bytes * (x / 8 + row_width(d, sprite) * (y / 8));
    let bank = if sprite.eight_bits && !d.is(Mutant::BankUsedFor8bppSprite) { 0 } else { sprite.bank };
    let palette = if d.is(Mutant::SpritesUseBackgroundPalette) { 0 } else { 0x200 };
    d.colour(palette, d.tile_pixel(tile, sprite.eight_bits, x % 8, y % 8), bank)
}

/// "Sprites": the tile number counts 32-byte steps from 0x10000.
fn first_tile(d: &Draw, sprite: &Sprite) -> i64 {
    let start = if d.mode >= 3 && d.is(Mutant::TilesCountedFrom14000) { 0x14000 } else { 0x10000 };
    start + 32 * tile_number(d, sprite)
}

/// Document 02, W-203: H ignores the lowest bit of a 256-colour sprite's in two-dimensional mapping.
fn tile_number(d: &Draw, sprite: &Sprite) -> i64 {
    let hardware = d.hardware && !d.is(Mutant::LowestTileBitKeptUnderH) || d.is(Mutant::LowestTileBitIgnoredUnderR);
    let two_dimensional = !bit(d.display, 6) || d.is(Mutant::LowestTileBitIgnoredOneDimensional);
    let eight_bits = sprite.eight_bits || d.is(Mutant::LowestTileBitIgnored16Colours);
    if hardware && two_dimensional && eight_bits { sprite.tile / 2 * 2 } else { sprite.tile }
}

/// "Sprites": tile rows are width/8 tiles wide in one-dimensional mapping, else 16 (8bpp) or 32.
fn row_width(d: &Draw, sprite: &Sprite) -> i64 {
    if bit(d.display, 6) && !d.is(Mutant::TwoDimensionalAlways) || d.is(Mutant::OneDimensionalAlways) {
        return if d.is(Mutant::TileRowsOfTheBox) { sprite.box_width / 8 } else { sprite.width / 8 };
    }
    if sprite.eight_bits && !d.is(Mutant::TwoDimensional32WideFor8bpp) { 16 } else { 32 }
}

/// "Sprites": normal sprites flip by bits 12 and 13 of the second halfword.
fn normal_point(d: &Draw, sprite: &Sprite, column: i64) -> (i64, i64) {
    flipped(d, sprite, column - sprite.x, d.line - sprite.y)
}

/// "Sprites": left-right by bit 12, up-down by bit 13.
fn flipped(d: &Draw, sprite: &Sprite, x: i64, y: i64) -> (i64, i64) {
    let (across, down) = if d.is(Mutant::SpriteFlipsExchanged) { (13, 12) } else { (12, 13) };
    let x = if bit(sprite.second, across) { sprite.width - 1 - x } else { x };
    let y = if bit(sprite.second, down) { sprite.height - 1 - y } else { y };
    (x, y)
}

/// "Sprites": affine offsets run from the box's middle, are shifted down by 8, then half the own size is added.
fn affine_point(d: &Draw, sprite: &Sprite, column: i64) -> Option<(i64, i64)> {
    let matrix = 6 + 32 * bits(sprite.second, 9, 5) as usize;
    let number = |n: usize| halfword(d.input.oam, matrix + 8 * n) as i16 as i64;
    let (pa, mut pb, mut pc, pd) = (number(0), number(1), number(2), number(3));
    if d.is(Mutant::SpriteMatrixPbPcExchanged) {
        (pb, pc) = (pc, pb);
    }
    let from_x = column - (sprite.x + sprite.box_width / 2);
    let from_y = d.line - (sprite.y + sprite.box_height / 2);
    let shifted = |offset: i64| {
        if d.is(Mutant::SpriteOffsetTowardZero) { offset / 256 } else { offset.div_euclid(256) }
    };
    let boxed = d.is(Mutant::HalfTheBoxAdded);
    let half_width = if boxed { sprite.box_width / 2 } else { sprite.width / 2 };
    let half_height = if boxed { sprite.box_height / 2 } else { sprite.height / 2 };
    let x = shifted(pa * from_x + pb * from_y) + half_width;
    let y = shifted(pc * from_x + pd * from_y) + half_height;
    if x < 0 || x >= sprite.width || y < 0 || y >= sprite.height {
        return None;
    }
    Some(if d.is(Mutant::AffineSpritesFlip) { flipped(d, sprite, x, y) } else { (x, y) })
}
