//! docs/DIFFERENCES.md, run: for each of its points on drawing the smallest input, and what the oracle gives under R and H.

mod picture;
use picture::{Picture, put};

const RED: u32 = 0xf80000;
const WHITE: u32 = 0xf8f8f8;
const BLACK: u32 = 0;

#[test]
fn d01_window_1_walks_window_0s_columns() {
    let mut p = Picture::new(0x4000);
    p.set(0x42, 0x00f0).set(0x46, 0x00a0).set(0x48, 0x2000).set(0x50, 0x00a0).set(0x54, 16);
    assert_eq!(p.pixels(0), [BLACK, WHITE]);
    p.set(0x40, 0x00f0);
    assert_eq!(p.pixels(0), [WHITE, WHITE]);
}

#[test]
fn d02_weights_above_16() {
    let mut p = Picture::new(0x0403);
    put(&mut p.vram, 0, 20);
    p.set(0x50, 0x2044).set(0x52, 31);
    assert_eq!(p.pixels(0), [31 << 19, 20 << 19]);
}

#[test]
fn d03_evy_above_16() {
    let mut p = Picture::new(0);
    p.set(0x50, 0x00a0).set(0x54, 17);
    assert_eq!(p.draw(0), Err(5));
    assert_eq!(p.draw(1).map(|row| row[0]), Ok(WHITE));
}

#[test]
fn d04_odd_tile_numbers_of_256_colours() {
    let mut p = Picture::new(0x1000);
    p.vram[0x10020] = 1;
    p.sprite(0, [0x2000, 0, 1]);
    assert_eq!(p.pixels(0), [RED, BLACK]);
    p.vram.swap(0x10020, 0x10000);
    assert_eq!(p.pixels(0), [BLACK, RED]);
    // In one-dimensional mapping, and with 16 colours, the bit counts in both.
    p.set(0x00, 0x1040);
    assert_eq!(p.pixels(0), [BLACK, BLACK]);
    p.set(0x00, 0x1000).sprite(0, [0, 0, 1]);
    assert_eq!(p.pixels(0), [BLACK, BLACK]);
    p.vram.swap(0x10020, 0x10000);
    assert_eq!(p.pixels(0), [RED, RED]);
    p.set(0x00, 0x1040).sprite(0, [0x2000, 0, 1]);
    assert_eq!(p.pixels(0), [RED, RED]);
}

#[test]
fn d05_a_tall_box_below_line_128() {
    let mut p = Picture::new(0x1000);
    p.solid_tiles().sprite(0, [0x0300 | 129, 0xc000, 0]);
    put(&mut p.oam, 6, 0x100);
    p.line = 150;
    assert_eq!(p.pixels(64), [RED, RED]);
    p.line = 0;
    assert_eq!(p.pixels(64), [BLACK, BLACK]);
}

#[test]
fn d07_the_word_0x8000() {
    let mut p = Picture::new(0x0403);
    put(&mut p.palette, 0, 0x1f);
    put(&mut p.vram, 0, 0x8000);
    put(&mut p.vram, 2, 0x8001);
    assert_eq!(p.pixels(0), [RED, RED]);
    assert_eq!(p.pixels(1), [0x080000, 0x080000]);
}

#[test]
fn d08_bitmaps_wrap() {
    let mut p = Picture::new(0x0403);
    put(&mut p.vram, 2 * 239, 0x1f);
    p.references[0] = -0x100;
    assert_eq!(p.pixels(0), [BLACK, BLACK]);
    p.set(0x0c, 0x2000);
    assert_eq!(p.pixels(0), [RED, RED]);
}

#[test]
fn d09_the_backdrop_blends_with_itself() {
    let mut p = Picture::new(0);
    put(&mut p.palette, 0, 10);
    p.set(0x50, 0x2060).set(0x52, 0x1010);
    assert_eq!(p.pixels(0), [20 << 19, 20 << 19]);
}

#[test]
fn d10_the_object_window_with_sprites_off() {
    let mut p = Picture::new(0x8000);
    p.entries[3] = 2;
    p.set(0x4a, 0x2000).set(0x50, 0x00a0).set(0x54, 16);
    assert_eq!(p.pixels(0), [WHITE, WHITE]);
    assert_eq!(p.pixels(1), [BLACK, BLACK]);
}

#[test]
fn d11_reads_past_a_regions_end() {
    let mut p = Picture::new(0x0100);
    p.set(0x08, 0x008c);
    put(&mut p.vram, 0, 0x100);
    p.vram[0x10000] = 1;
    assert_eq!(p.pixels(0), [RED, RED]);
    let mut p = Picture::new(0x1040);
    p.line = 4;
    p.vram[0x18000] = 1;
    p.sprite(0, [0x2000, 0, 1023]);
    assert_eq!(p.pixels(0), [RED, RED]);
}

#[test]
fn d12_no_limit_of_sprites_a_line() {
    let mut p = Picture::new(0x1000);
    p.solid_tiles();
    (0..127).for_each(|number| _ = p.sprite(number, [0x0000, 0xc000, 0]));
    p.sprite(127, [0x0000, 100, 0]);
    assert_eq!(p.pixels(100), [RED, RED]);
}

#[test]
fn d13_blacks_rounding() {
    let mut p = Picture::new(0);
    put(&mut p.palette, 0, 31);
    p.set(0x50, 0x00e0).set(0x54, 1);
    assert_eq!(p.pixels(0), [29 << 19, 29 << 19]);
}

#[test]
fn d14_shape_3_is_8_by_8() {
    let mut p = Picture::new(0x1000);
    p.solid_tiles().sprite(0, [0xc000, 0xc000, 0]);
    assert_eq!(p.pixels(7), [RED, RED]);
    assert_eq!(p.pixels(8), [BLACK, BLACK]);
}

#[test]
fn d15_sprites_of_mode_3() {
    let mut p = Picture::new(0x1000);
    p.solid_tiles().sprite(0, [0x0c00, 0, 0]);
    assert_eq!(p.pixels(0), [BLACK, BLACK]);
}

#[test]
fn d16_white_on_a_semi_transparent_sprite() {
    let mut p = Picture::new(0x1000);
    p.solid_tiles().sprite(0, [0x0400, 0, 0]).set(0x50, 0x0080).set(0x54, 16);
    assert_eq!(p.pixels(0), [RED, RED]);
    p.set(0x50, 0x0090);
    assert_eq!(p.pixels(0), [WHITE, WHITE]);
}

#[test]
fn d17_references_and_entries_out_of_the_domain() {
    let mut p = Picture::new(0);
    p.references[3] = 1 << 28;
    assert_eq!((p.draw(0), p.draw(1)), (Err(6), Err(6)));
    let mut p = Picture::new(0);
    p.entries[4 * 239 + 2] = 5;
    assert_eq!((p.draw(0), p.draw(1)), (Err(7), Err(7)));
}
