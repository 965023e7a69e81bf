//! Register buffers and references.

use super::random::Random;
use crate::input::REGISTERS_LEN;

/// A reference within the range of document 01: of an ordinary picture, near either end, or anywhere.
pub fn reference(random: &mut Random) -> i32 {
    let near = if random.one_in(2) { random.below(4) } else { random.below(4096) } as i32;
    match random.below(8) {
        0 => 0,
        1 => (1 << 28) - 1 - near,
        2 => -(1 << 28) + near,
        3 => random.signed() >> 3,
        _ => random.below(0x60000) as i32 - 0x18000,
    }
}

/// Registers that a draw under this reading accepts. Bits that a draw must not read are noise.
pub fn accepted(random: &mut Random, reading: u32, line: u32) -> Vec<u8> {
    let mut registers = random.bytes(REGISTERS_LEN);
    let mut put = |offset: usize, word: u16| registers[offset..offset + 2].copy_from_slice(&word.to_le_bytes());
    put(0x00, display_control(random));
    for bg in 0..4 {
        put(0x10 + 4 * bg, scroll(random));
        put(0x12 + 4 * bg, scroll(random));
    }
    for affine in [0x20, 0x30] {
        for at in 0..4 {
            put(affine + 2 * at, matrix(random, at));
        }
    }
    for window in 0..2 {
        put(0x40 + 2 * window, edges(random, 240, 120));
        put(0x44 + 2 * window, edges(random, 160, line));
    }
    let noise = random.word() & !0x1f;
    let highest = if reading == 0 { 16 } else { 31 };
    let evy = if random.one_in(4) { random.pick(&[0, 1, 15, 16]) } else { random.range(0, highest) };
    put(0x54, noise | evy as u16);
    registers
}

fn display_control(random: &mut Random) -> u16 {
    let mut word = random.word() & 0xe070 | random.below(6) as u16;
    if random.one_in(4) {
        word &= 0x1fff; // no window
    }
    if random.one_in(32) {
        word |= 0x80; // forced blank
    }
    for bit in 8..=11 {
        word |= u16::from(!random.one_in(4)) << bit;
    }
    word | u16::from(!random.one_in(8)) << 12
}

fn scroll(random: &mut Random) -> u16 {
    match random.below(4) {
        0 => random.pick(&[0, 1, 7, 8, 255, 256, 504, 511]),
        _ => random.word(),
    }
}

/// A number with eight fraction bits, the `at`-th of four: of the unit matrix, near it, at an end, or anything.
pub fn matrix(random: &mut Random, at: usize) -> u16 {
    match random.below(8) {
        0..=2 => [0x100, 0, 0, 0x100][at],
        3 | 4 => (random.below(0x400) as i16 - 0x200) as u16,
        5 => random.pick(&[0x0000, 0x8000, 0x7fff, 0xffff, 0xff00, 0x0001]),
        _ => random.word(),
    }
}

/// The two edges of a window along one side of the screen, the far one in the low byte: any, around a place that is of
/// interest, equal, exchanged, or beyond the side.
fn edges(random: &mut Random, side: u32, place: u32) -> u16 {
    let near = random.below(place + 1).min(255);
    let far = random.range(place, 255);
    let (low, high) = match random.below(8) {
        0 => (far, far),
        1 => (near, far),
        2 => (side + random.below(256 - side), near),
        3 => (side, 0),
        4 | 5 => (far, near),
        _ => return random.word(),
    };
    (low | high << 8) as u16
}
