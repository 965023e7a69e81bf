//! Faults put into an accepted draw: every refusal of document 01, alone and together with others.

use super::random::Random;
use super::{Case, Draw};
use crate::input::*;

const REFUSALS: u32 = 7;

/// The faults of the n-th faulty case: by turns each refusal alone, each pair of two, and any of them together.
pub fn damage(random: &mut Random, case: &mut Case, n: u64) {
    let single = 1 << (n / 3 % u64::from(REFUSALS));
    let other = 1 << (n / 21 % u64::from(REFUSALS));
    let wanted = match n % 3 {
        0 => single,
        1 => single | other,
        _ => random.below(1 << REFUSALS),
    };
    // From the last on, since a cut buffer has no place for a later fault.
    for refusal in (1..=REFUSALS).rev().filter(|refusal| wanted & 1 << (refusal - 1) != 0) {
        match (refusal, random.below(3)) {
            (7, _) => ill_shape(random, &mut case.entries),
            (2, 0) => cut(random, &mut case.entries, ENTRIES_LEN),
            (2, 1) => cut(random, &mut case.output, OUTPUT_LEN),
            _ => damage_draw(random, &mut case.draws[0], refusal),
        }
    }
}

/// Gives a draw cause for this refusal by what it reads. Refusal 5 needs reading R too, and 4 to 7 no forced blank.
pub fn damage_draw(random: &mut Random, draw: &mut Draw, refusal: u32) {
    let beyond = random.below(3) as i32;
    match refusal {
        1 => draw.reading = random.pick(&[2, 3, 255, 256, 1 << 31, u32::MAX]),
        2 => match random.below(4) {
            0 => cut(random, &mut draw.palette, PALETTE_LEN),
            1 => cut(random, &mut draw.oam, OAM_LEN),
            2 => cut(random, &mut draw.registers, REGISTERS_LEN),
            _ => draw.vram_len = random.pick(&[0, 1, 0x18000, VRAM_LEN - 1, VRAM_LEN + 1, VRAM_LEN + 64]),
        },
        3 => draw.line = random.pick(&[160, 161, 227, 228, 255, 256, 1 << 31, u32::MAX]),
        4 => set_low(&mut draw.registers, 0x00, 7, 6 + random.below(2) as u8),
        5 => set_low(&mut draw.registers, 0x54, 31, 17 + random.below(15) as u8),
        _ => {
            let far = [(1 << 28) + beyond, -(1 << 28) - 1 - beyond, i32::MAX, i32::MIN];
            draw.references[random.below(4) as usize] = random.pick(&far);
        }
    }
}

/// Another length: empty, one short, one long, half, or any.
fn cut(random: &mut Random, buffer: &mut Vec<u8>, expected: usize) {
    let any = random.below(2 * expected as u32) as usize;
    buffer.resize(random.pick(&[0, 1, expected - 1, expected + 1, expected / 2, 2 * expected, any]), 0);
}

/// Sets the low bits of a register's low byte, where the buffer still has it.
fn set_low(registers: &mut [u8], offset: usize, mask: u8, value: u8) {
    if let Some(byte) = registers.get_mut(offset) {
        *byte = *byte & !mask | value;
    }
}

/// One entry of a shape that document 01 doesn't allow.
fn ill_shape(random: &mut Random, entries: &mut [u8]) {
    let bad = random.pick(&[
        [0x00, 0x80, 5, 0],
        [0x00, 0x80, 255, 0],
        [0x00, 0x80, 4, 1],
        [0x00, 0x80, 4, 4],
        [0x00, 0x80, 3, 0],
        [0x01, 0x80, 4, 0],
        [0xff, 0x7f, 4, 0],
        [0xff, 0xff, 0, 2],
        [0xff, 0x7f, 0, 255],
    ]);
    let at = 4 * random.pick(&[0, 1, 119, 238, 239]);
    if let Some(entry) = entries.get_mut(at..at + 4) {
        entry.copy_from_slice(&bad);
    }
}
