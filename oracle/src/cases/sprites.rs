//! Contents of OAM.

use super::random::Random;
use super::registers::matrix;
use crate::input::OAM_LEN;

/// 128 sprites and 32 matrices, made so that many, some or none of the sprites reach the line.
pub fn oam(random: &mut Random, line: u32) -> Vec<u8> {
    let mut oam = random.bytes(OAM_LEN);
    let busy = random.pick(&[0, 1, 2, 4, 16, 128]);
    if busy == 0 {
        return oam; // noise
    }
    for (number, place) in oam.chunks_exact_mut(8).enumerate() {
        let words = if random.one_in(busy) { reaching(random, line) } else { elsewhere(random) };
        for (at, word) in words.into_iter().enumerate() {
            place[2 * at..2 * at + 2].copy_from_slice(&word.to_le_bytes());
        }
        place[6..8].copy_from_slice(&matrix(random, number % 4).to_le_bytes());
    }
    oam
}

/// A sprite whose box is likely to hold the line, with X anywhere but often at an edge.
fn reaching(random: &mut Random, line: u32) -> [u16; 3] {
    if random.one_in(32) {
        return tall(random);
    }
    let tallest = random.pick(&[8, 16, 64, 128]);
    let above = random.below(tallest);
    let y = (line + 256 - above) % 256;
    let x = match random.below(8) {
        0 => random.range(232, 248),
        1 => random.range(448, 511),
        2 => random.below(8),
        3 => random.range(176, 240),
        _ => random.below(512),
    };
    let noise = [random.word(), random.word(), random.word()];
    let types = random.pick(&[0, 0, 0, 0x100, 0x100, 0x300, 0x300, 0x200]);
    // Tiles from 512 on are shown in every mode.
    let tile = if random.one_in(2) { noise[2] | 0x200 } else { noise[2] };
    [noise[0] & 0xfc00 | types | y as u16, noise[1] & 0xfe00 | x as u16, tile]
}

/// A sprite of 64 rows in a double-size box, at a Y where the box goes around the screen or just doesn't.
fn tall(random: &mut Random) -> [u16; 3] {
    let y = random.pick(&[127, 128, 129, 158, 159, 160, 161, 255]);
    let shape = random.pick(&[0x0000, 0x8000]);
    let attr0 = random.word() & 0x3c00 | shape | 0x300 | y;
    [attr0, random.word() | 0xc000, random.word() | 0x200]
}

/// A sprite that is hidden, or anything.
fn elsewhere(random: &mut Random) -> [u16; 3] {
    let words = [random.word(), random.word(), random.word()];
    if random.one_in(8) { words } else { [words[0] & 0xfcff | 0x200, words[1], words[2]] }
}
