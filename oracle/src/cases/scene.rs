//! Video memories that some neighbouring cases share.

use std::sync::Arc;

use super::random::Random;
use crate::input::VRAM_LEN;

/// More than a draw takes, so that a longer buffer can be lent as a fault.
const SPARE: usize = 64;

/// How a block of video memory is filled.
#[derive(Clone, Copy)]
enum Fill {
    /// Any bytes.
    Noise,
    /// Mostly zero, as tiles with transparent dots are.
    Sparse,
    /// Halfwords at which a colour word changes its meaning.
    Words,
    /// Map entries of few tiles, with flips and banks.
    Map,
}

const BLOCK: usize = 0x800;

pub struct Scene {
    vrams: [Arc<[u8]>; 2],
}

impl Scene {
    pub fn new(seed: u64, number: u64) -> Scene {
        // Streams of scenes stand apart from those of cases.
        let random = &mut Random::new(seed, !number);
        Scene { vrams: std::array::from_fn(|_| memory(random)) }
    }

    /// One of the scene's memories.
    pub fn vram(&self, random: &mut Random) -> Arc<[u8]> {
        self.vrams[random.below(2) as usize].clone()
    }
}

fn memory(random: &mut Random) -> Arc<[u8]> {
    let mut bytes = random.bytes(VRAM_LEN + SPARE);
    for block in bytes.chunks_mut(BLOCK) {
        match random.pick(&[Fill::Noise, Fill::Noise, Fill::Sparse, Fill::Sparse, Fill::Words, Fill::Map]) {
            Fill::Noise => {}
            // The byte's own noise decides whether it stays: half of its dots or all of them go.
            Fill::Sparse => block.iter_mut().for_each(|byte| {
                *byte &= [0x00, 0x00, 0x0f, 0xf0, 0xff, 0x00, 0x0f, 0xf0][(*byte & 7) as usize];
            }),
            Fill::Words => block.chunks_exact_mut(2).for_each(|pair| {
                let words: [u16; 8] = [0x8000, 0x8000, 0x8001, 0x0000, 0x7fff, 0xffff, 0x8000, 0x001f];
                if pair[0] & 0x10 == 0 {
                    pair.copy_from_slice(&words[(pair[0] & 7) as usize].to_le_bytes());
                }
            }),
            Fill::Map => block.chunks_exact_mut(2).for_each(|pair| pair[1] &= 0xfc),
        }
    }
    bytes.into()
}
