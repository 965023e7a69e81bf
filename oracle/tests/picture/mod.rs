//! Small draws of the oracle, for tests: memory of zeros, and what a test puts into it.

#![allow(dead_code)] // Each test uses a part of it.

use ashlarkin_oracle::cases::reset_row;
use ashlarkin_oracle::*;

/// A draw with nothing in it: all memory 0, sprites hidden, the row reset.
pub struct Picture {
    pub line: u32,
    pub references: [i32; 4],
    pub vram: Vec<u8>,
    pub palette: Vec<u8>,
    pub oam: Vec<u8>,
    pub registers: Vec<u8>,
    pub entries: Vec<u8>,
}

pub fn put(bytes: &mut [u8], at: usize, word: u16) {
    bytes[at..at + 2].copy_from_slice(&word.to_le_bytes());
}

impl Picture {
    pub fn new(dispcnt: u16) -> Picture {
        let mut picture = Picture {
            line: 0,
            references: [0; 4],
            vram: vec![0; VRAM_LEN],
            palette: vec![0; PALETTE_LEN],
            oam: [0x00, 0x02, 0, 0, 0, 0, 0, 0].repeat(128),
            registers: vec![0; REGISTERS_LEN],
            entries: reset_row(),
        };
        picture.set(0x00, dispcnt);
        picture.set(0x20, 0x100);
        // Colour 1 of both halves of the palette is red.
        put(&mut picture.palette, 0x002, 0x1f);
        put(&mut picture.palette, 0x202, 0x1f);
        picture
    }

    pub fn set(&mut self, register: usize, word: u16) -> &mut Picture {
        put(&mut self.registers, register, word);
        self
    }

    pub fn sprite(&mut self, number: usize, words: [u16; 3]) -> &mut Picture {
        (0..3).for_each(|at| put(&mut self.oam, 8 * number + 2 * at, words[at]));
        self
    }

    /// Every dot of every sprite tile has index 1.
    pub fn solid_tiles(&mut self) -> &mut Picture {
        self.vram[0x10000..].fill(0x11);
        self
    }

    pub fn draw(&self, reading: u32) -> Result<Vec<u32>, u32> {
        let Picture { line, references, vram, palette, oam, registers, .. } = self;
        let input = Input { reading, line: *line, references: *references, vram, palette, oam, registers };
        let mut output = [0; OUTPUT_LEN];
        match Oracle::new().draw(&input, &mut self.entries.clone(), &mut output) {
            Answer::Number(0) => {
                Ok(output.chunks_exact(4).map(|b| u32::from_le_bytes([b[0], b[1], b[2], b[3]])).collect())
            }
            Answer::Number(number) => Err(number),
            Answer::Panicked(finding) => panic!("the Rust panicked: {finding}"),
        }
    }

    /// The pixel at a column under R and under H.
    pub fn pixels(&self, column: usize) -> [u32; 2] {
        [0, 1].map(|reading| self.draw(reading).expect("an accepted draw")[column])
    }
}
