//! Generated draws, and calls on the bus, for differential runs. A case is a pure function of (seed, index), so that a
//! number names it.

mod bus;
mod changes;
mod faults;
mod loaded;
mod random;
mod registers;
mod scene;
mod sprites;

use std::sync::Arc;

use serde::{Deserialize, Deserializer, Serialize};

use crate::input::*;
pub use bus::{BusCall, BusCase, Lent};
pub use changes::{Called, Change};
pub use loaded::Loaded;
pub use random::{Random, fresh_seed};
use scene::Scene;

/// What a case is for; its index decides.
#[derive(Clone, Copy, Debug, PartialEq, Eq, Deserialize, Serialize)]
pub enum Kind {
    /// Accepted under reading R.
    AcceptedR,
    /// Accepted under reading H.
    AcceptedH,
    /// Faults in an accepted draw, with or without forced blank, which lets some of them pass.
    Faulty,
    /// Two to six draws on one row, each with its own memory, registers and line, refused ones among them.
    Chain,
}

impl Kind {
    /// Of eight cases in a row four are R, two H, one faulty and one a chain.
    pub fn of(index: u64) -> Kind {
        match index % 8 {
            0..=3 => Kind::AcceptedR,
            4 | 5 => Kind::AcceptedH,
            6 => Kind::Faulty,
            _ => Kind::Chain,
        }
    }
}

/// A kind of background, for draws that show it alone.
#[derive(Clone, Copy, Debug, PartialEq, Eq)]
pub enum Alone {
    Regular,
    Affine,
    Mode3,
    Mode4,
    Mode5,
}

impl Alone {
    pub const ALL: [Alone; 5] = [Alone::Regular, Alone::Affine, Alone::Mode3, Alone::Mode4, Alone::Mode5];

    /// The modes and backgrounds of this kind.
    fn places(self) -> &'static [(u16, usize)] {
        match self {
            Alone::Regular => &[(0, 0), (0, 1), (0, 2), (0, 3), (1, 0), (1, 1)],
            Alone::Affine => &[(1, 2), (2, 2), (2, 3)],
            Alone::Mode3 => &[(3, 2)],
            Alone::Mode4 => &[(4, 2)],
            Alone::Mode5 => &[(5, 2)],
        }
    }
}

/// One draw of a case, with buffers of its own but for video memory, which neighbours share.
#[derive(Clone, Deserialize, Serialize)]
#[serde(deny_unknown_fields)]
pub struct Draw {
    pub reading: u32,
    pub line: u32,
    pub references: [i32; 4],
    #[serde(serialize_with = "hex::serialize", deserialize_with = "shared")]
    pub vram: Arc<[u8]>,
    /// How much of `vram` is lent: 131,072, or another length as a fault.
    pub vram_len: usize,
    #[serde(with = "hex")]
    pub palette: Vec<u8>,
    #[serde(with = "hex")]
    pub oam: Vec<u8>,
    #[serde(with = "hex")]
    pub registers: Vec<u8>,
}

fn shared<'de, D: Deserializer<'de>>(text: D) -> Result<Arc<[u8]>, D::Error> {
    hex::deserialize(text).map(|bytes: Vec<u8>| bytes.into())
}

impl Draw {
    pub fn input(&self) -> Input<'_> {
        Input {
            reading: self.reading,
            line: self.line,
            references: self.references,
            vram: &self.vram[..self.vram_len],
            palette: &self.palette,
            oam: &self.oam,
            registers: &self.registers,
        }
    }
}

/// Draws on one row, and the row and the output before the first.
#[derive(Clone, Deserialize, Serialize)]
#[serde(deny_unknown_fields)]
pub struct Case {
    pub kind: Kind,
    #[serde(with = "hex")]
    pub entries: Vec<u8>,
    #[serde(with = "hex")]
    pub output: Vec<u8>,
    pub draws: Vec<Draw>,
}

/// How many cases in a row share their video memories, so that a run need not fill 128 KiB for each.
pub const SCENE_CASES: u64 = 64;

/// The cases of a seed. The scene of the last case is kept, and made anew where it isn't the one wanted.
pub struct Cases {
    seed: u64,
    scene: Scene,
    scene_number: u64,
}

impl Cases {
    pub fn new(seed: u64) -> Cases {
        Cases { seed, scene: Scene::new(seed, 0), scene_number: 0 }
    }

    /// The case of this index.
    pub fn case(&mut self, index: u64) -> Case {
        self.enter(index);
        let random = &mut Random::new(self.seed, index);
        let kind = Kind::of(index);
        let mut case = Case {
            kind,
            draws: vec![],
            entries: if random.one_in(3) { well_shaped_row(random) } else { reset_row() },
            output: random.bytes(OUTPUT_LEN),
        };
        match kind {
            Kind::AcceptedR => case.draws.push(self.accepted(random, 0)),
            Kind::AcceptedH => case.draws.push(self.accepted(random, 1)),
            Kind::Faulty => {
                let reading = random.below(2);
                case.draws.push(self.accepted(random, reading));
                faults::damage(random, &mut case, index / 8);
            }
            Kind::Chain => {
                for _ in 0..random.range(2, 6) {
                    let reading = random.below(2);
                    case.draws.push(self.accepted(random, reading));
                    if random.one_in(8) {
                        let refusal = random.range(1, 6);
                        faults::damage_draw(random, case.draws.last_mut().expect("just pushed"), refusal);
                    }
                }
            }
        }
        case
    }

    /// An accepted draw that shows one background of a kind and nothing else: no sprites, windows or effects. With its number.
    pub fn alone(&mut self, index: u64, kind: Alone) -> (Draw, usize) {
        self.enter(index);
        let random = &mut Random::new(self.seed ^ 0xa10e, index);
        let mut draw = self.accepted(random, 0);
        let (mode, bg) = random.pick(kind.places());
        let dispcnt = mode | (0x10 * random.below(2) as u16) | (0x100 << bg);
        draw.registers[0..2].copy_from_slice(&dispcnt.to_le_bytes());
        draw.registers[0x50..0x52].fill(0);
        (draw, bg)
    }

    /// Reads and stores on the scene's memory. The index decides the mode.
    pub fn bus(&mut self, index: u64) -> BusCase {
        self.enter(index);
        // Streams of the bus stand apart from those of cases.
        let random = &mut Random::new(self.seed ^ 0xb050, index);
        let vram = self.scene.vram(random);
        BusCase::new(random, vram, (index % 8) as u8)
    }

    /// Makes the scene of an index the current one.
    fn enter(&mut self, index: u64) {
        let scene_number = index / SCENE_CASES;
        if scene_number != self.scene_number {
            self.scene = Scene::new(self.seed, scene_number);
            self.scene_number = scene_number;
        }
    }

    fn accepted(&self, random: &mut Random, reading: u32) -> Draw {
        let line = match random.below(8) {
            0 => 0,
            1 => 159,
            _ => random.below(160),
        };
        Draw {
            reading,
            line,
            references: std::array::from_fn(|_| registers::reference(random)),
            vram: self.scene.vram(random),
            vram_len: VRAM_LEN,
            palette: random.bytes(PALETTE_LEN),
            oam: sprites::oam(random, line),
            registers: registers::accepted(random, reading, line),
        }
    }
}

/// A line-end step: pb2, pd2, pb3, pd3, and the references' bytes, now and then of another length.
pub fn step(seed: u64, index: u64) -> ([i16; 4], Vec<u8>) {
    // Streams of steps stand apart from those of cases and scenes.
    let random = &mut Random::new(!seed, index);
    let steps = std::array::from_fn(|at| registers::matrix(random, at) as i16);
    let mut bytes = vec![];
    for _ in 0..4 {
        let end = random.pick(&[1 << 28, -(1 << 28)]);
        let reference = match random.below(16) {
            0 => random.signed(),
            1 => end + random.below(512) as i32 - 256,
            _ => registers::reference(random),
        };
        bytes.extend(reference.to_le_bytes());
    }
    if random.one_in(16) {
        bytes.resize(random.pick(&[0, 1, 15, 17, 32]), 0);
    }
    (steps, bytes)
}

/// 240 reset entries.
pub fn reset_row() -> Vec<u8> {
    [0x00, 0x80, 4, 0].repeat(240)
}

/// 240 entries of any good shape, as an earlier draw may leave them.
fn well_shaped_row(random: &mut Random) -> Vec<u8> {
    let mut row = Vec::with_capacity(ENTRIES_LEN);
    for _ in 0..240 {
        let window = 2 * random.below(2) as u8;
        row.extend(match random.below(2) {
            0 => [0x00, 0x80, 4, window],
            _ => {
                let [low, high] = (random.word() & 0x7fff).to_le_bytes();
                [low, high, random.below(4) as u8, window | random.below(2) as u8]
            }
        });
    }
    row
}
