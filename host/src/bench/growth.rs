//! How the cost of a line grows: one thing is changed at a time on a line of mode 0 over the memory of generated cases.

use ashlarkin_oracle::cases::{Cases, Draw, Kind, SCENE_CASES};

use super::turn::{Set, Turn};

/// Memories that each point is measured over.
const MEMORIES: usize = 4;
const LINE: u32 = 80;

/// The registers that a line is given.
const DISPCNT: usize = 0x00;
const BGCNT: usize = 0x08;
const HOFS: usize = 0x10;
const VOFS: usize = 0x12;
const WIN0H: usize = 0x40;
const WIN1H: usize = 0x42;
const WIN0V: usize = 0x44;
const WIN1V: usize = 0x46;
const WININ: usize = 0x48;
const WINOUT: usize = 0x4a;
const BLDCNT: usize = 0x50;
const BLDALPHA: usize = 0x52;
const BLDY: usize = 0x54;

/// What a line has.
#[derive(Clone, Copy)]
struct Scene {
    backgrounds: u16,
    sprites: usize,
    affine: bool,
    /// Bits 13 to 15 of DISPCNT: window 0, window 1, object window.
    windows: u16,
    /// Bits 6 and 7 of BLDCNT.
    effect: u16,
}

const PLAIN: Scene = Scene { backgrounds: 2, sprites: 0, affine: false, windows: 0, effect: 0 };
const FULL: Scene = Scene { backgrounds: 4, sprites: 8, ..PLAIN };

/// Points at which one thing is changed.
pub struct Series {
    pub name: &'static str,
    pub points: Vec<Set>,
}

pub fn series(seed: u64) -> Vec<Series> {
    let mut cases = Cases::new(seed);
    let accepted = (0..).filter(|index| Kind::of(*index) == Kind::AcceptedR).step_by(SCENE_CASES as usize);
    let memories: Vec<Draw> = accepted.map(|index| cases.case(index).draws.remove(0)).take(MEMORIES).collect();
    let point = |name: String, scene: Scene| Set {
        name,
        turns: memories.iter().map(|memory| Turn::of_one_line(scene.draw(memory))).collect(),
    };
    let sprites =
        |affine| [0, 8, 32, 128].map(|sprites| point(sprites.to_string(), Scene { sprites, affine, ..PLAIN })).into();
    let backgrounds = (0..=4).map(|backgrounds| point(backgrounds.to_string(), Scene { backgrounds, ..PLAIN }));
    let windows = [("off", 0), ("window 0", 1), ("windows 0, 1", 3), ("0, 1, object", 7)]
        .map(|(name, windows)| point(name.to_owned(), Scene { windows, ..FULL }));
    let effects = [("none", 0), ("white", 2), ("blend", 1)]
        .map(|(name, effect)| point(name.to_owned(), Scene { effect, ..FULL }));
    vec![
        Series { name: "sprites", points: sprites(false) },
        Series { name: "affine sprites", points: sprites(true) },
        Series { name: "backgrounds", points: backgrounds.collect() },
        Series { name: "windows", points: windows.into() },
        Series { name: "effects", points: effects.into() },
    ]
}

impl Scene {
    /// A line of the scene over a memory.
    fn draw(self, memory: &Draw) -> Draw {
        Draw {
            reading: 0,
            line: LINE,
            references: [0; 4],
            vram_len: ashlarkin::VRAM_LEN,
            registers: self.registers(),
            oam: self.oam(),
            ..memory.clone()
        }
    }

    fn registers(self) -> Vec<u8> {
        let mut registers = vec![0; ashlarkin::REGISTERS_LEN];
        let on = (1 << self.backgrounds) - 1;
        // Mode 0, sprite tiles in one dimension, sprites on.
        put(&mut registers, DISPCNT, 0x1040 | on << 8 | self.windows << 13);
        for bg in 0..4 {
            let at = usize::from(bg);
            put(&mut registers, BGCNT + 2 * at, bg | bg << 2 | (24 + bg) << 8);
            put(&mut registers, HOFS + 4 * at, 3 * bg + 1);
            put(&mut registers, VOFS + 4 * at, 5 * bg);
        }
        // Both windows on all rows, over columns of their own; effects inside alone.
        put(&mut registers, WIN0H, 40 << 8 | 160);
        put(&mut registers, WIN1H, 100 << 8 | 220);
        put(&mut registers, WIN0V, 160);
        put(&mut registers, WIN1V, 160);
        put(&mut registers, WININ, 0x3f3f);
        put(&mut registers, WINOUT, 0x3f1f);
        // Backgrounds 0 and 1 over everything, by halves.
        put(&mut registers, BLDCNT, if self.effect == 0 { 0 } else { 0x3f03 | self.effect << 6 });
        put(&mut registers, BLDALPHA, 0x0808);
        put(&mut registers, BLDY, 8);
        registers
    }

    /// Sprites of 32 by 32 whose middle is on the line, all over it; the others are hidden.
    fn oam(self) -> Vec<u8> {
        let mut oam = vec![0; ashlarkin::OAM_LEN];
        // A turn by 20 degrees.
        let matrix = [240_i16, 88, -88, 240];
        for (obj, place) in oam.chunks_exact_mut(8).enumerate() {
            let number = obj as u16;
            let shown = (LINE as u16 - 16) | if self.affine { 0x100 } else { 0 };
            put(place, 0, if obj < self.sprites { shown } else { 0x200 });
            put(place, 2, (29 * number % 208) | (2 << 14));
            put(place, 4, (16 * number % 1024) | ((number % 4) << 10) | ((number % 16) << 12));
            put(place, 6, matrix[obj % 4] as u16);
        }
        oam
    }
}

/// A halfword, the low byte first.
fn put(bytes: &mut [u8], at: usize, value: u16) {
    bytes[at..at + 2].copy_from_slice(&value.to_le_bytes());
}
