//! Why each column of a line has its colour, worked out with nothing of the proved library's.
//!
//! The number, the pixels, the entries afterwards and the rows of the backgrounds are the oracle's. The rest is worked
//! out in another way than the definitions do it: a line's regions are painted from the outside in, so that the last
//! coat is what counts, and the layers of a column are sorted with the backdrop among them. The pixel isn't worked out
//! at all, so that it holds the library's to the Rust's drawing.

use crate::cases::{Draw, Loaded};
use crate::draw::Answer;
use crate::input::*;

/// Why a column has its colour, in the numbers and the order of include/ashlarkin.h.
#[derive(Clone, Copy, Debug, Default, PartialEq, Eq)]
pub struct Reason {
    /// 0, or the refusal's; then every other field is 0.
    pub number: u32,
    /// 1: forced blank, and no layer is named.
    pub blank: u32,
    pub region: u32,
    pub top: u32,
    pub bottom: u32,
    pub effect: u32,
    pub top_color: u16,
    pub bottom_color: u16,
    pub first_weight: u16,
    pub second_weight: u16,
    /// The colour that follows, 0x00RRGGBB.
    pub pixel: u32,
}

// Regions.
pub const NO_WINDOWS: u32 = 0;
pub const WINDOW_0: u32 = 1;
pub const WINDOW_1: u32 = 2;
pub const OBJECT_WINDOW: u32 = 3;
pub const OUTSIDE: u32 = 4;

// Layers. Backgrounds have their own numbers, and all have those of their bits in BLDCNT.
pub const OBJECTS: u32 = 4;
pub const BACKDROP: u32 = 5;
pub const NO_LAYER: u32 = 6;

// Effects.
pub const NONE: u32 = 0;
pub const SPRITE_BLEND: u32 = 1;
pub const CONTROL_BLEND: u32 = 2;
pub const WHITE: u32 = 3;
pub const BLACK: u32 = 4;

const WIDTH: usize = 240;

/// The refusal of a column that there isn't.
const COLUMN: u32 = 8;

/// What a region permits: a bit for each of the layers but the backdrop, whose bit is the effects'.
const ALL: u16 = 0x3f;
const EFFECTS: u32 = 5;

/// What is said of these columns of a draw on these entries, and the draw's answer.
pub fn reasons(
    oracle: &mut Loaded,
    draw: &Draw,
    entries: &[u8],
    columns: impl IntoIterator<Item = u32>,
) -> (Answer, Vec<Reason>) {
    let (mut after, mut output) = (entries.to_vec(), vec![0; OUTPUT_LEN]);
    let answer = oracle.draw(draw, &mut after, &mut output);
    let columns = columns.into_iter();
    let reasons = match &answer {
        Answer::Number(0) => {
            let line = Line::new(oracle, draw, &after, &output).reasons();
            columns.map(|column| line.get(column as usize).copied().unwrap_or(refused(COLUMN))).collect()
        }
        Answer::Number(number) => columns.map(|_| refused(*number)).collect(),
        Answer::Panicked(_) => vec![],
    };
    (answer, reasons)
}

fn refused(number: u32) -> Reason {
    Reason { number, ..Reason::default() }
}

/// A line that the oracle has drawn.
struct Line<'a> {
    draw: &'a Draw,
    entries: &'a [u8],
    output: &'a [u8],
    /// The backgrounds that are shown, with their rows.
    backgrounds: Vec<(u32, Vec<u16>)>,
}

impl<'a> Line<'a> {
    fn new(oracle: &Loaded, draw: &'a Draw, entries: &'a [u8], output: &'a [u8]) -> Line<'a> {
        let mut line = Line { draw, entries, output, backgrounds: vec![] };
        let of_mode = [0..=3, 0..=2, 2..=3, 2..=2, 2..=2, 2..=2];
        // Under forced blank the mode may be one that there isn't.
        let numbers = of_mode.get(usize::from(line.word(0x00) & 7)).into_iter().flat_map(|numbers| numbers.clone());
        let shown = numbers.filter(|number| line.switched(8 + number));
        line.backgrounds = shown.map(|number| (number, oracle.background(number as usize))).collect();
        line
    }

    /// A register.
    fn word(&self, offset: usize) -> u16 {
        half(&self.draw.registers, offset)
    }

    /// A bit of DISPCNT.
    fn switched(&self, bit: u32) -> bool {
        self.word(0x00) >> bit & 1 == 1
    }

    fn reads_as_rust(&self) -> bool {
        self.draw.reading == 0
    }

    fn reasons(&self) -> Vec<Reason> {
        if self.switched(7) {
            let blank = Reason { blank: 1, top: NO_LAYER, bottom: NO_LAYER, ..Reason::default() };
            return (0..WIDTH).map(|x| Reason { pixel: self.pixel(x), ..blank }).collect();
        }
        self.regions().into_iter().enumerate().map(|(x, region)| self.shown(x, region)).collect()
    }

    /// Outside, over it the object window, then window 1, then window 0.
    fn regions(&self) -> [u32; WIDTH] {
        if ![13, 14, 15].into_iter().any(|bit| self.switched(bit)) {
            return [NO_WINDOWS; WIDTH];
        }
        let mut regions = [OUTSIDE; WIDTH];
        let marked = |x: &usize| self.entries[4 * x + 3] & 2 != 0;
        (0..WIDTH).filter(|x| self.switched(15) && marked(x)).for_each(|x| regions[x] = OBJECT_WINDOW);
        // The Rust walks window 0's columns for window 1.
        let columns_of_window1 = if self.reads_as_rust() { 0 } else { 1 };
        for (bit, rows, columns, region) in [(14, 1, columns_of_window1, WINDOW_1), (13, 0, 0, WINDOW_0)] {
            if self.switched(bit) && self.edges(0x44 + 2 * rows, 160).contains(&(self.draw.line as usize)) {
                self.edges(0x40 + 2 * columns, WIDTH).for_each(|x| regions[x] = region);
            }
        }
        regions
    }

    /// What a window holds along one side of the screen: the near edge is the high byte, the far one the low.
    fn edges(&self, offset: usize, side: usize) -> std::ops::Range<usize> {
        let [far, near] = self.word(offset).to_le_bytes().map(usize::from);
        near..if (near..=side).contains(&far) { far } else { side }
    }

    fn shown(&self, x: usize, region: u32) -> Reason {
        let permitted = match region {
            NO_WINDOWS => ALL,
            WINDOW_0 => self.word(0x48) & 0xff,
            WINDOW_1 => self.word(0x48) >> 8,
            OBJECT_WINDOW => self.word(0x4a) >> 8,
            _ => self.word(0x4a) & 0xff,
        };
        let [(top, top_color), (bottom, bottom_color)] = self.layers(x, permitted);
        let effect = self.effect(x, permitted, top, bottom);
        let [first_weight, second_weight] = self.weights(effect);
        let layers = Reason { top, bottom, top_color, bottom_color, ..Reason::default() };
        Reason { region, effect, first_weight, second_weight, pixel: self.pixel(x), ..layers }
    }

    /// The oracle's pixel.
    fn pixel(&self, x: usize) -> u32 {
        u32::from_le_bytes(std::array::from_fn(|byte| self.output[4 * x + byte]))
    }

    /// The first two of all that is opaque and permitted, by priority; of equal ones the object is first, then the
    /// backgrounds by number. The backdrop is there twice, since it is also behind itself.
    fn layers(&self, x: usize, permitted: u16) -> [(u32, u16); 2] {
        let backdrop = (4, 5, BACKDROP, half(&self.draw.palette, 0));
        let mut layers = vec![backdrop, backdrop];
        for (number, row) in self.backgrounds.iter().filter(|(number, _)| permitted >> number & 1 == 1) {
            let priority = self.word(0x08 + 2 * *number as usize) & 3;
            layers.push((priority, 1 + number, *number, row[x]));
        }
        if self.switched(8 + OBJECTS) && permitted >> OBJECTS & 1 == 1 {
            let priority = self.entries[4 * x + 2].into();
            layers.push((priority, 0, OBJECTS, half(self.entries, 4 * x)));
        }
        layers.retain(|(.., layer, color)| *color != 0x8000 || *layer == BACKDROP);
        layers.sort_by_key(|(priority, place, ..)| (*priority, *place));
        [0, 1].map(|at| (layers[at].2, layers[at].3))
    }

    /// No effect, over it the control's, over that the sprite's own.
    fn effect(&self, x: usize, permitted: u16, top: u32, bottom: u32) -> u32 {
        let control = self.word(0x50);
        let (first, second) = (control >> top & 1 == 1, control >> (8 + bottom) & 1 == 1);
        let mut effect = NONE;
        if first && permitted >> EFFECTS & 1 == 1 {
            let blend = if second { CONTROL_BLEND } else { NONE };
            effect = [NONE, blend, WHITE, BLACK][usize::from(control >> 6 & 3)];
        }
        let semi_transparent = self.entries[4 * x + 3] & 1 != 0;
        if top == OBJECTS && semi_transparent && second {
            effect = SPRITE_BLEND;
        }
        effect
    }

    fn weights(&self, effect: u32) -> [u16; 2] {
        let most = if self.reads_as_rust() { 31 } else { 16 };
        let weight = |offset: usize, lowest: u32| (self.word(offset) >> lowest & 31).min(most);
        match effect {
            NONE => [16, 0],
            SPRITE_BLEND | CONTROL_BLEND => [weight(0x52, 0), weight(0x52, 8)],
            _ => [16 - weight(0x54, 0), weight(0x54, 0)],
        }
    }
}

/// A halfword, the low byte first.
fn half(bytes: &[u8], at: usize) -> u16 {
    u16::from_le_bytes([bytes[at], bytes[at + 1]])
}
