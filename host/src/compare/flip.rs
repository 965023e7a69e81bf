//! A changed answer of the library, so that the tests of the command see a difference found, kept and replayed. Only
//! the hidden option `--flip-for-test` asks for it.

use ashlarkin::{Effect, Layer, Reason, Refusal, Region, WIDTH};
use ashlarkin_oracle::Answer;
use ashlarkin_oracle::cases::{Change, Lent};
use clap::ValueEnum;

use super::reasons::Said;
use super::work::{Given, Work};

/// What to change, in the case of this number.
#[derive(Clone, Copy)]
pub struct Flip {
    what: Flipped,
    index: u64,
}

#[derive(Clone, Copy, PartialEq, ValueEnum)]
enum Flipped {
    Number,
    Entry,
    Pixel,
    Step,
    Reset,
    Record,
    Background,
    Region,
    Layer,
    Effect,
    Weight,
    Color,
    Shown,
    Blank,
    Refusal,
    BusNumber,
    BusValue,
    BusVram,
    BusPalette,
    BusOam,
}

impl Flip {
    /// `WHAT@CASE`, as `pixel@37`.
    pub fn parse(text: &str) -> Result<Flip, String> {
        let (what, index) = text.split_once('@').ok_or("expected WHAT@CASE")?;
        Ok(Flip { what: Flipped::from_str(what, false)?, index: index.parse().map_err(|_| "expected a case number")? })
    }

    /// Changes the last call's answer.
    pub fn change(self, work: &Work, index: u64, library: &mut [Given]) {
        let Some(last) = library.last_mut().filter(|_| index == self.index) else {
            return;
        };
        let buffer = match (self.what, work) {
            (Flipped::Number, Work::Draws(_)) => {
                last.answer = Answer::Number(8);
                return;
            }
            (Flipped::Record, Work::RecordDraws(_)) => {
                last.row.iter_mut().last().into_iter().for_each(|record| record.priority ^= 256);
                return;
            }
            (Flipped::Background, Work::RecordStep(_)) => {
                last.backgrounds[1].x ^= 1;
                return;
            }
            (what, Work::Reasons(_)) => return change_reason(what, &mut last.reasons),
            (what, Work::Bus(_)) => return change_call(what, last),
            (Flipped::Entry, Work::Draws(_)) | (Flipped::Reset, Work::Reset(_)) => &mut last.entries,
            (Flipped::Pixel, Work::Draws(_)) => &mut last.output,
            (Flipped::Step, Work::Step { .. }) => &mut last.references,
            _ => return,
        };
        if let Some(byte) = buffer.last_mut() {
            *byte ^= 1;
        }
    }
}

/// Puts a wrong reason at the last column that there is, or another refusal at one that there isn't. All but one leave
/// the pixel as it is, so that nothing drawn shows them.
fn change_reason(what: Flipped, said: &mut [Said]) {
    let column = if what == Flipped::Refusal { said.len() - 1 } else { WIDTH - 1 };
    match (what, &mut said[column]) {
        (Flipped::Refusal, said) => *said = Err(Refusal::Length),
        (Flipped::Blank, said) => *said = Ok(Reason::ForcedBlank),
        (what, Ok(Reason::Shown(shown))) => match what {
            Flipped::Region => shown.region = other(shown.region, [Region::Outside, Region::Window0]),
            Flipped::Layer => shown.bottom = other(shown.bottom, [Layer::Backdrop, Layer::Objects]),
            Flipped::Effect => shown.effect = other(shown.effect, [Effect::None, Effect::SpriteBlend]),
            Flipped::Weight => shown.second_weight ^= 1,
            Flipped::Color => shown.bottom_color ^= 0x8000,
            Flipped::Shown => shown.pixel ^= 8,
            _ => {}
        },
        _ => {}
    }
}

/// Gives a call on the bus another number or value, or another last byte of a memory.
fn change_call(what: Flipped, last: &mut Given) {
    let (memory, len) = match what {
        Flipped::BusNumber => return last.answer = Answer::Number(8),
        Flipped::BusValue => return last.value ^= 1,
        Flipped::BusVram => ("vram", Lent::WHOLE.vram),
        Flipped::BusPalette => ("palette", Lent::WHOLE.palette),
        Flipped::BusOam => ("oam", Lent::WHOLE.oam),
        _ => return,
    };
    let byte = len - 1;
    match last.changes.iter_mut().find(|change| (change.memory, change.byte) == (memory, byte)) {
        Some(change) => change.after ^= 1,
        None => last.changes.push(Change { memory, byte, before: 0x5a, after: 0x5b }),
    }
}

/// Of two, one that it isn't.
fn other<T: Copy + PartialEq>(it: T, [first, second]: [T; 2]) -> T {
    if it == first { second } else { first }
}
