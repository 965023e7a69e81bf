//! The library made wrong about the lowest bit of tile numbers or about the bus, so that the tests of the command see each
//! wrong rule told from the oracle. Only the hidden option `--wrong-for-test` asks for it.

use ashlarkin::{BgAffine, OAM_LEN, OUTPUT_LEN, ObjBufferEntry, READING_H, READING_R};
use ashlarkin_oracle::cases::{BusCall, Draw};
use ashlarkin_oracle::{Access, Answer, Memories, ONE_DIMENSIONAL, has_256_colours, make_tiles_even};
use clap::ValueEnum;

use super::reasons::Said;
use super::work::{Library, Side};

/// A wrong rule. The bit counts but for 256 colours in two-dimensional mapping under H (document 02, W-203); what the bus
/// does is in W-205.
#[derive(Clone, Copy, PartialEq, ValueEnum)]
pub enum WrongRule {
    KeptUnderH,
    DroppedUnderR,
    DroppedInOneDimension,
    #[value(name = "dropped-for-16-colours")]
    DroppedFor16Colours,
    OneHalfFilled,
    UpperVideoStays,
    OamTakesBytes,
    #[value(name = "modes-6-and-7-are-text")]
    Modes6And7AreText,
    OddPaletteRefused,
    OddOamKept,
}

/// The library as a wrong rule has it.
pub struct Wrong(pub WrongRule);

impl Wrong {
    /// What the library is asked to draw in place of a draw: numbers made even that aren't, or all sprites hidden.
    fn changed(&self, draw: &Draw) -> Draw {
        let mut draw = draw.clone();
        let Some(control) = draw.registers.first() else { return draw };
        let one_dimensional = u16::from(*control) & ONE_DIMENSIONAL != 0;
        match (self.0, draw.reading) {
            (WrongRule::KeptUnderH, READING_H) => draw.oam.chunks_exact_mut(8).for_each(|sprite| sprite[1] = 0x02),
            (WrongRule::DroppedUnderR, READING_R) if !one_dimensional => {
                make_tiles_even(&mut draw.oam, has_256_colours);
            }
            (WrongRule::DroppedInOneDimension, READING_H) if one_dimensional => {
                make_tiles_even(&mut draw.oam, has_256_colours);
            }
            (WrongRule::DroppedFor16Colours, READING_H) if !one_dimensional => {
                make_tiles_even(&mut draw.oam, |sprite| !has_256_colours(sprite));
            }
            _ => {}
        }
        draw
    }

    /// The draw whose sprites stand in for those that `changed` hides: R's, which keep the bit. BLDY is 0, so that R takes it
    /// wherever H does.
    fn sprites(&self, draw: &Draw) -> Option<Draw> {
        (self.0 == WrongRule::KeptUnderH && draw.reading == READING_H).then(|| {
            let mut draw = Draw { reading: READING_R, ..draw.clone() };
            draw.registers.iter_mut().skip(0x54).for_each(|byte| *byte = 0);
            draw
        })
    }
}

impl Side for Wrong {
    fn draw(&mut self, draw: &Draw, entries: &mut [u8], output: &mut [u8]) -> Answer {
        if let Some(sprites) = self.sprites(draw) {
            Library.draw(&sprites, entries, &mut output.to_vec());
        }
        Library.draw(&self.changed(draw), entries, output)
    }

    fn step(&mut self, steps: [i16; 4], references: &mut [u8]) -> Answer {
        Library.step(steps, references)
    }

    fn reset(&mut self, entries: &mut [u8]) -> Answer {
        Library.reset(entries)
    }

    fn draw_records(&mut self, draw: &Draw, row: &mut [ObjBufferEntry], output: &mut [u8]) -> Answer {
        if let Some(sprites) = self.sprites(draw) {
            Library.draw_records(&sprites, row, &mut output.to_vec());
        }
        Library.draw_records(&self.changed(draw), row, output)
    }

    fn step_records(&mut self, backgrounds: &mut [BgAffine; 2]) -> Answer {
        Library.step_records(backgrounds)
    }

    fn explain(&mut self, draw: &Draw, entries: &[u8]) -> (Answer, Vec<Said>) {
        let mut entries = entries.to_vec();
        if let Some(sprites) = self.sprites(draw) {
            Library.draw(&sprites, &mut entries, &mut [0; OUTPUT_LEN]);
        }
        Library.explain(&self.changed(draw), &entries)
    }

    fn access(&mut self, call: &BusCall, registers: &[u8], memories: &mut Memories) -> (Answer, u8) {
        let (page, odd) = (call.address >> 24, call.address % 2 == 1);
        match (self.0, call.access, page) {
            (WrongRule::OneHalfFilled, Access::Store8(_), _) => fill_one_half(call, registers, memories),
            (WrongRule::UpperVideoStays, _, 6) if call.address & 0x18000 == 0x18000 => {
                exchange_upper(&mut memories.vram);
                let given = Library.access(call, registers, memories);
                exchange_upper(&mut memories.vram);
                given
            }
            (WrongRule::Modes6And7AreText, Access::Store8(_), _) => {
                let mut registers = registers.to_vec();
                registers.iter_mut().take(1).filter(|byte| **byte & 6 == 6).for_each(|byte| *byte &= !7);
                Library.access(call, &registers, memories)
            }
            (WrongRule::OamTakesBytes, Access::Store8(value), 7) => {
                put_in_oam(call, registers, memories, [value, value], call.address & !1)
            }
            (WrongRule::OddOamKept, Access::Store16(value), 7) if odd => {
                put_in_oam(call, registers, memories, value.to_le_bytes(), call.address)
            }
            (WrongRule::OddPaletteRefused, Access::Store16(_), 5) if odd => {
                match Library.access(call, registers, &mut memories.clone()) {
                    (Answer::Number(0), value) => (Answer::Number(11), value),
                    refused => refused,
                }
            }
            _ => Library.access(call, registers, memories),
        }
    }
}

/// A byte store that leaves the other half of its halfword as it was.
fn fill_one_half(call: &BusCall, registers: &[u8], memories: &mut Memories) -> (Answer, u8) {
    let before = memories.clone();
    let given = Library.access(call, registers, memories);
    for (bytes, before) in [(&mut memories.vram, before.vram), (&mut memories.palette, before.palette)] {
        let others = bytes.iter_mut().zip(before).skip(1 - call.address as usize % 2).step_by(2);
        others.for_each(|(byte, before)| *byte = before);
    }
    given
}

/// Exchanges video memory from 0x18000 on with what it is folded to.
fn exchange_upper(vram: &mut [u8]) {
    if let Some((low, upper)) = vram.split_at_mut_checked(0x18000) {
        low[0x10000..].iter_mut().zip(upper).for_each(|(low, upper)| std::mem::swap(low, upper));
    }
}

/// The library's answer; where it accepts, these two bytes stand in OAM, and nothing else is changed.
fn put_in_oam(call: &BusCall, registers: &[u8], memories: &mut Memories, bytes: [u8; 2], address: u32) -> (Answer, u8) {
    let given = Library.access(call, registers, &mut memories.clone());
    if given.0 == Answer::Number(0) {
        for (at, byte) in (address as usize..).zip(bytes) {
            memories.oam[at % OAM_LEN] = byte;
        }
    }
    given
}
