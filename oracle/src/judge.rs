//! The refusals of documents 01 and 02, in their order: what the Rust itself never judges.

use crate::bus::{Access, Memories};
use crate::input::*;

/// References that a draw and a step accept: -2^28 to 2^28 - 1.
pub fn in_range(reference: i32) -> bool {
    (-(1 << 28)..1 << 28).contains(&reference)
}

/// A halfword of the register buffer, by its GBATEK offset.
pub fn register(registers: &[u8], offset: usize) -> u16 {
    u16::from_le_bytes([registers[offset], registers[offset + 1]])
}

/// Marks at most 3 and either the reset colour and priority with bit 0 clear, or priority 0 to 3 with a colour of 15 bits.
pub fn well_shaped(entry: &[u8]) -> bool {
    let color = u16::from_le_bytes([entry[0], entry[1]]);
    let (priority, marks) = (entry[2], entry[3]);
    marks <= 3
        && match priority {
            4 => color == 0x8000 && marks & 1 == 0,
            0..=3 => color <= 0x7fff,
            _ => false,
        }
}

/// The number of the first refusal that applies, or 0.
pub fn judge_draw(input: &Input, entries: &[u8], output: &[u8]) -> u32 {
    if input.reading > 1 {
        return 1;
    }
    let lengths = [
        (input.vram.len(), VRAM_LEN),
        (input.palette.len(), PALETTE_LEN),
        (input.oam.len(), OAM_LEN),
        (input.registers.len(), REGISTERS_LEN),
        (entries.len(), ENTRIES_LEN),
        (output.len(), OUTPUT_LEN),
    ];
    if lengths.iter().any(|(found, expected)| found != expected) {
        return 2;
    }
    if input.line >= 160 {
        return 3;
    }
    let dispcnt = register(input.registers, 0x00);
    if dispcnt & 0x80 != 0 {
        return 0;
    }
    if dispcnt & 7 >= 6 {
        return 4;
    }
    if input.reading == 0 && register(input.registers, 0x54) & 0x1f > 16 {
        return 5;
    }
    if !input.references.iter().all(|r| in_range(*r)) {
        return 6;
    }
    if !entries.chunks_exact(4).all(well_shaped) {
        return 7;
    }
    0
}

/// Document 02, W-205: the number of the first refusal of a read or a store that applies, or 0. Registers are lent to byte
/// stores alone.
pub fn judge_access(access: Access, addr: u32, registers: &[u8], memories: &Memories) -> u32 {
    let lengths = [
        (memories.vram.len(), VRAM_LEN),
        (memories.palette.len(), PALETTE_LEN),
        (memories.oam.len(), OAM_LEN),
        (if let Access::Store8(_) = access { registers.len() } else { REGISTERS_LEN }, REGISTERS_LEN),
    ];
    if lengths.iter().any(|(found, expected)| found != expected) {
        return 2;
    }
    let page = addr >> 24;
    if !(5..=7).contains(&page) {
        return 9;
    }
    if page == 6 && matches!(access, Access::Store16(_)) && addr & 1 == 1 {
        return 11;
    }
    0
}
