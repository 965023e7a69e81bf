//! A second opinion of the bus: W-205 of document 02, typed as it reads.

use ashlarkin_oracle::{Access, Memories, OAM_LEN, PALETTE_LEN, REGISTERS_LEN, VRAM_LEN};

use super::{BusMutant, bits};

/// What every part of a call sees.
struct Call<'a> {
    mutant: Option<BusMutant>,
    access: Access,
    address: i64,
    registers: &'a [u8],
}

/// "Stores and reads as the bus does them": the number, and the byte that was read, else 0.
pub fn access(
    mutant: Option<BusMutant>,
    access: Access,
    address: u32,
    registers: &[u8],
    memories: &mut Memories,
) -> (u32, u8) {
    let call = Call { mutant, access, address: address as i64, registers };
    let number = call.refusal(memories);
    if number != 0 {
        return (number, 0);
    }
    match access {
        Access::Read8 => {
            let even = call.is(BusMutant::ReadOfEvenByte);
            let place = if even { call.place() / 2 * 2 } else { call.place() };
            return (0, byte(call.page(), place, memories).map_or(0, |byte| *byte));
        }
        Access::Store8(value) => call.store_byte(value, memories),
        Access::Store16(value) => call.store_halfword(value, memories),
    }
    (0, 0)
}

/// A byte of the memory of a page, if it has it.
fn byte(page: i64, place: i64, memories: &mut Memories) -> Option<&mut u8> {
    let memory = match page {
        5 => &mut memories.palette,
        6 => &mut memories.vram,
        _ => &mut memories.oam,
    };
    memory.get_mut(place as usize)
}

impl Call<'_> {
    /// Whether this call is that mutant of the model.
    fn is(&self, error: BusMutant) -> bool {
        self.mutant == Some(error)
    }

    /// "for pages 5, 6 and 7".
    fn page(&self) -> i64 {
        bits(self.address, 24, if self.is(BusMutant::PageByLowFourBits) { 4 } else { 8 })
    }

    /// "Refusals: 2 for a wrong length, then 9 for any other page, then 11".
    fn refusal(&self, memories: &Memories) -> u32 {
        let (two, nine) = (self.wrong_length(memories), !(5..=7).contains(&self.page()));
        let eleven = self.odd_refused();
        let order = match self.mutant {
            Some(BusMutant::PageBeforeLength) => [(nine, 9), (two, 2), (eleven, 11)],
            Some(BusMutant::OddBeforeLength) => [(eleven, 11), (two, 2), (nine, 9)],
            Some(BusMutant::OddBeforePage) => [(two, 2), (eleven, 11), (nine, 9)],
            _ => [(two, 2), (nine, 9), (eleven, 11)],
        };
        order.iter().find(|(applies, _)| *applies).map_or(0, |(_, number)| *number)
    }

    /// "2 for a wrong length": registers are lent to byte stores, where "the mode in the lent registers" counts.
    fn wrong_length(&self, memories: &Memories) -> bool {
        let is_used = |page| !self.is(BusMutant::OnlyUsedMemoryJudged) || self.page() == page;
        let byte_stored = matches!(self.access, Access::Store8(_));
        let registers_judged = byte_stored && (self.page() == 6 || !self.is(BusMutant::RegistersJudgedOnlyWhereUsed));
        memories.palette.len() != PALETTE_LEN && is_used(5)
            || memories.vram.len() != VRAM_LEN && is_used(6)
            || memories.oam.len() != OAM_LEN && is_used(7)
            || self.registers.len() != REGISTERS_LEN && registers_judged
    }

    /// "11 for a halfword store at an odd address of page 6".
    fn odd_refused(&self) -> bool {
        let judged = match self.access {
            Access::Read8 => false,
            Access::Store8(_) => self.is(BusMutant::OddByteRefused) && self.page() == 6,
            Access::Store16(_) => match self.page() {
                5 => self.is(BusMutant::OddPaletteRefused),
                6 => !self.is(BusMutant::OddVideoMadeEven),
                7 => self.is(BusMutant::OddOamRefused),
                _ => self.is(BusMutant::OddBeforePage),
            },
        };
        judged && self.address % 2 == 1
    }

    /// "palette and OAM repeat every 1,024 bytes; video offsets are taken modulo 0x20000, and those from 0x18000 lose
    /// 0x8000".
    fn place(&self) -> i64 {
        let offset = bits(self.address, 0, 24);
        if self.page() != 6 {
            return offset % if self.is(BusMutant::RepeatsEvery2048) { 2048 } else { 1024 };
        }
        if self.is(BusMutant::VideoRepeatsEvery18000) {
            return offset % 0x18000;
        }
        let offset = offset % 0x20000;
        let folded = offset >= 0x18000 && !self.is(BusMutant::UpperVideoStays);
        if folded { offset - 0x8000 } else { offset }
    }

    /// "The start of sprite tiles follows the mode in the lent registers, 6 and 7 counted as bitmap here".
    fn tiles_start(&self) -> i64 {
        let byte = self.registers[0] as i64;
        let mode = if self.is(BusMutant::ModeWithBitsAbove) { byte } else { byte % 8 };
        let bitmap = match self.mutant {
            Some(BusMutant::BitmapIsMode3Alone) => mode == 3,
            Some(BusMutant::BitmapFromMode4) => mode >= 4,
            Some(BusMutant::Modes6And7AreText) => (3..=5).contains(&mode),
            Some(BusMutant::TilesStartByNoMode) => false,
            _ => mode >= 3,
        };
        if bitmap { 0x14000 } else { 0x10000 }
    }

    /// "A byte stored to the palette or to background memory fills both halves of its halfword; a byte stored to OAM or to
    /// sprite tiles changes nothing".
    fn store_byte(&self, value: u8, memories: &mut Memories) {
        let place = self.place();
        let unfolded = bits(self.address, 0, 24) % 0x20000;
        let tested = if self.is(BusMutant::TilesTestedBeforeFolding) { unfolded } else { place };
        let written = match self.page() {
            5 => true,
            6 => tested < self.tiles_start() || self.is(BusMutant::SpriteTilesTakeBytes),
            _ => self.is(BusMutant::OamTakesBytes),
        };
        for half in [place / 2 * 2, place / 2 * 2 + 1] {
            let filled = half == place || !self.is(BusMutant::OneHalfFilled);
            if let Some(byte) = byte(self.page(), half, memories).filter(|_| written && filled) {
                *byte = value;
            }
        }
    }

    /// A halfword, low half first: "pages 5 and 7 clear bit 0".
    fn store_halfword(&self, value: u16, memories: &mut Memories) {
        let odd_kept = self.page() != 6 && self.is(BusMutant::OddKept);
        let place = if odd_kept { self.place() } else { self.place() / 2 * 2 };
        let tiles = self.page() == 6 && place >= 0x10000 && self.is(BusMutant::SpriteTilesTakeNoHalfwords);
        if tiles || self.page() == 7 && self.is(BusMutant::OamTakesNoHalfwords) {
            return;
        }
        let [low, high] = [value % 256, value / 256].map(|half| half as u8);
        let exchanged = self.is(BusMutant::HalvesExchanged);
        let halves = if exchanged { [high, low] } else { [low, high] };
        for (at, half) in (place..).zip(halves) {
            if let Some(byte) = byte(self.page(), at, memories) {
                *byte = half;
            }
        }
    }
}
