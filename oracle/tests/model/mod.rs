//! A second opinion of the draw: document 01, with W-203 of document 02, typed as it reads, a pixel at a time, from those
//! documents alone; `bus` has that of the bus. A mutant is the same model with one deliberate error that looks right; it shows that the generated cases would catch it.

// A test binary that includes this module may use only a part of it.
#![allow(dead_code)]

mod backgrounds;
pub mod bus;
mod composing;
mod mutant;
mod sizes;
mod sprites;
mod windows;

pub use mutant::{BusMutant, Mutant};

use ashlarkin_oracle::{ENTRIES_LEN, Input, OAM_LEN, OUTPUT_LEN, PALETTE_LEN, REGISTERS_LEN, VRAM_LEN};

/// What every part of a draw sees.
struct Draw<'a> {
    mutant: Option<Mutant>,
    input: &'a Input<'a>,
    line: i64,
    display: i64,
    mode: i64,
    sprites_on: bool,
    hardware: bool,
}

/// An object entry, decoded ("What one draw takes and gives").
#[derive(Clone, Copy)]
struct Entry {
    colour: i64,
    priority: i64,
    semi_transparent: bool,
    window: bool,
}

const RESET: Entry = Entry { colour: 0x8000, priority: 4, semi_transparent: false, window: false };
const LIMIT: i64 = 1 << 28;

/// "What one draw takes and gives": judge, run the sprites over the entries, compose the 240 pixels.
pub fn draw(mutant: Option<Mutant>, input: &Input, entries: &mut [u8], output: &mut [u8]) -> u32 {
    let number = refusal(mutant, input, entries, output);
    if number != 0 {
        return number;
    }
    let d = decoded(mutant, input);
    if bit(d.display, 7) {
        forced_blank(&d, entries, output);
        return 0;
    }
    if d.is(Mutant::DrawResetsEntries) {
        reset(entries);
    }
    let mut row = read_entries(entries);
    if d.sprites_on || d.is(Mutant::SpritesRunWhenOff) {
        sprites::run(&d, &mut row);
    }
    write_entries(entries, &row);
    let order = backgrounds::in_order(&d);
    for column in 0..240 {
        let colour = composing::pixel(&d, &order, &row[column as usize], column);
        write_pixel(output, column, composing::to_24_bits(&d, colour));
    }
    0
}

/// "What one draw takes and gives": the numbers and the display control (GBATEK, Display Control).
fn decoded<'a>(mutant: Option<Mutant>, input: &'a Input) -> Draw<'a> {
    let display = halfword(input.registers, 0);
    Draw {
        mutant,
        input,
        line: input.line as i64,
        display,
        mode: bits(display, 0, 3),
        sprites_on: bit(display, 12),
        hardware: input.reading != 0,
    }
}

/// "Numbers a draw may return": forced blank writes 0xf8f8f8 to all 240 pixels and leaves the entries.
fn forced_blank(d: &Draw, entries: &mut [u8], output: &mut [u8]) {
    if d.is(Mutant::ForcedBlankResetsEntries) {
        reset(entries);
    }
    for column in 0..240 {
        write_pixel(output, column, 0xf8f8f8);
    }
}

/// "Numbers a draw may return": the table's rows in the table's order, 0 if none applies.
fn refusal(mutant: Option<Mutant>, input: &Input, entries: &[u8], output: &[u8]) -> u32 {
    if input.reading > 1 && mutant != Some(Mutant::AnyOtherReadingIsH) {
        return 1;
    }
    if wrong_length(input, entries, output) {
        return 2;
    }
    if input.line >= 160 || input.line == 159 && mutant == Some(Mutant::Line159Refused) {
        return 3;
    }
    let d = decoded(mutant, input);
    if !bit(d.display, 7) {
        return refusal_unblanked(&d, entries);
    }
    if d.mode > 5 && d.is(Mutant::ForcedBlankStoppedByMode) {
        return 4;
    }
    0
}

/// "Numbers a draw may return", rows 4 to 7: forced blank off.
fn refusal_unblanked(d: &Draw, entries: &[u8]) -> u32 {
    let bldy = d.register(0x54);
    let judged = if d.is(Mutant::BldyJudgedWhole) { bldy } else { bits(bldy, 0, 5) };
    let five = judged > 16 && (!d.hardware || d.is(Mutant::EvyRefusedUnderH));
    if five && d.is(Mutant::FiveBeforeFour) {
        return 5;
    }
    if d.mode > 5 {
        return 4;
    }
    if five {
        return 5;
    }
    let unused = d.mode == 0 && d.is(Mutant::ReferencesJudgedOnlyWhereUsed);
    if !unused && d.input.references.iter().any(|r| out_of_range(d.mutant, *r as i64)) {
        return 6;
    }
    if entries.chunks(4).any(|entry| !well_shaped(d.mutant, entry)) {
        return 7;
    }
    0
}

/// "Numbers a draw may return", row 2: a buffer has another length.
fn wrong_length(input: &Input, entries: &[u8], output: &[u8]) -> bool {
    input.vram.len() != VRAM_LEN
        || input.palette.len() != PALETTE_LEN
        || input.oam.len() != OAM_LEN
        || input.registers.len() != REGISTERS_LEN
        || entries.len() != ENTRIES_LEN
        || output.len() != OUTPUT_LEN
}

/// "Numbers a draw may return", row 6: a reference number outside -2^28 .. 2^28 - 1.
fn out_of_range(mutant: Option<Mutant>, reference: i64) -> bool {
    let lowest = if mutant == Some(Mutant::LowestReferenceRefused) { 1 - LIMIT } else { -LIMIT };
    reference < lowest || reference >= LIMIT
}

/// "What one draw takes and gives": a well-shaped entry.
fn well_shaped(mutant: Option<Mutant>, entry: &[u8]) -> bool {
    let is = |error| mutant == Some(error);
    let (colour, priority, marks) = (halfword(entry, 0), entry[2], entry[3]);
    if marks > 3 && !is(Mutant::HighMarksAccepted) {
        return false;
    }
    if priority == 4 {
        let forbidden = if is(Mutant::MarkOfEmptyEntryRefused) { 3 } else { 1 };
        return colour == 0x8000 && marks & forbidden == 0;
    }
    priority <= 3 && (colour <= 0x7fff || is(Mutant::EntryColourNotJudged))
}

/// "Numbers a draw may return": a row reset writes 240 reset entries, or nothing for a wrong length.
pub fn reset(entries: &mut [u8]) -> u32 {
    if entries.len() != ENTRIES_LEN {
        return 2;
    }
    write_entries(entries, &[RESET; 240]);
    0
}

/// "Numbers a draw may return": the line-end step, all four stepped or none.
pub fn step(mutant: Option<Mutant>, pb2: i16, pd2: i16, pb3: i16, pd3: i16, references: &mut [u8]) -> u32 {
    let is = |error| mutant == Some(error);
    if references.len() != 16 {
        return 2;
    }
    let adds = if is(Mutant::StepExchangesPbAndPd) { [pd2, pb2, pd3, pb3] } else { [pb2, pd2, pb3, pd3] };
    let mut after = [0; 4];
    for n in 0..4 {
        let word = [references[4 * n], references[4 * n + 1], references[4 * n + 2], references[4 * n + 3]];
        let before = i32::from_le_bytes(word) as i64;
        after[n] = before + adds[n] as i64;
        if out_of_range(mutant, before) && !is(Mutant::StepJudgesOnlyAfter) {
            return 6;
        }
        if out_of_range(mutant, after[n]) && !is(Mutant::StepJudgesOnlyBefore) {
            return 6;
        }
        if is(Mutant::StepStopsHalfway) {
            references[4 * n..4 * n + 4].copy_from_slice(&(after[n] as i32).to_le_bytes());
        }
    }
    for n in 0..4 {
        references[4 * n..4 * n + 4].copy_from_slice(&(after[n] as i32).to_le_bytes());
    }
    0
}

/// "What one draw takes and gives": 240 entries of colour (little-endian), priority, marks.
fn read_entries(entries: &[u8]) -> [Entry; 240] {
    let mut row = [RESET; 240];
    for (entry, bytes) in row.iter_mut().zip(entries.chunks(4)) {
        entry.colour = halfword(bytes, 0);
        entry.priority = bytes[2] as i64;
        entry.semi_transparent = bytes[3] & 1 != 0;
        entry.window = bytes[3] & 2 != 0;
    }
    row
}

/// "What one draw takes and gives": the entries as bytes again.
fn write_entries(entries: &mut [u8], row: &[Entry; 240]) {
    for (entry, bytes) in row.iter().zip(entries.chunks_mut(4)) {
        bytes[0] = entry.colour as u8;
        bytes[1] = (entry.colour >> 8) as u8;
        bytes[2] = entry.priority as u8;
        bytes[3] = entry.semi_transparent as u8 + 2 * entry.window as u8;
    }
}

/// "What one draw takes and gives": a 24-bit colour, little-endian, top byte 0.
fn write_pixel(output: &mut [u8], column: i64, colour: u32) {
    let at = 4 * column as usize;
    output[at..at + 4].copy_from_slice(&colour.to_le_bytes());
}

impl Draw<'_> {
    /// Whether this draw is that mutant of the model.
    fn is(&self, error: Mutant) -> bool {
        self.mutant == Some(error)
    }

    /// "What one draw takes and gives", registers: the halfword at an I/O offset by GBATEK.
    fn register(&self, offset: usize) -> i64 {
        halfword(self.input.registers, offset)
    }

    /// "What one draw takes and gives", registers: the same for the signed numbers pa and pc.
    fn signed_register(&self, offset: usize) -> i64 {
        self.register(offset) as i16 as i64
    }

    /// "What one draw takes and gives", video memory: a byte.
    fn video(&self, address: i64) -> i64 {
        self.input.vram[address as usize] as i64
    }

    /// "What one draw takes and gives", video memory: a halfword.
    fn video_halfword(&self, address: i64) -> i64 {
        halfword(self.input.vram, address as usize)
    }

    /// "Backgrounds", a tile: 32 bytes (two pixels a byte, even pixel in the low half) or 64.
    fn tile_pixel(&self, tile: i64, eight_bits: bool, x: i64, y: i64) -> i64 {
        if eight_bits {
            return self.video(tile + 8 * y + x);
        }
        let byte = self.video(tile + 4 * y + x / 2);
        let low_half = (x % 2 == 0) != self.is(Mutant::EvenPixelInHighHalf);
        if low_half { byte % 16 } else { byte / 16 }
    }

    /// "Backgrounds", Palette: index 0 is transparent, else a halfword with bit 15 cleared.
    fn colour(&self, start: usize, index: i64, bank: i64) -> Option<i64> {
        if index == 0 && !(bank != 0 && self.is(Mutant::IndexZeroOfBankOpaque)) {
            return None;
        }
        let at = start + (2 * index + 32 * bank) as usize % 0x200;
        Some(halfword(self.input.palette, at) & 0x7fff)
    }
}

/// "What one draw takes and gives": two bytes, little-endian.
fn halfword(bytes: &[u8], at: usize) -> i64 {
    bytes[at] as i64 + 256 * bytes[at + 1] as i64
}

/// The named bits of a word, as GBATEK counts them.
fn bits(value: i64, lowest: u32, count: u32) -> i64 {
    (value >> lowest) % (1 << count)
}

/// One named bit of a word.
fn bit(value: i64, number: u32) -> bool {
    bits(value, number, 1) == 1
}
