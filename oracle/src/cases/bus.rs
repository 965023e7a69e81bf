//! Calls on the bus: reads and stores, one after another on one set of memories (document 02, W-205).

use std::fmt;
use std::sync::Arc;

use serde::{Deserialize, Serialize};

use super::random::Random;
use super::shared;
use crate::bus::Access;
use crate::input::*;

/// How many calls a case has.
const CALLS: usize = 32;

/// How much is lent of each buffer.
#[derive(Clone, Copy, Debug, PartialEq, Eq, Deserialize, Serialize)]
#[serde(deny_unknown_fields)]
pub struct Lent {
    pub vram: usize,
    pub palette: usize,
    pub oam: usize,
    pub registers: usize,
}

impl Lent {
    pub const WHOLE: Lent = Lent { vram: VRAM_LEN, palette: PALETTE_LEN, oam: OAM_LEN, registers: REGISTERS_LEN };

    /// Whether no buffer is lent with more than twice its length.
    pub fn is_moderate(&self) -> bool {
        self.vram <= 2 * VRAM_LEN
            && self.palette <= 2 * PALETTE_LEN
            && self.oam <= 2 * OAM_LEN
            && self.registers <= 2 * REGISTERS_LEN
    }
}

#[derive(Clone, Copy, Debug, PartialEq, Eq, Deserialize, Serialize)]
#[serde(deny_unknown_fields)]
pub struct BusCall {
    pub access: Access,
    pub address: u32,
    pub lent: Lent,
}

impl fmt::Display for BusCall {
    fn fmt(&self, f: &mut fmt::Formatter) -> fmt::Result {
        let address = self.address;
        match self.access {
            Access::Read8 => write!(f, "read8 0x{address:08x}"),
            Access::Store8(value) => write!(f, "store8 0x{address:08x} 0x{value:02x}"),
            Access::Store16(value) => write!(f, "store16 0x{address:08x} 0x{value:04x}"),
        }
    }
}

/// Calls, and memories and registers before the first. Of the video memory, which neighbours share, the first 131,072 bytes
/// are meant.
#[derive(Clone, Deserialize, Serialize)]
#[serde(deny_unknown_fields)]
pub struct BusCase {
    #[serde(serialize_with = "hex::serialize", deserialize_with = "shared")]
    pub vram: Arc<[u8]>,
    #[serde(with = "hex")]
    pub palette: Vec<u8>,
    #[serde(with = "hex")]
    pub oam: Vec<u8>,
    #[serde(with = "hex")]
    pub registers: Vec<u8>,
    pub calls: Vec<BusCall>,
}

impl BusCase {
    /// Registers are noise but for the mode.
    pub(super) fn new(random: &mut Random, vram: Arc<[u8]>, mode: u8) -> BusCase {
        let mut registers = random.bytes(REGISTERS_LEN);
        registers[0] = registers[0] & !7 | mode;
        let mut case = BusCase {
            vram,
            palette: random.bytes(PALETTE_LEN),
            oam: random.bytes(OAM_LEN),
            registers,
            calls: Vec::with_capacity(CALLS),
        };
        for _ in 0..CALLS {
            let call = call(random, &case.calls);
            case.calls.push(call);
        }
        case
    }
}

/// A call after these: near one of them, most often the last; at a page's special places; anywhere; on another page.
fn call(random: &mut Random, before: &[BusCall]) -> BusCall {
    let near = match before {
        [.., last] if random.one_in(2) => Some(last.address),
        [] => None,
        _ => Some(random.pick(before).address),
    };
    let page = random.pick(&[5, 6, 6, 6, 7]);
    let (address, reads) = match (random.below(8), near) {
        (0..=2, Some(address)) => (beside(random, address), 2),
        (3, _) => (other_page(random) << 24 | special(random, page), 1),
        (4, _) => (page << 24 | random.below(1 << 24), 1),
        _ => (page << 24 | special(random, page), 1),
    };
    let access = match random.below(2 + reads) {
        0 => Access::Store8(random.word() as u8),
        1 => Access::Store16(random.word()),
        _ => Access::Read8,
    };
    BusCall { access, address, lent: lent(random, access) }
}

/// After how many bytes a page's memory repeats.
fn size(page: u32) -> u32 {
    if page == 6 { 0x20000 } else { 0x400 }
}

/// An offset within three bytes of where a page's memory begins, ends or changes its meaning, in one of its mirrors. Before
/// the first byte of a page comes its last.
fn special(random: &mut Random, page: u32) -> u32 {
    let place = if page == 6 { random.pick(&[0, 0x10000, 0x14000, 0x18000, 0x1c000]) } else { 0 };
    let last = (1 << 24) / size(page) - 1;
    let any = random.range(0, last);
    let mirror = random.pick(&[0, 1, last, any]);
    (place + mirror * size(page)).wrapping_add(random.below(6)).wrapping_sub(3) & 0xff_ffff
}

/// The same place or a neighbour, by the same address, through a mirror, or through the part that is folded down.
fn beside(random: &mut Random, address: u32) -> u32 {
    let any = random.below(1 << 24) / 0x20000 * 0x20000;
    let mirror = match random.below(4) {
        0 => any,
        1 => random.below(1 << 24) / size(address >> 24) * size(address >> 24),
        _ => 0,
    };
    let fold = if random.one_in(4) { 0x8000 } else { 0 };
    let neighbour = random.pick(&[0, 0, 0, 0, 1, 2, 1_u32.wrapping_neg(), 2_u32.wrapping_neg()]);
    let offset = (address ^ fold).wrapping_add(mirror).wrapping_add(neighbour);
    address & 0xff00_0000 | offset & 0xff_ffff
}

/// Another page, but for the last choice, which is any.
fn other_page(random: &mut Random) -> u32 {
    let any = random.below(256);
    random.pick(&[0x00, 0x04, 0x08, 0x0d, 0x15, 0x16, 0x17, 0x85, 0x86, 0x87, 0xff, any])
}

/// All of every buffer; or of one, or of several, another length: none, one byte, one less, one more, half, twice.
fn lent(random: &mut Random, access: Access) -> Lent {
    let mut lent = Lent::WHOLE;
    if !random.one_in(16) {
        return lent;
    }
    let store8 = matches!(access, Access::Store8(_));
    let one = 1 << random.below(if store8 { 4 } else { 3 });
    let wrong = if random.one_in(4) { random.range(1, 15) } else { one };
    let buffers = [&mut lent.vram, &mut lent.palette, &mut lent.oam, &mut lent.registers];
    for (bit, len) in buffers.into_iter().enumerate().filter(|(bit, _)| wrong >> bit & 1 == 1) {
        // Registers are lent to byte stores alone.
        if bit < 3 || store8 {
            *len = random.pick(&[0, 1, *len - 1, *len + 1, *len / 2, *len * 2]);
        }
    }
    lent
}
