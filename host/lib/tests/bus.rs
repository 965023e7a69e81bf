//! The bus through the wrapper: a read gives the byte of its place, a store changes that place's two bytes or none, and a
//! refusal changes nothing.

use ashlarkin::*;
use ashlarkin_oracle::cases::Random;

/// What is lent to the bus.
#[derive(Clone, PartialEq)]
struct Lent {
    vram: Vec<u8>,
    palette: Vec<u8>,
    oam: Vec<u8>,
    registers: Vec<u8>,
}

/// A place in memory: a buffer of [`Lent`] by its number, and an offset.
type Place = (usize, usize);
const VRAM: usize = 0;
const PALETTE: usize = 1;
const OAM: usize = 2;

impl Lent {
    /// Random memory, in a mode, with every bit of the registers set above it.
    fn new(mode: u8) -> Lent {
        let mut random = Random::new(1, 0);
        let [vram, palette, oam] = [VRAM_LEN, PALETTE_LEN, OAM_LEN].map(|len| random.bytes(len));
        let mut registers = vec![0xff; REGISTERS_LEN];
        registers[0] = 0xf8 | mode;
        Lent { vram, palette, oam, registers }
    }

    fn buffers(&mut self) -> [&mut Vec<u8>; 4] {
        [&mut self.vram, &mut self.palette, &mut self.oam, &mut self.registers]
    }

    fn read8(&self, address: u32) -> Result<u8, Refusal> {
        read8(address, &self.vram, &self.palette, &self.oam)
    }

    fn store8(&mut self, address: u32, value: u8) -> Result<(), Refusal> {
        let Lent { vram, palette, oam, registers } = self;
        store8(address, value, registers, &mut Memories { vram, palette, oam })
    }

    fn store16(&mut self, address: u32, value: u16) -> Result<(), Refusal> {
        let Lent { vram, palette, oam, .. } = self;
        store16(address, value, &mut Memories { vram, palette, oam })
    }

    /// Done by `store`, and changed in this halfword alone, or nowhere.
    fn stored(&mut self, place: Option<Place>, value: u16, store: impl Fn(&mut Lent) -> Result<(), Refusal>) {
        let mut expected = self.clone();
        if let Some((buffer, offset)) = place {
            expected.buffers()[buffer][offset..offset + 2].copy_from_slice(&value.to_le_bytes());
        }
        assert_eq!(store(self), Ok(()), "{place:x?}");
        assert!(*self == expected, "{place:x?} and no other");
    }

    fn stored8(&mut self, address: u32, value: u8, place: Option<Place>) {
        self.stored(place, u16::from_le_bytes([value; 2]), |lent| lent.store8(address, value));
    }

    fn stored16(&mut self, address: u32, value: u16, place: Place) {
        self.stored(Some(place), value, |lent| lent.store16(address, value));
    }

    fn refused8(&mut self, address: u32, refusal: Refusal) {
        let before = self.clone();
        assert_eq!(self.store8(address, 0x12), Err(refusal), "0x{address:08x}");
        assert!(*self == before, "{refusal:?} at 0x{address:08x} changed a byte");
    }

    fn refused16(&mut self, address: u32, refusal: Refusal) {
        let before = self.clone();
        assert_eq!(self.store16(address, 0x1234), Err(refusal), "0x{address:08x}");
        assert!(*self == before, "{refusal:?} at 0x{address:08x} changed a byte");
    }
}

/// Addresses, and the place of each.
const PLACES: [(u32, Place); 17] = [
    (0x0500_0000, (PALETTE, 0)),
    (0x0500_03fe, (PALETTE, 0x3fe)),
    (0x0500_0400, (PALETTE, 0)),
    (0x05ff_fffe, (PALETTE, 0x3fe)),
    (0x0700_0002, (OAM, 2)),
    (0x0700_0400, (OAM, 0)),
    (0x07ff_fffe, (OAM, 0x3fe)),
    (0x0600_0000, (VRAM, 0)),
    (0x0600_fffe, (VRAM, 0xfffe)),
    (0x0601_0000, (VRAM, 0x10000)),
    (0x0601_3ffe, (VRAM, 0x13ffe)),
    (0x0601_4000, (VRAM, 0x14000)),
    (0x0601_7ffe, (VRAM, 0x17ffe)),
    (0x0601_8000, (VRAM, 0x10000)),
    (0x0601_fffe, (VRAM, 0x17ffe)),
    (0x0602_0000, (VRAM, 0)),
    (0x06ff_bffe, (VRAM, 0x13ffe)),
];

#[test]
fn a_read_gives_the_byte_of_its_place() {
    let mut lent = Lent::new(0);
    for (address, (buffer, offset)) in PLACES {
        for half in 0..2 {
            let byte = lent.buffers()[buffer][offset + half];
            assert_eq!(lent.read8(address + half as u32), Ok(byte), "0x{address:08x}");
        }
    }
}

#[test]
fn a_halfword_is_stored_in_every_mode() {
    for mode in 0..8 {
        let mut lent = Lent::new(mode);
        for (value, (address, place)) in (0x1234..).step_by(0x0703).zip(PLACES) {
            lent.stored16(address, value, place);
            assert_eq!((lent.read8(address), lent.read8(address + 1)), (Ok(value as u8), Ok((value >> 8) as u8)));
            // Bit 0 of the address is cleared, but for video memory.
            if place.0 == VRAM {
                lent.refused16(address + 1, Refusal::OddAddress);
            } else {
                lent.stored16(address + 1, !value, place);
            }
        }
    }
}

#[test]
fn a_byte_fills_its_halfword_or_changes_nothing() {
    for mode in 0..8 {
        let tiles = if mode < 3 { 0x10000 } else { 0x14000 };
        let mut lent = Lent::new(mode);
        for (value, (address, place)) in (1..).step_by(2).zip(PLACES) {
            let takes = place.0 == PALETTE || place.0 == VRAM && place.1 < tiles;
            for half in 0..2 {
                lent.stored8(address + half, value + half as u8, takes.then_some(place));
            }
        }
    }
}

/// The test against the start of sprite tiles comes after the folding.
#[test]
fn a_bitmaps_byte_is_stored_through_its_mirror() {
    let mut lent = Lent::new(3);
    lent.stored8(0x0601_8000, 0x12, Some((VRAM, 0x10000)));
    lent.stored8(0x0601_bfff, 0x34, Some((VRAM, 0x13ffe)));
    lent.stored8(0x0601_c000, 0x56, None);
    Lent::new(2).stored8(0x0601_8000, 0x12, None);
}

#[test]
fn every_other_page_is_refused() {
    let mut lent = Lent::new(0);
    for page in 0..=255 {
        for address in [page << 24, page << 24 | 0xff_fffe, page << 24 | 0xff_ffff] {
            if matches!(page, 5..=7) {
                assert!(lent.read8(address).is_ok(), "0x{address:08x}");
            } else {
                assert_eq!(lent.read8(address), Err(Refusal::Page), "0x{address:08x}");
                lent.refused8(address, Refusal::Page);
                lent.refused16(address, Refusal::Page);
            }
        }
    }
}

/// Whichever page it is, and before the numbers of addresses.
#[test]
fn every_other_length_is_refused() {
    for at in 0..4 {
        let whole = Lent::new(0).buffers()[at].len();
        for len in [0, 1, whole / 2, whole - 1, whole + 1, 2 * whole] {
            let mut lent = Lent::new(0);
            lent.buffers()[at].resize(len, 0);
            for address in [0x0500_0000, 0x0600_0000, 0x0700_0000, 0x0800_0000, 0x0600_0001] {
                lent.refused8(address, Refusal::Length);
                // The registers are lent to byte stores alone.
                if at < 3 {
                    assert_eq!(lent.read8(address), Err(Refusal::Length));
                    lent.refused16(address, Refusal::Length);
                }
            }
        }
    }
}

#[test]
fn the_numbers_are_document_02s() {
    assert_eq!((Refusal::Page.number(), Refusal::OddAddress.number()), (9, 11));
    assert_eq!(Refusal::OddAddress.to_string(), "a halfword store at an odd address of page 6 (refusal 11)");
    assert_eq!(Refusal::of(10), Refusal::Unknown(10));
}
