//! Reads and stores of memory as the bus does them.

use crate::{Refusal, ffi, refusal};

/// The three memories that a store may change, lent.
pub struct Memories<'a> {
    /// [`VRAM_LEN`](crate::VRAM_LEN) bytes.
    pub vram: &'a mut [u8],
    /// [`PALETTE_LEN`](crate::PALETTE_LEN) bytes.
    pub palette: &'a mut [u8],
    /// [`OAM_LEN`](crate::OAM_LEN) bytes.
    pub oam: &'a mut [u8],
}

/// A read byte as `include/ashlarkin.h` lays it out.
#[repr(C)]
pub(crate) struct Byte {
    number: u32,
    value: u32,
}

const _: () = assert!(size_of::<Byte>() == 8);

/// Reads the byte at an address. The page is its top eight bits: 5 for the palette, 6 for video memory, 7 for OAM, each
/// of which repeats to its page's end.
///
/// It refuses a length, then any page but those three.
///
/// ```
/// use ashlarkin::Refusal;
///
/// let (mut vram, palette, oam) = ([0; 131_072], [0; 1024], [0; 1024]);
/// vram[0x10000] = 7;
/// assert_eq!(ashlarkin::read8(0x0601_0000, &vram, &palette, &oam), Ok(7));
/// // Video memory has 96 KiB, and its last third comes again after it.
/// assert_eq!(ashlarkin::read8(0x0601_8000, &vram, &palette, &oam), Ok(7));
/// assert_eq!(ashlarkin::read8(0x0800_0000, &vram, &palette, &oam), Err(Refusal::Page));
/// ```
pub fn read8(address: u32, vram: &[u8], palette: &[u8], oam: &[u8]) -> Result<u8, Refusal> {
    // SAFETY: each pointer has its slice's length behind it, and nothing is written.
    let byte = unsafe {
        ffi::ashlarkin_read8(
            address,
            vram.as_ptr(),
            vram.len(),
            palette.as_ptr(),
            palette.len(),
            oam.as_ptr(),
            oam.len(),
        )
    };
    refusal::answer(byte.number)?;
    // The proved library gives no value above 255.
    Ok(byte.value as u8)
}

/// Stores a byte. In the palette and in background memory it fills both halves of its halfword; to OAM and to sprite
/// tiles it changes nothing and is accepted. Sprite tiles start at 0x14000 in modes 3 to 7 of the registers, and at
/// 0x10000 in the others.
///
/// It refuses a length, then any page but 5, 6 and 7. A refusal changes no byte.
///
/// ```
/// use ashlarkin::{Memories, Refusal};
///
/// let (mut vram, mut palette, mut oam) = ([0; 131_072], [0; 1024], [0; 1024]);
/// let mut memories = Memories { vram: &mut vram, palette: &mut palette, oam: &mut oam };
/// let mut registers = [0; 86];
/// ashlarkin::store8(0x0500_0003, 0x1f, &registers, &mut memories)?;
/// assert_eq!(memories.palette[..6], [0, 0, 0x1f, 0x1f, 0, 0]);
///
/// // In mode 0 these are sprite tiles, in mode 3 they belong to the bitmap.
/// ashlarkin::store8(0x0601_0000, 7, &registers, &mut memories)?;
/// assert_eq!(memories.vram[0x10000..0x10002], [0, 0]);
/// registers[0] = 3;
/// ashlarkin::store8(0x0601_0000, 7, &registers, &mut memories)?;
/// assert_eq!(memories.vram[0x10000..0x10002], [7, 7]);
///
/// assert_eq!(ashlarkin::store8(0x0400_0000, 3, &registers, &mut memories), Err(Refusal::Page));
/// # Ok::<(), Refusal>(())
/// ```
pub fn store8(address: u32, value: u8, registers: &[u8], memories: &mut Memories) -> Result<(), Refusal> {
    let Memories { vram, palette, oam } = memories;
    // SAFETY: each pointer has its slice's length behind it, and the borrows keep the three written ones apart.
    refusal::answer(unsafe {
        ffi::ashlarkin_store8(
            address,
            value,
            registers.as_ptr(),
            registers.len(),
            vram.as_mut_ptr(),
            vram.len(),
            palette.as_mut_ptr(),
            palette.len(),
            oam.as_mut_ptr(),
            oam.len(),
        )
    })
}

/// Stores a halfword, the low byte first; sprite tiles and OAM are written too. The address's bit 0 is cleared on
/// pages 5 and 7.
///
/// It refuses a length, then any page but 5, 6 and 7, then an odd address of page 6. A refusal changes no byte.
///
/// ```
/// use ashlarkin::{Memories, Refusal};
///
/// let (mut vram, mut palette, mut oam) = ([0; 131_072], [0; 1024], [0; 1024]);
/// let mut memories = Memories { vram: &mut vram, palette: &mut palette, oam: &mut oam };
/// ashlarkin::store16(0x0700_0401, 0x1234, &mut memories)?;
/// assert_eq!(memories.oam[..4], [0x34, 0x12, 0, 0]);
/// assert_eq!(ashlarkin::store16(0x0600_0001, 0x1234, &mut memories), Err(Refusal::OddAddress));
/// # Ok::<(), Refusal>(())
/// ```
pub fn store16(address: u32, value: u16, memories: &mut Memories) -> Result<(), Refusal> {
    let Memories { vram, palette, oam } = memories;
    // SAFETY: each pointer has its slice's length behind it, and the borrows keep the three apart.
    refusal::answer(unsafe {
        ffi::ashlarkin_store16(
            address,
            value,
            vram.as_mut_ptr(),
            vram.len(),
            palette.as_mut_ptr(),
            palette.len(),
            oam.as_mut_ptr(),
            oam.len(),
        )
    })
}
