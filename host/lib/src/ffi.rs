//! The proved library's functions as C sees them (`include/ashlarkin.h`). A slice is a pointer and then a length.

use crate::bus::Byte;
use crate::explain::Numbers;
use crate::records::{BgAffine, ObjBufferEntry};

unsafe extern "C" {
    pub fn ashlarkin_draw(
        reading: u32,
        line: u32,
        x2: i32,
        y2: i32,
        x3: i32,
        y3: i32,
        vram: *const u8,
        vram_len: usize,
        palette: *const u8,
        palette_len: usize,
        oam: *const u8,
        oam_len: usize,
        registers: *const u8,
        registers_len: usize,
        entries: *mut u8,
        entries_len: usize,
        output: *mut u8,
        output_len: usize,
    ) -> u32;
    pub fn ashlarkin_reset(entries: *mut u8, entries_len: usize) -> u32;
    pub fn ashlarkin_step(pb2: i16, pd2: i16, pb3: i16, pd3: i16, references: *mut u8, references_len: usize) -> u32;
    pub fn ashlarkin_step_records(bg2: *mut BgAffine, bg3: *mut BgAffine) -> u32;
    pub fn ashlarkin_draw_records(
        reading: u32,
        line: u32,
        x2: i32,
        y2: i32,
        x3: i32,
        y3: i32,
        vram: *const u8,
        vram_len: usize,
        palette: *const u8,
        palette_len: usize,
        oam: *const u8,
        oam_len: usize,
        registers: *const u8,
        registers_len: usize,
        entries: *mut ObjBufferEntry,
        count: usize,
        output: *mut u8,
        output_len: usize,
    ) -> u32;
    pub fn ashlarkin_explain(
        reading: u32,
        line: u32,
        x2: i32,
        y2: i32,
        x3: i32,
        y3: i32,
        vram: *const u8,
        vram_len: usize,
        palette: *const u8,
        palette_len: usize,
        oam: *const u8,
        oam_len: usize,
        registers: *const u8,
        registers_len: usize,
        entries: *const u8,
        entries_len: usize,
        column: u32,
    ) -> Numbers;
    pub fn ashlarkin_read8(
        address: u32,
        vram: *const u8,
        vram_len: usize,
        palette: *const u8,
        palette_len: usize,
        oam: *const u8,
        oam_len: usize,
    ) -> Byte;
    pub fn ashlarkin_store8(
        address: u32,
        value: u8,
        registers: *const u8,
        registers_len: usize,
        vram: *mut u8,
        vram_len: usize,
        palette: *mut u8,
        palette_len: usize,
        oam: *mut u8,
        oam_len: usize,
    ) -> u32;
    pub fn ashlarkin_store16(
        address: u32,
        value: u16,
        vram: *mut u8,
        vram_len: usize,
        palette: *mut u8,
        palette_len: usize,
        oam: *mut u8,
        oam_len: usize,
    ) -> u32;
}
