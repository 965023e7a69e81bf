//! A draw of document 01, done by the Rust's `render_scanline`.

use std::cell::Cell;
use std::panic::{AssertUnwindSafe, catch_unwind};
use std::rc::Rc;

use crate::gpu::regs::{GpuMemoryMappedIO, WindowFlags};
use crate::gpu::{DISPLAY_WIDTH, Gpu, ObjBufferEntry, Rgb15};
use crate::input::*;
use crate::interrupt::IrqBitmask;
use crate::judge::{judge_draw, register};
use crate::sched::Scheduler;

/// What a call came to: document 01's number, or the message of a panic in the Rust, which is a finding.
#[derive(Clone, Debug, PartialEq, Eq)]
pub enum Answer {
    Number(u32),
    Panicked(String),
}

/// The Rust's `Gpu`, with fields set directly before each draw.
pub struct Oracle {
    pub(crate) gpu: Box<Gpu>,
}

impl Default for Oracle {
    fn default() -> Oracle {
        Oracle::new()
    }
}

impl Oracle {
    pub fn new() -> Oracle {
        let flags = Rc::new(Cell::new(IrqBitmask(0)));
        Oracle { gpu: Box::new(Gpu::new(&mut Scheduler::new(), flags)) }
    }

    /// Draws one line as document 01 says, judged by its table first.
    pub fn draw(&mut self, input: &Input, entries: &mut [u8], output: &mut [u8]) -> Answer {
        match judge_draw(input, entries, output) {
            0 => {
                self.load(input.vram, input.palette, input.oam);
                self.draw_loaded(input, entries, output)
            }
            number => Answer::Number(number),
        }
    }

    /// Copies the three memories in. They stay until the next load.
    pub fn load(&mut self, vram: &[u8], palette: &[u8], oam: &[u8]) {
        self.gpu.vram.copy_from_slice(vram);
        self.load_small(palette, oam);
    }

    /// Copies palette and OAM in and leaves video memory, so that a run over one picture copies its 128 KiB once.
    pub fn load_small(&mut self, palette: &[u8], oam: &[u8]) {
        self.gpu.palette_ram.copy_from_slice(palette);
        self.gpu.oam.copy_from_slice(oam);
    }

    /// A draw that was judged to be accepted, on memory that was loaded.
    pub fn draw_loaded(&mut self, input: &Input, entries: &mut [u8], output: &mut [u8]) -> Answer {
        self.set_registers(input);
        match self.caught(|oracle| match input.reading {
            0 => oracle.draw_as_rust(input.line, entries, output),
            _ => oracle.draw_as_notes(input, entries, output),
        }) {
            Ok(()) => Answer::Number(0),
            Err(finding) => Answer::Panicked(finding),
        }
    }

    /// A background's row as the last draw made it, 0x8000 where it is transparent. One that is off has an older row.
    pub fn background(&self, number: usize) -> Vec<u16> {
        self.gpu.bg_line[number].iter().map(|color| color.0).collect()
    }

    /// Runs the Rust; a panic comes back as its message, and the next call starts from a new `Gpu`.
    pub(crate) fn caught<T>(&mut self, run: impl FnOnce(&mut Oracle) -> T) -> Result<T, String> {
        catch_unwind(AssertUnwindSafe(|| run(&mut *self))).map_err(|payload| {
            *self = Oracle::new();
            let text = payload.downcast_ref::<&str>().map(|text| text.to_string());
            text.or_else(|| payload.downcast_ref::<String>().cloned())
                .unwrap_or_else(|| "a panic without a message".into())
        })
    }

    /// Reading R: the Rust as it is.
    fn draw_as_rust(&mut self, line: u32, entries: &mut [u8], output: &mut [u8]) {
        let row = line as usize * DISPLAY_WIDTH;
        for (cell, bytes) in self.gpu.obj_buffer[row..].iter_mut().zip(entries.chunks_exact(4)) {
            *cell = entry_of(bytes);
        }
        self.gpu.render_scanline();
        // Forced blank leaves the row, and a row that isn't judged may hold bytes that no record does.
        if !self.gpu.dispcnt.force_blank {
            for (cell, bytes) in self.gpu.obj_buffer[row..].iter().zip(entries.chunks_exact_mut(4)) {
                bytes.copy_from_slice(&bytes_of(cell));
            }
        }
        for (pixel, bytes) in self.gpu.frame_buffer[row..].iter().zip(output.chunks_exact_mut(4)) {
            bytes.copy_from_slice(&pixel.to_le_bytes());
        }
    }

    /// Reading H: the Rust on weights capped at 16, and on tile numbers made even where the notes ignore the lowest bit.
    /// OAM is as it was loaded afterwards.
    fn draw_as_notes(&mut self, input: &Input, entries: &mut [u8], output: &mut [u8]) {
        self.gpu.bldalpha.eva = self.gpu.bldalpha.eva.min(16);
        self.gpu.bldalpha.evb = self.gpu.bldalpha.evb.min(16);
        self.gpu.bldy = self.gpu.bldy.min(16);
        let loaded = self.gpu.oam.clone();
        if register(input.registers, 0) & ONE_DIMENSIONAL == 0 {
            make_tiles_even(&mut self.gpu.oam, has_256_colours);
        }
        self.draw_by_own_columns(input, entries, output);
        self.gpu.oam = loaded;
    }

    /// Two of the Rust's draws. The first is right in window 0's columns. The second has window 0 off and window 1's edges
    /// in its place, so that the Rust, walking window 0's columns for window 1, walks window 1's own: it is right
    /// everywhere else.
    fn draw_by_own_columns(&mut self, input: &Input, entries: &mut [u8], output: &mut [u8]) {
        let before = entries.to_vec();
        self.draw_as_rust(input.line, entries, output);
        if !self.gpu.dispcnt.enable_window1 || self.gpu.dispcnt.force_blank {
            return;
        }
        let window0 = self.gpu.win0.clone();
        let in_window0 = |x| self.gpu.dispcnt.enable_window0 && window0.inside(x, input.line as usize);
        let first: Vec<bool> = (0..DISPLAY_WIDTH).map(in_window0).collect();
        self.gpu.dispcnt.enable_window0 = false;
        self.gpu.win0 = self.gpu.win1.clone();
        let mut second = [0; OUTPUT_LEN];
        entries.copy_from_slice(&before);
        self.draw_as_rust(input.line, entries, &mut second);
        for x in (0..DISPLAY_WIDTH).filter(|x| !first[*x]) {
            output[4 * x..4 * x + 4].copy_from_slice(&second[4 * x..4 * x + 4]);
        }
    }

    /// Sets every field that a draw reads but the memories and the row, through the module's own `write`s.
    pub(crate) fn set_registers(&mut self, input: &Input) {
        let word = |offset| register(input.registers, offset);
        let gpu = &mut *self.gpu;
        gpu.vcount = input.line as usize;
        gpu.write_dispcnt(word(0x00));
        for bg in 0..4 {
            gpu.bgcnt[bg].write(word(0x08 + 2 * bg));
            gpu.bg_hofs[bg] = word(0x10 + 4 * bg) & 0x1ff;
            gpu.bg_vofs[bg] = word(0x12 + 4 * bg) & 0x1ff;
        }
        for (i, affine) in gpu.bg_aff.iter_mut().enumerate() {
            let [pa, pb, pc, pd] = [0, 2, 4, 6].map(|at| word(0x20 + 16 * i + at) as i16);
            (affine.pa, affine.pb, affine.pc, affine.pd) = (pa, pb, pc, pd);
            affine.internal_x = input.references[2 * i];
            affine.internal_y = input.references[2 * i + 1];
        }
        for (i, window) in [&mut gpu.win0, &mut gpu.win1].into_iter().enumerate() {
            [window.right, window.left] = word(0x40 + 2 * i).to_le_bytes();
            [window.bottom, window.top] = word(0x44 + 2 * i).to_le_bytes();
            window.flags = WindowFlags::from(word(0x48) >> (8 * i) & 0xff);
        }
        gpu.winout_flags = WindowFlags::from(word(0x4a) & 0xff);
        gpu.winobj_flags = WindowFlags::from(word(0x4a) >> 8);
        gpu.mosaic.0 = word(0x4c);
        gpu.bldcnt.write(word(0x50));
        gpu.bldalpha.write(word(0x52));
        gpu.bldy = word(0x54) & 0x1f;
    }
}

/// DISPCNT: sprite tiles are mapped in one dimension.
pub const ONE_DIMENSIONAL: u16 = 0x40;

/// Whether a sprite, by its bytes in OAM, has 256 colours.
pub fn has_256_colours(sprite: &[u8]) -> bool {
    sprite[1] & 0x20 != 0
}

/// Clears the lowest bit of the tile number of every sprite that is wanted.
pub fn make_tiles_even(oam: &mut [u8], wanted: impl Fn(&[u8]) -> bool) {
    oam.chunks_exact_mut(8).filter(|sprite| wanted(sprite)).for_each(|sprite| sprite[4] &= !1);
}

/// The Rust's record of four entry bytes.
fn entry_of(bytes: &[u8]) -> ObjBufferEntry {
    ObjBufferEntry {
        color: Rgb15(u16::from_le_bytes([bytes[0], bytes[1]])),
        priority: bytes[2].into(),
        alpha: bytes[3] & 1 != 0,
        window: bytes[3] & 2 != 0,
    }
}

/// The four bytes of the Rust's record.
pub(crate) fn bytes_of(entry: &ObjBufferEntry) -> [u8; 4] {
    let [low, high] = entry.color.0.to_le_bytes();
    let marks = u8::from(entry.alpha) | u8::from(entry.window) << 1;
    [low, high, entry.priority as u8, marks]
}
