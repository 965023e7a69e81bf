//! The Rust's four events, the line-end step that one of them does, and the reset of a row.

use crate::dma::DmaNotifer;
use crate::draw::{Answer, Oracle, bytes_of};
use crate::gpu::{DISPLAY_HEIGHT, DISPLAY_WIDTH};
use crate::input::*;
use crate::judge::in_range;
use crate::sched::{EventType, GpuEvent};

/// The event that comes next.
#[derive(Clone, Copy, Debug, PartialEq, Eq)]
pub enum EventKind {
    HDraw,
    HBlank,
    VBlankHDraw,
    VBlankHBlank,
}

/// Where the Rust stands between two events: the next event, `vcount` and the running references x2, y2, x3, y3.
#[derive(Clone, Copy, Debug, PartialEq, Eq)]
pub struct Clock {
    pub event: EventKind,
    pub line: u32,
    pub running: [i32; 4],
}

/// What one event did: the clock after it, the cycles to the next, the line it drew and whether it cleared the rows.
#[derive(Clone, Copy, Debug, PartialEq, Eq)]
pub struct Tick {
    pub clock: Clock,
    pub wait: u32,
    pub drawn: Option<u32>,
    pub cleared: bool,
}

struct NoDma;

impl DmaNotifer for NoDma {
    fn notify(&mut self, _: u16) {}
}

/// A frame buffer word that no draw gives: its top byte is set.
const UNTOUCHED: u32 = u32::MAX;

impl Oracle {
    /// Runs one event of the Rust. `steps` are pb2, pd2, pb3, pd3; `registers` the references that a vertical blank
    /// copies. Lines are drawn with forced blank on, which is enough to see which line was.
    pub fn event(&mut self, clock: Clock, steps: [i16; 4], registers: [i32; 4]) -> Result<Tick, String> {
        self.caught(|oracle| {
            oracle.set_clock(clock, steps, registers);
            for line in 0..DISPLAY_HEIGHT {
                oracle.gpu.frame_buffer[line * DISPLAY_WIDTH] = UNTOUCHED;
            }
            oracle.gpu.obj_buffer[0].priority = 0;
            let (event, wait) = oracle.gpu.on_event(rust_event(clock.event), &mut NoDma);
            let drawn = |line: &usize| oracle.gpu.frame_buffer[line * DISPLAY_WIDTH] != UNTOUCHED;
            Tick {
                clock: Clock { event: event_kind(event), line: oracle.gpu.vcount as u32, running: oracle.running() },
                wait: wait as u32,
                drawn: (0..DISPLAY_HEIGHT).find(drawn).map(|line| line as u32),
                cleared: oracle.gpu.obj_buffer[0].priority == 4,
            }
        })
    }

    /// The line-end step on the four references in 16 bytes: the sums are those of the Rust's event at a line's end.
    pub fn step(&mut self, steps: [i16; 4], references: &mut [u8]) -> Answer {
        if references.len() != 16 {
            return Answer::Number(2);
        }
        let before = [0, 4, 8, 12].map(|at| i32::from_le_bytes(std::array::from_fn(|i| references[at + i])));
        if !before.iter().all(|r| in_range(*r)) {
            return Answer::Number(6);
        }
        let clock = Clock { event: EventKind::HBlank, line: 0, running: before };
        match self.event(clock, steps, before) {
            Err(finding) => Answer::Panicked(finding),
            Ok(tick) if !tick.clock.running.iter().all(|r| in_range(*r)) => Answer::Number(6),
            Ok(tick) => {
                for (bytes, value) in references.chunks_exact_mut(4).zip(tick.clock.running) {
                    bytes.copy_from_slice(&value.to_le_bytes());
                }
                Answer::Number(0)
            }
        }
    }

    /// 240 reset entries, as the Rust's `obj_buffer_reset` leaves them; 2 for a row of another length.
    pub fn reset(&mut self, entries: &mut [u8]) -> Answer {
        if entries.len() != ENTRIES_LEN {
            return Answer::Number(2);
        }
        self.gpu.obj_buffer_reset();
        for (bytes, cell) in entries.chunks_exact_mut(4).zip(self.gpu.obj_buffer.iter()) {
            bytes.copy_from_slice(&bytes_of(cell));
        }
        Answer::Number(0)
    }

    /// A frame by the Rust's own events: from vertical blank, where the references are copied and the rows cleared,
    /// to the end of line 159. `input` gives memory and registers; `registers` are the references of the frame.
    pub fn frame(&mut self, input: &Input, registers: [i32; 4]) -> Result<Vec<u32>, String> {
        self.load(input.vram, input.palette, input.oam);
        self.set_registers(input);
        self.caught(|oracle| {
            oracle.gpu.vcount = DISPLAY_HEIGHT - 1;
            oracle.set_references(registers);
            let mut event = GpuEvent::HBlank;
            while event != GpuEvent::HDraw || oracle.gpu.vcount != DISPLAY_HEIGHT - 1 {
                event = rust_event(event_kind(oracle.gpu.on_event(event, &mut NoDma).0));
            }
            oracle.gpu.frame_buffer.to_vec()
        })
    }

    fn set_clock(&mut self, clock: Clock, steps: [i16; 4], registers: [i32; 4]) {
        self.gpu.write_dispcnt(0x80);
        self.gpu.vcount = clock.line as usize;
        self.set_references(registers);
        for (i, affine) in self.gpu.bg_aff.iter_mut().enumerate() {
            (affine.pb, affine.pd) = (steps[2 * i], steps[2 * i + 1]);
            (affine.internal_x, affine.internal_y) = (clock.running[2 * i], clock.running[2 * i + 1]);
        }
    }

    fn set_references(&mut self, registers: [i32; 4]) {
        for (i, affine) in self.gpu.bg_aff.iter_mut().enumerate() {
            (affine.x, affine.y) = (registers[2 * i], registers[2 * i + 1]);
        }
    }

    fn running(&self) -> [i32; 4] {
        let [two, three] = &self.gpu.bg_aff;
        [two.internal_x, two.internal_y, three.internal_x, three.internal_y]
    }
}

fn rust_event(kind: EventKind) -> GpuEvent {
    match kind {
        EventKind::HDraw => GpuEvent::HDraw,
        EventKind::HBlank => GpuEvent::HBlank,
        EventKind::VBlankHDraw => GpuEvent::VBlankHDraw,
        EventKind::VBlankHBlank => GpuEvent::VBlankHBlank,
    }
}

fn event_kind(event: EventType) -> EventKind {
    match event {
        EventType::Gpu(GpuEvent::HDraw) => EventKind::HDraw,
        EventType::Gpu(GpuEvent::HBlank) => EventKind::HBlank,
        EventType::Gpu(GpuEvent::VBlankHDraw) => EventKind::VBlankHDraw,
        EventType::Gpu(GpuEvent::VBlankHBlank) => EventKind::VBlankHBlank,
        other => panic!("the gpu scheduled {other:?}"),
    }
}
