//! The oracle for C, and for Rust that keeps no `Oracle` of its own: each thread has one.

use std::cell::RefCell;
use std::slice;

use crate::bus::Bus;
use crate::draw::{Answer, Oracle};
use crate::events::{Clock, EventKind};
use crate::input::Input;

/// Given where the Rust panicked; no refusal has this number.
pub const PANICKED: u32 = u32::MAX;

thread_local! {
    static ORACLE: RefCell<Oracle> = RefCell::new(Oracle::new());
}

fn number(answer: Answer) -> u32 {
    match answer {
        Answer::Number(number) => number,
        Answer::Panicked(_) => PANICKED,
    }
}

/// Document 01's row reset.
pub fn reset(entries: &mut [u8]) -> u32 {
    ORACLE.with(|oracle| number(oracle.borrow_mut().reset(entries)))
}

/// Document 01's line-end step.
pub fn step(pb2: i16, pd2: i16, pb3: i16, pd3: i16, references: &mut [u8]) -> u32 {
    ORACLE.with(|oracle| number(oracle.borrow_mut().step([pb2, pd2, pb3, pd3], references)))
}

/// # Safety
/// As for any lent buffer of C: each pointer has its length of bytes behind it, and the two that are written overlap none.
#[unsafe(no_mangle)]
#[allow(clippy::too_many_arguments)]
pub unsafe extern "C" fn ashlarkin_oracle_draw(
    reading: u32,
    line: u32,
    x2: i32,
    y2: i32,
    x3: i32,
    y3: i32,
    vram: *const u8,
    vram_len: usize,
    palette: *const u8,
    palette_len: usize,
    oam: *const u8,
    oam_len: usize,
    registers: *const u8,
    registers_len: usize,
    entries: *mut u8,
    entries_len: usize,
    output: *mut u8,
    output_len: usize,
) -> u32 {
    unsafe {
        let input = Input {
            reading,
            line,
            references: [x2, y2, x3, y3],
            vram: slice::from_raw_parts(vram, vram_len),
            palette: slice::from_raw_parts(palette, palette_len),
            oam: slice::from_raw_parts(oam, oam_len),
            registers: slice::from_raw_parts(registers, registers_len),
        };
        let entries = slice::from_raw_parts_mut(entries, entries_len);
        let output = slice::from_raw_parts_mut(output, output_len);
        ORACLE.with(|oracle| number(oracle.borrow_mut().draw(&input, entries, output)))
    }
}

/// # Safety
/// `entries` has `len` bytes behind it.
#[unsafe(no_mangle)]
pub unsafe extern "C" fn ashlarkin_oracle_reset(entries: *mut u8, len: usize) -> u32 {
    reset(unsafe { slice::from_raw_parts_mut(entries, len) })
}

/// # Safety
/// `references` has `len` bytes behind it.
#[unsafe(no_mangle)]
pub unsafe extern "C" fn ashlarkin_oracle_step(
    pb2: i16,
    pd2: i16,
    pb3: i16,
    pd3: i16,
    references: *mut u8,
    len: usize,
) -> u32 {
    step(pb2, pd2, pb3, pd3, unsafe { slice::from_raw_parts_mut(references, len) })
}

/// One event of the Rust, for C: see `oracle.h`.
#[repr(C)]
pub struct OracleClock {
    pub event: u32,
    pub line: u32,
    pub running: [i32; 4],
    pub wait: u32,
    pub drawn: i32,
    pub cleared: u32,
}

/// # Safety
/// `clock` points to one record, `steps` to four numbers and `registers` to four.
#[unsafe(no_mangle)]
pub unsafe extern "C" fn ashlarkin_oracle_event(
    clock: *mut OracleClock,
    steps: *const i16,
    registers: *const i32,
) -> u32 {
    let (clock, steps, registers) = unsafe { (&mut *clock, *steps.cast(), *registers.cast()) };
    let kinds = [EventKind::HDraw, EventKind::HBlank, EventKind::VBlankHDraw, EventKind::VBlankHBlank];
    let Some(event) = kinds.get(clock.event as usize).copied() else {
        return PANICKED;
    };
    let before = Clock { event, line: clock.line, running: clock.running };
    match ORACLE.with(|oracle| oracle.borrow_mut().event(before, steps, registers)) {
        Err(_) => PANICKED,
        Ok(tick) => {
            *clock = OracleClock {
                event: kinds.iter().position(|kind| *kind == tick.clock.event).expect("a kind") as u32,
                line: tick.clock.line,
                running: tick.clock.running,
                wait: tick.wait,
                drawn: tick.drawn.map_or(-1, |line| line as i32),
                cleared: tick.cleared.into(),
            };
            0
        }
    }
}

/// The three memories of a store, for C: 131,072, 1,024 and 1,024 bytes.
#[repr(C)]
pub struct OracleBus {
    pub mode: u32,
    pub vram: *mut u8,
    pub palette: *mut u8,
    pub oam: *mut u8,
}

unsafe fn on_bus(bus: *const OracleBus, run: impl FnOnce(&mut Oracle, &mut Bus) -> Result<u32, String>) -> u32 {
    let mut lent = unsafe {
        Bus {
            mode: ((*bus).mode & 7) as u16,
            vram: slice::from_raw_parts_mut((*bus).vram, crate::VRAM_LEN),
            palette: slice::from_raw_parts_mut((*bus).palette, crate::PALETTE_LEN),
            oam: slice::from_raw_parts_mut((*bus).oam, crate::OAM_LEN),
        }
    };
    ORACLE.with(|oracle| run(&mut oracle.borrow_mut(), &mut lent).unwrap_or(PANICKED))
}

/// The byte at an address of pages 5 to 7.
/// # Safety
/// `bus` points to one record with its three memories behind it.
#[unsafe(no_mangle)]
pub unsafe extern "C" fn ashlarkin_oracle_read_8(bus: *const OracleBus, addr: u32) -> u32 {
    unsafe { on_bus(bus, |oracle, lent| oracle.read_8(lent, addr).map(u32::from)) }
}

/// # Safety
/// As `ashlarkin_oracle_read_8`.
#[unsafe(no_mangle)]
pub unsafe extern "C" fn ashlarkin_oracle_write_8(bus: *const OracleBus, addr: u32, value: u8) -> u32 {
    unsafe { on_bus(bus, |oracle, lent| oracle.write_8(lent, addr, value).map(|()| 0)) }
}

/// # Safety
/// As `ashlarkin_oracle_read_8`.
#[unsafe(no_mangle)]
pub unsafe extern "C" fn ashlarkin_oracle_write_16(bus: *const OracleBus, addr: u32, value: u16) -> u32 {
    unsafe { on_bus(bus, |oracle, lent| oracle.write_16(lent, addr, value).map(|()| 0)) }
}
