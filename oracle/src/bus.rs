//! Byte reads, byte stores and halfword stores of pages 5, 6 and 7, by the Rust's `BusIO`: judged by document 02 first
//! (W-205), or as it is, where another page is unreachable and comes back as a finding.

use std::mem::swap;

use serde::{Deserialize, Serialize};

use crate::draw::{Answer, Oracle};
use crate::judge::judge_access;
use crate::prelude::BusIO;

/// What is done at an address.
#[derive(Clone, Copy, Debug, PartialEq, Eq, Deserialize, Serialize)]
#[serde(rename_all = "kebab-case")]
pub enum Access {
    Read8,
    Store8(u8),
    Store16(u16),
}

/// The three memories, of whatever lengths.
#[derive(Clone)]
pub struct Memories {
    pub vram: Box<[u8]>,
    pub palette: Box<[u8]>,
    pub oam: Box<[u8]>,
}

/// The memories that a store may change, and the mode, by which the Rust knows where sprite tiles start.
pub struct Bus<'a> {
    pub mode: u16,
    pub vram: &'a mut [u8],
    pub palette: &'a mut [u8],
    pub oam: &'a mut [u8],
}

impl Oracle {
    /// A read or a store as document 02 says, judged first, and the byte that was read, else 0. The memories change places
    /// with the Rust's own meanwhile, so that nothing is copied; after a panic they are empty.
    pub fn access(&mut self, access: Access, addr: u32, registers: &[u8], memories: &mut Memories) -> (Answer, u8) {
        let number = judge_access(access, addr, registers, memories);
        if number != 0 {
            return (Answer::Number(number), 0);
        }
        self.exchange(memories);
        let answer = self.caught(|oracle| match access {
            Access::Read8 => oracle.gpu.read_8(addr),
            Access::Store8(value) => {
                oracle.gpu.write_dispcnt(u16::from(registers[0]) & 7);
                oracle.gpu.write_8(addr, value);
                0
            }
            Access::Store16(value) => {
                oracle.gpu.write_16(addr, value);
                0
            }
        });
        self.exchange(memories);
        answer.map_or_else(|finding| (Answer::Panicked(finding), 0), |value| (Answer::Number(0), value))
    }

    fn exchange(&mut self, memories: &mut Memories) {
        swap(&mut self.gpu.vram, &mut memories.vram);
        swap(&mut self.gpu.palette_ram, &mut memories.palette);
        swap(&mut self.gpu.oam, &mut memories.oam);
    }

    pub fn read_8(&mut self, bus: &mut Bus, addr: u32) -> Result<u8, String> {
        self.on_bus(bus, |gpu| gpu.read_8(addr))
    }

    pub fn write_8(&mut self, bus: &mut Bus, addr: u32, value: u8) -> Result<(), String> {
        self.on_bus(bus, |gpu| gpu.write_8(addr, value))
    }

    pub fn write_16(&mut self, bus: &mut Bus, addr: u32, value: u16) -> Result<(), String> {
        self.on_bus(bus, |gpu| gpu.write_16(addr, value))
    }

    fn on_bus<T>(&mut self, bus: &mut Bus, run: impl FnOnce(&mut crate::gpu::Gpu) -> T) -> Result<T, String> {
        self.load(bus.vram, bus.palette, bus.oam);
        self.gpu.write_dispcnt(bus.mode & 7);
        self.caught(|oracle| {
            let answer = run(&mut oracle.gpu);
            bus.vram.copy_from_slice(&oracle.gpu.vram);
            bus.palette.copy_from_slice(&oracle.gpu.palette_ram);
            bus.oam.copy_from_slice(&oracle.gpu.oam);
            answer
        })
    }
}
