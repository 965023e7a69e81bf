//! Stands in for the workspace crate `arm7tdmi` of rustboyadvance-ng, whose text is not among the files given. What a
//! draw uses of it is `BusIO` on a slice of bytes, little-endian. The processor is only named by the text, never run.

pub mod memory {
    pub type Addr = u32;

    /// Reads and writes at an address; halfwords and words are little-endian, low part first.
    pub trait BusIO {
        fn read_8(&mut self, addr: Addr) -> u8;
        fn write_8(&mut self, addr: Addr, value: u8);

        fn read_16(&mut self, addr: Addr) -> u16 {
            self.default_read_16(addr)
        }
        fn write_16(&mut self, addr: Addr, value: u16) {
            self.default_write_16(addr, value)
        }
        fn read_32(&mut self, addr: Addr) -> u32 {
            u32::from(self.read_16(addr)) | u32::from(self.read_16(addr + 2)) << 16
        }
        fn write_32(&mut self, addr: Addr, value: u32) {
            self.write_16(addr, value as u16);
            self.write_16(addr + 2, (value >> 16) as u16);
        }
        fn default_read_16(&mut self, addr: Addr) -> u16 {
            u16::from(self.read_8(addr)) | u16::from(self.read_8(addr + 1)) << 8
        }
        fn default_write_16(&mut self, addr: Addr, value: u16) {
            self.write_8(addr, value as u8);
            self.write_8(addr + 1, (value >> 8) as u8);
        }
    }

    impl BusIO for Box<[u8]> {
        #[inline]
        fn read_8(&mut self, addr: Addr) -> u8 {
            self[addr as usize]
        }
        #[inline]
        fn write_8(&mut self, addr: Addr, value: u8) {
            self[addr as usize] = value;
        }
        // One bounds check for both bytes, as the original's single load has.
        #[inline]
        fn read_16(&mut self, addr: Addr) -> u16 {
            let at = addr as usize;
            let bytes = &self[at..at + 2];
            u16::from_le_bytes([bytes[0], bytes[1]])
        }
    }

    pub trait DebugRead: BusIO {
        fn debug_read_8(&mut self, addr: Addr) -> u8;
    }

    impl DebugRead for Box<[u8]> {
        fn debug_read_8(&mut self, addr: Addr) -> u8 {
            self[addr as usize]
        }
    }

    #[derive(Debug, Clone, Copy, PartialEq, Eq)]
    pub enum MemoryAccess {
        NonSeq,
        Seq,
    }

    #[derive(Debug, Clone, Copy, PartialEq, Eq)]
    pub enum MemoryAccessWidth {
        MemoryAccess8,
        MemoryAccess16,
        MemoryAccess32,
    }

    pub trait MemoryInterface {
        fn load_8(&mut self, addr: u32, access: MemoryAccess) -> u8;
        fn load_16(&mut self, addr: u32, access: MemoryAccess) -> u16;
        fn load_32(&mut self, addr: u32, access: MemoryAccess) -> u32;
        fn store_8(&mut self, addr: u32, value: u8, access: MemoryAccess);
        fn store_16(&mut self, addr: u32, value: u16, access: MemoryAccess);
        fn store_32(&mut self, addr: u32, value: u32, access: MemoryAccess);
        fn idle_cycle(&mut self);
    }
}

#[derive(Debug, Clone, Copy, PartialEq, Eq)]
pub enum CpuState {
    ARM,
    THUMB,
}

#[derive(Debug, Clone, Copy)]
pub struct Cpsr(pub CpuState);

impl Cpsr {
    pub fn state(&self) -> CpuState {
        self.0
    }
}

pub struct Arm7tdmiCore<I> {
    pub pc: u32,
    pub cpsr: Cpsr,
    bus: std::marker::PhantomData<I>,
}

impl<I> Arm7tdmiCore<I> {
    pub fn get_decoded_opcode(&self) -> u32 {
        unreachable!("the oracle runs no processor")
    }
    pub fn get_prefetched_opcode(&self) -> u32 {
        unreachable!("the oracle runs no processor")
    }
}
