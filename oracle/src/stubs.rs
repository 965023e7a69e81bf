//! What dma.rs, sysbus.rs and bios.rs name of iodev.rs and cartridge/mod.rs. Those two lean on files that are not among
//! the ones given (sound, timers, keypad, backup memory), so they stand here with the parts that are named and nothing
//! behind them. No draw, event or store of the oracle comes here.

pub mod iodev {
    use crate::arm7tdmi::memory::{Addr, BusIO, DebugRead};
    use crate::dma::DmaController;
    use crate::gpu::Gpu;
    use crate::sched::{SchedulerConnect, SharedScheduler};
    use crate::sysbus::SysBusPtr;

    pub mod consts {
        pub const REG_FIFO_A: u32 = 0x0400_00A0;
        pub const REG_FIFO_B: u32 = 0x0400_00A4;
    }

    bitfield! {
        #[derive(Clone, Copy)]
        pub struct WaitControl(u16);
        impl Debug;
        u16;
        pub sram_wait_control, _: 1, 0;
        pub ws0_first_access, _: 3, 2;
        pub ws0_second_access, _: 4, 4;
        pub ws1_first_access, _: 6, 5;
        pub ws1_second_access, _: 7, 7;
        pub ws2_first_access, _: 9, 8;
        pub ws2_second_access, _: 10, 10;
    }

    pub struct IoDevices {
        pub gpu: Box<Gpu>,
        pub dmac: DmaController,
        pub waitcnt: WaitControl,
    }

    impl IoDevices {
        pub fn set_sysbus_ptr(&mut self, _: SysBusPtr) {}
    }

    impl SchedulerConnect for IoDevices {
        fn connect_scheduler(&mut self, _: SharedScheduler) {}
    }

    impl BusIO for IoDevices {
        fn read_8(&mut self, _: Addr) -> u8 {
            unreachable!("the oracle has no I/O devices")
        }
        fn write_8(&mut self, _: Addr, _: u8) {
            unreachable!("the oracle has no I/O devices")
        }
    }

    impl DebugRead for IoDevices {
        fn debug_read_8(&mut self, _: Addr) -> u8 {
            unreachable!("the oracle has no I/O devices")
        }
    }
}

pub mod cartridge {
    use crate::arm7tdmi::memory::{Addr, BusIO, DebugRead};

    #[derive(Clone)]
    pub struct EepromController;

    impl EepromController {
        pub fn on_dma3_transfer(&mut self, _: u32, _: u32, _: usize) {}
    }

    #[allow(dead_code)]
    #[derive(Clone)]
    pub enum BackupMedia {
        Eeprom(EepromController),
        Undetected,
    }

    #[derive(Clone)]
    pub struct Cartridge {
        pub backup: BackupMedia,
    }

    impl BusIO for Cartridge {
        fn read_8(&mut self, _: Addr) -> u8 {
            unreachable!("the oracle has no cartridge")
        }
        fn write_8(&mut self, _: Addr, _: u8) {
            unreachable!("the oracle has no cartridge")
        }
    }

    impl DebugRead for Cartridge {
        fn debug_read_8(&mut self, _: Addr) -> u8 {
            unreachable!("the oracle has no cartridge")
        }
    }
}
