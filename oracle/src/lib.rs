//! The oracle: the gpu module of rustboyadvance-ng as it stands in docs/src, not one byte changed, behind the
//! interface of document 01. This file is in the place of the Rust's own crate root, so the modules below find each
//! other by the paths that their text names; `skip` keeps the formatter off them.

extern crate arm7tdmi;
#[macro_use]
extern crate bitfield;
#[macro_use]
extern crate bitflags;
#[macro_use]
extern crate debug_stub_derive;
#[macro_use]
extern crate log;
#[macro_use]
extern crate smart_default;

#[allow(warnings)]
#[rustfmt::skip]
#[path = "../../docs/src/core/src/bios.rs"]
mod bios;
#[allow(warnings)]
#[rustfmt::skip]
#[path = "../../docs/src/core/src/dma.rs"]
mod dma;
#[allow(warnings)]
#[rustfmt::skip]
#[path = "../../docs/src/core/src/gpu/mod.rs"]
mod gpu;
#[allow(warnings)]
#[rustfmt::skip]
#[path = "../../docs/src/core/src/interrupt.rs"]
mod interrupt;
#[allow(warnings)]
#[rustfmt::skip]
#[path = "../../docs/src/core/src/sched.rs"]
mod sched;
#[allow(warnings)]
#[rustfmt::skip]
#[path = "../../docs/src/core/src/sysbus.rs"]
mod sysbus;

mod stubs;

use stubs::{cartridge, iodev};
use sysbus::SysBus;

mod prelude {
    pub use arm7tdmi::memory::BusIO;
}

mod bus;
pub mod cases;

mod draw;
mod events;
mod exports;
mod input;
mod judge;
pub mod reasons;

pub use bus::{Access, Bus, Memories};
pub use draw::{Answer, ONE_DIMENSIONAL, Oracle, has_256_colours, make_tiles_even};
pub use events::{Clock, EventKind, Tick};
pub use exports::{PANICKED, reset, step};
pub use input::*;
pub use judge::{judge_access, judge_draw, well_shaped};
