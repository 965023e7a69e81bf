//! The built command as people run it.

mod batch;
mod bench;
mod build;
mod c;
mod common;
mod compare;
mod explain;
mod frame;
