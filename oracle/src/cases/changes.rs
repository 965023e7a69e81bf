//! The calls of a case on the bus, done, and every byte that each changed.

use std::mem::{replace, take};

use super::bus::{BusCall, BusCase, Lent};
use crate::bus::Memories;
use crate::draw::Answer;

/// A byte that a call changed.
#[derive(Clone, Copy, Debug, PartialEq, Eq)]
pub struct Change {
    pub memory: &'static str,
    pub byte: usize,
    pub before: u8,
    pub after: u8,
}

/// What a call gave: its answer, the byte that it read, else 0, and all changes of what it was lent.
#[derive(Clone, Debug, PartialEq, Eq)]
pub struct Called {
    pub answer: Answer,
    pub value: u8,
    pub changes: Vec<Change>,
}

/// Memories are looked through in parts of so many bytes.
const PART: usize = 2048;

impl BusCase {
    /// Does the calls, each on the memories as those before it left them, and looks through all of them after each. Where
    /// another length is lent it is a copy of the memory, which no later call sees.
    pub fn run(&self, mut call: impl FnMut(&BusCall, &[u8], &mut Memories) -> (Answer, u8)) -> Vec<Called> {
        let mut memories = Memories {
            vram: of_length(&self.vram, Lent::WHOLE.vram),
            palette: of_length(&self.palette, Lent::WHOLE.palette),
            oam: of_length(&self.oam, Lent::WHOLE.oam),
        };
        let mut before = memories.clone();
        let mut one = |one: &BusCall| {
            let registers = of_length(&self.registers, one.lent.registers);
            let (kept, kept_before) = (lend(&mut memories, one.lent), lend(&mut before, one.lent));
            let (answer, value) = call(one, &registers, &mut memories);
            let changes = changes(&mut before, &memories);
            put_back(&mut memories, kept);
            put_back(&mut before, kept_before);
            Called { answer, value, changes }
        };
        self.calls.iter().map(&mut one).collect()
    }
}

/// Vram, palette and OAM, those that a copy stands in for.
type Kept = [Option<Box<[u8]>>; 3];

/// Puts a copy in the place of each memory that is lent with another length.
fn lend(memories: &mut Memories, lent: Lent) -> Kept {
    let other = |memory: &mut Box<[u8]>, len| {
        let copy = (len != memory.len()).then(|| of_length(memory, len))?;
        Some(replace(memory, copy))
    };
    let Memories { vram, palette, oam } = memories;
    [other(vram, lent.vram), other(palette, lent.palette), other(oam, lent.oam)]
}

fn put_back(memories: &mut Memories, kept: Kept) {
    let Memories { vram, palette, oam } = memories;
    for (memory, kept) in [vram, palette, oam].into_iter().zip(kept) {
        *memory = kept.unwrap_or_else(|| take(memory));
    }
}

/// The bytes cut, or filled up with zeros.
fn of_length(bytes: &[u8], len: usize) -> Box<[u8]> {
    let mut bytes = bytes[..len.min(bytes.len())].to_vec();
    bytes.resize(len, 0);
    bytes.into()
}

/// The bytes that aren't as they were before; they are taken over there.
fn changes(before: &mut Memories, after: &Memories) -> Vec<Change> {
    let mut changes = vec![];
    for (memory, before, after) in [
        ("vram", &mut before.vram, &after.vram),
        ("palette", &mut before.palette, &after.palette),
        ("oam", &mut before.oam, &after.oam),
    ] {
        assert_eq!(before.len(), after.len(), "a call changes no length");
        let parts = before.chunks_mut(PART).zip(after.chunks(PART)).enumerate();
        for (part, (before, after)) in parts.filter(|(_, (before, after))| before != after) {
            let bytes = before.iter().zip(after).enumerate().filter(|(_, (before, after))| before != after);
            changes.extend(bytes.map(|(at, (&before, &after))| {
                let byte = part * PART + at;
                Change { memory, byte, before, after }
            }));
            before.copy_from_slice(after);
        }
    }
    changes
}
