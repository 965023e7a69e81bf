//! Reads and stores on the bus: the library's side of them, and what differs.

use ashlarkin::Refusal;
use ashlarkin_oracle::cases::{BusCall, BusCase, Cases, Change};
use ashlarkin_oracle::{Access, Answer, Memories};

/// Of so many cases one has calls on the bus. It is odd, so that every mode comes in turn.
const EVERY: u64 = 47;

/// The calls of a case, if it is one of those.
pub fn of(cases: &mut Cases, index: u64) -> Option<BusCase> {
    index.is_multiple_of(EVERY).then(|| cases.bus(index))
}

/// What the library answers, and the byte that it read, else 0.
pub fn by_library(call: &BusCall, registers: &[u8], memories: &mut Memories) -> (Answer, u8) {
    let Memories { vram, palette, oam } = memories;
    let read = match call.access {
        Access::Read8 => ashlarkin::read8(call.address, vram, palette, oam),
        Access::Store8(value) => {
            let lent = &mut ashlarkin::Memories { vram, palette, oam };
            ashlarkin::store8(call.address, value, registers, lent).map(|()| 0)
        }
        Access::Store16(value) => {
            let lent = &mut ashlarkin::Memories { vram, palette, oam };
            ashlarkin::store16(call.address, value, lent).map(|()| 0)
        }
    };
    (Answer::Number(read.map_or_else(Refusal::number, |_| 0)), read.unwrap_or(0))
}

/// A byte that two calls leave different, in words; one that a call didn't change is as before.
pub fn difference(ours: &[Change], theirs: &[Change]) -> Option<String> {
    let value = |changes: &[Change], of: &Change| {
        let changed = changes.iter().find(|change| (change.memory, change.byte) == (of.memory, of.byte));
        changed.map_or(of.before, |change| change.after)
    };
    ours.iter().chain(theirs).find_map(|change| {
        let (our, their) = (value(ours, change), value(theirs, change));
        let place = format!("{} byte 0x{:x}", change.memory, change.byte);
        (our != their).then(|| format!("{place} 0x{our:02x} and 0x{their:02x}"))
    })
}

#[cfg(test)]
mod tests {
    use super::*;

    #[test]
    fn a_byte_that_one_alone_changed_is_told() {
        let change = |byte, after| Change { memory: "oam", byte, before: 3, after };
        for (ours, theirs, words) in [
            (vec![], vec![], None),
            (vec![change(5, 1)], vec![change(5, 1)], None),
            (vec![change(5, 1)], vec![change(5, 2)], Some("oam byte 0x5 0x01 and 0x02")),
            (vec![change(4, 1), change(5, 1)], vec![change(4, 1)], Some("oam byte 0x5 0x01 and 0x03")),
            (vec![change(4, 1)], vec![change(4, 1), change(15, 1)], Some("oam byte 0xf 0x03 and 0x01")),
        ] {
            assert_eq!(difference(&ours, &theirs).as_deref(), words);
        }
    }
}
