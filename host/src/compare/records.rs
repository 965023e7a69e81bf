//! The same work over records: rows made of a case's entry bytes, backgrounds of its step, and faults that bytes don't
//! have. Pure in (seed, index), as cases are.

use ashlarkin::{BgAffine, ObjBufferEntry, REFERENCES_LEN, WIDTH};
use ashlarkin_oracle::cases::{Case, Cases, Kind, Random};
use serde::{Deserialize, Serialize};

/// Streams of records stand apart from those of the bytes that they are made of.
const APART: u64 = 0x4ec0_4d50;

/// Draws over a row of records; the case's own entries are empty.
#[derive(Clone, Deserialize, Serialize)]
#[serde(deny_unknown_fields)]
pub struct RecordCase {
    pub case: Case,
    pub row: Vec<ObjBufferEntry>,
}

impl RecordCase {
    fn new(case: &Case) -> RecordCase {
        let row = case.entries.chunks_exact(4).map(record_of).collect();
        RecordCase { case: Case { entries: vec![], ..case.clone() }, row }
    }

    /// A case over records. A faulty one has every other time a fault of records besides its own, and stands beside an
    /// accepted case that has a fault of records alone.
    pub fn of(cases: &mut Cases, seed: u64, index: u64, case: &Case) -> Vec<RecordCase> {
        let mut all = vec![RecordCase::new(case)];
        if case.kind == Kind::Faulty {
            let (turn, random) = (index / 8, &mut Random::new(seed ^ APART, index));
            if turn % 2 == 1 {
                all[0].damage(random);
            }
            // Of the accepted cases before it, by turns one under H and one under R.
            let mut alone = RecordCase::new(&cases.case(index - 1 - 2 * (turn % 2)));
            alone.case.kind = Kind::Faulty;
            alone.damage(random);
            all.push(alone);
        }
        all
    }

    /// Another count of records, or a priority that no byte holds.
    fn damage(&mut self, random: &mut Random) {
        let (any_column, any) = (random.below(WIDTH as u32), random.range(256, 0xffff) as u16);
        let column = random.pick(&[0, 1, 119, 238, 239, any_column]);
        match (random.below(8), self.row.get_mut(column as usize)) {
            (0, _) => self.row.clear(),
            (1, _) => self.row.resize(WIDTH - 1, ObjBufferEntry::default()),
            (2, _) => self.row.resize(WIDTH + 1, ObjBufferEntry::default()),
            (_, None) => {}
            // Its low byte is the one that would do.
            (3 | 4, Some(record)) => record.priority += 256,
            (_, Some(record)) => record.priority = random.pick(&[256, 260, 0xffff, any]),
        }
    }
}

/// The backgrounds of a step: references of another length are cut or filled, since records have none, and the fields
/// that a step doesn't name are noise.
pub fn backgrounds(seed: u64, index: u64, steps: [i16; 4], references: &[u8]) -> [BgAffine; 2] {
    let mut bytes = references.to_vec();
    bytes.resize(REFERENCES_LEN, 0);
    let points = numbers(&bytes);
    let random = &mut Random::new(!seed ^ APART, index);
    std::array::from_fn(|at| BgAffine {
        pa: random.word() as i16,
        pb: steps[2 * at],
        pc: random.word() as i16,
        pd: steps[2 * at + 1],
        x: random.signed(),
        y: random.signed(),
        internal_x: points[2 * at],
        internal_y: points[2 * at + 1],
    })
}

/// The words of references' bytes.
fn numbers(bytes: &[u8]) -> Vec<i32> {
    bytes.as_chunks::<4>().0.iter().map(|word| i32::from_le_bytes(*word)).collect()
}

/// The record of four entry bytes.
pub fn record_of(bytes: &[u8]) -> ObjBufferEntry {
    ObjBufferEntry {
        window: bytes[3] & 2 != 0,
        alpha: bytes[3] & 1 != 0,
        color: u16::from_le_bytes([bytes[0], bytes[1]]),
        priority: bytes[2].into(),
    }
}

/// The entry bytes that a record stands for. A priority that no byte holds is ill shaped, and so is 255.
pub fn bytes_of(record: &ObjBufferEntry) -> [u8; 4] {
    let [low, high] = record.color.to_le_bytes();
    let marks = u8::from(record.alpha) | u8::from(record.window) << 1;
    [low, high, u8::try_from(record.priority).unwrap_or(255), marks]
}

#[cfg(test)]
mod tests {
    use super::*;

    /// Every fault of records is among the faulty cases, beside draws that have no other.
    #[test]
    fn faults_of_records_are_made() {
        let mut cases = Cases::new(1);
        let (mut counts, mut priorities) = (vec![], vec![]);
        for index in (0..150).map(|turn| 8 * turn + 6) {
            let case = cases.case(index);
            let made = RecordCase::of(&mut cases, 1, index, &case);
            let again = RecordCase::of(&mut cases, 1, index, &case);
            assert!(made.iter().map(|case| &case.row).eq(again.iter().map(|case| &case.row)), "case {index}");
            let [_, alone] = &made[..] else { panic!("case {index} is faulty") };
            counts.push(alone.row.len());
            priorities.extend(alone.row.iter().map(|record| record.priority).filter(|priority| *priority > 4));
        }
        assert!([0, 239, 240, 241].iter().all(|count| counts.contains(count)), "{counts:?}");
        assert!([256, 260, 0xffff].iter().all(|priority| priorities.contains(priority)), "{priorities:?}");
        assert!(priorities.iter().all(|priority| *priority > 255), "{priorities:?}");
    }

    #[test]
    fn a_record_is_its_bytes() {
        for bytes in [[0x00, 0x80, 4, 0], [0xff, 0x7f, 3, 1], [0x34, 0x12, 255, 2], [0, 0, 0, 3]] {
            assert_eq!(bytes_of(&record_of(&bytes)), bytes);
        }
        assert_eq!(record_of(&[0x00, 0x80, 4, 0]), ObjBufferEntry::default());
        for priority in [255, 256, 260, 0xffff] {
            assert_eq!(bytes_of(&ObjBufferEntry { priority, ..ObjBufferEntry::default() })[2], 255);
        }
    }
}
