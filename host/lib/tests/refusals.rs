//! Every number of documents 01 and 02 but for the bus's (bus.rs), asked for through the wrapper: a refusal changes no
//! byte, a draw writes every pixel, a reason changes nothing.

use std::thread;

use ashlarkin::*;
use ashlarkin_oracle::cases::Random;

/// A whole draw, with a pattern in the buffers that are written.
#[derive(Clone)]
struct Lent {
    reading: u32,
    line: u32,
    references: [i32; 4],
    vram: Vec<u8>,
    palette: Vec<u8>,
    oam: Vec<u8>,
    registers: Vec<u8>,
    entries: Vec<u8>,
    output: Vec<u8>,
}

impl Lent {
    fn new() -> Lent {
        let mut entries = vec![0; ENTRIES_LEN];
        reset(&mut entries).unwrap();
        Lent {
            reading: READING_R,
            line: 0,
            references: [0; 4],
            vram: vec![0; VRAM_LEN],
            palette: vec![0; PALETTE_LEN],
            oam: vec![0; OAM_LEN],
            registers: vec![0; REGISTERS_LEN],
            entries,
            output: vec![0xa5; OUTPUT_LEN],
        }
    }

    fn draw(&mut self) -> Result<(), Refusal> {
        let Lent { reading, line, references, vram, palette, oam, registers, entries, output } = self;
        let input = Input { reading: *reading, line: *line, references: *references, vram, palette, oam, registers };
        draw(&input, entries, output)
    }

    /// The reason of a column, which changes no byte of what is lent.
    fn explain(&self, column: u32) -> Result<Reason, Refusal> {
        let before = self.clone();
        let Lent { reading, line, references, vram, palette, oam, registers, entries, .. } = self;
        let input = Input { reading: *reading, line: *line, references: *references, vram, palette, oam, registers };
        let said = explain(&input, entries, column);
        assert!(self.memories() == before.memories() && *entries == before.entries, "{said:?} changed a byte");
        said
    }

    fn memories(&self) -> [&Vec<u8>; 4] {
        [&self.vram, &self.palette, &self.oam, &self.registers]
    }

    fn buffers(&mut self) -> [&mut Vec<u8>; 6] {
        [&mut self.vram, &mut self.palette, &mut self.oam, &mut self.registers, &mut self.entries, &mut self.output]
    }
}

/// A draw after `change` is refused so, and leaves both buffers as they were.
fn undrawn(refusal: Refusal, change: impl Fn(&mut Lent)) {
    let mut lent = Lent::new();
    change(&mut lent);
    let before = lent.clone();
    assert_eq!(lent.draw(), Err(refusal));
    assert!(lent.entries == before.entries && lent.output == before.output, "{refusal:?} changed a byte");
}

/// Draw and reasons after `change` are refused so, those of columns that there aren't too.
fn refused(refusal: Refusal, change: impl Fn(&mut Lent)) {
    let mut lent = Lent::new();
    change(&mut lent);
    for column in [0, 239, 240] {
        assert_eq!(lent.explain(column), Err(refusal), "column {column}");
    }
    undrawn(refusal, change);
}

fn drawn(change: impl Fn(&mut Lent)) -> Lent {
    let mut lent = Lent::new();
    change(&mut lent);
    assert_eq!(lent.draw(), Ok(()));
    lent
}

#[test]
fn each_refusal_is_given_and_changes_nothing() {
    for reading in [2, u32::MAX] {
        refused(Refusal::Reading, |lent| lent.reading = reading);
    }
    for line in [160, u32::MAX] {
        refused(Refusal::Line, |lent| lent.line = line);
    }
    for mode in [6, 7] {
        refused(Refusal::Mode, |lent| lent.registers[0] = mode);
    }
    refused(Refusal::Brightness, |lent| lent.registers[0x54] = 17);
    for at in 0..4 {
        for reference in [1 << 28, -(1 << 28) - 1, i32::MAX, i32::MIN] {
            refused(Refusal::Reference, |lent| lent.references[at] = reference);
        }
    }
    for (at, byte) in [(0, 1), (1, 0), (2, 5), (3, 1), (959, 4)] {
        refused(Refusal::Entry, |lent| lent.entries[at] = byte);
    }
}

#[test]
fn every_other_length_is_refused() {
    for at in 0..6 {
        let whole = Lent::new().buffers()[at].len();
        for len in [0, 1, whole / 2, whole - 1, whole + 1, 2 * whole] {
            let cut = |lent: &mut Lent| lent.buffers()[at].resize(len, 0);
            // The output isn't lent for a reason.
            if at < 5 { refused(Refusal::Length, cut) } else { undrawn(Refusal::Length, cut) }
        }
    }
}

#[test]
fn the_first_that_applies_is_given() {
    let faults: [fn(&mut Lent); 7] = [
        |lent| lent.reading = 2,
        |lent| lent.oam.truncate(7),
        |lent| lent.line = 160,
        |lent| lent.registers[0] = 7,
        |lent| lent.registers[0x54] = 31,
        |lent| lent.references[3] = 1 << 28,
        |lent| lent.entries[3] = 9,
    ];
    for (at, number) in (0..7).zip(1..) {
        refused(Refusal::of(number), |lent| faults[at..].iter().for_each(|fault| fault(lent)));
    }
}

/// 8 comes last: a reason has no other fault, forced blank or not.
#[test]
fn a_column_that_there_isnt_is_refused() {
    for control in [0, 0x80] {
        let mut lent = Lent::new();
        lent.registers[0] = control;
        for column in [0, 239] {
            assert!(lent.explain(column).is_ok(), "column {column}");
        }
        for column in [240, 241, 255, 256, 1 << 16, 1 << 31, u32::MAX] {
            assert_eq!(lent.explain(column), Err(Refusal::Column), "column {column}");
        }
    }
    assert_eq!((Refusal::Column.number(), Refusal::of(8)), (8, Refusal::Column));
}

/// Forced blank isn't stopped by 4 to 7, and names no layer.
#[test]
fn forced_blank_is_its_own_reason() {
    let mut lent = Lent::new();
    (lent.registers[0], lent.registers[0x54]) = (0x87, 31);
    lent.references = [i32::MAX; 4];
    lent.entries.fill(0xff);
    let said = lent.explain(239);
    assert_eq!(said, Ok(Reason::ForcedBlank));
    assert_eq!(said.map(|reason| reason.pixel()), Ok(0xf8f8f8));
}

/// A row with a semi-transparent object in front of the backdrop, blended under each reading by its own weights.
#[test]
fn a_reason_has_the_readings_weights() {
    let mut lent = Lent::new();
    (lent.palette[0], lent.palette[1], lent.registers[1]) = (10, 0x80, 0x10);
    (lent.registers[0x51], lent.registers[0x52], lent.registers[0x53]) = (0x20, 8, 31);
    lent.entries[4..8].copy_from_slice(&[20, 0, 3, 1]);
    for (reading, second_weight, pixel) in [(READING_R, 31, 29 << 19), (READING_H, 16, 20 << 19)] {
        lent.reading = reading;
        let expected = Shown {
            region: Region::NoWindows,
            top: Layer::Objects,
            bottom: Layer::Backdrop,
            effect: Effect::SpriteBlend,
            top_color: 20,
            bottom_color: 0x800a,
            first_weight: 8,
            second_weight,
            pixel,
        };
        assert_eq!(lent.explain(1), Ok(Reason::Shown(expected)));
        let mut drawn = lent.clone();
        assert_eq!(drawn.draw(), Ok(()));
        assert_eq!(drawn.output[4..8], pixel.to_le_bytes());
    }
}

#[test]
fn the_ends_of_the_ranges_are_drawn() {
    for line in [0, 159] {
        drawn(|lent| lent.line = line);
    }
    drawn(|lent| lent.registers[0x54] = 16);
    drawn(|lent| (lent.reading, lent.registers[0x54]) = (READING_H, 31));
    drawn(|lent| lent.references = [(1 << 28) - 1, -(1 << 28), (1 << 28) - 1, -(1 << 28)]);
}

#[test]
fn a_draw_writes_every_pixel() {
    let red = drawn(|lent| lent.palette[0] = 0x1f);
    assert_eq!(red.output, [0, 0, 0xf8, 0].repeat(WIDTH));
    // Forced blank isn't stopped by 4 to 7, and leaves the entries.
    let blank = drawn(|lent| {
        (lent.registers[0], lent.registers[0x54]) = (0x87, 31);
        lent.references = [i32::MAX; 4];
        lent.entries.fill(0xff);
    });
    assert_eq!(blank.output, [0xf8, 0xf8, 0xf8, 0].repeat(WIDTH));
    assert_eq!(blank.entries, [0xff; ENTRIES_LEN]);
}

#[test]
fn a_row_is_reset_or_left() {
    for len in (0..ENTRIES_LEN + 64).chain([2 * ENTRIES_LEN]) {
        let mut row = vec![0xa5; len];
        match reset(&mut row) {
            Ok(()) => assert_eq!(row, [0x00, 0x80, 4, 0].repeat(WIDTH)),
            refusal => assert!(refusal == Err(Refusal::Length) && row == vec![0xa5; len], "{len} bytes"),
        }
        assert_eq!(row.get(..2) == Some(&[0x00, 0x80]), len == ENTRIES_LEN);
    }
}

#[test]
fn a_step_is_taken_whole_or_not_at_all() {
    let (most, least) = ((1 << 28) - 1, -(1 << 28));
    assert_eq!(stepped([i16::MAX, i16::MIN, 0, -1], [0, 0, most, 1]), Ok([32_767, -32_768, most, 0]));
    for at in 0..4 {
        for (step_by, reference) in [(1, most), (-1, least), (0, most + 1), (-1, most + 1), (1, least - 1)] {
            let (mut steps, mut references) = ([5; 4], [10; 4]);
            (steps[at], references[at]) = (step_by, reference);
            let before = references.map(i32::to_le_bytes);
            let mut bytes = before;
            assert_eq!(step(steps, bytes.as_flattened_mut()), Err(Refusal::Reference));
            assert_eq!(bytes, before);
        }
    }
    for len in [0, 1, 15, 17, 32] {
        // 2 is tested before 6.
        let mut bytes = vec![0x7f; len];
        assert_eq!(step([0; 4], &mut bytes), Err(Refusal::Length));
        assert_eq!(bytes, vec![0x7f; len]);
    }
}

#[test]
fn threads_draw_at_the_same_time() {
    let mut random = Random::new(1, 0);
    let memories = [VRAM_LEN, PALETTE_LEN, OAM_LEN].map(|len| random.bytes(len));
    let line = |mode: u8, line: u32| {
        drawn(|lent| {
            [lent.vram, lent.palette, lent.oam] = memories.clone();
            (lent.registers[0], lent.registers[1]) = (mode, 0x1f);
            lent.line = line;
        })
        .output
    };
    let lines = |mode: u8| (0..HEIGHT).map(|y| line(mode, y)).collect::<Vec<_>>();
    let alone: Vec<_> = (0..6).map(lines).collect();
    let together: Vec<_> = thread::scope(|scope| {
        let threads: Vec<_> = (0..6).map(|mode| scope.spawn(move || lines(mode))).collect();
        threads.into_iter().map(|thread| thread.join().unwrap()).collect()
    });
    assert!(alone == together);
    assert!(alone[0] != alone[3], "the modes draw different pictures");
}
