//! The oracle's other parts: the Rust's events, a frame walked by them, and its bus.

use ashlarkin_oracle::cases::{BusCall, BusCase, Called, Cases, Change, Lent, reset_row};
use ashlarkin_oracle::*;

const FRESH: Clock = Clock { event: EventKind::HDraw, line: 0, running: [0; 4] };

#[test]
fn a_frame_is_456_events_and_each_line_is_drawn_once() {
    let mut oracle = Oracle::new();
    let (steps, registers) = ([3, -5, 7, -11], [1000, -2000, 3000, -4000]);
    let (mut clock, mut drawn, mut cycles, mut cleared) = (FRESH, vec![], 0, 0);
    for event in 1..=2 * 456 {
        let tick = oracle.event(clock, steps, registers).expect("no panic");
        drawn.extend(tick.drawn.map(|line| (event, line)));
        cycles += tick.wait;
        cleared += u32::from(tick.cleared);
        clock = tick.clock;
    }
    assert_eq!(clock.line, 0);
    assert_eq!(cycles, 2 * 280_896);
    assert_eq!(cleared, 2);
    // The first frame has no line 0: the fresh state is already past its draw.
    assert_eq!(drawn[0], (2, 1));
    assert_eq!(drawn[159], (456, 0));
    let lines: Vec<u32> = drawn[159..319].iter().map(|(_, line)| *line).collect();
    assert_eq!(lines, (0..160).collect::<Vec<_>>());
}

#[test]
fn the_rust_steps_after_lines_1_to_159_only() {
    let mut oracle = Oracle::new();
    let (steps, registers) = ([3, -5, 7, -11], [1000, -2000, 3000, -4000]);
    let last = Clock { event: EventKind::VBlankHBlank, line: 227, running: registers };
    let tick = oracle.event(last, steps, registers).expect("no panic");
    assert_eq!((tick.drawn, tick.clock.running), (Some(0), registers));
    let next = Clock { event: EventKind::HBlank, ..tick.clock };
    let tick = oracle.event(next, steps, registers).expect("no panic");
    assert_eq!((tick.drawn, tick.clock.running), (Some(1), [1003, -2005, 3007, -4011]));
}

/// The Rust's own walk of a frame gives the lines that draws and steps give, lines 0 and 1 sharing a reference.
#[test]
fn a_frame_is_its_lines() {
    let mut cases = Cases::new(3);
    for index in 0..24 {
        let mut draw = cases.case(8 * index).draws.remove(0);
        draw.references = [0x1000, -0x2000, 0x3000, 0x4000];
        let steps = [0x22, 0x26, 0x32, 0x36].map(|at| i16::from_le_bytes([draw.registers[at], draw.registers[at + 1]]));
        let mut oracle = Oracle::new();
        let frame = oracle.frame(&draw.input(), draw.references).expect("no panic");
        let mut references: Vec<u8> = draw.references.iter().flat_map(|r| r.to_le_bytes()).collect();
        for line in 0..160 {
            let (mut entries, mut output) = (reset_row(), vec![0; OUTPUT_LEN]);
            draw.line = line;
            draw.references =
                std::array::from_fn(|i| i32::from_le_bytes(std::array::from_fn(|b| references[4 * i + b])));
            assert_eq!(oracle.draw(&draw.input(), &mut entries, &mut output), Answer::Number(0));
            let expected: Vec<u8> = frame[240 * line as usize..][..240].iter().flat_map(|p| p.to_le_bytes()).collect();
            assert!(output == expected, "case {}, line {line}", 8 * index);
            if line > 0 {
                assert_eq!(oracle.step(steps, &mut references), Answer::Number(0));
            }
        }
    }
}

#[test]
fn stores_go_as_the_bus_does_them() {
    let mut oracle = Oracle::new();
    let (mut vram, mut palette, mut oam) = (vec![0; VRAM_LEN], vec![0; PALETTE_LEN], vec![0; OAM_LEN]);
    let bus = &mut Bus { mode: 0, vram: &mut vram, palette: &mut palette, oam: &mut oam };
    oracle.write_8(bus, 0x0500_0401, 0xab).expect("a palette store");
    oracle.write_16(bus, 0x0601_8002, 0x1234).expect("a store to the repeated part");
    oracle.write_8(bus, 0x0601_0000, 0x77).expect("a store to sprite tiles, which changes nothing");
    oracle.write_8(bus, 0x0700_0000, 0x77).expect("a store to OAM, which changes nothing");
    assert_eq!(oracle.read_8(bus, 0x0500_0000), Ok(0xab));
    assert_eq!(oracle.read_8(bus, 0x0601_0003), Ok(0x12));
    assert_eq!((bus.palette[0], bus.palette[1]), (0xab, 0xab));
    assert_eq!(bus.vram[0x10000..0x10004], [0, 0, 0x34, 0x12]);
    assert!(bus.oam.iter().all(|byte| *byte == 0));
    assert!(oracle.read_8(bus, 0x0800_0000).is_err(), "another page is a panic of the Rust, caught");
}

fn empty() -> Memories {
    let [vram, palette, oam] = [VRAM_LEN, PALETTE_LEN, OAM_LEN].map(|len| vec![0; len].into());
    Memories { vram, palette, oam }
}

fn registers(mode: u8) -> Vec<u8> {
    let mut registers = vec![0; REGISTERS_LEN];
    registers[0] = mode;
    registers
}

/// Document 02, W-205: 2 comes before 9, and 9 before 11, which a halfword has on page 6 alone. A refusal has no byte.
#[test]
fn calls_on_the_bus_are_judged() {
    use Access::*;
    let mut oracle = Oracle::new();
    let all = [Read8, Store8(1), Store16(1)];
    let mut number = |access, address, registers: &[u8], memories: &mut Memories| {
        let before = memories.clone();
        let (answer, value) = oracle.access(access, address, registers, memories);
        let Answer::Number(number) = answer else { panic!("{answer:?}") };
        let same = memories.vram == before.vram && memories.palette == before.palette && memories.oam == before.oam;
        assert!(number == 0 || value == 0 && same, "0x{address:08x}");
        number
    };
    let mut odd = |access| [5, 6, 7, 4].map(|page| number(access, page << 24 | 1, &registers(0), &mut empty()));
    assert_eq!(all.map(&mut odd), [[0, 0, 0, 9], [0, 0, 0, 9], [0, 11, 0, 9]]);
    for page in [0x00, 0x04, 0x08, 0x15, 0x86, 0xff] {
        assert_eq!(all.map(|access| number(access, page << 24, &registers(0), &mut empty())), [9; 3], "{page:02x}");
    }
    for len in [0, 1, 1_023, 1_025, 131_071, 131_073] {
        for address in [0x0500_0000, 0x0600_0001, 0x0700_0000, 0x0400_0000] {
            let bytes: Box<[u8]> = vec![0; len].into();
            let wrong = [
                Memories { vram: bytes.clone(), ..empty() },
                Memories { palette: bytes.clone(), ..empty() },
                Memories { oam: bytes, ..empty() },
            ];
            for mut memories in wrong {
                let found = all.map(|access| number(access, address, &registers(0), &mut memories));
                assert_eq!(found, [2; 3], "{len} bytes, 0x{address:08x}");
            }
        }
    }
    // Registers are lent to byte stores alone.
    assert_eq!(all.map(|access| number(access, 0x0400_0000, &[0; 85], &mut empty())), [9, 2, 9]);
}

/// Where sprite tiles start is tested after the fold, and modes 6 and 7 count as bitmap.
#[test]
fn a_byte_at_06018000_goes_to_10000_from_mode_3_on() {
    let mut oracle = Oracle::new();
    for mode in 0..8 {
        let mut memories = empty();
        let mut store = |address| oracle.access(Access::Store8(0x77), address, &registers(mode), &mut memories);
        assert_eq!([0x0601_8001, 0x0601_4000].map(&mut store), [(Answer::Number(0), 0), (Answer::Number(0), 0)]);
        let expected: &[u8] = if mode < 3 { &[0, 0] } else { &[0x77, 0x77] };
        assert_eq!(memories.vram[0x10000..0x10002], *expected, "mode {mode}");
        assert_eq!(memories.vram.iter().filter(|byte| **byte != 0).count(), if mode < 3 { 0 } else { 2 });
    }
}

/// What the judged calls give is what the Rust gives on lent memories.
#[test]
fn judged_calls_are_the_rusts() {
    let (mut oracle, mut again, mut cases) = (Oracle::new(), Oracle::new(), Cases::new(2));
    for index in 0..64 {
        let case = cases.bus(index);
        let by_judged =
            case.run(|call, registers, memories| oracle.access(call.access, call.address, registers, memories));
        let by_rust = case.run(|call, registers, Memories { vram, palette, oam }| {
            let lent = Memories { vram: vram.clone(), palette: palette.clone(), oam: oam.clone() };
            let number = judge_access(call.access, call.address, registers, &lent);
            if number != 0 {
                return (Answer::Number(number), 0);
            }
            let bus = &mut Bus { mode: registers[0].into(), vram, palette, oam };
            let value = match call.access {
                Access::Read8 => again.read_8(bus, call.address).expect("a read"),
                Access::Store8(value) => again.write_8(bus, call.address, value).map(|()| 0).expect("a store"),
                Access::Store16(value) => again.write_16(bus, call.address, value).map(|()| 0).expect("a store"),
            };
            (Answer::Number(0), value)
        });
        assert_eq!(by_judged, by_rust, "case {index}");
    }
}

/// Reads with so much lent, on empty memories.
fn reads(lent: impl IntoIterator<Item = Lent>) -> BusCase {
    let calls = lent.into_iter().map(|lent| BusCall { access: Access::Read8, address: 0x0600_0000, lent });
    BusCase {
        vram: vec![0; VRAM_LEN].into(),
        palette: vec![0; PALETTE_LEN],
        oam: vec![0; OAM_LEN],
        registers: registers(0),
        calls: calls.collect(),
    }
}

fn memory<'a>(memories: &'a mut Memories, name: &str) -> &'a mut [u8] {
    match name {
        "vram" => &mut memories.vram,
        "palette" => &mut memories.palette,
        _ => &mut memories.oam,
    }
}

/// Every change that a call makes is found with that call and no other, wherever it lies.
#[test]
fn every_byte_is_looked_at_after_each_call() {
    let vram = [0, 1, 2_047, 2_048, 70_000, 129_023, 129_024, VRAM_LEN - 1].map(|byte| ("vram", byte));
    let palette = [0, 1, 511, PALETTE_LEN - 1].map(|byte| ("palette", byte));
    let oam = [0, 1, 700, OAM_LEN - 1].map(|byte| ("oam", byte));
    let places = [&vram[..], &palette, &oam].concat();
    // Each twice.
    let mut walked = places.iter().chain(&places);
    let called = reads(vec![Lent::WHOLE; 2 * places.len()]).run(|_, _, memories| {
        let (name, byte) = walked.next().expect("as many calls as places");
        memory(memories, name)[*byte] += 1;
        (Answer::Number(0), 0)
    });
    let expected = [0, 1].into_iter().flat_map(|before| {
        places.iter().map(move |&(memory, byte)| {
            let changes = vec![Change { memory, byte, before, after: before + 1 }];
            Called { answer: Answer::Number(0), value: 0, changes }
        })
    });
    assert_eq!(called, expected.collect::<Vec<_>>());
}

/// What a call does to a copy of another length is seen, and doesn't reach the next call.
#[test]
fn copies_are_looked_at_and_dropped() {
    let long = Lent { oam: 2 * OAM_LEN, ..Lent::WHOLE };
    let called = reads([long, Lent::WHOLE]).run(|_, _, memories| {
        *memories.oam.last_mut().expect("it has some") += 1;
        memories.palette[0] += 1;
        (Answer::Number(0), 0)
    });
    let changed = called.iter().map(|called| called.changes.iter().map(|c| (c.memory, c.byte, c.before)).collect());
    let changed: Vec<Vec<_>> = changed.collect();
    assert_eq!(changed, [[("palette", 0, 0), ("oam", 2_047, 0)], [("palette", 0, 1), ("oam", 1_023, 0)]]);
}
