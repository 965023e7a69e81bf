//! Calls on the bus: what the generator must reach within 4,000 cases.

use ashlarkin_oracle::cases::{BusCall, BusCase, Cases, Lent};
use ashlarkin_oracle::*;

use super::Tally;

const CASES: u64 = 4_000;

const ROUTINES: [&str; 3] = ["read8", "store8", "store16"];

/// Pages that are refused: those beside the three, and those that are one of them in some of their bits.
const OTHER_PAGES: [u32; 11] = [0x00, 0x04, 0x08, 0x0d, 0x15, 0x16, 0x17, 0x85, 0x86, 0x87, 0xff];

/// Where a page's memory begins, ends or changes its meaning.
fn places(page: u32) -> &'static [i64] {
    if page == 6 { &[0, 0x10000, 0x14000, 0x18000, 0x1c000] } else { &[0] }
}

/// After how many bytes it repeats.
fn size(page: u32) -> i64 {
    if page == 6 { 0x20000 } else { 0x400 }
}

/// The first, the second and the last mirror of a page, and those between.
fn mirror(page: u32, offset: i64) -> &'static str {
    let last = 0x100_0000 / size(page) - 1;
    match offset / size(page) {
        0 => "first",
        1 => "second",
        number if number == last => "last",
        _ => "between",
    }
}

fn routine(call: &BusCall) -> &'static str {
    match call.access {
        Access::Read8 => ROUTINES[0],
        Access::Store8(_) => ROUTINES[1],
        Access::Store16(_) => ROUTINES[2],
    }
}

/// Every pair of two lists' words.
fn pairs<'a>(a: &'a [&str], b: &'a [&str]) -> impl Iterator<Item = String> + 'a {
    a.iter().flat_map(move |a| b.iter().map(move |b| format!("{a} {b}")))
}

fn expected() -> Tally {
    let mut tally = Tally::default();
    for (page, mode) in [5, 6, 7].into_iter().flat_map(|page| (0..8).map(move |mode| (page, mode))) {
        // Three bytes before a place and three from it on: odd and even.
        let offsets = places(page).iter().flat_map(|place| (-3..3).map(move |by| (place + by).rem_euclid(size(page))));
        let offsets: Vec<String> = offsets.map(|at| format!("page {page} mode {mode} {at:05x}")).collect();
        let offsets: Vec<&str> = offsets.iter().map(String::as_str).collect();
        tally.expect("bus: routine, page, mode, place", pairs(&ROUTINES, &offsets));
    }
    let mirrors = [5, 6, 7].map(|page| ["first", "second", "last", "between"].map(|name| format!("{page} {name}")));
    let mirrors: Vec<&str> = mirrors.as_flattened().iter().map(String::as_str).collect();
    tally.expect("bus: routine, page, mirror", pairs(&ROUTINES, &mirrors));
    let others: Vec<String> =
        OTHER_PAGES.iter().flat_map(|page| ["even", "odd"].map(|parity| format!("{page:02x} {parity}"))).collect();
    let others: Vec<&str> = others.iter().map(String::as_str).collect();
    tally.expect("bus: routine, other page, parity", pairs(&ROUTINES, &others));
    tally.expect("bus: routine, number", pairs(&ROUTINES, &["0", "2", "9"]).chain(["store16 11".into()]));
    tally.expect("bus: refusals that apply together", ["2 9", "2 11"]);
    let faults = ["empty", "one byte", "one less", "one more", "half", "twice"];
    let buffers: Vec<String> = pairs(&["vram", "palette", "oam"], &faults).collect();
    let buffers: Vec<&str> = buffers.iter().map(String::as_str).collect();
    let registers = pairs(&["store8 registers"], &faults);
    tally.expect("bus: routine, buffer alone, its fault", pairs(&ROUTINES, &buffers).chain(registers));
    tally.expect("bus: buffers with a fault at once", 1..5);
    let ways = ["address", "mirror", "fold", "other half"];
    tally.expect("bus: read of what a store just wrote, by", pairs(&["5", "6", "7"], &ways).filter(|it| is_way(it)));
    tally.expect("bus: byte store", ["5 writes", "6 writes", "6 writes nothing", "7 writes nothing"]);
    tally
}

/// Only page 6 has a part that is folded.
fn is_way(way: &str) -> bool {
    way == "6 fold" || !way.ends_with("fold")
}

fn see_lengths(tally: &mut Tally, call: &BusCall) {
    let (lent, whole) = (call.lent, Lent::WHOLE);
    let lengths = [
        ("vram", lent.vram, whole.vram),
        ("palette", lent.palette, whole.palette),
        ("oam", lent.oam, whole.oam),
        ("registers", lent.registers, whole.registers),
    ];
    let wrong: Vec<_> = lengths.iter().filter(|(_, found, expected)| found != expected).collect();
    tally.saw_if(!wrong.is_empty(), "bus: buffers with a fault at once", wrong.len());
    if let [(name, found, expected)] = wrong[..] {
        let fault = match *found {
            0 => "empty",
            1 => "one byte",
            found if found + 1 == *expected => "one less",
            found if found == expected + 1 => "one more",
            found if found == expected / 2 => "half",
            _ => "twice",
        };
        tally.saw("bus: routine, buffer alone, its fault", format!("{} {name} {fault}", routine(call)));
    }
}

/// A call that is lent all of every buffer, by where it goes.
fn see_place(tally: &mut Tally, call: &BusCall, mode: u8) {
    let (routine, page) = (routine(call), call.address >> 24);
    let parity = ["even", "odd"][call.address as usize % 2];
    if !(5..=7).contains(&page) {
        let other = format!("{routine} {page:02x} {parity}");
        return tally.saw_if(OTHER_PAGES.contains(&page), "bus: routine, other page, parity", other);
    }
    let offset = i64::from(call.address & 0xff_ffff);
    tally.saw("bus: routine, page, mirror", format!("{routine} {page} {}", mirror(page, offset)));
    let at = offset % size(page);
    let is_special = places(page).iter().any(|place| (-3..3).any(|by| (place + by).rem_euclid(size(page)) == at));
    let place = format!("{routine} page {page} mode {mode} {at:05x}");
    tally.saw_if(is_special, "bus: routine, page, mode, place", place);
}

/// A read after a store that wrote: of the same byte by its address, through a mirror or through the fold, or of the
/// halfword's other byte.
fn see_read(tally: &mut Tally, store: &BusCall, read: &BusCall) {
    let page = read.address >> 24;
    let folded = |address: u32| {
        let at = i64::from(address & 0xff_ffff) % size(page);
        if at >= 0x18000 { at - 0x8000 } else { at }
    };
    let (to, from) = (folded(store.address), folded(read.address));
    if store.address >> 24 != page || to / 2 != from / 2 {
        return;
    }
    let way = match store.address ^ read.address {
        0 => "address",
        _ if to != from => "other half",
        bits if i64::from(bits) % size(page) == 0 => "mirror",
        _ => "fold",
    };
    tally.saw("bus: read of what a store just wrote, by", format!("{page} {way}"));
}

fn see(tally: &mut Tally, oracle: &mut Oracle, case: &BusCase) {
    let called = case.run(|call, registers, memories| oracle.access(call.access, call.address, registers, memories));
    for (at, (call, called)) in case.calls.iter().zip(&called).enumerate() {
        let Answer::Number(number) = called.answer else { panic!("{call}: {:?}", called.answer) };
        tally.saw("bus: routine, number", format!("{} {number}", routine(call)));
        see_lengths(tally, call);
        let page = call.address >> 24;
        let other = !(5..=7).contains(&page);
        let odd = routine(call) == "store16" && page == 6 && call.address % 2 == 1;
        tally.saw_if(number == 2 && other, "bus: refusals that apply together", "2 9");
        tally.saw_if(number == 2 && odd, "bus: refusals that apply together", "2 11");
        if call.lent == Lent::WHOLE {
            see_place(tally, call, case.registers[0] & 7);
        }
        let written = if called.changes.is_empty() { "writes nothing" } else { "writes" };
        // The palette may have had the byte already.
        let is_noted = routine(call) == "store8" && number == 0 && (page, written) != (5, "writes nothing");
        tally.saw_if(is_noted, "bus: byte store", format!("{page} {written}"));
        let next = case.calls.get(at + 1).filter(|next| next.access == Access::Read8 && next.lent == Lent::WHOLE);
        if let Some(read) = next.filter(|_| !called.changes.is_empty()) {
            see_read(tally, call, read);
        }
    }
}

#[test]
fn every_call_on_the_bus_is_reached() {
    let mut tally = expected();
    let (mut cases, mut oracle) = (Cases::new(1), Oracle::new());
    (0..CASES).for_each(|index| see(&mut tally, &mut oracle, &cases.bus(index)));
    tally.check();
}

#[test]
fn a_number_names_a_case_of_the_bus() {
    let digest = |case: BusCase| (case.vram, case.palette, case.oam, case.registers, case.calls);
    let mut walked = Cases::new(7);
    for index in 0..100 {
        let case = digest(walked.bus(index));
        assert!(case == digest(Cases::new(7).bus(index)), "case {index}");
        assert!(case != digest(Cases::new(8).bus(index)), "case {index}");
    }
}
