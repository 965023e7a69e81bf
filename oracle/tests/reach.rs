//! The case generator reaches what it must: each feature below is counted over the draws of 20,000 cases, and none is
//! left at 0. With `--nocapture` it prints the least count of each group, as docs/COVERAGE.md shows it.

use std::collections::BTreeMap;

use ashlarkin_oracle::cases::{Case, Cases, Draw, Kind, reset_row};
use ashlarkin_oracle::*;

#[path = "reach/bus.rs"]
mod bus;
#[path = "model/sizes.rs"]
mod sizes;
use sizes::SIZES;

const CASES: u64 = 20_000;

/// How often each value of each group was seen.
#[derive(Default)]
struct Tally(BTreeMap<&'static str, BTreeMap<String, u64>>);

impl Tally {
    /// Values that must be reached.
    fn expect(&mut self, group: &'static str, values: impl IntoIterator<Item = impl ToString>) {
        let seen = self.0.entry(group).or_default();
        values.into_iter().for_each(|value| _ = seen.insert(value.to_string(), 0));
    }

    fn saw(&mut self, group: &'static str, value: impl ToString) {
        let count = self.0.get_mut(group).and_then(|seen| seen.get_mut(&value.to_string()));
        *count.unwrap_or_else(|| panic!("{group}: {} is not among the values expected", value.to_string())) += 1;
    }

    fn saw_if(&mut self, holds: bool, group: &'static str, value: impl ToString) {
        if holds {
            self.saw(group, value);
        }
    }

    /// Prints the least seen of each group, which must have been seen.
    fn check(&self) {
        println!("| what | values | least seen | times |\n|---|---|---|---|");
        for (group, seen) in &self.0 {
            let (value, count) = seen.iter().min_by_key(|(_, count)| **count).expect("a group has values");
            println!("| {group} | {} | {value} | {count} |", seen.len());
            assert!(*count > 0, "{group}: {value} is never reached");
        }
    }
}

fn expected() -> Tally {
    let mut tally = Tally::default();
    let pairs = |a: u16, b: u16| (0..a).flat_map(move |x| (0..b).map(move |y| format!("{x} {y}")));
    tally.expect("mode, reading", pairs(6, 2));
    tally.expect("forced blank", ["on", "off"]);
    tally.expect("regular background: size, format", pairs(4, 2));
    tally.expect("regular background: tile base", 0..4);
    tally.expect("regular background: map base", 0..32);
    tally.expect("affine background: size, wrap", pairs(4, 2));
    tally.expect("bitmap: mode, frame, wrap", (3..6).flat_map(|m| pairs(2, 2).map(move |p| format!("{m} {p}"))));
    tally.expect("reference", ["lowest", "low end", "middle", "high end", "highest"]);
    tally.expect("sprite: shape, size", pairs(4, 4));
    tally.expect("sprite: type, mode", pairs(4, 4));
    tally.expect("sprite: format, mapping", pairs(2, 2));
    let bits = (0..2).flat_map(|bit| pairs(2, 2).map(move |p| format!("{bit} {p}")));
    tally.expect("sprite of 256 colours: lowest tile bit, mapping, reading", bits);
    tally.expect("sprite: left-right flip, up-down flip", pairs(2, 2));
    tally.expect("sprite: matrix", 0..32);
    tally.expect("sprite: priority", 0..4);
    tally.expect("sprite: at the edge", ["left", "right", "top", "bottom", "box doubled"]);
    tally.expect("windows on", 0..8);
    let odd = ["ordinary", "equal", "near above far", "far beyond the screen", "near beyond the screen"];
    tally.expect("window columns", odd);
    tally.expect("window rows", odd);
    tally.expect("effect, reading", pairs(4, 2));
    tally.expect("first target", 0..6);
    tally.expect("second target", 0..6);
    tally.expect("eva", 0..32);
    tally.expect("evb", 0..32);
    tally.expect("evy under R", 0..17);
    tally.expect("evy under H", 0..32);
    tally.expect("row before", ["reset", "prefilled"]);
    tally.expect("number", 0..8);
    tally.expect("refusal that applies alone", 1..8);
    // 5 needs reading R and 1 another number, so those two never meet.
    let pairs = (1..8).flat_map(|a| (a + 1..8).map(move |b| format!("{a} {b}"))).filter(|pair| pair != "1 5");
    tally.expect("refusals that apply together", pairs);
    let buffers = ["vram", "palette", "oam", "registers", "entries", "output"];
    let faults = ["empty", "short", "long"];
    tally.expect("buffer's fault", buffers.iter().flat_map(|b| faults.iter().map(move |f| format!("{b} {f}"))));
    tally.expect("draws in a chain", 2..7);
    tally.expect("in a chain", ["refused", "blank", "sprites off", "sprites on"]);
    tally
}

fn word(bytes: &[u8], at: usize) -> u16 {
    u16::from_le_bytes([bytes[at], bytes[at + 1]])
}

fn see_backgrounds(tally: &mut Tally, draw: &Draw) {
    let dispcnt = word(&draw.registers, 0);
    let mode = dispcnt & 7;
    for bg in (0..4).filter(|bg| dispcnt >> (8 + bg) & 1 == 1) {
        let control = word(&draw.registers, 8 + 2 * bg);
        let (size, wrap) = (control >> 14, control >> 13 & 1);
        match (mode, bg) {
            (0, _) | (1, 0 | 1) => {
                tally.saw("regular background: size, format", format!("{size} {}", control >> 7 & 1));
                tally.saw("regular background: tile base", control >> 2 & 3);
                tally.saw("regular background: map base", control >> 8 & 31);
            }
            (1, 2) | (2, 2 | 3) => tally.saw("affine background: size, wrap", format!("{size} {wrap}")),
            (3.., 2) => tally.saw("bitmap: mode, frame, wrap", format!("{mode} {} {wrap}", dispcnt >> 4 & 1)),
            _ => {}
        }
    }
    for reference in draw.references {
        tally.saw(
            "reference",
            match reference {
                -0x1000_0000 => "lowest",
                0x0fff_ffff => "highest",
                ..-0x0f00_0000 => "low end",
                0x0f00_0000.. => "high end",
                _ => "middle",
            },
        );
    }
}

fn see_sprites(tally: &mut Tally, draw: &Draw) {
    let dispcnt = word(&draw.registers, 0);
    for sprite in draw.oam.chunks_exact(8) {
        let [attr0, attr1, attr2] = [0, 2, 4].map(|at| word(sprite, at));
        let (kind, shape, size) = (attr0 >> 8 & 3, attr0 >> 14, attr1 >> 14);
        let (own_width, own_height) = SIZES[usize::from(size)][usize::from(shape)];
        let doubled = if kind == 3 { 2 } else { 1 };
        let (width, height) = (own_width * doubled, own_height * doubled);
        let (x, y) = (i64::from(attr1 & 511), i64::from(attr0 & 255));
        let below = (i64::from(draw.line) + 256 - y) % 256;
        if kind == 2 || below >= height {
            tally.saw_if(kind == 2, "sprite: type, mode", format!("2 {}", attr0 >> 10 & 3));
            continue;
        }
        tally.saw("sprite: shape, size", format!("{shape} {size}"));
        tally.saw("sprite: type, mode", format!("{kind} {}", attr0 >> 10 & 3));
        tally.saw("sprite: format, mapping", format!("{} {}", attr0 >> 13 & 1, dispcnt >> 6 & 1));
        let bits = format!("{} {} {}", attr2 & 1, dispcnt >> 6 & 1, draw.reading);
        tally.saw_if(attr0 >> 13 & 1 == 1, "sprite of 256 colours: lowest tile bit, mapping, reading", bits);
        tally.saw("sprite: priority", attr2 >> 10 & 3);
        if kind == 0 {
            tally.saw("sprite: left-right flip, up-down flip", format!("{} {}", attr1 >> 12 & 1, attr1 >> 13 & 1));
        } else {
            tally.saw("sprite: matrix", attr1 >> 9 & 31);
        }
        tally.saw_if(x > 512 - width, "sprite: at the edge", "left");
        tally.saw_if(x < 240 && x + width > 240, "sprite: at the edge", "right");
        tally.saw_if(y > 256 - height, "sprite: at the edge", "top");
        tally.saw_if(y < 160 && y + height > 160, "sprite: at the edge", "bottom");
        tally.saw_if(kind == 3, "sprite: at the edge", "box doubled");
    }
}

fn see_windows(tally: &mut Tally, draw: &Draw) {
    tally.saw("windows on", word(&draw.registers, 0) >> 13);
    for (group, at, side) in [("window columns", 0x40, 240), ("window rows", 0x44, 160)] {
        for window in 0..2 {
            let [far, near] = word(&draw.registers, at + 2 * window).to_le_bytes();
            tally.saw(
                group,
                match (near, far) {
                    _ if near > side => "near beyond the screen",
                    _ if near == far => "equal",
                    _ if near > far => "near above far",
                    _ if far > side => "far beyond the screen",
                    _ => "ordinary",
                },
            );
        }
    }
    let control = word(&draw.registers, 0x50);
    tally.saw("effect, reading", format!("{} {}", control >> 6 & 3, draw.reading));
    for bit in 0..6 {
        tally.saw_if(control >> bit & 1 == 1, "first target", bit);
        tally.saw_if(control >> (8 + bit) & 1 == 1, "second target", bit);
    }
    tally.saw("eva", word(&draw.registers, 0x52) & 31);
    tally.saw("evb", word(&draw.registers, 0x52) >> 8 & 31);
    let evy = if draw.reading == 0 { "evy under R" } else { "evy under H" };
    tally.saw(evy, word(&draw.registers, 0x54) & 31);
}

fn see_lengths(tally: &mut Tally, case: &Case) {
    let draw = &case.draws[0];
    let lengths = [
        ("vram", draw.vram_len, VRAM_LEN),
        ("palette", draw.palette.len(), PALETTE_LEN),
        ("oam", draw.oam.len(), OAM_LEN),
        ("registers", draw.registers.len(), REGISTERS_LEN),
        ("entries", case.entries.len(), ENTRIES_LEN),
        ("output", case.output.len(), OUTPUT_LEN),
    ];
    for (name, found, expected) in lengths {
        let fault = match found {
            0 => "empty",
            _ if found < expected => "short",
            _ => "long",
        };
        tally.saw_if(found != expected, "buffer's fault", format!("{name} {fault}"));
    }
}

/// All refusals for which a draw gives cause, not just the first.
fn causes(draw: &Draw, entries: &[u8], output: &[u8]) -> Vec<u32> {
    let input = draw.input();
    let lengths = judge_draw(&Input { reading: 0, ..input }, entries, output) == 2;
    let read = |at: usize| if draw.registers.len() == REGISTERS_LEN { word(&draw.registers, at) } else { 0x80 };
    let drawn = read(0) & 0x80 == 0;
    let far = draw.references.iter().any(|r| !(-0x1000_0000..0x1000_0000).contains(r));
    let ill = entries.chunks_exact(4).any(|entry| !well_shaped(entry));
    let evy = draw.reading == 0 && read(0x54) & 31 > 16;
    let found = [
        draw.reading > 1,
        lengths,
        draw.line >= 160,
        drawn && read(0) & 7 > 5,
        drawn && evy,
        drawn && far,
        drawn && ill,
    ];
    (1..8).zip(found).filter(|(_, applies)| *applies).map(|(number, _)| number).collect()
}

fn see(tally: &mut Tally, case: &Case) {
    see_lengths(tally, case);
    let causes = causes(&case.draws[0], &case.entries, &case.output);
    tally.saw_if(causes.len() == 1, "refusal that applies alone", causes.first().unwrap_or(&0));
    for (at, a) in causes.iter().enumerate() {
        causes[at + 1..].iter().for_each(|b| tally.saw("refusals that apply together", format!("{a} {b}")));
    }
    tally.saw("row before", if case.entries == reset_row() { "reset" } else { "prefilled" });
    let chain = case.kind == Kind::Chain;
    tally.saw_if(chain, "draws in a chain", case.draws.len());
    for draw in &case.draws {
        let number = judge_draw(&draw.input(), &case.entries, &case.output);
        tally.saw("number", number);
        tally.saw_if(chain && number != 0, "in a chain", "refused");
        if number != 0 {
            continue;
        }
        let dispcnt = word(&draw.registers, 0);
        let blank = dispcnt & 0x80 != 0;
        tally.saw("forced blank", if blank { "on" } else { "off" });
        tally.saw_if(chain && blank, "in a chain", "blank");
        if blank {
            continue;
        }
        tally.saw("mode, reading", format!("{} {}", dispcnt & 7, draw.reading));
        tally.saw_if(chain, "in a chain", if dispcnt >> 12 & 1 == 1 { "sprites on" } else { "sprites off" });
        see_backgrounds(tally, draw);
        if dispcnt >> 12 & 1 == 1 {
            see_sprites(tally, draw);
        }
        see_windows(tally, draw);
    }
}

#[test]
fn every_feature_is_reached() {
    let mut tally = expected();
    let mut cases = Cases::new(1);
    (0..CASES).for_each(|index| see(&mut tally, &cases.case(index)));
    tally.check();
}

/// A case's number is enough to make it again, alone or after others.
#[test]
fn a_number_names_a_case() {
    let digest = |case: &Case| {
        let draws =
            case.draws.iter().map(|d| (d.line, d.references, d.oam.clone(), d.registers.clone(), d.vram.clone()));
        (draws.collect::<Vec<_>>(), case.entries.clone(), case.output.clone())
    };
    let mut walked = Cases::new(7);
    for index in 0..200 {
        let case = walked.case(index);
        assert!(digest(&case) == digest(&Cases::new(7).case(index)), "case {index}");
        assert!(digest(&case) != digest(&Cases::new(8).case(index)), "case {index}");
    }
}
