//! The second way of working a reason out, by itself.

use ashlarkin_oracle::cases::{Cases, Draw, Loaded, reset_row};
use ashlarkin_oracle::reasons::*;
use ashlarkin_oracle::{Answer, OAM_LEN, PALETTE_LEN, REGISTERS_LEN, VRAM_LEN};

const WIDTH: usize = 240;

/// A draw over empty memory with these registers, and a green backdrop whose bit 15 is set.
fn draw(reading: u32, registers: &[(usize, u16)]) -> Draw {
    let mut bytes = vec![0; REGISTERS_LEN];
    registers.iter().for_each(|(at, word)| bytes[*at..at + 2].copy_from_slice(&word.to_le_bytes()));
    let mut palette = vec![0; PALETTE_LEN];
    palette[..2].copy_from_slice(&0x83e0_u16.to_le_bytes());
    Draw {
        reading,
        line: 80,
        references: [0; 4],
        vram: vec![0; VRAM_LEN].into(),
        vram_len: VRAM_LEN,
        palette,
        oam: vec![0; OAM_LEN],
        registers: bytes,
    }
}

/// What is said of the draw on a reset row, but for the first entry.
fn said(draw: &Draw, entry: [u8; 4]) -> Vec<Reason> {
    let mut entries = reset_row();
    entries[..4].copy_from_slice(&entry);
    let columns = (0..WIDTH as u32).chain([240, u32::MAX]);
    let (answer, mut said) = reasons(&mut Loaded::default(), draw, &entries, columns);
    assert_eq!(answer, Answer::Number(0));
    assert_eq!(said.split_off(WIDTH), [Reason { number: 8, ..Reason::default() }; 2]);
    said
}

const RESET: [u8; 4] = [0x00, 0x80, 4, 0];

#[test]
fn the_backdrop_is_behind_itself() {
    let expected = Reason {
        number: 0,
        blank: 0,
        region: NO_WINDOWS,
        top: BACKDROP,
        bottom: BACKDROP,
        effect: NONE,
        top_color: 0x83e0,
        bottom_color: 0x83e0,
        first_weight: 16,
        second_weight: 0,
        pixel: 0x00f800,
    };
    assert_eq!(said(&draw(0, &[(0x00, 0x1f00)]), RESET), [expected; WIDTH]);
}

/// Of any mode, and whatever the row holds.
#[test]
fn forced_blank_names_no_layer() {
    let expected = Reason { blank: 1, top: NO_LAYER, bottom: NO_LAYER, pixel: 0xf8f8f8, ..Reason::default() };
    assert_eq!(said(&draw(0, &[(0x00, 0xff87)]), [0xff; 4]), [expected; WIDTH]);
}

/// The draw's number comes before that of a column.
#[test]
fn a_refused_draw_has_no_reason() {
    let refused = Draw { line: 160, ..draw(1, &[]) };
    let (answer, said) = reasons(&mut Loaded::default(), &refused, &reset_row(), [0, 240]);
    assert_eq!((answer, said), (Answer::Number(3), vec![Reason { number: 3, ..Reason::default() }; 2]));
}

/// A semi-transparent red sprite, first target of white by 16; the backdrop is second target or isn't.
#[test]
fn a_sprite_without_second_target_falls_through_to_white() {
    for (control, effect, weights, pixel) in
        [(0x0090, WHITE, [0, 16], 0xf8f8f8), (0x2090, SPRITE_BLEND, [31, 8], 0xf87800)]
    {
        let registers = [(0x00, 0x1000), (0x50, control), (0x52, 0x081f), (0x54, 16)];
        let reason = said(&draw(0, &registers), [0x1f, 0, 3, 1])[0];
        assert_eq!((reason.top, reason.bottom, reason.effect), (OBJECTS, BACKDROP, effect));
        assert_eq!(([reason.first_weight, reason.second_weight], reason.pixel), (weights, pixel));
    }
}

/// Window 1 alone on all rows, columns 30 to 39; window 0, which is off, has columns 10 to 19.
#[test]
fn window_1_walks_the_columns_of_window_0_under_r() {
    let registers = [(0x00, 0x4000), (0x40, 0x0a14), (0x42, 0x1e28), (0x46, 0x00a0)];
    for (reading, held) in [(0, 10..20), (1, 30..40)] {
        for (x, reason) in said(&draw(reading, &registers), RESET).iter().enumerate() {
            let region = if held.contains(&x) { WINDOW_1 } else { OUTSIDE };
            assert_eq!(reason.region, region, "column {x}, reading {reading}");
        }
    }
}

#[test]
fn white_by_nothing_is_white() {
    for (evy, weights) in [(0, [16, 0]), (16, [0, 16])] {
        let reason = said(&draw(0, &[(0x50, 0x00a0), (0x54, evy)]), RESET)[0];
        assert_eq!((reason.effect, [reason.first_weight, reason.second_weight]), (WHITE, weights));
    }
}

/// An entry of every place: before a background of its priority, and behind one of a lower.
#[test]
fn an_object_is_first_among_equals() {
    // Mode 3, all of it red, of priority 1.
    let mut draw = draw(0, &[(0x00, 0x1403), (0x0c, 1), (0x20, 0x100)]);
    draw.vram = [0x1f, 0x80].repeat(VRAM_LEN / 2).into();
    for (priority, layers, colors) in [(1, [OBJECTS, 2], [0x7c00, 0x801f]), (2, [2, OBJECTS], [0x801f, 0x7c00])] {
        let reason = said(&draw, [0, 0x7c, priority, 0])[0];
        assert_eq!([reason.top, reason.bottom], layers);
        assert_eq!([reason.top_color, reason.bottom_color], colors);
    }
}

/// The colour that a reason's own numbers give.
fn sum(reason: &Reason) -> u32 {
    let other = match reason.effect {
        WHITE => 0x7fff,
        BLACK => 0,
        _ => reason.bottom_color,
    };
    let channel = |lowest: u32| {
        let [a, b] = [reason.top_color, other].map(|color| u32::from(color >> lowest & 31));
        31.min((a * u32::from(reason.first_weight) + b * u32::from(reason.second_weight)) / 16)
    };
    channel(0) << 19 | channel(5) << 11 | channel(10) << 3
}

/// Colours and weights are worked out here and the pixel is the Rust's: they agree.
#[test]
fn the_rusts_pixel_follows() {
    let (mut cases, mut oracle) = (Cases::new(1), Loaded::default());
    let mut columns = 0;
    for index in 0..2_000 {
        let case = cases.case(index);
        let said = reasons(&mut oracle, &case.draws[0], &case.entries, 0..WIDTH as u32).1;
        for (x, reason) in said.iter().enumerate().filter(|(_, reason)| reason.number == 0 && reason.blank == 0) {
            assert_eq!(sum(reason), reason.pixel, "case {index}, column {x}: {reason:?}");
            columns += 1;
        }
    }
    assert!(columns > 400_000, "{columns} columns");
}
