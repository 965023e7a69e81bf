//! A frame: 160 lines drawn in turn, and the PNG of them.

use std::fs;
use std::path::Path;

use anyhow::{Context, Result, ensure};
use ashlarkin::{ENTRIES_LEN, HEIGHT, Input, OUTPUT_LEN, READING_H, READING_R, Refusal, WIDTH};
use clap::ValueEnum;
use serde::Serialize;

use crate::capture::{self, Capture};
use crate::exit::{Exit, Refused};
use crate::output;

// Register offsets (GBATEK, "LCD I/O").
const DISPCNT: usize = 0x00;
const BG2PB: usize = 0x22;
const BG2PD: usize = 0x26;
const BG2X: usize = 0x28;
const BG2Y: usize = 0x2c;
const BG3PB: usize = 0x32;
const BG3PD: usize = 0x36;
const BG3X: usize = 0x38;
const BG3Y: usize = 0x3c;
const BLDY: usize = 0x54;

/// Whose rules to draw by.
#[derive(Clone, Copy, Serialize, ValueEnum)]
pub enum Reading {
    /// As the emulator's Rust draws
    #[value(name = "R")]
    R = READING_R as isize,
    /// As the hardware notes say, where they part from the Rust
    #[value(name = "H")]
    H = READING_H as isize,
}

impl Reading {
    /// The first line that is drawn with stepped references: the Rust has no step after line 0.
    fn first_stepped(self) -> u32 {
        match self {
            Reading::R => 2,
            Reading::H => 1,
        }
    }
}

/// How a capture becomes a picture.
#[derive(Clone, Copy)]
pub struct Style {
    pub reading: Reading,
    pub scale: u32,
}

/// A drawn frame, three bytes a pixel: red, green, blue.
pub struct Frame {
    pixels: Vec<u8>,
}

/// Draws the 160 lines of a capture.
pub fn draw(capture: &Capture, reading: Reading) -> Result<Frame> {
    let mut pixels = Vec::with_capacity(WIDTH * HEIGHT as usize * 3);
    for input in lines(capture, reading) {
        let input = input?;
        let output = draw_line(&input).map_err(|refusal| refused(refusal, &input))?;
        // A word is 0x00RRGGBB, little-endian.
        pixels.extend(output.chunks_exact(4).flat_map(|word| [word[2], word[1], word[0]]));
    }
    Ok(Frame { pixels })
}

/// What the draws of a frame read, line by line, each with the references stepped to it.
pub fn lines(capture: &Capture, reading: Reading) -> impl Iterator<Item = Result<Input<'_>>> {
    let steps = [BG2PB, BG2PD, BG3PB, BG3PD].map(|offset| half(&capture.registers, offset) as i16);
    let mut input = first_line(capture, reading);
    (0..HEIGHT).map(move |line| {
        input.line = line;
        if line >= reading.first_stepped() {
            let stepped = ashlarkin::stepped(steps, input.references);
            input.references = stepped.map_err(|refusal| refused(refusal, &input))?;
        }
        Ok(input)
    })
}

/// One line, over a row of reset entries.
fn draw_line(input: &Input) -> Result<[u8; OUTPUT_LEN], Refusal> {
    let (mut entries, mut output) = ([0; ENTRIES_LEN], [0; OUTPUT_LEN]);
    ashlarkin::reset(&mut entries)?;
    ashlarkin::draw(input, &mut entries, &mut output)?;
    Ok(output)
}

/// A capture doesn't hold the running references, so they start from the registers, as at vertical blank.
fn first_line(capture: &Capture, reading: Reading) -> Input<'_> {
    let registers = &capture.registers;
    Input {
        reading: reading as u32,
        line: 0,
        references: [BG2X, BG2Y, BG3X, BG3Y].map(|offset| reference(registers, offset)),
        vram: &capture.vram,
        palette: &capture.palette,
        oam: &capture.oam,
        registers,
    }
}

fn half(registers: &[u8], offset: usize) -> u16 {
    u16::from_le_bytes([registers[offset], registers[offset + 1]])
}

/// A reference register: 28 bits, signed.
fn reference(registers: &[u8], offset: usize) -> i32 {
    let word = u32::from(half(registers, offset)) | u32::from(half(registers, offset + 2)) << 16;
    (word << 4) as i32 >> 4
}

/// Says why a line isn't drawn or explained, with the values that the number is about.
pub fn refused(refusal: Refusal, input: &Input) -> anyhow::Error {
    let value = match refusal {
        Refusal::Mode => format!("DISPCNT is 0x{:04x}", half(input.registers, DISPCNT)),
        Refusal::Brightness => format!("BLDY is 0x{:04x}", half(input.registers, BLDY)),
        Refusal::Reference => format!("references are {:?}", input.references),
        _ => "not drawn".to_owned(),
    };
    Refused { refusal, line: Some(input.line), found: format!("{value}: {}", refusal.meaning()) }.into()
}

impl Frame {
    /// The PNG's bytes, each pixel a square of `scale` by `scale`.
    pub fn png(&self, scale: u32) -> Result<Vec<u8>> {
        let mut bytes = Vec::new();
        let mut encoder = png::Encoder::new(&mut bytes, WIDTH as u32 * scale, HEIGHT * scale);
        encoder.set_color(png::ColorType::Rgb);
        encoder.set_depth(png::BitDepth::Eight);
        let mut writer = encoder.write_header()?;
        writer.write_image_data(&self.scaled(scale as usize))?;
        writer.finish()?;
        Ok(bytes)
    }

    fn scaled(&self, scale: usize) -> Vec<u8> {
        let mut pixels = Vec::with_capacity(self.pixels.len() * scale * scale);
        for line in self.pixels.chunks_exact(WIDTH * 3) {
            let wide: Vec<u8> = line.chunks_exact(3).flat_map(|pixel| pixel.repeat(scale)).collect();
            pixels.extend(wide.repeat(scale));
        }
        pixels
    }
}

/// Reads a capture and draws it: the PNG's bytes.
pub fn render(capture: &Path, style: Style) -> Result<Vec<u8>> {
    let named = || capture.display().to_string();
    let frame = draw(&Capture::read(capture)?, style.reading).with_context(named)?;
    frame.png(style.scale).with_context(named)
}

/// Reads, draws and writes one capture.
pub fn run(capture: &Path, path: &Path, style: Style) -> Result<Exit> {
    const WAY_OUT: &str = "give -o a file in a folder that exists and can be written";
    let named = || path.display().to_string();
    let own = fs::canonicalize(path).is_ok_and(|path| capture::files(capture).contains(&path));
    ensure!(!own, "{}: a file of the capture itself, expected another; give -o another name", named());
    output::write(path, &render(capture, style)?, WAY_OUT).with_context(named)?;
    Ok(Exit::Done)
}

#[cfg(test)]
mod tests {
    use super::*;

    #[test]
    fn a_reference_has_28_bits_and_a_sign() {
        let signed = |word: u32| reference(&word.to_le_bytes(), 0);
        assert_eq!(signed(0x07ff_ffff), 0x07ff_ffff);
        assert_eq!(signed(0x0800_0000), -0x0800_0000);
        assert_eq!(signed(0x0fff_ffff), -1);
        assert_eq!(signed(0xf000_0001), 1);
    }

    #[test]
    fn scaling_repeats_columns_and_lines() {
        let pixels: Vec<u8> = (0..WIDTH * HEIGHT as usize * 3).map(|i| (i % 251) as u8).collect();
        let frame = Frame { pixels };
        let scaled = frame.scaled(3);
        for (x, y) in [(0, 0), (2, 1), (719, 479), (100, 300)] {
            let (from, to) = ((y / 3 * WIDTH + x / 3) * 3, (y * WIDTH * 3 + x) * 3);
            assert_eq!(scaled[to..to + 3], frame.pixels[from..from + 3], "({x}, {y})");
        }
        assert_eq!(scaled.len(), frame.pixels.len() * 9);
    }
}
