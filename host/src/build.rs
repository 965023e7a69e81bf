//! A capture built from nothing: a text of stores, replayed through the proved library as the bus does them.

use std::path::Path;
use std::{fs, io, str};

use anyhow::{Context, Result, anyhow, bail, ensure};
use ashlarkin::{Memories, Refusal};

use crate::capture::{self, Capture, FILE_MAX, PARTS};
use crate::exit::{Exit, Refused};

/// One line of the text.
#[derive(Clone, Copy, Debug, PartialEq)]
enum Store {
    Byte(u32, u8),
    Halfword(u32, u16),
}

/// Reads the stores, replays them, and writes the capture if all were done.
pub fn run(stores: &Path, registers: &Path, folder: &Path) -> Result<Exit> {
    const WAY_OUT: &str = "give -o a folder that can be written";
    check_outputs(stores, registers, folder)?;
    let mut capture = Capture::zeros(capture::read_registers(registers)?);
    let named = || if is_stdin(stores) { "standard input".to_owned() } else { stores.display().to_string() };
    let bytes = read(stores).with_context(named)?;
    text_of(&bytes).and_then(|text| replay(text, &mut capture)).with_context(named)?;
    fs::create_dir_all(folder)
        .map_err(|error| anyhow!("can't be made: {error}; {WAY_OUT}"))
        .with_context(|| folder.display().to_string())?;
    capture.write(folder, WAY_OUT)?;
    Ok(Exit::Done)
}

/// A file that is written may not be one that is read, but for the registers in their place: they stay as they are.
fn check_outputs(stores: &Path, registers: &Path, folder: &Path) -> Result<()> {
    for part in PARTS {
        let path = folder.join(part);
        let Ok(output) = fs::canonicalize(&path) else { continue };
        let is = |input: &Path| fs::canonicalize(input).is_ok_and(|input| input == output);
        let own = is(stores) || is(registers) && !path.ends_with("registers.bin");
        ensure!(!own, "{}: a file that it is built from, expected another; give -o another folder", path.display());
    }
    Ok(())
}

fn is_stdin(stores: &Path) -> bool {
    stores == Path::new("-")
}

fn read(stores: &Path) -> Result<Vec<u8>> {
    let read = if is_stdin(stores) { capture::read_bounded(io::stdin()) } else { capture::read_file(stores) };
    let bytes = read.map_err(|error| capture::unreadable(error, "a text of stores", "give the path of one"))?;
    const WAY_OUT: &str = "leave out stores that later ones replace";
    ensure!(bytes.len() <= FILE_MAX, "more than {FILE_MAX} bytes, expected fewer; {WAY_OUT}");
    Ok(bytes)
}

fn text_of(bytes: &[u8]) -> Result<&str> {
    let text = str::from_utf8(bytes).map_err(|error| {
        let line = bytes[..error.valid_up_to()].iter().filter(|&&byte| byte == b'\n').count() + 1;
        anyhow!("line {line}: not UTF-8, expected a text of stores; save it as UTF-8")
    })?;
    // Some editors begin a text with this mark.
    Ok(text.strip_prefix('\u{feff}').unwrap_or(text))
}

/// Does the stores in turn, and stops at the first line that is none or is refused.
fn replay(text: &str, capture: &mut Capture) -> Result<()> {
    let Capture { vram, palette, oam, registers } = capture;
    let mut memories = Memories { vram, palette, oam };
    for (line, number) in text.lines().zip(1..) {
        let done = Store::parse(line).and_then(|store| store.map_or(Ok(()), |s| s.replay(registers, &mut memories)));
        done.with_context(|| format!("line {number}"))?;
    }
    Ok(())
}

impl Store {
    /// None where nothing stands before a comment.
    fn parse(line: &str) -> Result<Option<Store>> {
        // An old kind of line end, with which a comment would hide all that follows.
        ensure!(!line.contains('\r'), "a carriage return inside, expected lines that end in LF or CR LF");
        let code = line.split('#').next().unwrap_or_default();
        let words: Vec<&str> = code.split_whitespace().collect();
        let [width, address, value] = words[..] else {
            ensure!(words.is_empty(), "'{}', expected a width, an address and a value", shortened(code.trim()));
            return Ok(None);
        };
        let address = || number("address", address, u32::MAX);
        match width {
            "8" => Ok(Some(Store::Byte(address()?, number("value", value, u8::MAX)?))),
            "16" => Ok(Some(Store::Halfword(address()?, number("value", value, u16::MAX)?))),
            _ => bail!("width {}, expected 8 or 16", shortened(width)),
        }
    }

    fn replay(self, registers: &[u8], memories: &mut Memories) -> Result<()> {
        let (address, done) = match self {
            Store::Byte(address, value) => (address, ashlarkin::store8(address, value, registers, memories)),
            Store::Halfword(address, value) => (address, ashlarkin::store16(address, value, memories)),
        };
        done.map_err(|refusal| {
            let found = match refusal {
                Refusal::Page => format!("0x{address:08x}: page 0x{:02x}, expected 0x05 to 0x07", address >> 24),
                _ => format!("0x{address:08x}: {}", refusal.meaning()),
            };
            Refused { refusal, line: None, found }.into()
        })
    }
}

/// A number up to `most`, in hex after 0x or in decimal. `_` may stand between digits.
fn number<T: TryFrom<u64> + Into<u64>>(what: &str, word: &str, most: T) -> Result<T> {
    let (digits, radix) = word.strip_prefix("0x").map_or((word, 10), |digits| (digits, 16));
    let apart = digits.split('_').all(|group| !group.is_empty());
    let sum = digits.chars().filter(|&c| c != '_').try_fold(0_u64, |sum, digit| {
        let digit = digit.to_digit(radix)?;
        Some(sum.saturating_mul(radix.into()).saturating_add(digit.into()))
    });
    let most = most.into();
    let fits = sum.filter(|&sum| apart && sum <= most).and_then(|sum| T::try_from(sum).ok());
    fits.with_context(|| format!("{what} {}, expected 0 to {most} or 0x{most:x}", shortened(word)))
}

/// What was found, as an error shows it: a line of a wrong file may be long.
fn shortened(found: &str) -> String {
    const MOST: usize = 40;
    match found.char_indices().nth(MOST) {
        Some((end, _)) => format!("{}..", &found[..end]),
        None => found.to_owned(),
    }
}

#[cfg(test)]
mod tests {
    use super::*;

    #[test]
    fn a_line_is_a_store_or_nothing() {
        let parsed = |line: &str| Store::parse(line).unwrap();
        assert_eq!(parsed("8 0x05000000 255"), Some(Store::Byte(0x0500_0000, 255)));
        assert_eq!(parsed("\t16   0x0600_0000\t0xFfFf # both"), Some(Store::Halfword(0x0600_0000, 0xffff)));
        assert_eq!(parsed("16 4_294_967_295 0#"), Some(Store::Halfword(u32::MAX, 0)));
        assert_eq!(parsed("8 00000000000000000000005 0x00000000000000000ff"), Some(Store::Byte(5, 255)));
        for line in ["", "   ", "\t", "#", "# 8 0x05000000 255", "  # 32 x"] {
            assert_eq!(parsed(line), None, "{line:?}");
        }
    }

    #[test]
    fn a_number_has_digits_and_an_end() {
        let byte = |word: &str| number("value", word, u8::MAX).ok();
        for (word, value) in [("0", 0), ("007", 7), ("0x0", 0), ("0xfF", 255), ("2_5_5", 255), ("0xf_f", 255)] {
            assert_eq!(byte(word), Some(value), "{word}");
        }
        let none =
            ["", "0x", "_", "_1", "1_", "1__0", "0x_1", "0_x1", "+1", "-1", "1.0", "f", "0xg", "0X1", "1e1", "$1"];
        let large = ["256", "0x100", "65535", "18446744073709551616", "0x10000000000000000", "0x1_0000_0000_0000_0001"];
        for word in none.into_iter().chain(large).chain(["٣", "１"]) {
            assert_eq!(byte(word), None, "{word}");
        }
        assert_eq!(number("address", "0xffff_ffff", u32::MAX).ok(), Some(u32::MAX));
        assert_eq!(number("address", "4294967296", u32::MAX).ok(), None);
    }

    #[test]
    fn what_is_long_is_shortened() {
        assert_eq!(shortened(&"é".repeat(40)), "é".repeat(40));
        assert_eq!(shortened(&"é".repeat(41)), "é".repeat(40) + "..");
    }
}
