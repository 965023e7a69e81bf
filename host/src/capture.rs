//! Captures: a folder of four files, or a save state of the emulator mGBA, raw or in its PNG form.

use std::ffi::OsStr;
use std::fs::{self, File};
use std::io::{self, Read};
use std::path::{Path, PathBuf};

use anyhow::{Context, Result, anyhow, bail, ensure};
use ashlarkin::{OAM_LEN, PALETTE_LEN, REGISTERS_LEN, Refusal, VRAM_LEN};
use flate2::Crc;
use flate2::bufread::ZlibDecoder;

use crate::exit::Refused;
use crate::output::Staged;

/// Video memory as the hardware has it; the Rust's memory above it stays 0.
pub const VRAM_USED: usize = 0x18000;

/// The files of a folder, with the lengths that they may have.
const VRAM: (&str, &[usize]) = ("vram.bin", &[VRAM_LEN, VRAM_USED]);
const PALETTE: (&str, &[usize]) = ("palette.bin", &[PALETTE_LEN]);
const OAM: (&str, &[usize]) = ("oam.bin", &[OAM_LEN]);
const REGISTERS: (&str, &[usize]) = ("registers.bin", &[REGISTERS_LEN]);
pub const PARTS: [&str; 4] = [VRAM.0, PALETTE.0, OAM.0, REGISTERS.0];

// mGBA's save state: where each part lies. What follows STATE_LEN in a raw one (save data, cheats) isn't needed.
const STATE_LEN: usize = 0x61000;
const STATE_MAGIC: u32 = 0x0100_0007;
const STATE_REGISTERS: usize = 0x400;
const STATE_PALETTE: usize = 0x800;
const STATE_OAM: usize = 0xc00;
const STATE_VRAM: usize = 0x1000;

const PNG_SIGNATURE: &[u8; 8] = b"\x89PNG\r\n\x1a\n";
const STATE_CHUNK: &[u8; 4] = b"gbAs";

/// Far above any capture's length, so that a wrong path can't fill the memory. A text of stores is held to it, too.
pub const FILE_MAX: usize = 0x100_0000;

const A_CAPTURE: &str = "a folder with vram.bin, palette.bin, oam.bin and registers.bin, or an mGBA save state";

/// The memory that a draw takes, each part of the draw's length.
#[derive(Debug, PartialEq)]
pub struct Capture {
    pub vram: Vec<u8>,
    pub palette: Vec<u8>,
    pub oam: Vec<u8>,
    pub registers: Vec<u8>,
}

impl Capture {
    pub fn read(path: &Path) -> Result<Capture> {
        if path.is_dir() {
            return read_folder(path);
        }
        let named = || path.display().to_string();
        let bytes = read_file(path).map_err(|error| unreadable(error, A_CAPTURE, "give the path of one"));
        Capture::of_state(&bytes.with_context(named)?).with_context(named)
    }

    /// Takes a save state of either form.
    pub fn of_state(bytes: &[u8]) -> Result<Capture> {
        const NO_STATE: &str = "PNG with no gbAs chunk, expected a save state in one; give a state, not a screenshot";
        if !bytes.starts_with(PNG_SIGNATURE) {
            return split(bytes);
        }
        split(&inflate(find_state(bytes)?.context(NO_STATE)?)?)
    }

    /// Empty memory, for who fills it.
    pub fn zeros(registers: Vec<u8>) -> Capture {
        Capture { vram: vec![0; VRAM_LEN], palette: vec![0; PALETTE_LEN], oam: vec![0; OAM_LEN], registers }
    }

    /// Writes the four files to a folder that exists. None is replaced before all four are whole beside their places.
    pub fn write(&self, folder: &Path, way_out: &str) -> Result<()> {
        let bytes = [&self.vram, &self.palette, &self.oam, &self.registers];
        let staged = PARTS.iter().zip(bytes).map(|(name, bytes)| {
            let path = folder.join(name);
            let staged = Staged::new(&path, bytes, way_out).with_context(|| path.display().to_string())?;
            Ok((path, staged))
        });
        for (path, staged) in staged.collect::<Result<Vec<_>>>()? {
            staged.put(way_out).with_context(|| path.display().to_string())?;
        }
        Ok(())
    }
}

/// The registers alone, by a path of their own.
pub fn read_registers(path: &Path) -> Result<Vec<u8>> {
    read_exactly(path, REGISTERS.1, "give --registers the registers.bin of a capture")
}

/// The files that a capture is read from, those that exist, without links.
pub fn files(capture: &Path) -> Vec<PathBuf> {
    let parts = PARTS.map(|name| capture.join(name));
    let all = parts.into_iter().chain([capture.to_owned()]);
    all.filter_map(|file| fs::canonicalize(file).ok()).collect()
}

/// Whether a file's content is a save state's, or may have been: a PNG that isn't whole may have lost its state.
pub fn is_state(path: &Path) -> io::Result<bool> {
    let mut head = vec![];
    File::open(path)?.take(PNG_SIGNATURE.len() as u64).read_to_end(&mut head)?;
    if head == PNG_SIGNATURE {
        let png = read_file(path)?;
        // No state is as long as what isn't read to its end.
        return Ok(png.len() <= FILE_MAX && !matches!(find_state(&png), Ok(None)));
    }
    let named_png = path.extension().is_some_and(|extension| extension.eq_ignore_ascii_case("png"));
    let cut_png = named_png && PNG_SIGNATURE.starts_with(&head);
    // Version 0 is none of mGBA's, and video streams start so.
    let is_raw = head.first() != Some(&0) && head.get(1..4) == STATE_MAGIC.to_le_bytes().get(1..);
    Ok(cut_png || is_raw)
}

/// Whether a file's name is one that mGBA, or people after it, give to save states: `*.ss0`, `*.state.png`.
pub fn named_as_state(path: &Path) -> bool {
    let lower = |text: &OsStr| text.to_string_lossy().to_lowercase();
    let name = path.file_name().map(lower).unwrap_or_default();
    let extension = path.extension().map(lower).unwrap_or_default();
    name.ends_with(".state.png") || extension.starts_with("ss") && extension.chars().count() == 3
}

/// A whole file, or one byte more than any capture has.
pub fn read_file(path: &Path) -> io::Result<Vec<u8>> {
    read_bounded(File::open(path)?)
}

/// All that there is to read, or one byte more than [`FILE_MAX`].
pub fn read_bounded(from: impl Read) -> io::Result<Vec<u8>> {
    let mut bytes = Vec::new();
    from.take(FILE_MAX as u64 + 1).read_to_end(&mut bytes)?;
    Ok(bytes)
}

pub fn unreadable(error: io::Error, expected: &str, way_out: &str) -> anyhow::Error {
    anyhow!("can't be read: {error}, expected {expected}; {way_out}")
}

/// A folder that has one of the four files is a capture, whole or not.
pub fn is_capture(folder: &Path) -> bool {
    PARTS.iter().any(|part| folder.join(part).symlink_metadata().is_ok())
}

fn read_folder(folder: &Path) -> Result<Capture> {
    if !is_capture(folder) {
        let (last, first) = PARTS.split_last().expect("there are four");
        let none = format!("folder with none of {} and {last}", first.join(", "));
        bail!("{}: {none}, expected a capture; `batch` draws those below a folder", folder.display());
    }
    let mut vram = read_part(folder, VRAM)?;
    vram.resize(VRAM_LEN, 0);
    Ok(Capture {
        vram,
        palette: read_part(folder, PALETTE)?,
        oam: read_part(folder, OAM)?,
        registers: read_part(folder, REGISTERS)?,
    })
}

fn read_part(folder: &Path, (name, lengths): (&str, &[usize])) -> Result<Vec<u8>> {
    let path = folder.join(name);
    // A pipe would be waited for.
    let special = fs::metadata(&path).is_ok_and(|found| !found.is_file() && !found.is_dir());
    let expected = listed(lengths);
    ensure!(!special, "{}: not a file, expected one of {expected} bytes; the folder needs this file", path.display());
    read_exactly(&path, lengths, "the folder needs this file")
}

/// A file of one of these lengths.
fn read_exactly(path: &Path, lengths: &[usize], way_out: &str) -> Result<Vec<u8>> {
    let named = || path.display().to_string();
    let expected = listed(lengths);
    let bytes = read_file(path)
        .map_err(|error| unreadable(error, &format!("{expected} bytes"), way_out))
        .with_context(named)?;
    if !lengths.contains(&bytes.len()) {
        return Err(wrong_length(bytes.len(), &expected)).with_context(named);
    }
    Ok(bytes)
}

fn listed(lengths: &[usize]) -> String {
    lengths.iter().map(usize::to_string).collect::<Vec<_>>().join(" or ")
}

fn wrong_length(found: usize, expected: &str) -> anyhow::Error {
    let found = if found > FILE_MAX { format!("more than {FILE_MAX}") } else { found.to_string() };
    another_length(format!("{found} bytes, expected {expected}"))
}

fn another_length(found: String) -> anyhow::Error {
    Refused { refusal: Refusal::Length, line: None, found }.into()
}

/// Takes a raw state apart.
fn split(state: &[u8]) -> Result<Capture> {
    if let Some(start) = state.first_chunk() {
        check_magic(u32::from_le_bytes(*start))?;
    }
    if !(STATE_LEN..=FILE_MAX).contains(&state.len()) {
        return Err(wrong_length(state.len(), &format!("{STATE_LEN} to {FILE_MAX} of a save state")));
    }
    let part = |start: usize, len: usize| state[start..start + len].to_vec();
    let mut vram = part(STATE_VRAM, VRAM_USED);
    vram.resize(VRAM_LEN, 0);
    Ok(Capture {
        vram,
        palette: part(STATE_PALETTE, PALETTE_LEN),
        oam: part(STATE_OAM, OAM_LEN),
        registers: part(STATE_REGISTERS, REGISTERS_LEN),
    })
}

/// The low byte is the version of the layout; only the one that was seen in real states is taken.
fn check_magic(magic: u32) -> Result<()> {
    let (kind, version) = (magic >> 8, magic & 0xff);
    ensure!(
        kind == STATE_MAGIC >> 8,
        "starts with 0x{magic:08x}, expected 0x{STATE_MAGIC:08x} of an mGBA save state; give {A_CAPTURE}"
    );
    ensure!(
        magic == STATE_MAGIC,
        "save state of version {version}, expected {}; save it again with mGBA 0.10",
        STATE_MAGIC & 0xff
    );
    Ok(())
}

/// The compressed state in a PNG, if it has one. Every chunk is checked, since a damaged file is no evidence.
fn find_state(png: &[u8]) -> Result<Option<&[u8]>> {
    let mut rest = &png[PNG_SIGNATURE.len()..];
    let mut state = None;
    loop {
        let chunk = next_chunk(&mut rest)
            .with_context(|| format!("PNG damaged at byte {}, expected whole chunks", png.len() - rest.len()))?;
        match chunk.kind {
            STATE_CHUNK if state.is_some() => {
                bail!("PNG with two gbAs chunks, expected one; save the state again with mGBA")
            }
            STATE_CHUNK => state = Some(chunk.data),
            b"IEND" => return Ok(state),
            _ => {}
        }
    }
}

struct Chunk<'a> {
    kind: &'a [u8; 4],
    data: &'a [u8],
}

/// Takes a chunk off the front of `rest`: length, kind, data, CRC of the kind and data.
fn next_chunk<'a>(rest: &mut &'a [u8]) -> Result<Chunk<'a>> {
    const WAY_OUT: &str = "copy or save the state again";
    let cut = || anyhow!("ends inside a chunk; {WAY_OUT}");
    let (length, after) = rest.split_first_chunk().ok_or_else(cut)?;
    let length = u32::from_be_bytes(*length) as usize;
    let (kind, after) = after.split_first_chunk().ok_or_else(cut)?;
    let (data, after) = after.split_at_checked(length).ok_or_else(cut)?;
    let (expected, after) = after.split_first_chunk().ok_or_else(cut)?;
    let (found, expected) = (crc(kind, data), u32::from_be_bytes(*expected));
    ensure!(found == expected, "CRC 0x{found:08x}, expected 0x{expected:08x}; {WAY_OUT}");
    *rest = after;
    Ok(Chunk { kind, data })
}

fn crc(kind: &[u8], data: &[u8]) -> u32 {
    let mut crc = Crc::new();
    crc.update(kind);
    crc.update(data);
    crc.sum()
}

/// Unpacks a state, and stops where it is longer than a state.
fn inflate(packed: &[u8]) -> Result<Vec<u8>> {
    let mut state = Vec::with_capacity(STATE_LEN + 1);
    ZlibDecoder::new(packed)
        .take(STATE_LEN as u64 + 1)
        .read_to_end(&mut state)
        .map_err(|error| anyhow!("gbAs chunk: {error}, expected zlib data; save the state again"))?;
    if state.len() > STATE_LEN {
        return Err(another_length(format!("more than {STATE_LEN} bytes in gbAs, expected {STATE_LEN}")));
    }
    Ok(state)
}

#[cfg(test)]
mod tests {
    use std::io::Write;

    use ashlarkin_oracle::cases::Random;
    use flate2::Compression;
    use flate2::write::ZlibEncoder;
    use png::{Decoded, StreamingDecoder};

    use super::*;

    const RAW: &[u8] = include_bytes!("../../samples/scene/capture.ss0");
    const PNG: &[u8] = include_bytes!("../../samples/scene/capture.state.png");
    const SCREENSHOT: &[u8] = include_bytes!("../../samples/scene/mgba.png");

    fn number(bytes: &[u8]) -> Option<u32> {
        Capture::of_state(bytes).unwrap_err().downcast_ref::<Refused>().map(|refused| refused.refusal.number())
    }

    fn text(bytes: &[u8]) -> String {
        format!("{:#}", Capture::of_state(bytes).unwrap_err())
    }

    fn chunk(kind: &[u8; 4], data: &[u8]) -> Vec<u8> {
        let length = (data.len() as u32).to_be_bytes();
        [&length, &kind[..], data, &crc(kind, data).to_be_bytes()].concat()
    }

    fn png_of(chunks: &[Vec<u8>]) -> Vec<u8> {
        [&PNG_SIGNATURE[..], &chunks.concat()].concat()
    }

    fn pack(state: &[u8]) -> Vec<u8> {
        let mut encoder = ZlibEncoder::new(Vec::new(), Compression::fast());
        encoder.write_all(state).unwrap();
        encoder.finish().unwrap()
    }

    #[test]
    fn parts_lie_where_the_layout_says() {
        let capture = Capture::of_state(RAW).unwrap();
        assert_eq!(capture.registers, &RAW[0x400..0x456]);
        assert_eq!(capture.palette, &RAW[0x800..0xc00]);
        assert_eq!(capture.oam, &RAW[0xc00..0x1000]);
        assert_eq!(capture.vram[..0x18000], RAW[0x1000..0x19000]);
        assert_eq!(capture.vram[0x18000..], [0; 0x8000]);
        assert_eq!(capture, Capture::of_state(PNG).unwrap());
        assert_eq!(capture, Capture::of_state(&RAW[..STATE_LEN]).unwrap());
    }

    #[test]
    fn every_cut_is_refused() {
        for len in (0..PNG.len()).step_by(13).chain([PNG.len() - 1]) {
            assert!(Capture::of_state(&PNG[..len]).is_err(), "PNG of {len} bytes");
        }
        for len in (0..STATE_LEN).step_by(4093).chain([1, 3, 4, STATE_LEN - 1]) {
            assert_eq!(number(&RAW[..len]), Some(2), "state of {len} bytes");
        }
    }

    /// Whether the png crate reads a PNG to its last chunk.
    fn read_whole(mut png: &[u8]) -> bool {
        let (mut decoder, mut image) = (StreamingDecoder::new(), vec![]);
        while !png.is_empty() {
            match decoder.update(png, &mut image) {
                Ok((_, Decoded::ImageEnd)) => return true,
                Ok((read, _)) => png = &png[read..],
                Err(_) => return false,
            }
        }
        false
    }

    #[test]
    fn a_png_is_whole_where_the_png_crate_reads_it_whole() {
        for png in [PNG, SCREENSHOT] {
            for len in (8..png.len()).step_by(97).chain(png.len() - 20..=png.len()) {
                assert_eq!(find_state(&png[..len]).is_ok(), read_whole(&png[..len]), "{len} bytes");
            }
            for place in (8..png.len()).step_by(101) {
                let mut bytes = png.to_vec();
                bytes[place] ^= 1 << (place % 8);
                assert!(find_state(&bytes).is_err() && !read_whole(&bytes), "byte {place}");
            }
        }
        assert!(find_state(PNG).unwrap().is_some() && find_state(SCREENSHOT).unwrap().is_none());
    }

    #[test]
    fn every_changed_bit_of_a_png_is_refused() {
        for place in (0..PNG.len()).step_by(61) {
            let mut bytes = PNG.to_vec();
            bytes[place] ^= 1 << (place % 8);
            assert!(Capture::of_state(&bytes).is_err(), "byte {place}");
        }
    }

    #[test]
    fn noise_is_answered() {
        let mut random = Random::new(1, 0);
        for len in 0..2000 {
            let noise = random.bytes(len);
            assert!(Capture::of_state(&noise).is_err());
            // Past the signature, past a chunk's CRC, and into the decompressor.
            assert!(Capture::of_state(&png_of(std::slice::from_ref(&noise))).is_err());
            let state = [chunk(b"gbAs", &noise), chunk(b"IEND", &[])];
            assert!(Capture::of_state(&png_of(&state)).is_err());
            let packed = [chunk(b"gbAs", &pack(&noise)), chunk(b"IEND", &[])];
            assert!(Capture::of_state(&png_of(&packed)).is_err());
        }
    }

    #[test]
    fn a_state_that_unpacks_to_another_length_is_refused() {
        let packed = |state: &[u8]| png_of(&[chunk(b"gbAs", &pack(state)), chunk(b"IEND", &[])]);
        assert!(Capture::of_state(&packed(&RAW[..STATE_LEN])).is_ok());
        assert_eq!(number(&packed(&RAW[..STATE_LEN - 1])), Some(2));
        assert_eq!(number(&packed(&RAW[..STATE_LEN + 1])), Some(2));
        assert_eq!(number(&packed(&vec![0; 0x400_0000])), Some(2));
    }

    #[test]
    fn other_files_are_named() {
        assert!(text(&png_of(&[chunk(b"IEND", &[])])).contains("no gbAs chunk"));
        let state = chunk(b"gbAs", &pack(&RAW[..STATE_LEN]));
        let two = png_of(&[state.clone(), state, chunk(b"IEND", &[])]);
        assert!(text(&two).contains("two gbAs chunks"));
        assert!(text(b"PK\x03\x04").contains("starts with 0x04034b50, expected 0x01000007"));
        assert!(text(&[6, 0, 0, 1]).contains("version 6, expected 7"));
        let length = [&PNG_SIGNATURE[..], &[0xff; 4], b"gbAs", &[0; 64]].concat();
        assert!(text(&length).contains("PNG damaged at byte 8"));
    }
}
