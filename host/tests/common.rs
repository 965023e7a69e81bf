//! What the tests share: captures made from the samples, the built command, and pictures read back.

use std::fs::{self, File, Permissions};
use std::os::unix::fs::{MetadataExt, PermissionsExt};
use std::os::unix::process::CommandExt;
use std::path::{Path, PathBuf};
use std::process::{Command, Output};

pub const STATE_LEN: usize = 0x61000;
pub const FILES: [(&str, usize); 4] =
    [("vram.bin", 131_072), ("palette.bin", 1024), ("oam.bin", 1024), ("registers.bin", 86)];

/// A folder of its own for each test, empty at the start; `test` is the area and the test's own name.
pub fn scratch(test: &str) -> PathBuf {
    let folder = Path::new(env!("CARGO_TARGET_TMPDIR")).join(test);
    let _ = fs::remove_dir_all(&folder);
    fs::create_dir_all(&folder).unwrap();
    folder
}

pub fn sample(name: &str) -> PathBuf {
    Path::new(env!("CARGO_MANIFEST_DIR")).join("../samples").join(name)
}

pub fn ashlarkin(arguments: &[&str]) -> Output {
    Command::new(env!("CARGO_BIN_EXE_ashlarkin")).args(arguments).output().unwrap()
}

pub fn frame(capture: &Path, output: &Path, options: &[&str]) -> Output {
    let paths = ["frame", capture.to_str().unwrap(), "-o", output.to_str().unwrap()];
    ashlarkin(&[&paths[..], options].concat())
}

pub fn stderr(output: &Output) -> &str {
    std::str::from_utf8(&output.stderr).unwrap()
}

pub fn stdout(output: &Output) -> &str {
    std::str::from_utf8(&output.stdout).unwrap()
}

/// A folder that anyone may enter, and the command in it, run as a user who isn't root: root may read every file.
pub struct Unprivileged {
    pub folder: PathBuf,
}

impl Unprivileged {
    pub fn new(test: &str) -> Unprivileged {
        let folder = std::env::temp_dir().join(format!("ashlarkin-{test}-{}", std::process::id()));
        fs::create_dir_all(&folder).unwrap();
        fs::set_permissions(&folder, Permissions::from_mode(0o777)).unwrap();
        // By another process: a program that this one writes can't be run while a child that another test's thread has just
        // forked still holds it open.
        let copied = Command::new("cp").arg(env!("CARGO_BIN_EXE_ashlarkin")).arg(folder.join("ashlarkin")).status();
        assert!(copied.unwrap().success());
        Unprivileged { folder }
    }

    pub fn run(&self, arguments: &[&str]) -> Output {
        const NOBODY: u32 = 65_534;
        let mut command = Command::new(self.folder.join("ashlarkin"));
        if fs::metadata("/proc/self").unwrap().uid() == 0 {
            command.uid(NOBODY).gid(NOBODY);
        }
        command.current_dir(&self.folder).args(arguments).output().unwrap()
    }
}

impl Drop for Unprivileged {
    fn drop(&mut self) {
        let _ = Command::new("chmod").args(["-R", "u+rwX"]).arg(&self.folder).status();
        let _ = fs::remove_dir_all(&self.folder);
    }
}

/// A named pipe, which nobody writes to.
pub fn make_pipe(path: &Path) {
    assert!(Command::new("mkfifo").arg(path).status().unwrap().success());
}

/// Leaves these rights to a path alone.
pub fn forbid(path: &Path, rights: u32) {
    fs::set_permissions(path, Permissions::from_mode(rights)).unwrap();
}

pub struct Picture {
    pub width: usize,
    pub height: usize,
    pub pixels: Vec<[u8; 3]>,
}

/// Any 8-bit PNG with three or four channels, the fourth left out.
pub fn read_png(path: &Path) -> Picture {
    let mut reader = png::Decoder::new(File::open(path).unwrap()).read_info().unwrap();
    let mut bytes = vec![0; reader.output_buffer_size()];
    let info = reader.next_frame(&mut bytes).unwrap();
    assert_eq!(info.bit_depth, png::BitDepth::Eight);
    let samples = info.color_type.samples();
    assert!(samples == 3 || samples == 4, "{}: {:?}", path.display(), info.color_type);
    let pixels = bytes.chunks_exact(samples).map(|p| [p[0], p[1], p[2]]).collect();
    Picture { width: info.width as usize, height: info.height as usize, pixels }
}

/// Draws a capture that must be drawn.
pub fn drawn(capture: &Path, folder: &Path, options: &[&str]) -> Picture {
    let output = folder.join("drawn.png");
    let run = frame(capture, &output, options);
    assert_eq!(run.status.code(), Some(0), "{}", stderr(&run));
    assert!(run.stdout.is_empty() && run.stderr.is_empty());
    let picture = read_png(&output);
    fs::remove_file(output).unwrap();
    picture
}

/// Runs a draw that must end in one line that names `path` and has all of `words`, and must write nothing.
pub fn refused(capture: &Path, folder: &Path, path: &Path, words: &[&str], options: &[&str]) {
    let before = names(folder);
    let run = frame(capture, &folder.join("refused.png"), options);
    check_refused(&run, path, words);
    assert_eq!(names(folder), before, "{}", path.display());
}

pub fn check_refused(run: &Output, path: &Path, words: &[&str]) {
    let text = stderr(run);
    assert_eq!(run.status.code(), Some(1), "{}: {text}", path.display());
    assert!(run.stdout.is_empty());
    assert!(text.ends_with('\n') && text.lines().count() == 1, "{text}");
    assert!(text.starts_with(&format!("{}: ", path.display())), "{text} names {}", path.display());
    for word in words {
        assert!(text.contains(word), "{text} has {word}");
    }
}

pub fn names(folder: &Path) -> Vec<PathBuf> {
    let mut names: Vec<PathBuf> = fs::read_dir(folder).unwrap().map(|e| e.unwrap().path()).collect();
    names.sort();
    names
}

/// A capture of four files of zeros, but for the registers.
pub fn write_folder(folder: &Path, registers: &[(usize, u16)]) -> PathBuf {
    let capture = folder.join("capture");
    let _ = fs::remove_dir_all(&capture);
    fs::create_dir(&capture).unwrap();
    for (name, len) in FILES {
        fs::write(capture.join(name), vec![0; len]).unwrap();
    }
    let mut bytes = [0; 86];
    for &(offset, value) in registers {
        bytes[offset..offset + 2].copy_from_slice(&value.to_le_bytes());
    }
    fs::write(capture.join("registers.bin"), bytes).unwrap();
    capture
}

/// The scene's state as a folder `capture`, its video memory of 131,072 bytes.
pub fn scene_folder(folder: &Path) -> PathBuf {
    let capture = folder.join("capture");
    let _ = fs::remove_dir_all(&capture);
    write_scene(&capture);
    capture
}

/// The scene's state as this folder.
pub fn write_scene(capture: &Path) {
    let state = fs::read(sample("scene/capture.ss0")).unwrap();
    fs::create_dir_all(capture).unwrap();
    let vram = [&state[0x1000..0x19000], &[0; 0x8000]].concat();
    fs::write(capture.join("vram.bin"), vram).unwrap();
    fs::write(capture.join("palette.bin"), &state[0x800..0xc00]).unwrap();
    fs::write(capture.join("oam.bin"), &state[0xc00..0x1000]).unwrap();
    fs::write(capture.join("registers.bin"), &state[0x400..0x456]).unwrap();
}

/// Background 2 or 3 as an affine one of 256x256, each tile one colour: the word of palette entry `tile`.
pub fn affine_capture(folder: &Path, number: usize, numbers: [i32; 6]) -> PathBuf {
    let [x, y, pa, pb, pc, pd] = numbers;
    let at = 0x20 + 0x10 * (number - 2);
    let words = [pa, pb, pc, pd, x, x >> 16, y, y >> 16];
    // Map at 0x4000, wrapped, 256x256.
    let mut registers = vec![(0, 2 | 0x100 << number), (8 + 2 * number, 0x6800)];
    registers.extend(words.iter().enumerate().map(|(i, &word)| (at + 2 * i, word as u16)));
    let capture = write_folder(folder, &registers);
    let mut vram: Vec<u8> = (0..0x4000).map(|i| (i / 64) as u8).collect();
    vram.extend((0..1024).map(|i| affine_tile(i % 32, i / 32)));
    vram.resize(131_072, 0);
    fs::write(capture.join("vram.bin"), vram).unwrap();
    let palette: Vec<u8> = (0..512).flat_map(|i: u16| affine_colour(i).to_le_bytes()).collect();
    fs::write(capture.join("palette.bin"), palette).unwrap();
    capture
}

pub fn affine_tile(x: usize, y: usize) -> u8 {
    ((x * 7 + y * 91) % 255 + 1) as u8
}

pub fn affine_colour(tile: u16) -> u16 {
    tile.wrapping_mul(123) & 0x7fff
}
