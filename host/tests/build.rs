//! `ashlarkin build`: a text of stores becomes a capture, or is refused with its line and leaves nothing behind.

use std::fs;
use std::io::Write;
use std::os::unix::fs::symlink;
use std::path::{Path, PathBuf};
use std::process::{Command, Output, Stdio};

use crate::common::*;

fn build(stores: &Path, registers: &Path, folder: &Path) -> Output {
    let [stores, registers, folder] = [stores, registers, folder].map(|path| path.to_str().unwrap());
    ashlarkin(&["build", stores, "--registers", registers, "-o", folder])
}

/// A text of stores and registers in this mode, in a folder of their own.
struct Given {
    folder: PathBuf,
    stores: PathBuf,
    registers: PathBuf,
    /// Where the capture goes; it isn't there yet.
    built: PathBuf,
}

impl Given {
    fn new(test: &str) -> Given {
        let folder = scratch(&format!("build/{test}"));
        let [stores, registers, built] = ["stores.txt", "registers", "built"].map(|name| folder.join(name));
        let given = Given { folder, stores, registers, built };
        given.mode(0);
        given
    }

    fn mode(&self, mode: u8) {
        let mut bytes = [0xff; 86];
        bytes[0] = 0xf8 | mode;
        fs::write(&self.registers, bytes).unwrap();
    }

    fn run(&self, text: impl AsRef<[u8]>) -> Output {
        fs::write(&self.stores, text).unwrap();
        build(&self.stores, &self.registers, &self.built)
    }

    /// The four files that must be built from a text, in the order of `FILES`.
    fn built(&self, text: impl AsRef<[u8]>) -> [Vec<u8>; 4] {
        done(&self.run(text));
        let parts = FILES.map(|(name, _)| self.built.join(name));
        assert_eq!(names(&self.built).len(), 4);
        let bytes = parts.map(|path| fs::read(path).unwrap());
        fs::remove_dir_all(&self.built).unwrap();
        bytes
    }

    /// A text that must be refused in one line with all of `words`, and nothing written.
    fn refused(&self, text: impl AsRef<[u8]>, words: &[&str]) {
        fs::write(&self.stores, &text).unwrap();
        let before = names(&self.folder);
        check_refused(&self.run(text), &self.stores, words);
        assert_eq!(names(&self.folder), before, "{words:?}");
    }
}

fn done(run: &Output) {
    assert_eq!((run.status.code(), stdout(run), stderr(run)), (Some(0), "", ""));
}

/// Memory of zeros but for these halfwords: the number of a file, an offset and the value.
fn zeros_but(halfwords: &[(usize, usize, u16)]) -> [Vec<u8>; 3] {
    let mut memories = [FILES[0], FILES[1], FILES[2]].map(|(_, len)| vec![0; len]);
    for &(file, offset, value) in halfwords {
        memories[file][offset..offset + 2].copy_from_slice(&value.to_le_bytes());
    }
    memories
}

/// A number as the text may have it.
fn written(number: u32, form: usize) -> String {
    match form % 4 {
        0 => format!("0x{number:x}"),
        1 => format!("{number}"),
        2 => format!("0x{:04X}_{:04X}", number >> 16, number & 0xffff),
        _ => format!("0x{number:08x}"),
    }
}

/// The stores that make a memory of mode 0 from zeros, each through another mirror: those of bytes, and all.
fn stores_of(page: u32, memory: &[u8]) -> (usize, Vec<String>) {
    let (mut bytes, mut lines) = (0, vec![]);
    for (i, half) in memory.chunks_exact(2).enumerate().filter(|(_, half)| *half != [0, 0]) {
        let (offset, turn) = (2 * i as u32, lines.len() as u32 % 97);
        let mirror = match page {
            6 if offset >= 0x10000 => 0x20000 * turn + 0x8000 * (turn % 2),
            6 => 0x20000 * turn,
            _ => 0x400 * 167 * turn,
        };
        let address = page << 24 | (offset + mirror);
        let byte = half[0] == half[1] && (page == 5 || page == 6 && offset < 0x10000);
        let odd = if byte || page != 6 { turn % 2 } else { 0 };
        let value = if byte { half[0].into() } else { u16::from_le_bytes([half[0], half[1]]) };
        let (address, value) = (written(address | odd, i), written(value.into(), i / 4));
        bytes += usize::from(byte);
        lines.push(format!("{} {address} {value}\n", if byte { 8 } else { 16 }));
    }
    (bytes, lines)
}

#[test]
fn the_scene_is_rebuilt_from_stores() {
    let folder = scratch("build/scene");
    let scene = scene_folder(&folder);
    let mut text = String::new();
    for (page, name) in [(6, "vram.bin"), (5, "palette.bin"), (7, "oam.bin")] {
        let (bytes, lines) = stores_of(page, &fs::read(scene.join(name)).unwrap());
        assert!(lines.len() > bytes && (bytes > 0 || page != 6), "{name}: {bytes} of {}", lines.len());
        text.push_str(&lines.concat());
    }
    let [stores, built] = ["scene.stores", "built"].map(|name| folder.join(name));
    fs::write(&stores, text).unwrap();
    done(&build(&stores, &scene.join("registers.bin"), &built));
    for (name, _) in FILES {
        assert!(fs::read(built.join(name)).unwrap() == fs::read(scene.join(name)).unwrap(), "{name}");
    }
    for reading in ["R", "H"] {
        let [ours, theirs] = [&built, &scene].map(|capture| drawn(capture, &folder, &["--reading", reading]).pixels);
        assert!(ours == theirs, "{reading}");
    }
}

#[test]
fn the_sample_shows_its_word() {
    let folder = scratch("build/sample");
    let built = folder.join("caption");
    done(&build(&sample("stores/caption.stores"), &sample("stores/caption.registers"), &built));
    for reading in ["R", "H"] {
        let picture = drawn(&built, &folder, &["--reading", reading]);
        let (ground, letter, heart) = ([16, 48, 112], [248, 248, 192], [248, 32, 48]);
        for (x, y, colour) in [(0, 0, ground), (44, 48, letter), (195, 87, letter), (56, 56, ground), (120, 112, heart)]
        {
            assert_eq!(picture.pixels[240 * y + x], colour, "({x}, {y}) under {reading}");
        }
        // 47 tiles of letters, and what they leave of their shadow.
        let count = |colour: [u8; 3]| picture.pixels.iter().filter(|pixel| **pixel == colour).count();
        assert_eq!(count(letter), 47 * 64);
        assert!((500..47 * 64).contains(&count([8, 16, 40])));
    }
}

/// The stores that README and the help show are such.
#[test]
fn shown_stores_are_built() {
    let given = Given::new("shown");
    let help = ashlarkin(&["build", "--help"]);
    let of_readme = [(1, 2, 0x63ff), (0, 0x20, 0x1111)];
    let of_help = [(1, 0, 0x7c00), (0, 0x20, 0x1111), (2, 2, 40)];
    for (text, halfwords) in [(include_str!("../../README.md"), &of_readme[..]), (stdout(&help), &of_help)] {
        let is_store = |line: &&str| ["8 ", "16 "].iter().any(|width| line.trim_start().starts_with(width));
        let stores = text.lines().filter(is_store).collect::<Vec<_>>().join("\n");
        assert!(given.built(&stores)[..3] == zeros_but(halfwords), "{stores}");
    }
}

#[test]
fn stores_are_done_as_the_bus_does_them() {
    let given = Given::new("bus");
    let bus = |text: &str, halfwords: &[(usize, usize, u16)]| {
        let [vram, palette, oam, registers] = given.built(text);
        assert!([vram, palette, oam] == zeros_but(halfwords), "{text}");
        assert_eq!(registers, fs::read(&given.registers).unwrap());
    };
    bus("16 0x05000400 0x1234", &[(1, 0, 0x1234)]);
    bus("16 0x07000401 0x1234", &[(2, 0, 0x1234)]);
    bus("16 0x06018000 0x1234", &[(0, 0x10000, 0x1234)]);
    bus("16 0x06020000 0x1234", &[(0, 0, 0x1234)]);
    bus("8 0x05000003 0x12\n8 0x06000001 0x34", &[(1, 2, 0x1212), (0, 0, 0x3434)]);
    // The last store stands, and so does a zero.
    bus("16 0x05000000 1\n16 0x05000000 2", &[(1, 0, 2)]);
    bus("16 0x05000000 1\n16 0x05000000 0", &[]);
}

#[test]
fn the_mode_says_where_bytes_are_stored() {
    let given = Given::new("mode");
    let text = "8 0x0600ffff 1\n8 0x06010000 2\n8 0x0601bfff 3\n8 0x06014000 4\n8 0x07000000 5\n";
    for mode in 0..8 {
        given.mode(mode);
        let bitmap = [(0, 0x10000, 0x0202), (0, 0x13ffe, 0x0303)];
        let also = if mode < 3 { &[][..] } else { &bitmap };
        let expected = zeros_but(&[&[(0, 0xfffe, 0x0101)], also].concat());
        assert!(given.built(text)[..3] == expected, "mode {mode}");
    }
}

#[test]
fn what_is_no_store_is_passed_over() {
    let given = Given::new("passed_over");
    for text in ["", "\n", "# nothing\n\n   \t\n  # 8 0x08000000 1\n#", "\u{feff}# é\r\n\r\n"] {
        assert!(given.built(text)[..3] == zeros_but(&[]), "{text:?}");
    }
    let stores = zeros_but(&[(1, 0, 0x1234), (1, 2, 0x5678)]);
    for text in [
        "16 0x05000000 0x1234\n16 0x05000002 0x5678",
        "16 0x05000000 0x1234\r\n\r\n16 0x05000002 0x5678\r\n",
        "\u{feff}  16\t0x0500_0000   4660 # both halves\n# 32\n\t16 83886082 0x5_6_7_8#\n",
    ] {
        assert!(given.built(text)[..3] == stores, "{text:?}");
    }
}

#[test]
fn standard_input_is_read() {
    let given = Given::new("stdin");
    let run = |text: &str| {
        let mut command = Command::new(env!("CARGO_BIN_EXE_ashlarkin"));
        command.args(["build", "-", "--registers"]).args([&given.registers, Path::new("-o"), &given.built]);
        let piped = command.stdin(Stdio::piped()).stdout(Stdio::piped()).stderr(Stdio::piped());
        let mut child = piped.spawn().unwrap();
        child.stdin.take().unwrap().write_all(text.as_bytes()).unwrap();
        child.wait_with_output().unwrap()
    };
    check_refused(&run("\n8 5 x"), Path::new("standard input"), &["line 2: value x, expected 0 to 255 or 0xff"]);
    assert!(!given.built.exists());
    done(&run("16 0x05000000 0x1234"));
    assert_eq!(fs::read(given.built.join("palette.bin")).unwrap()[..2], [0x34, 0x12]);
}

#[test]
fn a_bad_line_is_named() {
    let given = Given::new("bad_lines");
    let long = "9".repeat(1000);
    let value = |word: &str| format!("16 0x05000000 {word}");
    let address = |word: &str| format!("8 {word} 0");
    for (line, words) in [
        ("16", "'16', expected a width, an address and a value"),
        ("  16 0x05000000", "'16 0x05000000', expected a width"),
        ("16 0x05000000 # 0x1234", "'16 0x05000000', expected a width"),
        ("16 0x05000000 1 2", "'16 0x05000000 1 2', expected a width"),
        (&format!("16 {long}"), "'16 9999999999999999999999999999999999999..', expected a width"),
        ("16, 0x05000000, 1", "width 16,, expected 8 or 16"),
        ("32 0x05000000 1", "width 32, expected 8 or 16"),
        ("0x10 0x05000000 1", "width 0x10, expected 8 or 16"),
        ("8 0x05000000 256", "value 256, expected 0 to 255 or 0xff"),
        ("8 0x05000000 0x100", "value 0x100, expected 0 to 255 or 0xff"),
        (&value("65536"), "value 65536, expected 0 to 65535 or 0xffff"),
        (&value("-1"), "value -1, expected 0 to 65535"),
        (&value("12ab"), "value 12ab, expected 0 to 65535"),
        (&value("0x"), "value 0x, expected 0 to 65535"),
        (&value("0x_1"), "value 0x_1, expected 0 to 65535"),
        (&value(&long), "value 9999999999999999999999999999999999999999.., expected 0 to 65535"),
        (&address("0x1_0000_0000"), "address 0x1_0000_0000, expected 0 to 4294967295 or 0xffffffff"),
        (&address("05000000h"), "address 05000000h, expected 0 to"),
        (&address("palette"), "address palette, expected 0 to"),
        ("# old\r16 0x05000000 1", "a carriage return inside, expected lines that end in LF or CR LF"),
    ] {
        // A good line before it, and a worse one after it.
        let text = format!("# stores\r\n\n16 0x05000000 0x1234\n{line}\n64\n");
        given.refused(text, &[&format!(": line 4: {words}")]);
        given.refused(line, &[&format!(": line 1: {words}")]);
    }
}

#[test]
fn a_refused_store_is_named() {
    let given = Given::new("refused");
    let page = ["line 3: 0x08000000: page 0x08, expected 0x05 to 0x07 (refusal 9); ", "0x05000000 to 0x07ffffff"];
    given.refused("16 0x05000000 1\n\n16 0x0800_0000 1\n64", &page);
    given.refused("\n\n8 134217728 1", &page);
    for address in ["0x0", "0x04000000", "0x15000000", "0x85000000", "0xffffffff"] {
        given.refused(format!("8 {address} 1"), &["line 1: 0x", ", expected 0x05 to 0x07 (refusal 9); "]);
    }
    let odd = "line 2: 0x06018001: a halfword store at an odd address of page 6 (refusal 11); give the even address";
    given.refused("8 0x06018001 1\n16 0x06018001 1", &[odd]);
}

#[test]
fn what_is_no_text_is_refused() {
    let given = Given::new("no_text");
    given.refused(b"# caf\xe9\n", &["line 1: not UTF-8", "save it as UTF-8"]);
    given.refused(b"16 0x05000000 1\n\n8 5 \xff", &["line 3: not UTF-8"]);
    given.refused(fs::read(sample("scene/capture.state.png")).unwrap(), &["line 1: not UTF-8"]);
    given.refused(vec![b'\n'; 0x100_0001], &["more than 16777216 bytes", "expected fewer"]);
    assert!(given.built(vec![b'\n'; 0x100_0000])[..3] == zeros_but(&[]));
    let before = names(&given.folder);
    for (path, word) in [(given.folder.join("missing"), "No such file"), (given.folder.clone(), "Is a directory")] {
        let run = build(&path, &given.registers, &given.built);
        check_refused(&run, &path, &[word, "expected a text of stores; give the path of one"]);
    }
    let endless = Path::new("/dev/zero");
    check_refused(&build(endless, &given.registers, &given.built), endless, &["more than 16777216 bytes"]);
    assert_eq!(names(&given.folder), before);
}

#[test]
fn other_registers_are_refused() {
    let given = Given::new("registers");
    fs::write(&given.stores, "16 0x05000000 1").unwrap();
    let refused = |words: &[&str]| {
        check_refused(&build(&given.stores, &given.registers, &given.built), &given.registers, words);
        assert!(!given.built.exists());
    };
    for len in [0, 1, 85, 87, 1024] {
        fs::write(&given.registers, vec![0; len]).unwrap();
        refused(&[&format!("{len} bytes, expected 86 (refusal 2); ")]);
    }
    fs::remove_file(&given.registers).unwrap();
    refused(&["No such file", "expected 86 bytes; give --registers the registers.bin of a capture"]);
    fs::create_dir(&given.registers).unwrap();
    refused(&["Is a directory", "expected 86 bytes"]);
}

#[test]
fn a_folder_that_cant_be_written_is_refused() {
    let given = Given::new("folder");
    fs::write(&given.stores, "16 0x05000000 1").unwrap();
    let before = names(&given.folder);
    let below = given.stores.join("below");
    for (folder, word) in [(&given.stores, "File exists"), (&below, "Not a directory")] {
        let run = build(&given.stores, &given.registers, folder);
        check_refused(&run, folder, &["can't be made", word, "give -o a folder that can be written"]);
    }
    assert_eq!(names(&given.folder), before);
    // Folders above it are made, as a batch makes them.
    let deep = given.built.join("a/b");
    done(&build(&given.stores, &given.registers, &deep));
    drawn(&deep, &given.folder, &["--reading", "H"]);
}

#[test]
fn what_may_not_be_written_is_refused() {
    let unprivileged = Unprivileged::new("build");
    let folder = &unprivileged.folder;
    fs::write(folder.join("stores"), "16 0x05000000 1").unwrap();
    fs::write(folder.join("registers"), [0; 86]).unwrap();
    let closed = folder.join("closed");
    fs::create_dir(&closed).unwrap();
    forbid(&closed, 0o555);
    let run = |output: &str| unprivileged.run(&["build", "stores", "--registers", "registers", "-o", output]);
    check_refused(&run("closed/new"), Path::new("closed/new"), &["can't be made", "Permission denied", "give -o"]);
    check_refused(&run("closed"), Path::new("closed/vram.bin"), &["can't be written", "Permission denied", "give -o"]);
    assert!(names(&closed).is_empty());
    forbid(&folder.join("stores"), 0o000);
    check_refused(&run("new"), Path::new("stores"), &["Permission denied", "expected a text of stores"]);
}

#[test]
fn an_old_capture_is_replaced_whole_or_stays() {
    let given = Given::new("old");
    write_scene(&given.built);
    fs::write(given.built.join("notes.txt"), "mine").unwrap();
    let files = || names(&given.built).into_iter().map(|path| (fs::read(&path).ok(), path)).collect::<Vec<_>>();
    let before = files();
    given.refused("16 0x05000000 1\n16 0x08000000 1", &["(refusal 9)"]);
    assert!(files() == before);
    // The last of the four can't be replaced, so none is.
    fs::remove_file(given.built.join("registers.bin")).unwrap();
    fs::create_dir(given.built.join("registers.bin")).unwrap();
    let before = files();
    let run = given.run("16 0x05000000 1");
    check_refused(&run, &given.built.join("registers.bin"), &["not a file", "give -o"]);
    assert!(files() == before);
    fs::remove_dir(given.built.join("registers.bin")).unwrap();
    done(&given.run("16 0x05000000 1"));
    assert_eq!(names(&given.built).len(), 5);
    assert_eq!(fs::read(given.built.join("notes.txt")).unwrap(), b"mine");
    let built = FILES.map(|(name, _)| fs::read(given.built.join(name)).unwrap());
    assert!(built[..3] == zeros_but(&[(1, 0, 1)]) && built[3] == fs::read(&given.registers).unwrap());
}

#[test]
fn what_it_is_built_from_is_not_replaced() {
    let given = Given::new("inputs");
    let scene = scene_folder(&given.folder);
    let text = given.folder.join("oam.bin");
    fs::write(&text, "16 0x05000000 1").unwrap();
    fs::copy(&given.registers, given.folder.join("vram.bin")).unwrap();
    let before = names(&given.folder);
    let words = ["a file that it is built from", "give -o another folder"];
    check_refused(&build(&text, &given.registers, &given.folder), &text, &words);
    let registers = given.folder.join("vram.bin");
    check_refused(&build(&given.registers, &registers, &given.folder), &registers, &words);
    fs::remove_file(scene.join("oam.bin")).unwrap();
    symlink(&text, scene.join("oam.bin")).unwrap();
    check_refused(&build(&text, &given.registers, &scene), &scene.join("oam.bin"), &words);
    assert_eq!(names(&given.folder), before);
    assert_eq!(fs::read(&text).unwrap(), b"16 0x05000000 1");

    // A capture's own registers stay as they are.
    let (scene, stores) = (scene_folder(&given.folder), given.stores.clone());
    let registers = fs::read(scene.join("registers.bin")).unwrap();
    fs::write(&stores, "16 0x05000000 1").unwrap();
    done(&build(&stores, &scene.join("registers.bin"), &scene));
    assert!(fs::read(scene.join("registers.bin")).unwrap() == registers);
    assert!(fs::read(scene.join("vram.bin")).unwrap() == [0; 131_072]);
}

#[test]
fn bad_usage_is_told_apart() {
    let given = Given::new("usage");
    fs::write(&given.stores, "").unwrap();
    let [stores, registers, built] = [&given.stores, &given.registers, &given.built].map(|path| path.to_str().unwrap());
    let full = ["build", stores, "--registers", registers, "-o", built];
    let lines = [
        vec!["build"],
        full[..4].to_vec(),
        [&full[..2], &full[4..]].concat(),
        [&full[..1], &full[2..]].concat(),
        [&full[..], &["--reading", "H"]].concat(),
        [&full[..], &[stores]].concat(),
    ];
    for line in lines {
        let run = ashlarkin(&line);
        assert_eq!(run.status.code(), Some(2), "{line:?}");
        assert!(run.stdout.is_empty() && !run.stderr.is_empty(), "{line:?}");
    }
    assert!(!given.built.exists());
    for (line, word) in [
        (&["--help"][..], "ashlarkin build samples/stores/caption.stores"),
        (&["build", "--help"], "Example: --registers caps/07/registers.bin"),
        (&["build", "-h"], "--registers <FILE>"),
    ] {
        let run = ashlarkin(line);
        assert!(run.status.success() && stdout(&run).contains(word), "{line:?}: {}", stdout(&run));
    }
}
