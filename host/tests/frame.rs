//! `ashlarkin frame` on real captures, on damaged ones and with bad usage.

use std::fs;
use std::os::unix::fs::{PermissionsExt, symlink};
use std::os::unix::net::UnixListener;
use std::path::Path;
use std::process::Command;

use crate::common::*;

/// Compares with mGBA's frame by `value & 0xf8`; `allowed` says how many steps of 8 a channel may be off a pixel's.
fn compare(drawn: &Picture, mgba: &Picture, allowed: fn([u8; 3]) -> u8) {
    assert_eq!((drawn.width, drawn.height), (240, 160));
    assert_eq!((mgba.width, mgba.height), (240, 160));
    for (i, (ours, theirs)) in drawn.pixels.iter().zip(&mgba.pixels).enumerate() {
        let off = (0..3).map(|channel| (ours[channel] >> 3).abs_diff(theirs[channel] >> 3)).max();
        assert!(off <= Some(allowed(*theirs)), "({}, {}): {ours:?}, mGBA has {theirs:?}", i % 240, i / 240);
    }
}

#[test]
fn two_tone_is_mgbas_frame() {
    let folder = scratch("frame/two_tone");
    let drawn = drawn(&sample("scene-two-tone/capture.state.png"), &folder, &["--reading", "H"]);
    compare(&drawn, &read_png(&sample("scene-two-tone/mgba.png")), |_| 0);
}

#[test]
fn scene_is_mgbas_frame_but_for_its_blending() {
    let folder = scratch("frame/scene");
    let drawn = drawn(&sample("scene/capture.state.png"), &folder, &["--reading", "H"]);
    // mGBA fills a channel's low three bits from its high ones, except where it blended, which it does in 8 bits.
    let blended = |pixel: [u8; 3]| pixel.iter().any(|value| value & 7 != value >> 5).into();
    compare(&drawn, &read_png(&sample("scene/mgba.png")), blended);
}

/// W-203: a title screen whose 256-colour sprites have odd tile numbers. R shows them off by half a tile, 32 of its 64 bytes.
#[test]
fn title_is_mgbas_frame_under_h_alone() {
    let folder = scratch("frame/title");
    let [h, r] = ["H", "R"].map(|reading| drawn(&sample("title/capture"), &folder, &["--reading", reading]));
    compare(&h, &read_png(&sample("title/mgba.png")), |_| 0);
    let differ = |line: usize| (0..240).filter(|x| h.pixels[240 * line + x] != r.pixels[240 * line + x]).count();
    // The title stands in lines 18 to 81, the emblems in 76 to 139, and the 16-colour text, with odd numbers too, in 138 to 145.
    assert!((0..18).chain(140..160).all(|line| differ(line) == 0));
    assert_eq!((18..140).map(differ).sum::<usize>(), 9_426);
}

#[test]
fn every_form_of_a_capture_draws_the_same() {
    let folder = scratch("frame/forms");
    let raw = drawn(&sample("scene/capture.ss0"), &folder, &[]);
    let png = drawn(&sample("scene/capture.state.png"), &folder, &[]);
    assert!(raw.pixels == png.pixels);
    let capture = scene_folder(&folder);
    assert!(raw.pixels == drawn(&capture, &folder, &[]).pixels);
    let vram = fs::read(capture.join("vram.bin")).unwrap();
    fs::write(capture.join("vram.bin"), &vram[..98_304]).unwrap();
    assert!(raw.pixels == drawn(&capture, &folder, &[]).pixels);
}

#[test]
fn scale_repeats_pixels() {
    let folder = scratch("frame/scale");
    let one = drawn(&sample("scene/capture.ss0"), &folder, &["--scale", "1"]);
    for scale in [2, 16] {
        let many = drawn(&sample("scene/capture.ss0"), &folder, &["--scale", &scale.to_string()]);
        assert_eq!((many.width, many.height), (240 * scale, 160 * scale));
        for (i, pixel) in many.pixels.iter().enumerate() {
            let (x, y) = (i % many.width / scale, i / many.width / scale);
            assert_eq!(*pixel, one.pixels[y * 240 + x], "({x}, {y}) at scale {scale}");
        }
    }
}

#[test]
fn references_start_from_the_registers_and_step() {
    let folder = scratch("frame/references");
    let numbers = [-54_321, 0x40_1234, 0x120, -0x35, 0x17, 0xe5];
    let [x, y, pa, pb, pc, pd] = numbers;
    for (number, reading) in [(2, "R"), (2, "H"), (3, "R"), (3, "H")] {
        let capture = affine_capture(&folder, number, numbers);
        let picture = drawn(&capture, &folder, &["--reading", reading]);
        for (i, pixel) in picture.pixels.iter().enumerate() {
            let (column, line) = (i as i32 % 240, i as i32 / 240);
            // The Rust has no step after line 0, so lines 0 and 1 share a reference.
            let steps = if reading == "R" { (line - 1).max(0) } else { line };
            let tile_at = |from: i32, by_line: i32, by_column: i32| {
                ((from + by_line * steps + by_column * column) >> 8).rem_euclid(256) as usize / 8
            };
            let colour = affine_colour(affine_tile(tile_at(x, pb, pa), tile_at(y, pd, pc)).into());
            let expected = [0, 5, 10].map(|shift| (colour >> shift & 31) as u8 * 8);
            assert_eq!(*pixel, expected, "background {number}, {reading}, ({column}, {line})");
        }
    }
}

#[test]
fn a_refused_draw_says_number_meaning_and_line() {
    let folder = scratch("frame/draw_refused");
    let capture = write_folder(&folder, &[(0, 0x0007)]);
    let words = ["line 0", "DISPCNT is 0x0007", "forced blank off, mode 6 or 7", "(refusal 4)"];
    refused(&capture, &folder, &capture, &words, &[]);
    refused(&capture, &folder, &capture, &words, &["--reading", "H"]);

    let capture = write_folder(&folder, &[(0x54, 17)]);
    refused(&capture, &folder, &capture, &["BLDY is 0x0011", "(refusal 5)", "--reading H"], &[]);
    drawn(&capture, &folder, &["--reading", "h"]);

    let capture = write_folder(&folder, &[(0, 0x0087), (0x54, 17)]);
    let blank = drawn(&capture, &folder, &[]);
    assert!(blank.pixels.iter().all(|pixel| *pixel == [0xf8; 3]));
}

#[test]
fn damaged_folders_are_refused() {
    let folder = scratch("frame/folders");
    for (name, len) in FILES {
        let damaged = |damage: &dyn Fn(&Path), words: &[&str]| {
            let capture = scene_folder(&folder);
            damage(&capture.join(name));
            refused(&capture, &folder, &capture.join(name), words, &[]);
        };
        damaged(&|path| fs::remove_file(path).unwrap(), &["No such file", &len.to_string()]);
        let directory = |path: &Path| {
            fs::remove_file(path).unwrap();
            fs::create_dir(path).unwrap();
        };
        damaged(&directory, &["Is a directory", &len.to_string()]);
        for wrong in [0, 1, len - 1, len + 1, 2 * len] {
            let found = format!("{wrong} bytes, expected {len}");
            damaged(&|path| fs::write(path, vec![0; wrong]).unwrap(), &[&found, "(refusal 2)"]);
        }
        damaged(&|path| fs::write(path, vec![0; 0x100_0001]).unwrap(), &["more than 16777216", "(refusal 2)"]);
    }
}

#[test]
fn damaged_states_are_refused() {
    let folder = scratch("frame/states");
    let raw = fs::read(sample("scene/capture.ss0")).unwrap();
    let png = fs::read(sample("scene/capture.state.png")).unwrap();
    let capture = folder.join("damaged.ss0");
    let damaged = |bytes: &[u8], words: &[&str]| {
        fs::write(&capture, bytes).unwrap();
        refused(&capture, &folder, &capture, words, &[]);
    };
    for len in [0, 1, 3, 4, 0x400, 0x1000, 0x19000, STATE_LEN - 1] {
        damaged(&raw[..len], &[&format!("{len} bytes, expected {STATE_LEN}"), "(refusal 2)"]);
    }
    damaged(&png[..7], &["starts with 0x474e5089"]);
    for len in [8, 9, 20, 33, 1000, 15_000, 17_700, png.len() - 1] {
        damaged(&png[..len], &["PNG damaged", "ends inside a chunk"]);
    }
    damaged(&[&[0xff], &raw[1..]].concat(), &["version 255, expected 7"]);
    damaged(&[&raw[..3], &[0], &raw[4..]].concat(), &["0x00000007, expected 0x01000007"]);
    let screenshot = fs::read(sample("scene/mgba.png")).unwrap();
    damaged(&screenshot, &["no gbAs chunk"]);
}

#[test]
fn a_flipped_bit_of_a_png_state_is_refused() {
    let folder = scratch("frame/flipped");
    let png = fs::read(sample("scene/capture.state.png")).unwrap();
    let kind = png.windows(4).position(|bytes| bytes == b"gbAs").unwrap();
    let length = u32::from_be_bytes(png[kind - 4..kind].try_into().unwrap()) as usize;
    let capture = folder.join("flipped.png");
    for place in [kind + 4 + length, kind + 7 + length, kind + 4, kind + 1000, kind - 5, 41] {
        let mut bytes = png.clone();
        bytes[place] ^= 0x10;
        fs::write(&capture, &bytes).unwrap();
        refused(&capture, &folder, &capture, &["PNG damaged", "CRC", "expected 0x"], &[]);
    }
}

/// No sum guards a raw state or a folder, so that a flipped bit may show another picture; it is never more than that.
#[test]
fn a_flipped_bit_elsewhere_draws_a_whole_frame_or_none() {
    let folder = scratch("frame/flipped_elsewhere");
    let whole = drawn(&sample("scene/capture.ss0"), &folder, &[]);
    let (mut refusals, mut others) = (0, 0);
    for (name, len) in FILES {
        for place in [0, 1, len / 3, len / 2, len - 2, len - 1] {
            let capture = scene_folder(&folder);
            let mut bytes = fs::read(capture.join(name)).unwrap();
            bytes[place] ^= 0x04;
            fs::write(capture.join(name), bytes).unwrap();
            let output = folder.join("flipped.png");
            let run = frame(&capture, &output, &[]);
            match run.status.code() {
                Some(0) => others += usize::from(read_png(&output).pixels != whole.pixels),
                _ => {
                    check_refused(&run, &capture, &["(refusal "]);
                    assert!(!output.exists());
                    refusals += 1;
                }
            }
            let _ = fs::remove_file(&output);
        }
    }
    // The first register's bit 2 makes mode 4 of mode 0, which draws; a bit of palette entry 0 changes the backdrop.
    assert!(others > 0, "{refusals} refused");
}

#[test]
fn a_mode_bit_flipped_is_refused() {
    let folder = scratch("frame/mode_flipped");
    let capture = write_folder(&folder, &[(0, 0x0002)]);
    drawn(&capture, &folder, &[]);
    fs::write(capture.join("registers.bin"), [&[0x06], &[0; 85][..]].concat()).unwrap();
    refused(&capture, &folder, &capture, &["DISPCNT is 0x0006", "(refusal 4)"], &[]);
}

#[test]
fn what_may_not_be_read_or_written_is_refused() {
    let unprivileged = Unprivileged::new("frame");
    let folder = &unprivileged.folder;
    let state = folder.join("scene.ss0");
    fs::copy(sample("scene/capture.ss0"), &state).unwrap();
    let run = |capture: &Path, output: &Path| {
        unprivileged.run(&["frame", capture.to_str().unwrap(), "-o", output.to_str().unwrap()])
    };
    let output = folder.join("frame.png");
    assert_eq!(run(&state, &output).status.code(), Some(0));
    fs::remove_file(&output).unwrap();
    forbid(&state, 0o000);
    check_refused(&run(&state, &output), &state, &["Permission denied", "expected a folder with vram.bin"]);
    for (name, len) in FILES {
        let capture = scene_folder(folder);
        forbid(&capture.join(name), 0o000);
        let words = ["Permission denied", &len.to_string()];
        check_refused(&run(&capture, &output), &capture.join(name), &words);
    }
    assert!(!output.exists());
    let capture = scene_folder(folder);
    let closed = folder.join("closed");
    fs::create_dir(&closed).unwrap();
    forbid(&closed, 0o000);
    let output = closed.join("frame.png");
    check_refused(&run(&capture, &output), &output, &["Permission denied", "give -o"]);
}

#[test]
fn paths_may_have_spaces() {
    let folder = scratch("frame/with spaces in it").join(" a b ");
    fs::create_dir(&folder).unwrap();
    let state = folder.join("the scene .ss0");
    fs::copy(sample("scene/capture.ss0"), &state).unwrap();
    let output = folder.join(" the frame.png");
    let run = frame(&state, &output, &[]);
    assert_eq!(run.status.code(), Some(0), "{}", stderr(&run));
    assert_eq!(read_png(&output).width, 240);
    fs::write(&state, "").unwrap();
    refused(&state, &folder, &state, &["0 bytes", "(refusal 2)"], &[]);
}

#[test]
fn a_pipe_in_a_folder_is_not_waited_for() {
    let folder = scratch("frame/pipe");
    let capture = scene_folder(&folder);
    fs::remove_file(capture.join("oam.bin")).unwrap();
    make_pipe(&capture.join("oam.bin"));
    refused(&capture, &folder, &capture.join("oam.bin"), &["not a file", "expected one of 1024 bytes"], &[]);
}

#[test]
fn what_is_no_capture_is_refused() {
    let folder = scratch("frame/no_capture");
    let missing = folder.join("missing.ss0");
    refused(&missing, &folder, &missing, &["No such file", "expected a folder with vram.bin"], &[]);
    let directory = folder.join("folder.ss0");
    fs::create_dir(&directory).unwrap();
    let none = "folder with none of vram.bin, palette.bin, oam.bin and registers.bin";
    refused(&directory, &folder, &directory, &[none, "`batch` draws those below a folder"], &[]);
    fs::write(directory.join("oam.bin"), [0; 1024]).unwrap();
    refused(&directory, &folder, &directory.join("vram.bin"), &["131072 or 98304"], &[]);
    let endless = Path::new("/dev/zero");
    refused(endless, &folder, endless, &["starts with 0x00000000"], &[]);
}

#[test]
fn an_output_that_cant_be_written_is_refused() {
    let folder = scratch("frame/output");
    let state = folder.join("scene.ss0");
    fs::copy(sample("scene/capture.ss0"), &state).unwrap();
    let capture = scene_folder(&folder);
    // In place of a device, which a wrong command would replace.
    let socket = folder.join("socket");
    UnixListener::bind(&socket).unwrap();
    let before = names(&folder);
    for (from, output, word) in [
        (&state, folder.join("missing/frame.png"), "No such file"),
        (&state, capture.clone(), "not a file"),
        (&state, socket, "not a file"),
        (&state, folder.join("missing/.."), "no file name"),
        // The one that fails at the rename.
        (&state, folder.join("trailing/"), "can't be written"),
        (&state, state.clone(), "the capture itself"),
        (&capture, capture.join("oam.bin"), "the capture itself"),
    ] {
        check_refused(&frame(from, &output, &[]), &output, &[word, "give -o"]);
    }
    assert_eq!(names(&folder), before);
    assert_eq!(fs::read(&state).unwrap(), fs::read(sample("scene/capture.ss0")).unwrap());
}

#[test]
fn an_old_frame_stays_unless_a_new_one_is_drawn() {
    let folder = scratch("frame/old_frame");
    let [output, twin, link] = ["frame.png", "twin.png", "link.png"].map(|name| folder.join(name));
    fs::write(&output, "old").unwrap();
    fs::hard_link(&output, &twin).unwrap();
    symlink(&output, &link).unwrap();
    let capture = write_folder(&folder, &[(0, 7)]);
    let before = names(&folder);
    assert_eq!(frame(&capture, &link, &[]).status.code(), Some(1));
    assert_eq!(fs::read(&output).unwrap(), b"old");
    assert_eq!(frame(&sample("scene/capture.ss0"), &link, &[]).status.code(), Some(0));
    assert_eq!(read_png(&output).width, 240);
    // A frame is a new file, put in place when it is whole; a link stays a link.
    assert_eq!(fs::read(&twin).unwrap(), b"old");
    assert_eq!(fs::read_link(&link).unwrap(), output);
    assert_eq!(names(&folder), before);
}

/// As a file that the shell makes, whether there was one before or not.
#[test]
fn a_frame_has_the_rights_of_a_new_file() {
    let folder = scratch("frame/rights");
    let [output, other] = ["frame.png", "other"].map(|name| folder.join(name));
    let capture = sample("scene/capture.ss0");
    for umask in ["022", "077", "002"] {
        let line = format!("umask {umask}; : > \"$1\"; exec \"$0\" frame \"$2\" -o \"$3\"");
        let mut shell = Command::new("sh");
        shell.args(["-c", &line, env!("CARGO_BIN_EXE_ashlarkin")]).args([&other, &capture, &output]);
        assert!(shell.status().unwrap().success());
        let rights = |path: &Path| fs::metadata(path).unwrap().permissions().mode();
        assert_eq!(rights(&output), rights(&other), "umask {umask}");
        fs::remove_file(&other).unwrap();
    }
    assert_eq!(names(&folder), [output]);
}

#[test]
fn bad_usage_is_told_apart() {
    let folder = scratch("frame/usage");
    let capture = sample("scene/capture.ss0");
    let output = folder.join("frame.png");
    let (capture, output) = (capture.to_str().unwrap(), output.to_str().unwrap());
    let full = ["frame", capture, "-o", output];
    let mut lines = vec![vec![], vec!["draw"], vec!["frame", capture], vec!["frame", "-o", output]];
    let options = [["--scale", "0"], ["--scale", "17"], ["--scale", "x"], ["--reading", "X"], ["--jobs", "2"]];
    lines.extend(options.iter().map(|option| [&full[..], option].concat()));
    for line in lines {
        let run = ashlarkin(&line);
        assert_eq!(run.status.code(), Some(2), "{line:?}");
        assert!(run.stdout.is_empty() && !run.stderr.is_empty(), "{line:?}");
    }
    assert!(names(&folder).is_empty());
}

#[test]
fn help_has_examples() {
    for (line, word) in [
        (&["--help"][..], "ashlarkin frame samples/scene/capture.ss0 -o frame.png"),
        (&["frame", "--help"], "ashlarkin frame caps/07 -o frame.png"),
        (&["frame", "--help"], "Example: --reading H"),
        (&["frame", "-h"], "--scale <N>"),
        (&["--version"], concat!("ashlarkin ", env!("CARGO_PKG_VERSION"))),
    ] {
        let run = ashlarkin(line);
        assert_eq!(run.status.code(), Some(0), "{line:?}");
        let text = String::from_utf8(run.stdout).unwrap();
        assert!(text.contains(word), "{line:?}: {text}");
    }
}
