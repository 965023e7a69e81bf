//! `ashlarkin batch` on many captures, damaged ones among them.

use std::collections::BTreeMap;
use std::fs;
use std::os::unix::fs::symlink;
use std::path::{Path, PathBuf};
use std::process::Output;

use serde_json::Value;

use crate::common::*;

fn batch(folder: &Path, out: &Path, options: &[&str]) -> Output {
    let paths = ["batch", folder.to_str().unwrap(), "-o", out.to_str().unwrap()];
    ashlarkin(&[&paths[..], options].concat())
}

/// A batch that must draw all of this many captures and say nothing else.
fn all_drawn(folder: &Path, out: &Path, count: usize, options: &[&str]) {
    let run = batch(folder, out, options);
    assert_eq!((run.status.code(), stderr(&run)), (Some(0), ""));
    assert!(stdout(&run).starts_with(&format!("{count} captures: {count} drawn, 0 failed; ")), "{}", stdout(&run));
    assert_eq!(stdout(&run).lines().count(), 1);
}

/// All files below a folder, by their paths from it, with what they hold.
fn files(folder: &Path) -> BTreeMap<PathBuf, Vec<u8>> {
    let mut found = BTreeMap::new();
    for path in names(folder) {
        let name = PathBuf::from(path.file_name().unwrap());
        if path.is_dir() {
            found.extend(files(&path).into_iter().map(|(below, bytes)| (name.join(below), bytes)));
        } else {
            found.insert(name, fs::read(path).unwrap());
        }
    }
    found
}

fn places(folder: &Path) -> Vec<String> {
    files(folder).into_keys().map(|path| path.to_str().unwrap().to_owned()).collect()
}

/// What `frame` makes of a capture.
fn single(capture: &Path, folder: &Path) -> Vec<u8> {
    let output = folder.join("single.png");
    assert_eq!(frame(capture, &output, &[]).status.code(), Some(0));
    let bytes = fs::read(&output).unwrap();
    fs::remove_file(output).unwrap();
    bytes
}

/// Ten ways to be damaged: the capture's path, the path that the error names, and its words.
fn write_damaged(folder: &Path) -> Vec<(PathBuf, PathBuf, &'static str)> {
    fs::create_dir_all(folder).unwrap();
    let raw = fs::read(sample("scene/capture.ss0")).unwrap();
    let png = fs::read(sample("scene/capture.state.png")).unwrap();
    let mut flipped = png.clone();
    flipped[15_000] ^= 1;
    let mut damaged = vec![];
    for (name, bytes, words) in [
        ("empty.ss0", &[][..], "0 bytes, expected 397312"),
        ("cut.ss1", &raw[..200_000], "200000 bytes, expected 397312"),
        ("cut", &raw[..300_000], "300000 bytes, expected 397312"),
        ("cut.png", &png[..17_000], "PNG damaged"),
        ("flipped.state.png", &flipped, "CRC"),
        ("text.SS2", b"not a state", "expected 0x01000007"),
    ] {
        let path = folder.join(name);
        fs::write(&path, bytes).unwrap();
        damaged.push((path.clone(), path, words));
    }
    let remove = |path: &Path| fs::remove_file(path).unwrap();
    let empty = |path: &Path| fs::write(path, "").unwrap();
    let make_directory = |path: &Path| fs::remove_file(path).and_then(|()| fs::create_dir(path)).unwrap();
    let make_mode_7 = |path: &Path| fs::write(path, [7; 86]).unwrap();
    type Damage<'a> = &'a dyn Fn(&Path);
    let damages: [(&str, &str, Damage, &str); 4] = [
        ("missing", "oam.bin", &remove, "No such file"),
        ("emptied", "palette.bin", &empty, "0 bytes, expected 1024 (refusal 2)"),
        ("directory", "vram.bin", &make_directory, "Is a directory"),
        ("mode", "registers.bin", &make_mode_7, "line 0: DISPCNT is 0x0707"),
    ];
    for (name, part, damage, words) in damages {
        let capture = folder.join(name);
        write_scene(&capture);
        damage(&capture.join(part));
        // A refused draw is the whole capture's.
        let named = if name == "mode" { capture.clone() } else { capture.join(part) };
        damaged.push((capture, named, words));
    }
    damaged
}

#[test]
fn two_hundred_with_ten_damaged() {
    let scratch = scratch("batch/two_hundred");
    let [folder, out] = ["caps", "frames"].map(|name| scratch.join(name));
    let mut expected = BTreeMap::new();
    let scene = single(&sample("scene/capture.ss0"), &scratch);
    let two_tone = single(&sample("scene-two-tone/capture.state.png"), &scratch);
    for number in 0..190 {
        let place = PathBuf::from(format!("{}/{number:03}", ["a", "b/c", "d e"][number % 3]));
        let path = folder.join(&place);
        let sample_of = match number % 4 {
            0 => None,
            1 => Some("scene/capture.ss0"),
            2 => Some("scene/capture.state.png"),
            _ => Some("scene-two-tone/capture.state.png"),
        };
        match sample_of {
            None => write_scene(&path),
            Some(name) => {
                fs::create_dir_all(path.parent().unwrap()).unwrap();
                fs::copy(sample(name), &path).unwrap();
            }
        }
        let frame = if number % 4 == 3 { &two_tone } else { &scene };
        expected.insert(place.with_extension("png"), frame.clone());
    }
    let damaged = write_damaged(&folder.join("c"));
    assert_eq!(damaged.len(), 10);

    let run = batch(&folder, &out, &[]);
    assert_eq!(run.status.code(), Some(1));
    assert!(stdout(&run).starts_with("200 captures: 190 drawn, 10 failed; frames in "), "{}", stdout(&run));
    assert_eq!(stderr(&run).lines().count(), 10, "{}", stderr(&run));
    for (_, named, words) in &damaged {
        let start = format!("{}: ", named.display());
        let line = stderr(&run).lines().find(|line| line.starts_with(&start));
        assert!(line.is_some_and(|line| line.contains(words)), "{start}{words} in {}", stderr(&run));
    }
    assert!(files(&out) == expected, "the frames of 190 captures and nothing else");
}

#[test]
fn the_samples_are_drawn() {
    let out = scratch("batch/samples").join("frames");
    all_drawn(&sample(""), &out, 4, &["--reading", "H"]);
    let captures =
        ["scene/capture.ss0", "scene/capture.state.png", "scene-two-tone/capture.state.png", "title/capture"];
    assert_eq!(places(&out), captures.map(|capture| format!("{capture}.png")));
}

#[test]
fn json_says_the_same() {
    let scratch = scratch("batch/json");
    let [folder, out] = ["caps", "frames"].map(|name| scratch.join(name));
    let damaged = write_damaged(&folder);
    fs::copy(sample("scene/capture.ss0"), folder.join("whole \"one\".ss0")).unwrap();
    let run = batch(&folder, &out, &["--json"]);
    assert_eq!(run.status.code(), Some(1));
    let objects: Vec<Value> = stdout(&run).lines().map(|line| serde_json::from_str(line).unwrap()).collect();
    assert_eq!(objects.len(), 12);
    assert!(objects[..11].iter().map(|object| Path::new(object["capture"].as_str().unwrap())).is_sorted());
    let summary = &objects[11]["summary"];
    assert_eq!((&summary["captures"], &summary["drawn"], &summary["failed"]), (&11.into(), &1.into(), &10.into()));
    let of = |path: &Path| objects.iter().find(|object| object["capture"] == path.to_str().unwrap()).unwrap();
    for (capture, named, words) in &damaged {
        let object = of(capture);
        let error = object["error"].as_str().unwrap();
        assert!(error.starts_with(named.to_str().unwrap()) && error.contains(words), "{object}");
        assert!(object["drawn"] == false && object.get("frame").is_none());
        assert!(stderr(&run).contains(error));
    }
    let mode = &of(&folder.join("mode"))["refusal"];
    assert_eq!((&mode["number"], &mode["line"]), (&4.into(), &0.into()));
    assert_eq!(mode["meaning"], "forced blank off, mode 6 or 7");
    assert!(of(&folder.join("emptied"))["refusal"]["line"].is_null());
    assert_eq!(of(&folder.join("emptied"))["refusal"]["number"], 2);
    assert!(of(&folder.join("missing")).get("refusal").is_none());
    let whole = of(&folder.join("whole \"one\".ss0"));
    assert!(whole["drawn"] == true && whole.get("error").is_none());
    assert_eq!(whole["frame"], out.join("whole \"one\".ss0.png").to_str().unwrap());
    assert_eq!(names(&out), [out.join("whole \"one\".ss0.png")]);
}

#[test]
fn other_files_are_passed_over() {
    let scratch = scratch("batch/others");
    let [folder, out] = ["caps", "frames"].map(|name| scratch.join(name));
    fs::create_dir_all(folder.join("empty")).unwrap();
    for (name, bytes) in
        [("notes.txt", &b"of the captures"[..]), ("nothing", b""), ("video", &[0, 0, 0, 1, 0, 0, 0, 0])]
    {
        fs::write(folder.join(name), bytes).unwrap();
    }
    fs::copy(sample("scene/mgba.png"), folder.join("screenshot.png")).unwrap();
    make_pipe(&folder.join("pipe"));
    symlink("nowhere", folder.join("broken")).unwrap();
    let run = batch(&folder, &out, &[]);
    check_refused(&run, &folder, &["no capture below it"]);
    assert!(!out.exists());
    fs::copy(sample("scene/capture.state.png"), folder.join("a.png")).unwrap();
    all_drawn(&folder, &out, 1, &[]);
    assert_eq!(places(&out), ["a.png.png"]);

    // A name that says it is a state is taken at its word.
    fs::rename(folder.join("screenshot.png"), folder.join("screenshot.state.png")).unwrap();
    fs::rename(folder.join("broken"), folder.join("broken.ss1")).unwrap();
    fs::rename(folder.join("pipe"), folder.join("pipe.ss2")).unwrap();
    let run = batch(&folder, &out, &[]);
    let lines: Vec<&str> = stderr(&run).lines().collect();
    assert_eq!((run.status.code(), lines.len()), (Some(1), 3));
    assert!(lines[0].contains("broken.ss1: can't be read: No such file"), "{lines:?}");
    assert!(lines[1].contains("screenshot.state.png: PNG with no gbAs chunk"), "{lines:?}");
    assert!(lines[2].contains("pipe.ss2: can't be read: not a file"), "{lines:?}");
}

/// Where nothing in it, or in its name, is left to say so.
#[test]
fn what_may_have_been_a_capture_is_reported() {
    let scratch = scratch("batch/may_have_been");
    let [folder, out] = ["caps", "frames"].map(|name| scratch.join(name));
    fs::create_dir_all(folder.join("part")).unwrap();
    let [raw, state, picture] =
        ["capture.ss0", "capture.state.png", "mgba.png"].map(|name| fs::read(sample("scene").join(name)).unwrap());
    let kind = state.windows(4).position(|bytes| bytes == b"gbAs").unwrap();
    let renamed = [&state[..kind], b"GbAs", &state[kind + 4..]].concat();
    let damaged = [
        ("cut 0.png", &[][..], "0 bytes, expected 397312"),
        ("cut 1.PNG", &state[..1], "1 bytes, expected 397312"),
        ("cut 8", &state[..8], "PNG damaged at byte 8, expected whole chunks: ends inside a chunk"),
        ("cut 9000.png", &state[..9000], "PNG damaged at byte 8237, expected whole chunks: ends inside a chunk"),
        ("cut chunk.png", &state[..kind], "PNG damaged at byte 14798, expected whole chunks: ends inside a chunk"),
        ("cut picture.png", &picture[..picture.len() - 1], "ends inside a chunk"),
        ("part/registers.bin", b"", ""),
        ("raw 4", &raw[..4], "4 bytes, expected 397312"),
        ("renamed.png", &renamed, "CRC"),
    ];
    for (name, bytes, _) in damaged {
        fs::write(folder.join(name), bytes).unwrap();
    }
    // A picture that is whole, and a file longer than any capture.
    fs::write(folder.join("whole.png"), &picture).unwrap();
    fs::write(folder.join("long.png"), [&state[..9000], &vec![0; 0x100_0000]].concat()).unwrap();
    let run = batch(&folder, &out, &[]);
    let lines: Vec<&str> = stderr(&run).lines().collect();
    assert_eq!((run.status.code(), lines.len()), (Some(1), damaged.len()), "{lines:?}");
    for (line, (name, _, words)) in lines.iter().zip(damaged) {
        let named = folder.join(name.replace("registers", "vram"));
        assert!(line.starts_with(&format!("{}: ", named.display())) && line.contains(words), "{line}");
    }
    assert!(stdout(&run).starts_with("9 captures: 0 drawn, 9 failed; "), "{}", stdout(&run));
}

#[test]
fn frames_mirror_the_tree() {
    let scratch = scratch("batch/mirror");
    let [folder, out] = ["caps", "frames"].map(|name| scratch.join(name));
    write_scene(&folder.join("x"));
    write_scene(&folder.join("x/inside"));
    write_scene(&folder.join("x.png/y"));
    fs::copy(sample("scene/capture.ss0"), folder.join("x.png/y.ss0")).unwrap();
    all_drawn(&folder, &out, 4, &[]);
    assert_eq!(places(&out), ["x/inside.png", "x.png", "x.png.d/y.png", "x.png.d/y.ss0.png"]);
    // A folder that is itself a capture, and has others below.
    let out = scratch.join("frames of x");
    all_drawn(&folder.join("x"), &out, 2, &[]);
    assert_eq!(places(&out), ["x/inside.png", "x.png"]);
}

#[test]
fn a_frame_never_replaces_a_capture() {
    let folder = scratch("batch/replace");
    write_scene(&folder.join("scene"));
    write_scene(&folder.join("other"));
    fs::copy(sample("scene/capture.state.png"), folder.join("scene.png")).unwrap();
    let run = batch(&folder, &folder, &[]);
    let words = "scene.png: a file of a capture, which the frame would replace";
    assert!(run.status.code() == Some(1) && stderr(&run).contains(words), "{}", stderr(&run));
    assert!(stdout(&run).starts_with("3 captures: 2 drawn, 1 failed"));
    assert!(fs::read(folder.join("scene.png")).unwrap() == fs::read(sample("scene/capture.state.png")).unwrap());
    assert!(folder.join("other.png").exists() && folder.join("scene.png.png").exists());
}

#[test]
fn frames_among_the_captures_are_no_captures() {
    let folder = scratch("batch/among");
    let out = folder.join("frames");
    fs::copy(sample("scene/capture.ss0"), folder.join("a.state")).unwrap();
    for _ in 0..2 {
        all_drawn(&folder, &out, 1, &[]);
        assert_eq!(places(&out), ["a.state.png"]);
    }
}

#[test]
fn links_are_followed_and_loops_end() {
    let scratch = scratch("batch/links");
    let [folder, out] = ["caps", "frames"].map(|name| scratch.join(name));
    write_scene(&scratch.join("elsewhere/scene"));
    fs::create_dir_all(folder.join("below")).unwrap();
    symlink(scratch.join("elsewhere"), folder.join("linked")).unwrap();
    symlink(sample("scene/capture.ss0"), folder.join("state")).unwrap();
    // Back up, and around by the folder above the first, which has another capture.
    symlink(&folder, folder.join("below/loop")).unwrap();
    symlink(&scratch, folder.join("below/around")).unwrap();
    all_drawn(&folder, &out, 3, &[]);
    assert_eq!(places(&out), ["below/around/elsewhere/scene.png", "linked/scene.png", "state.png"]);
}

#[test]
fn every_number_of_jobs_draws_the_same() {
    let scratch = scratch("batch/jobs");
    let folder = scratch.join("caps");
    for name in ["a", "b", "c", "d", "e"] {
        write_scene(&folder.join(name));
    }
    fs::copy(sample("scene-two-tone/capture.state.png"), folder.join("f.ss0")).unwrap();
    let drawn = |jobs: &str| {
        let out = scratch.join(format!("frames {jobs}"));
        all_drawn(&folder, &out, 6, &["--jobs", jobs, "--scale", "2", "--reading", "H"]);
        assert_eq!(read_png(&out.join("a.png")).width, 480);
        files(&out)
    };
    let one = drawn("1");
    assert!(["2", "7", "64"].iter().all(|jobs| drawn(jobs) == one));
}

#[test]
fn the_reading_is_passed_on() {
    let scratch = scratch("batch/reading");
    let folder = scratch.join("caps");
    fs::create_dir(&folder).unwrap();
    let capture = write_folder(&folder, &[(0x54, 17)]);
    let run = batch(&folder, &scratch.join("frames"), &[]);
    assert!(stderr(&run).starts_with(&format!("{}: line 0: BLDY is 0x0011", capture.display())), "{}", stderr(&run));
    all_drawn(&folder, &scratch.join("frames"), 1, &["--reading", "H"]);
}

#[test]
fn folders_that_cant_be_used_are_refused() {
    let folder = scratch("batch/folders");
    let [missing, out, file] = ["missing", "frames", "a.ss0"].map(|name| folder.join(name));
    fs::copy(sample("scene/capture.ss0"), &file).unwrap();
    check_refused(&batch(&missing, &out, &[]), &missing, &["No such file", "expected a folder with captures"]);
    check_refused(&batch(&file, &out, &[]), &file, &["not a folder", "ashlarkin frame"]);
    assert_eq!(names(&folder), std::slice::from_ref(&file), "nothing is made for a batch that can't be");
    check_refused(&batch(&folder, &file, &[]), &file, &["can't be made", "give -o"]);
    check_refused(&batch(&folder, &file.join("below"), &[]), &file.join("below"), &["can't be made", "give -o"]);
    // A folder stands where the frame should: the one is reported, the others are drawn.
    fs::copy(sample("scene/capture.ss0"), folder.join("b.ss0")).unwrap();
    fs::create_dir_all(out.join("a.ss0.png/in the way")).unwrap();
    let run = batch(&folder, &out, &[]);
    assert_eq!(run.status.code(), Some(1));
    assert!(stderr(&run).starts_with(&format!("{}: not a file", out.join("a.ss0.png").display())), "{}", stderr(&run));
    assert!(out.join("b.ss0.png").is_file());
}

#[test]
fn what_may_not_be_read_is_reported_and_the_rest_drawn() {
    let unprivileged = Unprivileged::new("batch");
    let folder = unprivileged.folder.join("caps");
    for name in ["closed", "open"] {
        write_scene(&folder.join(name));
    }
    for name in ["shut", "listed", "links/before/below"] {
        fs::create_dir_all(folder.join(name)).unwrap();
    }
    symlink("../shut", folder.join("links/link")).unwrap();
    for name in ["state", "listed/state"] {
        fs::copy(sample("scene/capture.ss0"), folder.join(name)).unwrap();
    }
    for name in ["closed/oam.bin", "shut", "state"] {
        forbid(&folder.join(name), 0o000);
    }
    // Its names can be read, and nothing of what they name.
    forbid(&folder.join("listed"), 0o444);
    let run = unprivileged.run(&["batch", "caps", "-o", "frames"]);
    assert_eq!(run.status.code(), Some(1));
    for (name, where_in) in
        [("closed/oam.bin", ""), ("links", "a link in it: "), ("listed/state", ""), ("shut", ""), ("state", "")]
    {
        let start = format!("caps/{name}: can't be read: {where_in}Permission denied");
        assert!(stderr(&run).lines().any(|line| line.starts_with(&start)), "{start} in {}", stderr(&run));
    }
    assert!(stdout(&run).starts_with("6 captures: 1 drawn, 5 failed"), "{}", stdout(&run));
    assert_eq!(places(&unprivileged.folder.join("frames")), ["open.png"]);
}

#[test]
fn bad_usage_is_told_apart() {
    let folder = scratch("batch/usage");
    let [caps, out] = ["caps", "frames"].map(|name| folder.join(name).to_str().unwrap().to_owned());
    for line in [
        &["batch"][..],
        &["batch", &caps],
        &["batch", "-o", &out],
        &["batch", &caps, "-o", &out, "--jobs", "0"],
        &["batch", &caps, "-o", &out, "--jobs", "1025"],
        &["batch", &caps, "-o", &out, "--scale", "17"],
        &["batch", &caps, "-o", &out, "--json=yes"],
    ] {
        let run = ashlarkin(line);
        assert_eq!(run.status.code(), Some(2), "{line:?}");
        assert!(run.stdout.is_empty() && !run.stderr.is_empty(), "{line:?}");
    }
    assert!(names(&folder).is_empty());
    let help = ashlarkin(&["batch", "--help"]);
    assert!(stdout(&help).contains("ashlarkin batch caps -o frames") && stdout(&help).contains("Exit status"));
}
