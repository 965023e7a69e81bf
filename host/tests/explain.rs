//! `ashlarkin explain`: the pixels are those of the frame, and what can't be explained is refused.

use std::fs;
use std::path::Path;
use std::process::{Command, Output, Stdio};

use serde_json::Value;

use crate::common::*;

const SAMPLES: [&str; 3] = ["scene/capture.ss0", "scene-two-tone/capture.state.png", "title/capture"];

const FIELDS: [&str; 11] =
    ["x", "y", "reading", "blank", "region", "top", "bottom", "effect", "first_weight", "second_weight", "pixel"];

fn explain(capture: &Path, options: &[&str]) -> Output {
    ashlarkin(&[&["explain", capture.to_str().unwrap()], options].concat())
}

/// What must be explained, as it is printed.
fn explained(capture: &Path, options: &[&str]) -> String {
    let run = explain(capture, options);
    assert_eq!((run.status.code(), stderr(&run)), (Some(0), ""), "{options:?}");
    stdout(&run).to_owned()
}

fn objects(text: &str) -> Vec<Value> {
    text.lines().map(|line| serde_json::from_str(line).unwrap()).collect()
}

fn hex([red, green, blue]: [u8; 3]) -> String {
    format!("#{red:02x}{green:02x}{blue:02x}")
}

/// Checks a whole line against the frame, and that it names its columns in order.
fn check_line(capture: &Path, picture: &Picture, line: usize, reading: &str) {
    let text = explained(capture, &["--line", &line.to_string(), "--reading", reading]);
    let columns = objects(&text);
    assert_eq!(columns.len(), 240);
    for (x, (object, pixel)) in columns.iter().zip(&picture.pixels[240 * line..]).enumerate() {
        assert_eq!((&object["x"], &object["y"], &object["reading"]), (&x.into(), &line.into(), &reading.into()));
        assert_eq!(object["pixel"], hex(*pixel), "{object}");
    }
}

#[test]
fn lines_are_those_of_the_frame() {
    let folder = scratch("explain/lines");
    for (name, reading) in SAMPLES.iter().flat_map(|name| ["R", "H"].map(|reading| (name, reading))) {
        let picture = drawn(&sample(name), &folder, &["--reading", reading]);
        for line in (0..160).step_by(9).chain([1, 2, 159]) {
            check_line(&sample(name), &picture, line, reading);
        }
    }
}

#[test]
fn places_are_those_of_the_frame() {
    let folder = scratch("explain/places");
    for (name, reading) in [(SAMPLES[0], "H"), (SAMPLES[1], "R")] {
        let picture = drawn(&sample(name), &folder, &["--reading", reading]);
        for (x, y) in (0..240).step_by(34).chain([239]).flat_map(|x| [0, 1, 50, 91, 120, 159].map(|y| (x, y))) {
            let pixel = hex(picture.pixels[240 * y + x]);
            let options = ["--at", &format!("{x},{y}"), "--reading", reading];
            let text = explained(&sample(name), &options);
            assert!(text.starts_with(&format!("This is column {x} of line {y} under reading {reading}, ")), "{text}");
            let last = text.lines().last().unwrap();
            assert!(last.split_whitespace().take(2).eq(["pixel", &pixel]), "({x}, {y}) is {pixel}: {text}");
            let json = explained(&sample(name), &[&options[..], &["--json"]].concat());
            assert_eq!(objects(&json)[0]["pixel"], pixel, "{json}");
        }
    }
}

/// As `frame` starts them from the registers and steps them: R not after line 0.
#[test]
fn references_are_stepped_to_the_line() {
    let folder = scratch("explain/references");
    for (number, reading) in [(2, "R"), (3, "H")] {
        let capture = affine_capture(&folder, number, [-54_321, 0x40_1234, 0x120, -0x35, 0x17, 0xe5]);
        let picture = drawn(&capture, &folder, &["--reading", reading]);
        for line in [0, 1, 2, 3, 77, 159] {
            check_line(&capture, &picture, line, reading);
        }
    }
}

/// The same facts, whichever way they are asked for.
#[test]
fn json_has_every_field() {
    let capture = sample(SAMPLES[0]);
    let line = explained(&capture, &["--line", "84", "--reading", "h"]);
    assert_eq!(line, explained(&capture, &["--line", "84", "--json", "--reading", "H"]));
    for (x, object) in objects(&line).iter().enumerate() {
        assert_eq!(object.as_object().unwrap().len(), FIELDS.len());
        assert!(FIELDS.iter().all(|field| !object[field].is_null()), "{object}");
        for layer in [&object["top"], &object["bottom"]] {
            let color = layer["color"].as_u64().unwrap();
            let channels = ["red", "green", "blue"].map(|channel| layer[channel].as_u64().unwrap());
            assert_eq!(channels, [0, 5, 10].map(|low| color >> low & 31), "{object}");
        }
        if x % 40 == 0 {
            let at = explained(&capture, &["--at", &format!("{x},84"), "--reading", "H", "--json"]);
            assert_eq!(Some(at.trim_end()), line.lines().nth(x));
        }
    }
}

/// As README shows it.
#[test]
fn a_blend_is_told() {
    let text = explained(&sample(SAMPLES[0]), &["--at", "79,91", "--reading", "H"]);
    assert!(include_str!("../../README.md").contains(&format!("```\n{text}```")), "{text}");
    let (paragraph, table) = text.split_once("\n\n").unwrap();
    let paragraph = paragraph.replace('\n', " ");
    for words in [
        "This is column 79 of line 91 under reading H, which follows the hardware notes. Window 0 holds it.",
        "In front is a sprite: ",
        "Behind it is background 0: ",
        "The sprite is semi-transparent, so it blends with what is behind it: 10 sixteenths of the sprite and 6 \
         sixteenths of background 0.",
    ] {
        assert!(paragraph.contains(words), "{paragraph}");
    }
    for row in ["region   window 0", "effect   sprite blend", "weights  10 and 6 sixteenths"] {
        assert!(table.lines().any(|line| line == row), "{table}");
    }
}

/// A terminal that `script` makes, and none.
#[test]
fn colours_are_shown_on_a_terminal_only() {
    let on_terminal = |no_color: Option<&str>| {
        let mut script = Command::new("script");
        script.args(["-qec", "\"$COMMAND\" explain \"$CAPTURE\" --at 79,91", "/dev/null"]).stdin(Stdio::null());
        script.env("COMMAND", env!("CARGO_BIN_EXE_ashlarkin")).env("CAPTURE", sample(SAMPLES[0]));
        script.env_remove("NO_COLOR").envs(no_color.map(|value| ("NO_COLOR", value)));
        let run = script.output().unwrap();
        assert!(run.status.success() && stdout(&run).contains("#78d840"), "{}", stderr(&run));
        stdout(&run).matches("\x1b[48;2;").count()
    };
    assert_eq!((on_terminal(None), on_terminal(Some("")), on_terminal(Some("1"))), (3, 3, 0));
    assert!(!explained(&sample(SAMPLES[0]), &["--at", "79,91"]).contains('\x1b'));
}

#[test]
fn forced_blank_names_no_layer() {
    let capture = scene_folder(&scratch("explain/blank"));
    let registers = capture.join("registers.bin");
    let mut bytes = fs::read(&registers).unwrap();
    bytes[0] |= 0x80;
    fs::write(&registers, bytes).unwrap();
    let text = explained(&capture, &["--at", "79,91"]);
    assert!(text.replace('\n', " ").contains("Forced blank is on, so no layer is asked and the whole line is white"));
    assert!(text.ends_with("#f8f8f8  red 31, green 31, blue 31\n"), "{text}");
    for object in objects(&explained(&capture, &["--line", "91"])) {
        assert!(object["blank"] == true && object["pixel"] == "#f8f8f8", "{object}");
        assert_eq!(object.as_object().unwrap().len(), FIELDS.len());
        assert!(FIELDS[4..10].iter().all(|field| object[field].is_null()), "{object}");
    }
}

#[test]
fn what_the_draw_refuses_is_refused() {
    let folder = scratch("explain/refused");
    let capture = write_folder(&folder, &[(0, 0x0007)]);
    let words = ["line 5: DISPCNT is 0x0007", "forced blank off, mode 6 or 7", "(refusal 4)"];
    for options in [&["--at", "0,5"][..], &["--at", "0,5", "--json"], &["--line", "5", "--reading", "H"]] {
        check_refused(&explain(&capture, options), &capture, &words);
    }
    let capture = write_folder(&folder, &[(0x54, 17)]);
    check_refused(&explain(&capture, &["--at", "0,0"]), &capture, &["BLDY is 0x0011", "(refusal 5)", "--reading H"]);
    explained(&capture, &["--at", "0,0", "--reading", "H"]);
}

#[test]
fn damaged_captures_are_refused() {
    let folder = scratch("explain/damaged");
    for (name, len) in FILES {
        let capture = scene_folder(&folder);
        fs::write(capture.join(name), vec![0; len - 1]).unwrap();
        let words = [&format!("{} bytes, expected {len}", len - 1), "(refusal 2)"];
        check_refused(&explain(&capture, &["--line", "0"]), &capture.join(name), &words);
        fs::remove_file(capture.join(name)).unwrap();
        check_refused(&explain(&capture, &["--at", "0,0"]), &capture.join(name), &["No such file"]);
    }
    let state = folder.join("cut.ss0");
    fs::write(&state, &fs::read(sample(SAMPLES[0])).unwrap()[..1000]).unwrap();
    check_refused(&explain(&state, &["--at", "0,0"]), &state, &["1000 bytes", "(refusal 2)"]);
    fs::copy(sample("scene/mgba.png"), &state).unwrap();
    check_refused(&explain(&state, &["--at", "0,0"]), &state, &["no gbAs chunk"]);
    let missing = folder.join("missing.ss0");
    check_refused(&explain(&missing, &["--at", "0,0"]), &missing, &["No such file"]);
}

#[test]
fn wrong_places_are_bad_usage() {
    for (options, words) in [
        (&["--at", "240,0"][..], "'--at <X,Y>': column 240, expected 0 to 239"),
        (&["--at", "3,160"], "'--at <X,Y>': line 160, expected 0 to 159"),
        (&["--at", "-1,0"], "'--at <X,Y>': column -1, expected 0 to 239"),
        (&["--at", "a,b"], "'--at <X,Y>': column a, expected 0 to 239"),
        (&["--at", "3"], "'--at <X,Y>': no comma, expected a column 0 to 239, a comma and a line 0 to 159"),
        (&["--line", "160"], "'--line <Y>': line 160, expected 0 to 159"),
        (&["--line", "-1"], "'--line <Y>': line -1, expected 0 to 159"),
        (&["--at", "3,5", "--line", "5"], "cannot be used with '--line <Y>'"),
        (&["--json"], "required"),
        (&["--at", "3,5", "--reading", "X"], "'--reading <READING>'"),
        (&["--at", "3,5", "--scale", "2"], "'--scale'"),
    ] {
        let run = explain(&sample(SAMPLES[0]), options);
        assert_eq!(run.status.code(), Some(2), "{options:?}");
        assert!(run.stdout.is_empty() && stderr(&run).lines().next().unwrap().contains(words), "{}", stderr(&run));
    }
    assert_eq!(ashlarkin(&["explain", "--at", "3,5"]).status.code(), Some(2));
    let help = ashlarkin(&["explain", "--help"]);
    assert!(stdout(&help).contains("ashlarkin explain game.ss0 --at 120,80") && stdout(&help).contains("Exit status"));
}

/// A reader that has gone away has read enough.
#[test]
fn a_closed_pipe_is_no_failure() {
    let mut command = Command::new(env!("CARGO_BIN_EXE_ashlarkin"));
    command.arg("explain").arg(sample(SAMPLES[0])).args(["--line", "84"]);
    let mut child = command.stdout(Stdio::piped()).stderr(Stdio::piped()).spawn().unwrap();
    drop(child.stdout.take());
    let run = child.wait_with_output().unwrap();
    assert_eq!((run.status.code(), stderr(&run)), (Some(0), ""));
}
