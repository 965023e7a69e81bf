//! `ashlarkin compare`: a run without differences, and differences made on purpose, found, kept and replayed.

use std::fs;
use std::path::Path;
use std::process::{Command, Output};

use crate::common::*;

/// Runs `compare` in a folder, where a difference would be kept.
fn compare(folder: &Path, options: &[&str]) -> Output {
    let mut command = Command::new(env!("CARGO_BIN_EXE_ashlarkin"));
    command.current_dir(folder).arg("compare").args(options).output().unwrap()
}

/// The counts of a run that found no difference, without its speed.
fn counts(run: &Output) -> Vec<String> {
    assert_eq!((run.status.code(), stderr(run)), (Some(0), ""));
    let lines = stdout(run).lines().map(str::trim).filter(|line| !line.contains("a second"));
    lines.map(str::to_owned).collect()
}

fn number(line: &str) -> u64 {
    line.split_whitespace().next().unwrap().parse().unwrap()
}

#[test]
fn library_and_oracle_agree() {
    let folder = scratch("compare/agree");
    let lines = counts(&compare(&folder, &["--cases", "2000", "--seed", "1"]));
    assert_eq!(lines[0], "seed 1, 2000 cases");
    assert!(
        lines[1].ends_with(" draws, 2000 steps, 2000 resets: no difference between library and oracle"),
        "{lines:?}"
    );
    let draws = number(&lines[1]);
    let with =
        |start: &str| lines.iter().filter(|line| line.contains(start)).map(|line| number(line)).collect::<Vec<_>>();
    // Every number of document 01 is among them, and every kind of case.
    assert_eq!(with(" draws with ").len(), 8);
    assert_eq!(with(" draws with ").iter().sum::<u64>(), draws);
    let kinds: Vec<u64> = with(" draws ").into_iter().take(4).collect();
    assert!(kinds.iter().sum::<u64>() == draws && kinds[..3] == [1000, 500, 250] && kinds[3] > 500, "{kinds:?}");
    // All of them on records, too, and each faulty case beside one with a fault of records alone.
    assert!(lines.contains(&format!("{} draws on records, 2000 steps on records", draws + 250)), "{lines:?}");
    let by_number = lines.iter().find(|line| line.starts_with("draws on records by number: 0 ")).unwrap();
    assert!((1..=7).all(|number| by_number.contains(&format!(", {number} "))), "{by_number}");
    assert!(by_number.contains("; steps on records: 0 ") && by_number.ends_with(" times"), "{by_number}");
    explained_all_over(&lines);
    called_all_over(&lines);
    assert!(names(&folder).is_empty());
}

/// Every 9th case is explained: every number, region and effect is among the columns.
fn explained_all_over(lines: &[String]) {
    let by_number = lines.iter().find(|line| line.contains(" columns explained, by number: 0 ")).unwrap();
    assert!(number(by_number) > 222 * 240, "{by_number}");
    assert!((1..=8).all(|number| by_number.contains(&format!(", {number} "))), "{by_number}");
    let by_name = lines.iter().find(|line| line.starts_with("by region: no windows ")).unwrap();
    let counts: Vec<u64> =
        by_name.split([',', ';']).map(|part| part.split(' ').next_back().unwrap().parse().unwrap()).collect();
    assert!(counts.len() == 10 && counts.iter().all(|count| *count > 0), "{by_name}");
    assert_eq!(counts[..5].iter().sum::<u64>(), counts[5..].iter().sum::<u64>(), "{by_name}");
}

/// Every 47th case has 32 calls on the bus: every number of each routine is among them.
fn called_all_over(lines: &[String]) {
    let all: u64 = 43 * 32;
    assert!(lines.contains(&format!("{all} calls on the bus")), "{lines:?}");
    let mut calls = 0;
    for (name, numbers) in [("reads", &[0, 2, 9][..]), ("byte stores", &[0, 2, 9]), ("halfword stores", &[0, 2, 9, 11])]
    {
        let start = format!("{name} by number: ");
        let by_number = lines.iter().find_map(|line| line.strip_prefix(&start)).unwrap();
        let counts: Vec<u64> = by_number.split_whitespace().filter_map(|word| word.parse().ok()).collect();
        let (given, times): (Vec<u64>, Vec<u64>) = counts.chunks_exact(2).map(|pair| (pair[0], pair[1])).unzip();
        assert_eq!(given, numbers, "{by_number}");
        calls += times.iter().sum::<u64>();
    }
    assert_eq!(calls, all);
}

#[test]
fn a_seed_makes_the_same_cases_on_any_number_of_threads() {
    let folder = scratch("compare/threads");
    let run = |threads: &str, options: &[&str]| {
        let mut command = Command::new(env!("CARGO_BIN_EXE_ashlarkin"));
        command.current_dir(&folder).env("RAYON_NUM_THREADS", threads).arg("compare").args(options).output().unwrap()
    };
    let options = ["--cases", "700", "--seed", "9"];
    assert_eq!(counts(&run("1", &options)), counts(&run("3", &options)));
    let flipped = ["--cases", "700", "--seed", "9", "--flip-for-test", "number@641"];
    assert_eq!(stderr(&run("1", &flipped)), stderr(&run("3", &flipped)));
    // A fresh seed is another one each time, and is printed.
    let seed = || counts(&run("2", &["--cases", "1"])).swap_remove(0);
    assert_ne!(seed(), seed());
}

#[test]
fn a_reading_alone_is_compared() {
    let folder = scratch("compare/reading");
    let all = |reading: &str| counts(&compare(&folder, &["--cases", "800", "--seed", "3", "--reading", reading]));
    let [r, h, both] = ["R", "h", "both"].map(all);
    assert!(r[2] == "400 draws accepted under R" && r[3] == "0 draws accepted under H", "{r:?}");
    assert!(h[2] == "0 draws accepted under R" && h[3] == "200 draws accepted under H", "{h:?}");
    assert!(both[2] == r[2] && both[3] == h[3], "{both:?}");
    // Refusal 5 is R's alone.
    assert!(r.iter().any(|line| line.contains("with 5:")) && !h.iter().any(|line| line.contains("with 5:")));
}

/// A changed answer of the library is found, wherever it lies, kept whole, and seen again in what was kept.
#[test]
fn a_difference_is_found_kept_and_replayed() {
    let folder = scratch("compare/difference");
    for (flip, call, words) in [
        ("number@37", "draw 0", "answer 8 and 0"),
        ("entry@0", "draw 0", "entry byte 959 (column 239)"),
        ("pixel@299", "draw 0", "pixel 239 0x01"),
        // Draw after draw of a chain, up to the last.
        ("pixel@7", "draw ", "pixel 239 0x01"),
        ("step@150", "step 0", "reference byte 15"),
        ("reset@200", "reset 0", "entry byte 199 (column 49) 0x5b and 0x5a"),
        ("record@37", "draw on records 0", "record 239 ObjBufferEntry {"),
        ("record@7", "draw on records ", "record 239 ObjBufferEntry {"),
        ("background@150", "step on records 0", "background 3 BgAffine {"),
        // What no pixel shows: a reason's parts, one by one.
        ("region@18", "reasons 0", "column 239: region "),
        ("layer@9", "reasons 0", "column 239: bottom "),
        ("effect@36", "reasons 0", "column 239: effect "),
        ("weight@45", "reasons 0", "column 239: weights "),
        ("color@81", "reasons 0", "column 239: colours "),
        ("blank@63", "reasons ", "column 239: Ok(ForcedBlank) and Ok(Shown("),
        ("shown@72", "reasons 0", "column 239: pixel 0x"),
        // Forced blank doesn't let such a column pass.
        ("refusal@27", "reasons 0", "column 4294967295: Err(Length) and Err(Column)"),
    ] {
        check_flip(&folder, flip, call, words);
    }
}

/// Of the last call of a case on the bus: its number, the byte that it reads, and what it leaves.
#[test]
fn a_difference_on_the_bus_is_found_kept_and_replayed() {
    let folder = scratch("compare/bus");
    for (flip, call, words) in [
        ("bus-number@94", "bus call 31 (store16 0x07", "answer 8 and 0"),
        ("bus-value@141", "bus call 31 (read8 0x06", "value 0x"),
        ("bus-vram@47", "bus call 31 (store8 0x06", "vram byte 0x1ffff 0x5b and 0x5a"),
        // It stores to that byte, too.
        ("bus-palette@235", "bus call 31 (store8 0x05fffffe 0x4f)", "palette byte 0x3ff 0x4e and 0x4f"),
        ("bus-oam@188", "bus call 31 (read8 0x07", "oam byte 0x3ff 0x5b and 0x5a"),
    ] {
        check_flip(&folder, flip, call, words);
    }
}

/// Runs with one answer changed: that is found at the call and in the words named, and is the only difference.
fn check_flip(folder: &Path, flip: &str, call: &str, words: &str) {
    let case = flip.split('@').nth(1).unwrap();
    let run = compare(folder, &["--cases", "300", "--seed", "1", "--keep", "kept.json", "--flip-for-test", flip]);
    let place = format!("seed 1, case {case}, {call}");
    let text = stderr(&run);
    assert_eq!((run.status.code(), stdout(&run), text.lines().count()), (Some(1), "seed 1, 300 cases\n", 1), "{flip}");
    assert!(text.starts_with(&place) && text.contains(words), "{flip}: {text}");
    assert!(text.contains("ashlarkin compare --replay kept.json"), "{text}");

    let again = compare(folder, &["--replay", "kept.json", "--flip-for-test", flip]);
    let found = stderr(&again);
    assert!(again.status.code() == Some(1) && found.starts_with(&format!("kept.json: {place}")), "{flip}: {found}");
    assert!(found.contains(words) && stdout(&again).contains("another answer or other bytes"), "{flip}: {found}");

    // It was the flip alone.
    let same = compare(folder, &["--replay", "kept.json"]);
    assert_eq!((same.status.code(), stderr(&same)), (Some(0), ""));
    assert!(stdout(&same).ends_with(&format!("case {case}: no difference\n")), "{}", stdout(&same));
}

/// The lowest bit of tile numbers: a library that keeps or drops it wrongly is told from the oracle, by draws under the
/// reading that it is wrong under and by no others.
#[test]
fn wrong_rules_for_tile_numbers_are_found() {
    let folder = scratch("compare/wrong");
    for (rule, reading, other) in [
        ("kept-under-h", "H", "R"),
        ("dropped-under-r", "R", "H"),
        ("dropped-in-one-dimension", "H", "R"),
        ("dropped-for-16-colours", "H", "R"),
    ] {
        let run = |reading, rest: &[&str]| {
            let options = ["--cases", "300", "--seed", "1", "--wrong-for-test", rule, "--reading", reading];
            compare(&folder, &[&options[..], rest].concat())
        };
        let found = run(reading, &["--keep", "kept.json"]);
        assert!(found.status.code() == Some(1) && stderr(&found).contains("entry byte "), "{rule}: {}", stderr(&found));
        counts(&run(other, &[]));

        let again = compare(&folder, &["--replay", "kept.json", "--wrong-for-test", rule]);
        assert_eq!(again.status.code(), Some(1), "{rule}");
        let same = compare(&folder, &["--replay", "kept.json"]);
        assert_eq!((same.status.code(), stderr(&same)), (Some(0), ""), "{rule}");
    }
}

/// A library that is wrong about the bus is told from the oracle: by the call that shows it, and what that leaves or answers.
#[test]
fn wrong_rules_for_the_bus_are_found() {
    let folder = scratch("compare/wrong-bus");
    for (rule, call, words) in [
        ("one-half-filled", "(store8 0x06847ffc ", ": vram byte 0x7ffd 0x"),
        ("upper-video-stays", "(store16 0x0603c002 ", ": vram byte 0x1c002 0x"),
        ("oam-takes-bytes", "(store8 0x07", ": oam byte 0x"),
        ("modes-6-and-7-are-text", "(store8 0x06", ": vram byte 0x1"),
        ("odd-palette-refused", "(store16 0x05", ": answer 11 and 0, palette byte 0x"),
        ("odd-oam-kept", "(store16 0x07", ": oam byte 0x"),
    ] {
        let options = ["--cases", "300", "--seed", "1", "--wrong-for-test", rule, "--keep", "kept.json"];
        let found = compare(&folder, &options);
        let text = stderr(&found);
        assert!(found.status.code() == Some(1) && text.contains(", bus call "), "{rule}: {text}");
        assert!(text.contains(call) && text.contains(words), "{rule}: {text}");

        let again = compare(&folder, &["--replay", "kept.json", "--wrong-for-test", rule]);
        let (difference, _) = text.split_once("; kept: ").unwrap();
        assert_eq!((again.status.code(), stderr(&again)), (Some(1), &*format!("kept.json: {difference}\n")), "{rule}");
        // It was the rule alone.
        let same = compare(&folder, &["--replay", "kept.json"]);
        assert_eq!((same.status.code(), stderr(&same)), (Some(0), ""), "{rule}");
    }
}

#[test]
fn the_last_case_is_compared_and_none_past_it() {
    let folder = scratch("compare/last");
    let last = compare(&folder, &["--cases", "130", "--seed", "1", "--flip-for-test", "pixel@129"]);
    assert_eq!(last.status.code(), Some(1));
    assert_eq!(names(&folder), [folder.join("ashlarkin-difference.json")]);
    counts(&compare(&folder, &["--cases", "129", "--seed", "1", "--flip-for-test", "pixel@129"]));
}

#[test]
fn a_kept_file_may_be_damaged() {
    let folder = scratch("compare/kept");
    compare(&folder, &["--cases", "1", "--seed", "1", "--keep", "kept.json", "--flip-for-test", "pixel@0"]);
    let whole = fs::read_to_string(folder.join("kept.json")).unwrap();
    let replay = |bytes: &[u8], words: &[&str]| {
        fs::write(folder.join("damaged.json"), bytes).unwrap();
        let run = compare(&folder, &["--replay", "damaged.json"]);
        check_refused(&run, Path::new("damaged.json"), words);
        run.stderr.len()
    };
    replay(b"", &["EOF while parsing", "expected a difference that `compare` kept"]);
    replay(
        &fs::read(sample("scene/capture.ss0")).unwrap(),
        &["expected value at line 1 column 1", "expected a difference"],
    );
    replay(&whole.as_bytes()[..whole.len() / 2], &["EOF while parsing a string at line"]);
    replay(whole.replacen("\"vram\": \"", "\"vram\": \"g", 1).as_bytes(), &["Odd number of digits at line"]);
    // What is quoted of a long value is short.
    let long = whole.replacen("\"seed\": 1", &format!("\"seed\": \"{}\"", "0".repeat(300_000)), 1);
    assert!(replay(long.as_bytes(), &["invalid type: string", "expected a difference"]) < 400);
    let missing = compare(&folder, &["--replay", "missing.json"]);
    check_refused(&missing, Path::new("missing.json"), &["No such file"]);
    let nowhere = compare(&folder, &["--cases", "1", "--keep", "missing/kept.json", "--flip-for-test", "pixel@0"]);
    let text = stderr(&nowhere);
    assert!(nowhere.status.code() == Some(1) && text.lines().count() == 1, "{text}");
    assert!(text.starts_with("missing/kept.json: can't be written: ") && text.contains("give --keep"), "{text}");
}

#[test]
fn bad_usage_is_told_apart() {
    let folder = scratch("compare/usage");
    for options in [
        &["--cases", "0"][..],
        &["--cases", "x"],
        &["--seed", "-1"],
        &["--reading", "X"],
        &["--replay", "kept.json", "--cases", "5"],
        &["--replay", "kept.json", "--seed", "5"],
        &["--flip-for-test", "pixel"],
        &["--flip-for-test", "nothing@1"],
        &["--wrong-for-test", "nothing"],
    ] {
        let run = compare(&folder, options);
        assert!(run.status.code() == Some(2) && run.stdout.is_empty(), "{options:?}");
    }
    assert!(names(&folder).is_empty());
    let help = compare(&folder, &["--help"]);
    assert!(stdout(&help).contains("ashlarkin compare --replay") && !stdout(&help).contains("for-test"));
}
