//! `ashlarkin bench`: every mode, the scene and how cost grows are measured, and the ratios stand last.

use std::fs;

use serde_json::Value;

use crate::common::*;

const ROWS: [&str; 7] = ["mode 0", "mode 1", "mode 2", "mode 3", "mode 4", "mode 5", "sample scene"];

const GROWTH: [(&str, usize); 5] =
    [("sprites", 4), ("affine sprites", 4), ("backgrounds", 5), ("windows", 4), ("effects", 3)];

#[test]
fn every_mode_is_measured() {
    let run = ashlarkin(&["bench", "--seconds", "1"]);
    assert_eq!((run.status.code(), stderr(&run)), (Some(0), ""));
    let lines: Vec<&str> = stdout(&run).lines().collect();
    let table = &lines[lines.len() - ROWS.len() - 1..];
    for (row, line) in ROWS.iter().zip(table) {
        let values: Vec<f64> = line.strip_prefix(row).unwrap().split_whitespace().map(|v| v.parse().unwrap()).collect();
        assert!(values.len() == 3 && values.iter().all(|value| *value > 0.0), "{line}");
        assert!((values[0] / values[1] - values[2]).abs() < 0.02, "{line}");
    }
    assert!(lines.last().unwrap().starts_with("ratio: "), "{lines:?}");
    let reasons = lines.iter().find_map(|line| line.strip_prefix("a frame of reasons: ")).unwrap();
    let time = reasons.strip_suffix(" ms for 38400 columns").unwrap();
    assert!(time.parse::<f64>().unwrap() > 0.0, "{reasons}");
    let stores = lines.iter().find_map(|line| line.strip_prefix("its memory built by the bus: ")).unwrap();
    let time = stores.strip_suffix(" ms for 50176 stores").unwrap();
    assert!(time.parse::<f64>().unwrap() > 0.0, "{stores}");
}

#[test]
fn json_has_the_same() {
    let run = ashlarkin(&["bench", "--seconds", "1", "--json"]);
    assert_eq!((run.status.code(), stdout(&run).lines().count()), (Some(0), 1));
    let object: Value = serde_json::from_str(stdout(&run)).unwrap();
    let rows = object["lines_per_second"].as_array().unwrap();
    assert_eq!(rows.iter().map(|row| row["name"].as_str().unwrap()).collect::<Vec<_>>(), ROWS);
    let ratios: Vec<f64> = rows.iter().map(|row| row["ratio"].as_f64().unwrap()).collect();
    let lowest = ratios.iter().copied().fold(f64::INFINITY, f64::min);
    assert_eq!(object["ratio"]["lowest"].as_f64(), Some(lowest));
    for name in ["read_ms", "draw_ms", "png_ms", "reasons_ms", "stores_ms", "process_ms"] {
        assert!(object["frame"][name].as_f64().unwrap() > 0.0, "{name}");
    }
    let growth = object["growth"].as_array().unwrap();
    let sizes =
        growth.iter().map(|series| (series["name"].as_str().unwrap(), series["points"].as_array().unwrap().len()));
    assert_eq!(sizes.collect::<Vec<_>>(), GROWTH);
}

#[test]
fn one_set_is_measured_alone_and_saved() {
    let file = scratch("bench-saved").join("bench.json");
    let run = ashlarkin(&["bench", "--seconds", "1", "--only", "mode 3", "--json", "--save", file.to_str().unwrap()]);
    assert_eq!((run.status.code(), stderr(&run)), (Some(0), ""));
    let object: Value = serde_json::from_str(stdout(&run)).unwrap();
    assert_eq!(serde_json::from_str::<Value>(&fs::read_to_string(file).unwrap()).unwrap(), object);
    assert_eq!(object["lines_per_second"].as_array().unwrap().len(), 1);
    assert!(object["lines_per_second"][0]["name"] == "mode 3" && object["frame"].is_null());
    let run = ashlarkin(&["bench", "--only", "mode 6"]);
    assert_eq!(run.status.code(), Some(1));
    assert!(stderr(&run).contains("leave --only out"), "{}", stderr(&run));
}

#[test]
fn bad_usage_is_told_apart() {
    for options in [&["bench", "--seconds", "0"][..], &["bench", "--seconds", "x"], &["bench", "more"]] {
        assert_eq!(ashlarkin(options).status.code(), Some(2), "{options:?}");
    }
    assert!(stdout(&ashlarkin(&["bench", "--help"])).contains("ashlarkin bench --seconds 60 --json"));
}
