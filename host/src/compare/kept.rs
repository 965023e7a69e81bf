//! A difference as a file: JSON that holds the work whole, bytes in hex, so that it needs neither the seed nor the
//! generator.

use std::path::Path;

use anyhow::{Context, Result, anyhow, ensure};
use serde::{Deserialize, Serialize};

use super::work::Work;
use crate::capture::read_file;
use crate::output;

/// The work of a case that was kept, with the seed and number that it came from.
#[derive(Deserialize, Serialize)]
#[serde(deny_unknown_fields)]
pub struct Kept {
    /// What differed, for people.
    pub difference: String,
    pub seed: u64,
    pub case: u64,
    pub work: Work,
}

impl Kept {
    pub fn write(&self, path: &Path) -> Result<()> {
        output::write(path, &self.text()?, "give --keep a file in a folder that exists and can be written")
            .with_context(|| path.display().to_string())
    }

    fn text(&self) -> Result<Vec<u8>> {
        let mut text = serde_json::to_vec_pretty(self)?;
        text.push(b'\n');
        Ok(text)
    }

    pub fn read(path: &Path) -> Result<Kept> {
        let text = read_file(path).map_err(|error| anyhow!("can't be read: {error}"));
        text.and_then(|text| Kept::of_text(&text))
            .map_err(|error| anyhow!("{error:#}, expected a difference that `compare` kept; give one that is whole"))
            .with_context(|| path.display().to_string())
    }

    fn of_text(text: &[u8]) -> Result<Kept> {
        // A value of the wrong kind is quoted, and may be all of video memory.
        let mut kept: Kept = serde_json::from_slice(text).map_err(|error| anyhow!("{:.200}", error.to_string()))?;
        for draw in kept.work.draws().into_iter().flatten() {
            let (lent, all) = (draw.vram_len, draw.vram.len());
            ensure!(lent <= all, "vram_len is {lent}, and vram has {all} bytes");
        }
        if let Work::Bus(case) = &kept.work {
            let moderate = case.calls.iter().all(|call| call.lent.is_moderate());
            ensure!(moderate, "a call is lent more than twice a buffer's length");
        }
        Ok(kept)
    }
}

#[cfg(test)]
mod tests {
    use ashlarkin_oracle::cases::Cases;

    use super::*;
    use crate::compare::work::Library;

    fn kept(case: u64, work: Work) -> Kept {
        Kept { difference: "a test".into(), seed: 5, case, work }
    }

    /// What was written is read back, and gives the same.
    #[test]
    fn work_comes_back() {
        let mut cases = Cases::new(5);
        for index in 0..64 {
            for work in Work::of(&mut cases, 5, index) {
                let kept = kept(index, work);
                let text = kept.text().unwrap();
                let again = Kept::of_text(&text).unwrap();
                assert!(kept.work.run(&mut Library) == again.work.run(&mut Library), "case {index}");
                assert!(again.text().unwrap() == text, "case {index}");
            }
        }
    }

    #[test]
    fn every_cut_is_refused() {
        let work = Work::Step { steps: [1, -2, 3, -4], references: vec![0; 16] };
        let text = kept(2, work).text().unwrap();
        let whole = text.trim_ascii_end();
        assert!(Kept::of_text(whole).is_ok());
        for len in 0..whole.len() {
            assert!(Kept::of_text(&whole[..len]).is_err(), "{len} bytes");
        }
    }

    #[test]
    fn bad_edits_are_told() {
        let works = Work::of(&mut Cases::new(5), 5, 0).into_iter();
        let texts: Vec<String> = works.map(|work| String::from_utf8(kept(0, work).text().unwrap()).unwrap()).collect();
        let [draws, step, reset, record_draws, record_step, reasons, bus] = &texts[..] else { panic!("seven works") };
        for (text, from, to, words) in [
            (step, r#""seed": 5"#, r#""seed": x"#, "expected value at line 3"),
            (step, r#""seed": 5"#, r#""seed": -5"#, "invalid value: integer `-5`, expected u64 at line 3"),
            (step, r#""case""#, r#""cases""#, "unknown field `cases`"),
            (step, r#""step""#, r#""stop""#, "unknown variant `stop`, expected one of `draws`, `step`"),
            (step, r#""steps": ["#, r#""steps": [0,"#, "trailing characters"),
            (step, "}\n}", "}\n}\n}", "trailing characters"),
            (reset, r#""reset": ""#, r#""reset": "0"#, "Odd number of digits at line 6"),
            (draws, r#""oam": ""#, r#""oam": "g0"#, "Invalid character 'g' at position 0 at line"),
            (draws, r#""palette": "#, r#""palettes": "#, "unknown field `palettes`"),
            (draws, r#""vram_len": "#, r#""vram_len": 9"#, "vram_len is 9131072, and vram has 131136 bytes"),
            (draws, r#""kind": "A"#, r#""kind": "B"#, "unknown variant `BcceptedR`"),
            (record_draws, r#""alpha": false"#, r#""alpha": 0"#, "invalid type: integer `0`, expected a boolean"),
            (record_draws, r#""priority": "#, r#""priority": 99999"#, "expected u16"),
            (record_step, r#""pa": "#, r#""pb": "#, "duplicate field `pb`"),
            (reasons, r#""line": "#, r#""column": 7, "line": "#, "unknown field `column`"),
            (reasons, r#""vram_len": "#, r#""vram_len": 9"#, "vram_len is 9131072, and vram has 131136 bytes"),
            (
                bus,
                r#""read8""#,
                r#""read16""#,
                "unknown variant `read16`, expected one of `read8`, `store8`, `store16`",
            ),
            (bus, r#""store16": "#, r#""store16": 99999"#, "expected u16"),
            (bus, r#""address": "#, r#""address": -"#, "expected u32"),
            (bus, r#""vram": 131072"#, r#""vram": 9131072"#, "a call is lent more than twice a buffer's length"),
            (bus, r#""registers": 86"#, r#""entries": 86"#, "unknown field `entries`"),
        ] {
            assert!(text.contains(from), "{from}");
            let error = Kept::of_text(text.replacen(from, to, 1).as_bytes()).err().expect("refused");
            assert!(format!("{error:#}").contains(words), "{error:#} has {words}");
        }
    }
}
