//! The numbers of documents 01 and 02.

use std::error::Error;
use std::fmt;

/// Why nothing was done. The table of document 01 is tested in its order, and so are document 02's after it; the first
/// that applies is given.
#[derive(Clone, Copy, Debug, PartialEq, Eq, Hash)]
pub enum Refusal {
    /// 1: the reading is neither 0 nor 1.
    Reading,
    /// 2: a buffer has another length.
    Length,
    /// 3: the line is 160 or more.
    Line,
    /// 4: forced blank is off and the mode is 6 or 7.
    Mode,
    /// 5: forced blank is off, the reading is R and the low five bits of BLDY are above 16.
    Brightness,
    /// 6: forced blank is off and a reference lies outside -2^28 .. 2^28 - 1; for a step, also where it would.
    Reference,
    /// 7: forced blank is off and an entry isn't well shaped.
    Entry,
    /// 8: the column is 240 or more.
    Column,
    /// 9: the address lies on another page than 5, 6 and 7.
    Page,
    /// 11: a halfword store at an odd address of page 6.
    OddAddress,
    /// A number that neither document gives. The proved library gives none.
    Unknown(u32),
}

/// Document 01, "Numbers a draw may return", word for word, and then document 02's.
#[rustfmt::skip]
const TABLE: [(Refusal, &str); 10] = [
    (Refusal::Reading, "reading is neither 0 nor 1"),
    (Refusal::Length, "a buffer has another length"),
    (Refusal::Line, "line 160 or more"),
    (Refusal::Mode, "forced blank off, mode 6 or 7"),
    (Refusal::Brightness, "forced blank off, reading R, low five bits of BLDY above 16"),
    (Refusal::Reference, "forced blank off, a reference number outside -2^28 .. 2^28 - 1"),
    (Refusal::Entry, "forced blank off, an entry not well shaped"),
    (Refusal::Column, "a column of 240 or more"),
    (Refusal::Page, "any other page"),
    (Refusal::OddAddress, "a halfword store at an odd address of page 6"),
];

/// What a function of the library returned: 0, or a refusal's number.
pub(crate) fn answer(number: u32) -> Result<(), Refusal> {
    match number {
        0 => Ok(()),
        _ => Err(Refusal::of(number)),
    }
}

impl Refusal {
    /// The refusal of a number.
    ///
    /// ```
    /// assert_eq!(ashlarkin::Refusal::of(3), ashlarkin::Refusal::Line);
    /// ```
    pub fn of(number: u32) -> Refusal {
        let row = TABLE.iter().find(|row| row.0.number() == number);
        row.map_or(Refusal::Unknown(number), |row| row.0)
    }

    /// The number in document 01 or 02.
    ///
    /// ```
    /// assert_eq!(ashlarkin::Refusal::Line.number(), 3);
    /// ```
    pub fn number(self) -> u32 {
        match self {
            Refusal::Reading => 1,
            Refusal::Length => 2,
            Refusal::Line => 3,
            Refusal::Mode => 4,
            Refusal::Brightness => 5,
            Refusal::Reference => 6,
            Refusal::Entry => 7,
            Refusal::Column => 8,
            Refusal::Page => 9,
            Refusal::OddAddress => 11,
            Refusal::Unknown(number) => number,
        }
    }

    /// What the number means, in the documents' words.
    ///
    /// ```
    /// assert_eq!(ashlarkin::Refusal::Line.meaning(), "line 160 or more");
    /// ```
    pub fn meaning(self) -> &'static str {
        let row = TABLE.iter().find(|row| row.0 == self);
        row.map_or("a number that documents 01 and 02 don't give", |row| row.1)
    }
}

impl fmt::Display for Refusal {
    fn fmt(&self, f: &mut fmt::Formatter) -> fmt::Result {
        write!(f, "{} (refusal {})", self.meaning(), self.number())
    }
}

impl Error for Refusal {}

#[cfg(test)]
mod tests {
    use super::*;

    #[test]
    fn the_table_is_the_documents() {
        let document = include_str!("../../../docs/01-scope.md");
        let section = document.split("## ").find(|s| s.starts_with("Numbers a draw may return"));
        let rows = section.unwrap().lines().filter_map(|line| {
            let cells: Vec<&str> = line.split('|').map(str::trim).collect();
            let number: u32 = cells.get(1)?.parse().ok()?;
            (number != 0).then(|| (number, cells[2]))
        });
        let table = TABLE.map(|(refusal, meaning)| (refusal.number(), meaning));
        assert_eq!(rows.collect::<Vec<_>>(), table[..7]);
        let requests = include_str!("../../../docs/02-change-requests.md");
        assert!(table[7..].iter().all(|(number, meaning)| requests.contains(&format!("{number} for {meaning}"))));
    }

    #[test]
    fn a_number_comes_back() {
        for number in (0..13).chain([255, 256, u32::MAX]) {
            assert_eq!(Refusal::of(number).number(), number);
        }
        assert_eq!(answer(0), Ok(()));
        assert_eq!(answer(7), Err(Refusal::Entry));
        assert_eq!(answer(8), Err(Refusal::Column));
        assert_eq!(answer(9), Err(Refusal::Page));
        assert_eq!(answer(10), Err(Refusal::Unknown(10)));
        assert_eq!(answer(11), Err(Refusal::OddAddress));
        assert_eq!(answer(12), Err(Refusal::Unknown(12)));
    }
}
