//! Why each column has its colour: what the library says beside what the oracle's crate works out on its own.

use ashlarkin::{Effect, Layer, Reason, Refusal, Region, Shown, WIDTH};
use ashlarkin_oracle::Answer;
use ashlarkin_oracle::cases::{Case, Draw, Loaded};
use ashlarkin_oracle::reasons::{self, reasons};

/// Of so many cases one is explained. It is odd, so that cases of every kind come in turn.
const EVERY: u64 = 9;

/// What is said of a column.
pub type Said = Result<Reason, Refusal>;

/// Every column of a line, and some that it doesn't have.
pub fn columns() -> impl Iterator<Item = u32> {
    (0..WIDTH as u32).chain([240, 241, u32::MAX])
}

/// A case as it is explained, if it is one of those: a reason has no output.
pub fn of(case: &Case, index: u64) -> Option<Case> {
    index.is_multiple_of(EVERY).then(|| Case { output: vec![], ..case.clone() })
}

/// What the oracle's crate says of the columns of a draw on these entries, and the draw's answer.
pub fn worked_out(oracle: &mut Loaded, draw: &Draw, entries: &[u8]) -> (Answer, Vec<Said>) {
    let (answer, said) = reasons(oracle, draw, entries, columns());
    (answer, said.iter().map(in_words).collect())
}

/// The words for a reason's numbers.
fn in_words(reason: &reasons::Reason) -> Said {
    match (reason.number, reason.blank) {
        (0, 0) => Ok(Reason::Shown(Shown {
            region: REGIONS[reason.region as usize],
            top: LAYERS[reason.top as usize],
            bottom: LAYERS[reason.bottom as usize],
            effect: EFFECTS[reason.effect as usize],
            top_color: reason.top_color,
            bottom_color: reason.bottom_color,
            first_weight: reason.first_weight,
            second_weight: reason.second_weight,
            pixel: reason.pixel,
        })),
        (0, _) => Ok(Reason::ForcedBlank),
        (number, _) => Err(Refusal::of(number)),
    }
}

// Each at its number.
const REGIONS: [Region; 5] =
    [Region::NoWindows, Region::Window0, Region::Window1, Region::ObjectWindow, Region::Outside];

const LAYERS: [Layer; 6] =
    [Layer::Background0, Layer::Background1, Layer::Background2, Layer::Background3, Layer::Objects, Layer::Backdrop];

const EFFECTS: [Effect; 5] = [Effect::None, Effect::SpriteBlend, Effect::ControlBlend, Effect::White, Effect::Black];

/// The first column of which two say different things, and what each says, in words.
pub fn difference(ours: &[Said], theirs: &[Said]) -> Option<String> {
    let pairs = columns().zip(ours.iter().zip(theirs));
    let (column, (ours, theirs)) = pairs.into_iter().find(|(_, (ours, theirs))| ours != theirs)?;
    let (Ok(Reason::Shown(a)), Ok(Reason::Shown(b))) = (ours, theirs) else {
        return Some(format!("column {column}: {ours:?} and {theirs:?}"));
    };
    let colors = |shown: &Shown| [shown.top_color, shown.bottom_color];
    let weights = |shown: &Shown| [shown.first_weight, shown.second_weight];
    let parts = [
        (a.region != b.region).then(|| format!("region {:?} and {:?}", a.region, b.region)),
        (a.top != b.top).then(|| format!("top {:?} and {:?}", a.top, b.top)),
        (a.bottom != b.bottom).then(|| format!("bottom {:?} and {:?}", a.bottom, b.bottom)),
        (a.effect != b.effect).then(|| format!("effect {:?} and {:?}", a.effect, b.effect)),
        (colors(a) != colors(b)).then(|| format!("colours {:04x?} and {:04x?}", colors(a), colors(b))),
        (weights(a) != weights(b)).then(|| format!("weights {:?} and {:?}", weights(a), weights(b))),
        (a.pixel != b.pixel).then(|| format!("pixel 0x{:06x} and 0x{:06x}", a.pixel, b.pixel)),
    ];
    Some(format!("column {column}: {}", parts.into_iter().flatten().collect::<Vec<_>>().join(", ")))
}
