//! The facts as a short table.

use ashlarkin::{Layer, Reason, Shown};

use super::sum::{self, Channels};
use super::{Explained, names};

/// The table, without a line end after its last row. `colours` puts a swatch beside each colour.
pub fn facts(explained: &Explained, colours: bool) -> String {
    let pixel = explained.reason.pixel();
    let mut rows = match &explained.reason {
        Reason::ForcedBlank => vec![("blank", "on".to_owned())],
        Reason::Shown(shown) => rows_of(shown, colours),
    };
    rows.push(("pixel", colour("", &names::pixel(pixel), sum::pixel_channels(pixel), colours)));
    let lines = rows.iter().map(|(name, value)| format!("{name:<9}{value}"));
    lines.collect::<Vec<String>>().join("\n")
}

fn rows_of(shown: &Shown, colours: bool) -> Vec<(&'static str, String)> {
    let mut rows = vec![
        ("region", names::region(shown.region).to_owned()),
        ("top", layer(shown.top, shown.top_color, colours)),
        ("bottom", layer(shown.bottom, shown.bottom_color, colours)),
        ("effect", names::effect(shown.effect).to_owned()),
        ("weights", format!("{} and {} sixteenths", shown.first_weight, shown.second_weight)),
    ];
    if let Some(sums) = sum::sums(shown) {
        rows.extend(["red", "green", "blue"].into_iter().zip(sums.map(|sum| sum.to_string())));
    }
    rows
}

fn layer(layer: Layer, color: u16, colours: bool) -> String {
    colour(names::layer(layer), &format!("{color:#06x}"), sum::channels(color), colours)
}

/// A colour's name, its swatch, its word and its channels, each in a column of its own.
fn colour(name: &str, word: &str, channels: Channels, colours: bool) -> String {
    let [red, green, blue] = channels;
    let swatch = if colours { swatch(channels) } else { String::new() };
    format!("{name:<14}{swatch}{word:<9}red {red:>2}, green {green:>2}, blue {blue:>2}")
}

/// Two spaces on the colour as a picture has it, and two on none.
fn swatch(channels: Channels) -> String {
    let [red, green, blue] = channels.map(|channel| channel * 8);
    format!("\x1b[48;2;{red};{green};{blue}m  \x1b[0m  ")
}

#[cfg(test)]
mod tests {
    use ashlarkin::{Effect, Region};

    use super::super::Place;
    use super::*;
    use crate::frame::Reading;

    const SHOWN: Shown = Shown {
        region: Region::Window0,
        top: Layer::Objects,
        bottom: Layer::Background0,
        effect: Effect::ControlBlend,
        top_color: 0x2018,
        bottom_color: 0x8c3f,
        first_weight: 16,
        second_weight: 8,
        pixel: 0xf80048,
    };

    fn table(reason: Reason, colours: bool) -> String {
        facts(&Explained { place: Place { column: 0, line: 0 }, reading: Reading::R, reason }, colours)
    }

    #[test]
    fn columns_are_aligned() {
        let expected = "\
region   window 0
top      objects       0x2018   red 24, green  0, blue  8
bottom   background 0  0x8c3f   red 31, green  1, blue  3
effect   control blend
weights  16 and 8 sixteenths
red      (24*16 + 31*8)/16 = 39.5, capped at 31
green    (0*16 + 1*8)/16 = 0.5, rounded down to 0
blue     (8*16 + 3*8)/16 = 9.5, rounded down to 9
pixel                  #f80048  red 31, green  0, blue  9";
        assert_eq!(table(Reason::Shown(SHOWN), false), expected);
        let blank = "blank    on\npixel                  #f8f8f8  red 31, green 31, blue 31";
        assert_eq!(table(Reason::ForcedBlank, false), blank);
    }

    #[test]
    fn a_swatch_stands_before_each_colour() {
        let table = table(Reason::Shown(SHOWN), true);
        for (swatch, word) in [("192;0;64", "0x2018"), ("248;8;24", "0x8c3f"), ("248;0;72", "#f80048")] {
            assert!(table.contains(&format!("\x1b[48;2;{swatch}m  \x1b[0m  {word} ")), "{table}");
        }
        assert_eq!(table.matches('\x1b').count(), 6);
    }
}
