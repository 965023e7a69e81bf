//! The explanation as a paragraph to be read aloud: plain sentences, no symbols.

use ashlarkin::{Effect, Layer, Reason, Region, Shown};

use super::sum::{self, Channels, Sum};
use super::{Explained, Place, names};
use crate::frame::Reading;

/// How wide a line of the paragraph may be.
const LINE: usize = 80;

const BLANK: &str = "Forced blank is on, so no layer is asked and the whole line is white, which a picture has as red \
                     248, green 248 and blue 248 of 255.";

pub fn paragraph(explained: &Explained) -> String {
    let Explained { place: Place { column, line }, reading, reason } = explained;
    let mut sentences = vec![format!("This is column {column} of line {line} under {}.", whose(*reading))];
    match reason {
        Reason::ForcedBlank => sentences.push(BLANK.to_owned()),
        Reason::Shown(shown) => {
            sentences.extend([region(shown.region, *reading).to_owned(), layers(shown), outcome(shown)]);
        }
    }
    wrapped(&sentences.join(" "))
}

fn whose(reading: Reading) -> &'static str {
    match reading {
        Reading::R => "reading R, which draws as the emulator does",
        Reading::H => "reading H, which follows the hardware notes",
    }
}

fn region(region: Region, reading: Reading) -> &'static str {
    match (region, reading) {
        (Region::NoWindows, _) => "No windows are on.",
        (Region::Window0, _) => "Window 0 holds it.",
        // Its own columns, in the registers, would mislead.
        (Region::Window1, Reading::R) => {
            "Window 1, which in this reading has the columns of window 0, holds it, and window 0 does not."
        }
        (Region::Window1, Reading::H) => "Window 1 holds it, and window 0 does not.",
        (Region::ObjectWindow, _) => "The object window holds it, and neither window 0 nor window 1 does.",
        (Region::Outside, _) => "Windows are on, and it lies outside all of them.",
    }
}

fn layers(shown: &Shown) -> String {
    let (top, bottom) = (sum::channels(shown.top_color), sum::channels(shown.bottom_color));
    if shown.top == Layer::Backdrop {
        return format!("Nothing but the backdrop is there: {} of 31.", channels(top));
    }
    let behind = match shown.bottom {
        Layer::Backdrop => "nothing but the backdrop",
        layer => new(layer),
    };
    format!("In front is {}: {} of 31. Behind it is {behind}: {}.", new(shown.top), channels(top), channels(bottom))
}

/// A layer where it is spoken of first.
fn new(layer: Layer) -> &'static str {
    match layer {
        Layer::Objects => "a sprite",
        _ => known(layer),
    }
}

/// A layer that was spoken of before.
fn known(layer: Layer) -> &'static str {
    match layer {
        Layer::Objects => "the sprite",
        Layer::Backdrop => "the backdrop",
        _ => names::layer(layer),
    }
}

fn channels([red, green, blue]: Channels) -> String {
    format!("red {red}, green {green} and blue {blue}")
}

/// The effect and the colour that follows.
fn outcome(shown: &Shown) -> String {
    let (top, bottom, pixel) = (known(shown.top), known(shown.bottom), channels(sum::pixel_channels(shown.pixel)));
    let behind = if shown.top == shown.bottom { "itself" } else { "what is behind it" };
    let (cause, other) = match shown.effect {
        Effect::None => return format!("No effect applies, so {top} shows as it is, and the pixel is {pixel}."),
        Effect::SpriteBlend => ("The sprite is semi-transparent, so it blends with what is behind it".into(), bottom),
        Effect::ControlBlend => (format!("The blend control blends {top} with {behind}"), bottom),
        Effect::White => (format!("The blend control makes {top} whiter"), "white"),
        Effect::Black => (format!("The blend control makes {top} darker"), "black"),
    };
    let (first, second) = (sixteenths(shown.first_weight), sixteenths(shown.second_weight));
    format!("{cause}: {first} of {top} and {second} of {other}.{} So the pixel is {pixel}.", remark(shown))
}

fn sixteenths(weight: u16) -> String {
    match weight {
        0 => "none".to_owned(),
        1 => "1 sixteenth".to_owned(),
        _ => format!("{weight} sixteenths"),
    }
}

/// What might surprise about an effect's outcome.
fn remark(shown: &Shown) -> &'static str {
    if sum::channels(shown.top_color) == sum::pixel_channels(shown.pixel) {
        " That changes nothing here."
    } else if sum::sums(shown).is_some_and(|sums| sums.into_iter().any(Sum::is_capped)) {
        " What comes to more than 31 counts as 31."
    } else {
        ""
    }
}

/// Broken into lines between words.
fn wrapped(text: &str) -> String {
    let mut lines = vec![String::new()];
    for word in text.split(' ') {
        let line = lines.last_mut().expect("there is always one");
        if line.is_empty() {
            line.push_str(word);
        } else if line.len() + 1 + word.len() <= LINE {
            line.extend([" ", word]);
        } else {
            lines.push(word.to_owned());
        }
    }
    lines.join("\n")
}

#[cfg(test)]
mod tests {
    use super::*;

    const SHOWN: Shown = Shown {
        region: Region::NoWindows,
        top: Layer::Background2,
        bottom: Layer::Backdrop,
        effect: Effect::None,
        top_color: 0x2018,
        bottom_color: 0x0c22,
        first_weight: 16,
        second_weight: 0,
        pixel: 0xc00040,
    };

    fn text(reading: Reading, reason: Reason) -> String {
        let text = paragraph(&Explained { place: Place { column: 3, line: 5 }, reading, reason });
        assert!(text.chars().all(|c| c.is_ascii_alphanumeric() || ".,:- \n".contains(c)), "{text}");
        assert!(text.lines().all(|line| line.len() <= LINE), "{text}");
        text.replace('\n', " ")
    }

    /// What follows the place and the reading.
    fn told(shown: Shown) -> String {
        const START: &str = "This is column 3 of line 5 under reading H, which follows the hardware notes. ";
        let text = text(Reading::H, Reason::Shown(shown));
        text.strip_prefix(START).unwrap().to_owned()
    }

    #[test]
    fn without_an_effect() {
        assert_eq!(
            told(SHOWN),
            "No windows are on. In front is background 2: red 24, green 0 and blue 8 of 31. Behind it is nothing but \
             the backdrop: red 2, green 1 and blue 3. No effect applies, so background 2 shows as it is, and the \
             pixel is red 24, green 0 and blue 8."
        );
        let empty = Shown { region: Region::Outside, top: Layer::Backdrop, bottom_color: 0x2018, ..SHOWN };
        assert_eq!(
            told(empty),
            "Windows are on, and it lies outside all of them. Nothing but the backdrop is there: red 24, green 0 and \
             blue 8 of 31. No effect applies, so the backdrop shows as it is, and the pixel is red 24, green 0 and \
             blue 8."
        );
    }

    #[test]
    fn blended() {
        let (effect, pixel) = (Effect::SpriteBlend, 0x680028);
        let sprite = Shown { top: Layer::Objects, bottom: Layer::Background0, effect, pixel, ..SHOWN };
        assert_eq!(
            told(Shown { region: Region::ObjectWindow, first_weight: 8, second_weight: 8, ..sprite }),
            "The object window holds it, and neither window 0 nor window 1 does. In front is a sprite: red 24, green \
             0 and blue 8 of 31. Behind it is background 0: red 2, green 1 and blue 3. The sprite is \
             semi-transparent, so it blends with what is behind it: 8 sixteenths of the sprite and 8 sixteenths \
             of background 0. So the pixel is red 13, green 0 and blue 5."
        );
        let control = Shown { effect: Effect::ControlBlend, second_weight: 1, ..SHOWN };
        assert!(told(control).ends_with(
            " The blend control blends background 2 with what is behind it: 16 sixteenths of background 2 and 1 \
             sixteenth of the backdrop. That changes nothing here. So the pixel is red 24, green 0 and blue 8."
        ));
        let (first_weight, second_weight, pixel) = (31, 16, 0xf80010);
        let itself = Shown { top: Layer::Backdrop, first_weight, second_weight, pixel, ..control };
        assert!(told(itself).ends_with(
            " The blend control blends the backdrop with itself: 31 sixteenths of the backdrop and 16 sixteenths \
             of the backdrop. What comes to more than 31 counts as 31. So the pixel is red 31, green 0 and blue 2."
        ));
    }

    #[test]
    fn made_white_or_black() {
        let white = Shown { effect: Effect::White, region: Region::Window0, ..SHOWN };
        assert!(told(white).ends_with(
            " The blend control makes background 2 whiter: 16 sixteenths of background 2 and none of white. That \
             changes nothing here. So the pixel is red 24, green 0 and blue 8."
        ));
        let black = Shown { effect: Effect::Black, region: Region::Window1, ..SHOWN };
        let (first_weight, second_weight, pixel) = (0, 16, 0);
        let told = told(Shown { first_weight, second_weight, pixel, ..black });
        assert!(told.starts_with("Window 1 holds it, and window 0 does not. In front is background 2: "), "{told}");
        assert!(told.ends_with(
            " The blend control makes background 2 darker: none of background 2 and 16 sixteenths of black. So \
             the pixel is red 0, green 0 and blue 0."
        ));
    }

    #[test]
    fn window_1_has_other_columns_in_reading_r() {
        let text = text(Reading::R, Reason::Shown(Shown { region: Region::Window1, ..SHOWN }));
        let words = " Window 1, which in this reading has the columns of window 0, holds it, and window 0 does not. ";
        assert!(text.contains(words), "{text}");
    }

    #[test]
    fn forced_blank() {
        assert_eq!(
            text(Reading::R, Reason::ForcedBlank),
            "This is column 3 of line 5 under reading R, which draws as the emulator does. Forced blank is on, so no \
             layer is asked and the whole line is white, which a picture has as red 248, green 248 and blue 248 of \
             255."
        );
    }
}
