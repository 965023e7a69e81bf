//! Colours by their channels, and the sum that an effect makes of two.

use std::fmt;

use ashlarkin::{Effect, Shown};

/// The highest value of a channel.
pub const MOST: u16 = 31;

/// Red, green and blue, 0 to 31 each.
pub type Channels = [u16; 3];

/// The channels of a word as memory has it.
pub fn channels(color: u16) -> Channels {
    [0, 5, 10].map(|low| color >> low & MOST)
}

/// The channels of a pixel, which has each eightfold.
pub fn pixel_channels(pixel: u32) -> Channels {
    [19, 11, 3].map(|low| (pixel >> low) as u16 & MOST)
}

/// What an effect does with one channel: each of two values by its weight, in sixteenths.
#[derive(Clone, Copy)]
pub struct Sum {
    values: [u16; 2],
    weights: [u16; 2],
}

/// The sums of red, green and blue; none where there is no effect.
pub fn sums(shown: &Shown) -> Option<[Sum; 3]> {
    let other = match shown.effect {
        Effect::None => return None,
        Effect::SpriteBlend | Effect::ControlBlend => channels(shown.bottom_color),
        Effect::White => [MOST; 3],
        Effect::Black => [0; 3],
    };
    let (top, weights) = (channels(shown.top_color), [shown.first_weight, shown.second_weight]);
    Some([0, 1, 2].map(|channel| Sum { values: [top[channel], other[channel]], weights }))
}

impl Sum {
    fn sixteenths(self) -> u16 {
        self.values[0] * self.weights[0] + self.values[1] * self.weights[1]
    }

    /// Whether it comes to more than a channel can hold.
    pub fn is_capped(self) -> bool {
        self.sixteenths() / 16 > MOST
    }

    /// What the channel becomes.
    pub fn channel(self) -> u16 {
        (self.sixteenths() / 16).min(MOST)
    }
}

impl fmt::Display for Sum {
    /// Worked out; the last number is the channel.
    fn fmt(&self, f: &mut fmt::Formatter) -> fmt::Result {
        let ([a, b], [first, second]) = (self.values, self.weights);
        write!(f, "({a}*{first} + {b}*{second})/16 = {}", f64::from(self.sixteenths()) / 16.0)?;
        if self.is_capped() {
            write!(f, ", capped at {MOST}")
        } else if !self.sixteenths().is_multiple_of(16) {
            write!(f, ", rounded down to {}", self.channel())
        } else {
            Ok(())
        }
    }
}

#[cfg(test)]
mod tests {
    use std::collections::HashMap;

    use ashlarkin::{ENTRIES_LEN, Input, Reason};
    use ashlarkin_oracle::cases::{Cases, Draw};

    use super::*;

    fn explained(draw: &Draw, column: u32) -> Option<Shown> {
        let input = Input {
            reading: draw.reading,
            line: draw.line,
            references: draw.references,
            vram: &draw.vram[..draw.vram_len],
            palette: &draw.palette,
            oam: &draw.oam,
            registers: &draw.registers,
        };
        let mut entries = [0; ENTRIES_LEN];
        ashlarkin::reset(&mut entries).unwrap();
        match ashlarkin::explain(&input, &entries, column) {
            Ok(Reason::Shown(shown)) => Some(shown),
            _ => None,
        }
    }

    /// What is printed is what the library did: the last number of each sum is the pixel's channel.
    #[test]
    fn the_sum_gives_the_pixel_for_every_effect() {
        let mut cases = Cases::new(1);
        let mut seen = HashMap::<Effect, u32>::new();
        for index in 0..4000 {
            let draw = cases.case(index).draws.remove(0);
            for shown in (0..240).step_by(37).filter_map(|column| explained(&draw, column)) {
                *seen.entry(shown.effect).or_default() += 1;
                let pixel = pixel_channels(shown.pixel);
                let Some(sums) = sums(&shown) else {
                    assert_eq!(pixel, channels(shown.top_color), "{shown:?}");
                    continue;
                };
                assert_eq!(pixel, sums.map(Sum::channel), "{shown:?}");
                for (sum, channel) in sums.iter().zip(pixel) {
                    assert!(sum.to_string().ends_with(&format!(" {channel}")), "{sum}: {shown:?}");
                }
            }
        }
        assert!(seen.len() == 5 && seen.values().all(|times| *times > 100), "{seen:?}");
    }

    #[test]
    fn a_sum_says_where_it_was_rounded_or_capped() {
        let text = |values, weights| Sum { values, weights }.to_string();
        assert_eq!(text([31, 9], [8, 8]), "(31*8 + 9*8)/16 = 20");
        assert_eq!(text([31, 10], [8, 8]), "(31*8 + 10*8)/16 = 20.5, rounded down to 20");
        assert_eq!(text([31, 20], [16, 16]), "(31*16 + 20*16)/16 = 51, capped at 31");
        assert_eq!(text([31, 1], [16, 15]), "(31*16 + 1*15)/16 = 31.9375, rounded down to 31");
        assert_eq!(text([31, 31], [31, 31]), "(31*31 + 31*31)/16 = 120.125, capped at 31");
    }
}
