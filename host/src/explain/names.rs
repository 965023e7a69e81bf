//! The names of regions, layers and effects in the table and in JSON. Programs read them, so they stay as they are.

use ashlarkin::{Effect, Layer, Region};

pub fn region(region: Region) -> &'static str {
    match region {
        Region::NoWindows => "no windows",
        Region::Window0 => "window 0",
        Region::Window1 => "window 1",
        Region::ObjectWindow => "object window",
        Region::Outside => "outside",
    }
}

pub fn layer(layer: Layer) -> &'static str {
    match layer {
        Layer::Background0 => "background 0",
        Layer::Background1 => "background 1",
        Layer::Background2 => "background 2",
        Layer::Background3 => "background 3",
        Layer::Objects => "objects",
        Layer::Backdrop => "backdrop",
    }
}

pub fn effect(effect: Effect) -> &'static str {
    match effect {
        Effect::None => "none",
        Effect::SpriteBlend => "sprite blend",
        Effect::ControlBlend => "control blend",
        Effect::White => "white",
        Effect::Black => "black",
    }
}

/// A pixel as the web writes colours.
pub fn pixel(pixel: u32) -> String {
    format!("#{pixel:06x}")
}
