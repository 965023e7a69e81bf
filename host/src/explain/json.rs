//! The facts as JSON.

use anyhow::Result;
use ashlarkin::{Layer, Reason, Shown};
use serde::Serialize;

use super::{Explained, names, sum};
use crate::frame::Reading;

/// Always all of these; under forced blank, which asks no layer, null from the region to the weights.
#[derive(Serialize)]
struct Facts {
    x: u32,
    y: u32,
    reading: Reading,
    blank: bool,
    region: Option<&'static str>,
    top: Option<LayerFacts>,
    bottom: Option<LayerFacts>,
    effect: Option<&'static str>,
    first_weight: Option<u16>,
    second_weight: Option<u16>,
    pixel: String,
}

#[derive(Serialize)]
struct LayerFacts {
    layer: &'static str,
    color: u16,
    red: u16,
    green: u16,
    blue: u16,
}

impl LayerFacts {
    fn of(layer: Layer, color: u16) -> LayerFacts {
        let [red, green, blue] = sum::channels(color);
        LayerFacts { layer: names::layer(layer), color, red, green, blue }
    }
}

impl Explained {
    /// One object, on one line.
    pub fn json(&self) -> Result<String> {
        let shown: Option<&Shown> = match &self.reason {
            Reason::ForcedBlank => None,
            Reason::Shown(shown) => Some(shown),
        };
        Ok(serde_json::to_string(&Facts {
            x: self.place.column,
            y: self.place.line,
            reading: self.reading,
            blank: shown.is_none(),
            region: shown.map(|shown| names::region(shown.region)),
            top: shown.map(|shown| LayerFacts::of(shown.top, shown.top_color)),
            bottom: shown.map(|shown| LayerFacts::of(shown.bottom, shown.bottom_color)),
            effect: shown.map(|shown| names::effect(shown.effect)),
            first_weight: shown.map(|shown| shown.first_weight),
            second_weight: shown.map(|shown| shown.second_weight),
            pixel: names::pixel(self.reason.pixel()),
        })?)
    }
}
