//! The oracle over cases: video memory stays loaded between draws that share it.

use std::sync::Arc;

use super::Draw;
use crate::draw::{Answer, Oracle};
use crate::judge::judge_draw;

/// An oracle, and the video memory that is loaded into it, if it is known.
#[derive(Default)]
pub struct Loaded {
    oracle: Oracle,
    vram: Option<Arc<[u8]>>,
}

impl Loaded {
    /// The same as `Oracle::draw` on the draw's input.
    pub fn draw(&mut self, draw: &Draw, entries: &mut [u8], output: &mut [u8]) -> Answer {
        let input = draw.input();
        let number = judge_draw(&input, entries, output);
        if number != 0 {
            return Answer::Number(number);
        }
        match &self.vram {
            Some(vram) if Arc::ptr_eq(vram, &draw.vram) => self.oracle.load_small(input.palette, input.oam),
            _ => self.oracle.load(input.vram, input.palette, input.oam),
        }
        let answer = self.oracle.draw_loaded(&input, entries, output);
        // A panic leaves a new oracle with empty memory.
        self.vram = matches!(answer, Answer::Number(_)).then(|| draw.vram.clone());
        answer
    }

    /// The same as `Oracle::background`.
    pub fn background(&self, number: usize) -> Vec<u16> {
        self.oracle.background(number)
    }
}
