//! Document 01, "Windows and blending (sfx.rs)": the regions.

use super::{Draw, Entry, Mutant, bit, bits};

/// "Windows and blending": what the column's region permits (bits 0-3 backgrounds, 4 objects, 5 effects).
pub fn permitted(d: &Draw, entry: &Entry, column: i64) -> i64 {
    let object_window = bit(d.display, 15);
    let any = bits(d.display, 13, 2) != 0 || object_window && !d.is(Mutant::ObjectWindowAloneIsNoWindow);
    if !any {
        return 0x3f;
    }
    let (inside, outside) = (d.register(0x48), d.register(0x4a));
    if bit(d.display, 13) && in_rows(d, 0) && in_columns(d, 0, column) {
        return bits(inside, 0, 6);
    }
    let marked = entry.window && (d.sprites_on || !d.is(Mutant::MarksIgnoredWithSpritesOff));
    let in_object_window = marked && (object_window || d.is(Mutant::ObjectWindowSwitchIgnored));
    let of_objects = if d.is(Mutant::ObjectWindowTakesOutside) { bits(outside, 0, 6) } else { bits(outside, 8, 6) };
    if in_object_window && d.is(Mutant::ObjectWindowBeforeWindow1) {
        return of_objects;
    }
    if in_window_1(d, column) {
        return bits(inside, 8, 6);
    }
    if in_object_window { of_objects } else { bits(outside, 0, 6) }
}

/// "Two readings": window 1's rows, and window 0's columns under R or its own under H.
fn in_window_1(d: &Draw, column: i64) -> bool {
    if !d.hardware && !bit(d.display, 13) && d.is(Mutant::Window1NeedsWindow0UnderR) {
        return false;
    }
    let own = if d.hardware { !d.is(Mutant::Window0ColumnsUnderH) } else { d.is(Mutant::Window1OwnColumnsUnderR) };
    bit(d.display, 14) && in_rows(d, 1) && in_columns(d, if own { 1 } else { 0 }, column)
}

/// "Windows and blending": a right edge above 240 or below the left counts as 240, exclusive.
fn in_columns(d: &Draw, window: usize, column: i64) -> bool {
    let edges = d.register(0x40 + 2 * window);
    let (left, mut right) = (edges / 256, edges % 256);
    if left == right && d.is(Mutant::EqualEdgesWholeLine) {
        return true;
    }
    if left > right && d.is(Mutant::LeftAboveRightWraps) {
        return column >= left || column < right;
    }
    if right > 240 && d.is(Mutant::RightAbove240Nothing) {
        return false;
    }
    if right > 240 || right < left {
        right = 240;
    }
    left <= column && (column < right || column == right && d.is(Mutant::RightInclusive))
}

/// "Windows and blending": a bottom above 160 or below the top counts as 160, exclusive.
fn in_rows(d: &Draw, window: usize) -> bool {
    let edges = d.register(0x44 + 2 * window);
    let (top, mut bottom) = (edges / 256, edges % 256);
    if bottom > 160 && d.is(Mutant::BottomAbove160Nothing) || bottom < top && d.is(Mutant::BottomBelowTopNothing) {
        return false;
    }
    if bottom > 160 || bottom < top {
        bottom = 160;
    }
    top <= d.line && (d.line < bottom || d.line == bottom && d.is(Mutant::BottomInclusive))
}
