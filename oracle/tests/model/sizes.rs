//! Document 01, "Sprites": sizes by (size, shape), laid out as GBATEK has them (OAM Attributes); shape 3 is always 8x8.

/// Width and height: a row for each size; square, wide, tall, prohibited.
pub const SIZES: [[(i64, i64); 4]; 4] = [
    [(8, 8), (16, 8), (8, 16), (8, 8)],
    [(16, 16), (32, 8), (8, 32), (8, 8)],
    [(32, 32), (32, 16), (16, 32), (8, 8)],
    [(64, 64), (64, 32), (32, 64), (8, 8)],
];
