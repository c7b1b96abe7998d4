//! Coordinates: as built, odd and negative, tiny, anywhere in range, at the limits.

use crate::mesh::{Mesh, GREATEST_COORDINATE, LEAST_COORDINATE};
use crate::random::Random;

const AT_LIMITS: [i32; 9] = [
    LEAST_COORDINATE,
    LEAST_COORDINATE + 1,
    LEAST_COORDINATE + 3,
    -1,
    0,
    1,
    GREATEST_COORDINATE - 2,
    GREATEST_COORDINATE - 1,
    GREATEST_COORDINATE,
];

/// Moves the vertices in a style drawn at random; all stay in range.
pub fn place(mesh: &mut Mesh, random: &mut Random) {
    let style = random.below(7);
    let base = random.pick(&AT_LIMITS);
    for coordinate in &mut mesh.vertices {
        *coordinate = match style {
            0 => *coordinate,
            1 => *coordinate + random.between(-7, 7) as i32,
            2 => random.between(-3, 3) as i32,
            3 => random.between(i64::from(LEAST_COORDINATE), i64::from(GREATEST_COORDINATE)) as i32,
            4 => random.pick(&AT_LIMITS),
            5 => 2 * random.between(-5000, 5000) as i32 + 1,
            _ => (base + random.between(-9, 9) as i32).clamp(LEAST_COORDINATE, GREATEST_COORDINATE),
        };
    }
}
