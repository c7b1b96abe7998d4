//! Irregular counts through the tables, and millimetres.

use super::Comparison;
use crate::checks::finished_counts;
use crate::generate::{any_mesh, damage, lent, small_mesh};
use crate::mesh::{GREATEST_COORDINATE, LEAST_COORDINATE};
use crate::random::Random;
use crate::samples::*;

/// Valid and damaged meshes with working numbers of every length: the length alters no result.
pub fn irregular_counts(comparison: &mut Comparison) {
    for case in 0..2500 * comparison.scale {
        let mut random = Random::new(5_000_000 + case);
        let mut mesh = any_mesh(&mut random);
        if random.one_in(2) {
            damage::damage_some(&mut mesh, &mut random);
        }
        let enough = 16 * finished_counts(&mesh, 1)[0];
        let length = random.pick(&[0, 1, 10, 100, enough]);
        let working = lent::noisy_numbers(length, &mut random);
        comparison.irregular_count(&mesh, &working);
    }
    let mut random = Random::new(51);
    for mesh in [p1(), p5(), p8(), p9(), p12(), small_mesh(&mut random, 20)] {
        for length in 0..300 {
            let working = lent::noisy_numbers(length, &mut random);
            comparison.irregular_count(&mesh, &working);
        }
    }
}

pub fn millimetres(comparison: &mut Comparison) {
    let near = [0, 1, -1, 1023, 1024, -1025, GREATEST_COORDINATE, LEAST_COORDINATE];
    let far = [GREATEST_COORDINATE + 1, LEAST_COORDINATE - 1, i32::MAX, i32::MIN];
    for x in near.into_iter().chain(far) {
        for y in near.into_iter().chain(far) {
            comparison.millimetres([x, y, 5]);
            comparison.millimetres([-7, x, y]);
            comparison.millimetres([y, 9, x]);
        }
    }
    let mut random = Random::new(52);
    for _ in 0..2000 * comparison.scale {
        let any = [0; 3].map(|_| random.bits() as i32 >> random.below(6));
        comparison.millimetres(any);
    }
}
