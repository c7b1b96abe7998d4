//! Noise at every entry point: no bytes, numbers or honest lengths may do more than be refused.

use super::Comparison;
use crate::catalogue::catalogue;
use crate::generate::{lent, noise};
use crate::mesh::Mesh;
use crate::random::Random;
use crate::samples::*;
use crate::stored::encode;

/// Tables of any numbers, in memory of any lengths.
pub fn tables(comparison: &mut Comparison) {
    for case in 0..4000 * comparison.scale {
        let mut random = Random::new(12_000_000 + case);
        let mesh = noise::tables(&mut random);
        let any = random.bits() as u32;
        let rounds = random.pick(&[0, 1, 2, 8, 9, any]);
        comparison.refine(&mesh, rounds, &lent::any(&mut random));
        let length = random.below(500);
        comparison.finished_counts(&mesh, rounds, &lent::noisy_numbers(length, &mut random));
        comparison.irregular_count(&mesh, &lent::noisy_numbers(length, &mut random));
        comparison.write(&mesh, &lent::noisy_bytes(3 * length, &mut random));
    }
}

/// Files of noise behind a header that fits, and sample files changed in several places.
pub fn files(comparison: &mut Comparison) {
    let samples: Vec<Vec<u8>> = catalogue().iter().map(|sample| encode(&sample.mesh)).collect();
    for case in 0..2500 * comparison.scale {
        let mut random = Random::new(13_000_000 + case);
        let consistent = noise::consistent_file(&mut random);
        file(comparison, &consistent, &mut random);
        let mutated = noise::mutated_file(&samples, &mut random);
        file(comparison, &mutated, &mut random);
    }
    for mesh in [p1(), p5(), p9(), p12(), hub(5, 20_480.0, 10_240)] {
        each_bit(comparison, &encode(&mesh));
    }
}

/// One file at the entry points that take files.
fn file(comparison: &mut Comparison, bytes: &[u8], random: &mut Random) {
    let places = random.pick(&[[0; 5], [9, 1, 6, 8, 4], [1000, 256, 256, 256, 256]]);
    comparison.stored_counts(bytes);
    comparison.read(bytes, &Mesh::zeros(places));
    let any = random.bits() as u32;
    let rounds = random.pick(&[0, 1, 2, 9, any]);
    let length = random.pick(&[0, 40, 1205, 16_063]);
    comparison.refine_stored(bytes, rounds, &lent::noisy_bytes(length, random));
    comparison.irregular_count_stored(bytes);
}

/// Each bit flipped in turn, through the C path.
fn each_bit(comparison: &mut Comparison, bytes: &[u8]) {
    for bit in 0..8 * bytes.len() {
        let mut flipped = bytes.to_vec();
        flipped[bit / 8] ^= 128 >> (bit % 8);
        comparison.refine_stored(&flipped, 1, &[3; 2000]);
        comparison.irregular_count_stored(&flipped);
    }
}
