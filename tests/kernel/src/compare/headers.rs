//! The counts in a header: 13 for under 13 bytes, 14, 2, and nothing behind the header looked at.

use super::Comparison;
use crate::catalogue::catalogue;
use crate::generate::{any_mesh, files, noise};
use crate::random::Random;
use crate::samples::*;
use crate::stored::{encode, encode_with_width};

/// Well written and damaged files, files cut at every length, headers of every form and width.
pub fn stored_counts(comparison: &mut Comparison) {
    let samples: Vec<Vec<u8>> = catalogue().iter().map(|sample| encode(&sample.mesh)).collect();
    for case in 0..2000 * comparison.scale {
        let mut random = Random::new(15_000_000 + case);
        let mesh = any_mesh(&mut random);
        comparison.stored_counts(&encode(&mesh));
        comparison.stored_counts(&files::damaged_file(&mesh, &mut random));
        comparison.stored_counts(&noise::consistent_file(&mut random));
        comparison.stored_counts(&noise::mutated_file(&samples, &mut random));
    }
    for stored in &samples {
        for length in 0..stored.len() {
            comparison.stored_counts(&stored[..length]);
        }
    }
    each_bit_and_width(comparison);
    headers(comparison);
}

/// One bit flipped, anywhere in a file; laid out with every width.
fn each_bit_and_width(comparison: &mut Comparison) {
    for mesh in [p1(), p5(), p8(), p12(), p11(257)] {
        let stored = encode(&mesh);
        for bit in 0..8 * stored.len() {
            let mut flipped = stored.clone();
            flipped[bit / 8] ^= 128 >> (bit % 8);
            comparison.stored_counts(&flipped);
        }
        for width in 0..32 {
            comparison.stored_counts(&encode_with_width(&mesh, width));
        }
    }
}

/// Headers alone, with nothing, a byte or noise behind them: every form and width, each count about its limits.
fn headers(comparison: &mut Comparison) {
    let mut random = Random::new(151);
    for form in 0..16 {
        for width in 0..32 {
            let vertices = random.pick(&[0, 1, 2, 999_999, 1_000_000, 1_000_001, 1_048_575]);
            let cells = [0; 4].map(|_| random.pick(&[0, 1, 249_999, 250_000, 250_001, 262_143]));
            let mut bytes = files::header(form, width, [vertices, cells[0], cells[1], cells[2], cells[3]]);
            comparison.stored_counts(&bytes);
            bytes.resize(13 + random.below(40), 0xFF);
            comparison.stored_counts(&bytes);
        }
    }
    for count in [0, 1, 249_999, 250_000, 250_001, 262_143] {
        for place in 1..5 {
            let mut counts = [1; 5];
            counts[place] = count;
            comparison.stored_counts(&files::header(1, 1, counts));
        }
    }
    for vertices in [0, 1, 999_999, 1_000_000, 1_000_001, 1_048_575] {
        comparison.stored_counts(&files::header(1, 1, [vertices, 0, 0, 0, 0]));
    }
}
