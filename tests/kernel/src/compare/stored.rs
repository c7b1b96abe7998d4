//! Reading and writing: bytes, tables, refusals in order, room of every length.

use super::Comparison;
use crate::generate::{any_mesh, damage, files, lent, small_mesh};
use crate::mesh::Mesh;
use crate::random::Random;
use crate::samples::*;
use crate::stored::{encode, encode_with_width};

/// Files that are written well, with tables that are long enough or not.
pub fn reading(comparison: &mut Comparison) {
    for case in 0..1500 * comparison.scale {
        let mut random = Random::new(6_000_000 + case);
        let mesh = any_mesh(&mut random);
        let tables = lent::reading_tables(mesh.places(), &mut random);
        comparison.read(&encode(&mesh), &tables);
    }
    for count in [1, 2, 3, 4, 5, 255, 256, 257, 511, 512, 513, 1000, 4097] {
        let mesh = p11(count);
        comparison.read(&encode(&mesh), &Mesh::zeros(mesh.places()));
    }
}

/// Each table in turn from length 0 to beyond its need, the others just long enough.
pub fn every_length(comparison: &mut Comparison) {
    let mut random = Random::new(61);
    for mesh in [p1(), p5(), p6(), p7(), p8(), p9(), p12(), p11(257)] {
        let bytes = encode(&mesh);
        let needed = lent::needed_lengths(mesh.places());
        for table in 0..5 {
            for length in 0..needed[table] + 3 {
                let mut lengths = [needed[0], needed[1], needed[2], needed[3], needed[4]];
                lengths[table] = length;
                comparison.read(&bytes, &lent::noisy_tables(lengths, &mut random));
            }
        }
    }
}

pub fn reading_damaged(comparison: &mut Comparison) {
    for case in 0..6000 * comparison.scale {
        let mut random = Random::new(7_000_000 + case);
        let mut mesh = small_mesh(&mut random, 40);
        if random.one_in(6) {
            damage::damage(&mut mesh, 4, &mut random);
        }
        let bytes = files::damaged_file(&mesh, &mut random);
        let tables = lent::reading_tables(mesh.places(), &mut random);
        comparison.read(&bytes, &tables);
    }
    for mesh in [p1(), p5(), p7(), p8(), p12(), p11(3)] {
        each_bit_and_length(comparison, &mesh);
    }
    headers(comparison);
}

/// One bit flipped, one length wrong: everywhere in the file.
fn each_bit_and_length(comparison: &mut Comparison, mesh: &Mesh) {
    let bytes = encode(mesh);
    let tables = Mesh::zeros(mesh.places());
    for bit in 0..8 * bytes.len() {
        let mut flipped = bytes.clone();
        flipped[bit / 8] ^= 128 >> (bit % 8);
        comparison.read(&flipped, &tables);
    }
    for length in 0..bytes.len() {
        comparison.read(&bytes[..length], &tables);
        comparison.read(&[&bytes, &bytes[..length]].concat(), &tables);
    }
    for width in 0..32 {
        comparison.read(&encode_with_width(mesh, width), &tables);
    }
}

/// Headers alone: every form and width, counts about the limits.
fn headers(comparison: &mut Comparison) {
    let mut random = Random::new(71);
    for form in 0..16 {
        for width in 0..32 {
            for _ in 0..2 * comparison.scale {
                let vertices = random.pick(&[0, 1, 2, 3, 999_999, 1_000_000, 1_000_001, 1_048_575]);
                let mut cells = || random.pick(&[0, 0, 1, 249_999, 250_000, 250_001, 262_143]);
                let mut bytes = files::header(form, width, [vertices, cells(), cells(), cells(), cells()]);
                bytes.resize(13 + random.below(3), 0);
                comparison.read(&bytes, &Mesh::default());
            }
        }
    }
}

/// Sound and unsound meshes, and buffers about the length that is needed.
pub fn writing(comparison: &mut Comparison) {
    for case in 0..3000 * comparison.scale {
        let mut random = Random::new(8_000_000 + case);
        let mut mesh = any_mesh(&mut random);
        if random.one_in(3) {
            damage::damage_some(&mut mesh, &mut random);
        }
        let needed = encode(&mesh).len();
        let length = random.pick(&[0, needed / 2, needed - 1, needed, needed, needed + 1, needed + 40]);
        let buffer = lent::noisy_bytes(length, &mut random);
        comparison.write(&mesh, &buffer);
    }
    let mut random = Random::new(81);
    for mesh in [p1(), p5(), p8(), p12(), p11(1), p11(2), p11(3), p11(256), p11(257)] {
        for length in 0..encode(&mesh).len() + 3 {
            let buffer = lent::noisy_bytes(length, &mut random);
            comparison.write(&mesh, &buffer);
        }
    }
}
