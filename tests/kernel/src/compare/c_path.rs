//! The C path: a stored mesh in, a stored mesh out, tables of 1,000 vertices and 256 cells of each kind.

use super::Comparison;
use crate::entries::{refine_within, FIXED_PLACES};
use crate::generate::{any_mesh, damage, files, lent, shapes};
use crate::mesh::Mesh;
use crate::random::Random;
use crate::samples::*;
use crate::stored::encode;

pub fn c_path(comparison: &mut Comparison) {
    for case in 0..3000 * comparison.scale {
        let mut random = Random::new(9_000_000 + case);
        let stored = any_file(&mut random);
        let rounds = random.pick(&[0, 1, 1, 1, 2, 2, 3, 8, 9, 257, u32::MAX]);
        let needed = refine_within(&stored, rounds, FIXED_PLACES).map_or(50, |mesh| encode(&mesh).len());
        let length = random.pick(&[needed, needed, needed + 17, needed - 1, 0]);
        let room = lent::noisy_bytes(length, &mut random);
        comparison.refine_stored(&stored, rounds, &room);
        comparison.irregular_count_stored(&stored);
    }
    beyond_the_tables(comparison);
}

/// The file and the result buffer from length 0 up.
pub fn every_length(comparison: &mut Comparison) {
    for mesh in [p1(), p5(), p6(), p7(), p8(), p9(), p12(), lone_point([1, 2, 3])] {
        let stored = encode(&mesh);
        for rounds in 0..3 {
            let needed = refine_within(&stored, rounds, FIXED_PLACES).map_or(0, |mesh| encode(&mesh).len());
            for length in 0..needed + 3 {
                comparison.refine_stored(&stored, rounds, &vec![7; length]);
            }
        }
        for length in 0..stored.len() {
            comparison.refine_stored(&stored[..length], 1, &[7; 400]);
            comparison.irregular_count_stored(&stored[..length]);
        }
    }
    for length in 0..110 {
        comparison.refine_stored(&vec![16; length], 1, &[7; 40]);
    }
}

/// Well written, unsound or damaged.
fn any_file(random: &mut Random) -> Vec<u8> {
    let mut mesh = any_mesh(random);
    match random.below(4) {
        0 => {
            damage::damage(&mut mesh, [4, 5, 6, 7, 8][random.below(5)], random);
            encode(&mesh)
        }
        1 => files::damaged_file(&mesh, random),
        _ => encode(&mesh),
    }
}

/// Counts at the places of the tables, and one beyond them.
fn beyond_the_tables(comparison: &mut Comparison) {
    let chain = |segments: u32| Mesh {
        vertices: (0..3 * (segments as i32 + 1)).collect(),
        segments: (0..segments).flat_map(|k| [k, k + 1]).collect(),
        ..Mesh::default()
    };
    let sheet = |side: i32| crate::generate::lattice::sheet([side, 16], || true);
    let blocks = |side: i32| crate::generate::lattice::blocks([side, 8, 4], || true);
    let many = [p11(255), p11(256), p11(257), chain(128), chain(129), chain(256), chain(257)];
    let wide = [sheet(16), sheet(17), blocks(8), blocks(9), shapes::fan_of_quads(256), shapes::fan_of_quads(64)];
    let full = [on_axis(&vec![3; 1000]), on_axis(&vec![3; 1001]), shapes::blocks_round_a_face(32)];
    for mesh in many.iter().chain(&wide).chain(&full) {
        for rounds in 0..3 {
            comparison.refine_stored(&encode(mesh), rounds, &vec![1; 17_000]);
        }
        comparison.irregular_count_stored(&encode(mesh));
    }
}
