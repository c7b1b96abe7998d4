//! Meshes at the limits of size: the greatest counts pass, one more is refused.

use super::Comparison;
use crate::checks::check_refining;
use crate::entries::Lent;
use crate::generate::{lattice, lent, relabel, shapes, wild};
use crate::mesh::{Mesh, GREATEST_COORDINATE, LEAST_COORDINATE};
use crate::random::Random;
use crate::stored::encode;

/// So many hexes that share nothing, and so many lone points: a round makes 27 vertices of each hex.
fn blocks_and_points(hexes: usize, points: usize) -> Mesh {
    let vertices = 8 * hexes + points;
    Mesh {
        vertices: (0..3 * vertices as i32).map(|k| k % 1009 * 7 - 3000).collect(),
        hexes: (0..8 * hexes as u32).collect(),
        points: (8 * hexes as u32..vertices as u32).collect(),
        ..Mesh::default()
    }
}

/// Many working numbers and nothing else: the checks can be quick, and an accepted mesh gets 11.
fn working_numbers_only() -> Lent {
    Lent { numbers32: vec![7; 8_000_000], ..Lent::default() }
}

/// Sizes at the limit. Greater scales add full-size calls.
pub fn limits(comparison: &mut Comparison) {
    let memory = working_numbers_only();
    for points in [249_999, 250_000, 250_001] {
        comparison.refine(&blocks_and_points(0, points), 0, &memory);
        comparison.write(&blocks_and_points(0, points), &[5; 20]);
    }
    for hexes in [93_750, 93_751] {
        comparison.refine(&blocks_and_points(hexes, 250_000), 0, &memory);
        comparison.finished_counts(&blocks_and_points(hexes, 250_000), 0, &memory.numbers32);
    }
    finished_limits(comparison);
    stored_limits(comparison);
    greatest_sums(comparison);
    accepted(comparison, &blocks_and_points(31_250, 156_250), 1);
    // 8 numbers a vertex do not hold the faces of a block: a path that compares each with each would take minutes here
    accepted(comparison, &lattice::blocks([32, 31, 31], || true), 0);
    if comparison.scale > 1 {
        full_size(comparison);
    }
}

/// A call with enough memory, and the irregular count of the same mesh.
fn accepted(comparison: &mut Comparison, mesh: &Mesh, rounds: u32) {
    let mut random = Random::new(92);
    let finished = check_refining(mesh, rounds).expect("within the limits");
    comparison.refine(mesh, rounds, &lent::enough(finished, &mut random));
    comparison.irregular_count(mesh, &lent::noisy_numbers(8 * finished[0], &mut random));
}

/// The greatest valences at the limits of range: sums of the greatest size.
fn greatest_sums(comparison: &mut Comparison) {
    let shapes = [shapes::star_of_segments(125_000), shapes::fan_of_quads(20_000), shapes::blocks_round_a_face(10_000)];
    for mut mesh in shapes {
        for (place, coordinate) in mesh.vertices.iter_mut().enumerate() {
            *coordinate = [LEAST_COORDINATE, GREATEST_COORDINATE, LEAST_COORDINATE + (place % 2) as i32][place % 3];
        }
        accepted(comparison, &mesh, 1);
    }
}

/// 31,250 hexes and 156,250 points: 1,000,000 vertices and 250,000 hexes after a round.
fn finished_limits(comparison: &mut Comparison) {
    let memory = working_numbers_only();
    for (hexes, points) in [(31_250, 156_250), (31_250, 156_251), (31_251, 0)] {
        comparison.refine(&blocks_and_points(hexes, points), 1, &memory);
        comparison.finished_counts(&blocks_and_points(hexes, points), 1, &memory.numbers32);
    }
    let chain = |count: u32| Mesh {
        vertices: (0..3 * (count as i32 + 1)).collect(),
        segments: (0..count).flat_map(|k| [k, k + 1]).collect(),
        ..Mesh::default()
    };
    for count in [976, 977] {
        comparison.refine(&chain(count), 8, &memory);
    }
    comparison.refine(&shapes::star_of_segments(1000), 7, &memory);
}

/// The greatest files.
fn stored_limits(comparison: &mut Comparison) {
    let mesh = blocks_and_points(93_750, 250_000);
    let bytes = encode(&mesh);
    comparison.read(&bytes, &Mesh::default());
    comparison.read(&bytes, &Mesh::zeros(mesh.places()));
    comparison.read(&bytes[..bytes.len() - 1], &Mesh::default());
    comparison.write(&mesh, &vec![1; bytes.len() - 1]);
    comparison.write(&mesh, &vec![1; bytes.len() + 1]);
}

/// Calls of full size, and crowds of hexes on few vertices.
fn full_size(comparison: &mut Comparison) {
    let mut random = Random::new(91);
    let grid = lattice::blocks([32, 31, 31], || true);
    let mut relabelled = grid.clone();
    relabel::relabel(&mut relabelled, &mut random);
    accepted(comparison, &grid, 1);
    accepted(comparison, &relabelled, 1);
    accepted(comparison, &lattice::blocks([7, 8, 8], || true), 3);
    accepted(comparison, &shapes::blocks_round_a_face(31_250), 1);
    accepted(comparison, &shapes::fan_of_quads(60_000), 1);
    accepted(comparison, &blocks_and_points(0, 250_000), 8);
    accepted(comparison, &wild::crowded(2_000, 40, &mut random), 0);
}
