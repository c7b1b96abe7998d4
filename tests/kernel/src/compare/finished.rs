//! Finished counts: refusals 1 to 10 in their order, working numbers of every length, the most cells that rounds take.

use super::Comparison;
use crate::entries::Lent;
use crate::generate::{any_mesh, damage, lattice, lent, small_mesh, wild};
use crate::mesh::{corner_count, Mesh, MOST_CELLS};
use crate::random::Random;
use crate::samples::*;
use crate::stored::encode;

/// Every number of rounds that may pass, the first that does not, and numbers far beyond.
const ROUNDS: [u32; 14] = [0, 1, 2, 3, 4, 5, 6, 7, 8, 9, 10, 255, 1 << 31, u32::MAX];

/// Valid and damaged meshes, in noise of any length: the answer is the same, and what was lent ends zero.
pub fn finished_counts(comparison: &mut Comparison) {
    comparison.version();
    for case in 0..2500 * comparison.scale {
        let mut random = Random::new(14_000_000 + case);
        let mut mesh = any_mesh(&mut random);
        if random.one_in(2) {
            damage::damage_some(&mut mesh, &mut random);
        }
        let rounds = random.pick(&ROUNDS);
        let enough = numbers_for_checks(&mesh);
        let length = random.pick(&[0, 1, 10, 100, enough - 1, enough, enough + 50]);
        let working = lent::noisy_numbers(length, &mut random);
        comparison.finished_counts(&mesh, rounds, &working);
    }
    let mut random = Random::new(141);
    for mesh in [p1(), p2(), p3(), p5(), p6(), p7(), p8(), p9(), p11(257), p12(), span(), low_hub(), Mesh::default()] {
        for rounds in ROUNDS {
            comparison.finished_counts(&mesh, rounds, &lent::noisy_numbers(300, &mut random));
        }
    }
    orders(comparison);
}

/// As many numbers as make the checks near-linear: 1 + max(V, 48 H + 16 Q + 4 S, 3 P).
fn numbers_for_checks(mesh: &Mesh) -> usize {
    let edges = 6 * mesh.hexes.len() + 4 * mesh.quads.len() + 2 * mesh.segments.len();
    1 + edges.max(mesh.vertex_count()).max(3 * mesh.points.len())
}

/// Every two kinds of damage on one mesh, with rounds that pass, are too many, and make it too large.
fn orders(comparison: &mut Comparison) {
    for first in damage::KINDS {
        for second in damage::KINDS {
            let mut random = Random::new(u64::from(14_200 + 10 * first + second));
            let mut mesh = lattice::blocks([2, 2, 1], || true);
            damage::damage(&mut mesh, first, &mut random);
            damage::damage(&mut mesh, second, &mut random);
            for rounds in ROUNDS {
                comparison.finished_counts(&mesh, rounds, &lent::noisy_numbers(80, &mut random));
            }
        }
    }
}

/// Working numbers from none up to more than enough, on small meshes; and the tables of a mesh cut to every length.
pub fn every_length(comparison: &mut Comparison) {
    let mut random = Random::new(142);
    let larger = [low_hub(), small_mesh(&mut random, 20), wild::crowded(20, 6, &mut random)];
    for mesh in [p1(), p5(), p8(), p9(), p12()].iter().chain(&larger) {
        each_working_length(comparison, mesh, &mut random);
        for kind in [5, 6, 7, 8] {
            let mut damaged = mesh.clone();
            damage::damage(&mut damaged, kind, &mut random);
            each_working_length(comparison, &damaged, &mut random);
        }
        cut_tables(comparison, mesh, &mut random);
    }
}

fn each_working_length(comparison: &mut Comparison, mesh: &Mesh, random: &mut Random) {
    for length in 0..numbers_for_checks(mesh) + 3 {
        comparison.finished_counts(mesh, 1, &lent::noisy_numbers(length, random));
    }
}

fn cut_tables(comparison: &mut Comparison, mesh: &Mesh, random: &mut Random) {
    for table in 0..5 {
        for length in 0..lent::needed_lengths(mesh.places())[table] {
            let mut cut = mesh.clone();
            lent::cut_table(&mut cut, table, length);
            comparison.finished_counts(&cut, 1, &lent::noisy_numbers(40, random));
        }
    }
}

/// The most cells of each kind that so many rounds take, and one more: 10 by the counts, and 11 on the C path.
pub fn limits_of_rounds(comparison: &mut Comparison) {
    let room = vec![3; 16_063];
    for rounds in 1..=8 {
        for dimension in 1..=3 {
            let children = corner_count(dimension).pow(rounds);
            for count in [MOST_CELLS / children, MOST_CELLS / children + 1] {
                let mesh = separate_cells(dimension, count);
                let numbers32 = vec![7; numbers_for_checks(&mesh)];
                comparison.finished_counts(&mesh, rounds, &numbers32);
                comparison.refine(&mesh, rounds, &Lent { numbers32, ..Lent::default() });
            }
            for count in [256 / children, 256 / children + 1] {
                comparison.refine_stored(&encode(&separate_cells(dimension, count)), rounds, &room);
            }
        }
    }
}

/// Cells of one kind that share nothing, and a point so that there is a vertex.
fn separate_cells(dimension: usize, count: usize) -> Mesh {
    let corners = corner_count(dimension) * count;
    let mut mesh = Mesh { vertices: vec![5; 3 * (corners + 1)], points: vec![corners as u32], ..Mesh::default() };
    *mesh.cells_mut(dimension) = (0..corners as u32).collect();
    mesh
}
