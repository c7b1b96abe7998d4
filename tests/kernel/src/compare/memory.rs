//! Lent memory of every length on small meshes: no length may change more than 11 allows.

use super::Comparison;
use crate::checks::check_refining;
use crate::entries::Lent;
use crate::generate::{creases, damage, lattice, lent, relabel, small_mesh, wild};
use crate::mesh::Mesh;
use crate::random::Random;
use crate::samples::*;

/// Each buffer in turn from length 0 to beyond its need, the others just long enough.
pub fn every_length(comparison: &mut Comparison) {
    let mut random = Random::new(41);
    let meshes = [p1(), p5(), p6(), p7(), p8(), p9(), p12(), lone_point([1, 2, 3]), touching_segments()];
    for mesh in &meshes {
        for rounds in 0..2 {
            sweep(comparison, mesh, rounds, &mut random);
        }
    }
    sweep(comparison, &p1(), 3, &mut random);
    sweep(comparison, &p5(), 2, &mut random);
    for _ in 0..10 * comparison.scale {
        let mesh = small_mesh(&mut random, 16);
        let rounds = random.below(2) as u32;
        sweep(comparison, &mesh, rounds, &mut random);
    }
}

/// Each table of a mesh cut to every length, at the entry points that take a mesh.
pub fn every_length_of_tables(comparison: &mut Comparison) {
    let mut random = Random::new(43);
    for mesh in [p1(), p5(), p6(), p7(), p8(), p9(), p12()] {
        let finished = check_refining(&mesh, 1).expect("a sound mesh");
        let memory = lent::with_lengths(lent::needed_lengths(finished), &mut random);
        for table in 0..5 {
            for length in 0..lent::needed_lengths(mesh.places())[table] {
                let mut cut = mesh.clone();
                lent::cut_table(&mut cut, table, length);
                comparison.refine(&cut, 1, &memory);
                comparison.irregular_count(&cut, &memory.numbers32);
                comparison.write(&cut, &[9; 200]);
            }
        }
    }
}

fn sweep(comparison: &mut Comparison, mesh: &Mesh, rounds: u32, random: &mut Random) {
    let needed = lent::needed_lengths(check_refining(mesh, rounds).expect("a sound mesh"));
    for buffer in 0..lent::BUFFERS {
        for length in 0..needed[buffer] + 3 {
            let mut lengths = needed;
            lengths[buffer] = length;
            comparison.refine(mesh, rounds, &lent::with_lengths(lengths, random));
        }
    }
}

/// Checks 6, 7, 8 and 10 come before 11: working numbers of any length must give them all the same.
pub fn checks_in_short_memory(comparison: &mut Comparison) {
    for case in 0..25 * comparison.scale {
        let mut random = Random::new(4_000_000 + case);
        let mut mesh = small_mesh(&mut random, 24);
        let kind = random.pick(&[0, 0, 5, 6, 6, 7, 7, 8]);
        if kind > 0 {
            damage::damage(&mut mesh, kind, &mut random);
        }
        let rounds = random.pick(&[0, 1, 8]);
        each_working_length(comparison, &mesh, rounds, &mut random);
    }
    for hexes in [20, 60, 150] {
        let mut random = Random::new(42);
        let mesh = wild::crowded(hexes, 6, &mut random);
        each_working_length(comparison, &mesh, 0, &mut random);
        let mut doubled = mesh;
        damage::damage(&mut doubled, 6, &mut random);
        each_working_length(comparison, &doubled, 0, &mut random);
    }
}

fn each_working_length(comparison: &mut Comparison, mesh: &Mesh, rounds: u32, random: &mut Random) {
    let places = mesh.places();
    for length in 0..8 * mesh.vertex_count() + 9 {
        let mut lengths = lent::needed_lengths(places);
        lengths[10] = length;
        comparison.refine(mesh, rounds, &lent::with_lengths(lengths, random));
    }
}

/// More vertices and faces than the numbers hold, from none to enough: the checks walk the tables several times, and the length alters no result.
pub fn large_in_short_memory(comparison: &mut Comparison) {
    for (case, kind) in [0, 6, 7, 8].into_iter().enumerate() {
        let mut random = Random::new(4_500_000 + case as u64);
        let mut mesh = lattice::blocks([24, 24, 16], || true);
        creases::add_creases(&mut mesh, &mut random);
        if kind > 0 {
            damage::damage(&mut mesh, kind, &mut random);
        }
        relabel::relabel(&mut mesh, &mut random);
        for length in [0, 1, 8191, 8192, 8193, 20_000, 100_000] {
            let working = lent::noisy_numbers(length, &mut random);
            comparison.irregular_count(&mesh, &working);
            comparison.finished_counts(&mesh, 1, &working);
            comparison.refine(&mesh, 1, &Lent { numbers32: working, ..Lent::default() });
        }
    }
}
