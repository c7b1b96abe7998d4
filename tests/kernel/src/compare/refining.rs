//! Refining through the tables: samples, random valid and damaged meshes, the third property.

use super::Comparison;
use crate::castings::{bracket, hub, hub_blocks};
use crate::checks::{check_mesh, check_refining, finished_counts};
use crate::entries::Lent;
use crate::generate::{damage, lent, small_mesh, valid_mesh};
use crate::mesh::Mesh;
use crate::property::History;
use crate::random::Random;
use crate::samples::*;

/// Finished meshes are kept below so many vertices, for speed.
const MOST_FINISHED: usize = 4000;

/// The samples of section 11 and those at the ends of the range, through every number of rounds that stays small, and through
/// too many.
pub fn samples(comparison: &mut Comparison) {
    let touching = [uneven_segments(), touching_segments(), lone_point([7, -7, 1]), Mesh::default()];
    let ends = [span(), pinned_span(), low_hub(), wide_cube()];
    let larger = [hub_blocks(), hub(), bracket()];
    let samples = [p1(), p2(), p3(), p5(), p6(), p7(), p8(), p9(), p11(257), p12()];
    let mut random = Random::new(11);
    for mesh in samples.iter().chain(&touching).chain(&ends).chain(&larger) {
        for rounds in 0..=10 {
            let finished = check_refining(mesh, rounds).unwrap_or(mesh.places());
            if finished[0] <= 40_000 {
                comparison.refine(mesh, rounds, &lent::enough(finished, &mut random));
            }
        }
    }
}

/// A number of rounds after which the mesh stays small.
fn small_rounds(mesh: &Mesh, most: usize, random: &mut Random) -> u32 {
    let wanted = random.pick(&[0, 1, 1, 1, 2, 2, 3, 4, 8]);
    (0..=wanted).rev().find(|&rounds| finished_counts(mesh, rounds)[0] <= most).unwrap_or(0)
}

pub fn valid_meshes(comparison: &mut Comparison) {
    for case in 0..1500 * comparison.scale {
        let mut random = Random::new(1_000_000 + case);
        let mesh = valid_mesh(&mut random);
        let rounds = small_rounds(&mesh, MOST_FINISHED, &mut random);
        let finished = finished_counts(&mesh, rounds);
        let memory = if random.one_in(6) { lent::short } else { lent::enough };
        comparison.refine(&mesh, rounds, &memory(finished, &mut random));
    }
}

/// Damage, too many rounds, too large, short buffers: alone and combined, so that the order shows.
pub fn damaged_meshes(comparison: &mut Comparison) {
    for case in 0..4000 * comparison.scale {
        let mut random = Random::new(2_000_000 + case);
        let mut mesh = small_mesh(&mut random, 60);
        if !random.one_in(5) {
            damage::damage_some(&mut mesh, &mut random);
        }
        let rounds = random.pick(&[0, 1, 1, 2, 3, 5, 8, 9, 10, 255, 256, 1 << 31, u32::MAX]);
        let memory = match check_refining(&mesh, rounds) {
            Ok(finished) if finished[0] > MOST_FINISHED => lent::any(&mut random),
            Ok(finished) if random.one_in(3) => lent::enough(finished, &mut random),
            Ok(finished) => lent::short(finished, &mut random),
            Err(_) => lent::any(&mut random),
        };
        comparison.refine(&mesh, rounds, &memory);
    }
}

/// Meshes that the kernel itself wrote after 0, 1, 2 .. rounds, held against exact fractions.
pub fn third_property(comparison: &mut Comparison) {
    for case in 0..250 * comparison.scale {
        let mut random = Random::new(3_000_000 + case);
        let mesh = small_mesh(&mut random, 30);
        let rounds = (1..=3).rev().find(|&rounds| finished_counts(&mesh, rounds)[0] <= 900).unwrap_or(0);
        let stages: Vec<Mesh> = (0..=rounds).map(|rounds| written(comparison, &mesh, rounds)).collect();
        let problem = property_problem(&mesh, &stages);
        comparison.tally.judge(0, problem, || format!("third property, {rounds} rounds of {mesh:?}"));
    }
}

fn property_problem(first: &Mesh, stages: &[Mesh]) -> Option<String> {
    if stages[0] != *first || stages.iter().any(|mesh| check_mesh(mesh, 8).is_err()) {
        return Some("changes the mesh in 0 rounds or writes an unsound one".into());
    }
    History::of(stages).check().err()
}

/// What the kernel leaves in its output.
fn written(comparison: &Comparison, mesh: &Mesh, rounds: u32) -> Mesh {
    let mut memory = Lent::exactly(finished_counts(mesh, rounds));
    comparison.kernel.refine(mesh, rounds, &mut memory);
    memory.output
}
