//! Refusals 1 to 10 of a mesh, each over the whole mesh (rules 5.2, 7.1 to 7.10).

use crate::cells::{corner_set, corners_at, faces};
use crate::mesh::*;
use crate::refusal::{refuse_if, Refusal};
use crate::split::Parts;
use std::collections::{HashMap, HashSet};

type Check = (Refusal, fn(&Mesh) -> bool);

/// Checks 1 to 8 in their order.
const MESH_CHECKS: [Check; 8] = [
    (Refusal::PartialEntry, has_partial_entry),
    (Refusal::CountOutOfRange, has_count_out_of_range),
    (Refusal::CoordinateOutOfRange, has_coordinate_out_of_range),
    (Refusal::CornerOutOfRange, has_corner_out_of_range),
    (Refusal::RepeatedCorner, has_repeated_corner),
    (Refusal::DuplicateCell, has_duplicate_cell),
    (Refusal::MismatchedFace, has_mismatched_face),
    (Refusal::IsolatedVertex, has_isolated_vertex),
];

/// Checks 1 up to the given number, 8 at most.
pub fn check_mesh(mesh: &Mesh, last: usize) -> Result<(), Refusal> {
    MESH_CHECKS[..last].iter().try_for_each(|&(refusal, fails)| refuse_if(fails(mesh), refusal))
}

/// Checks 1 to 10 of refining; answers with the finished counts.
pub fn check_refining(mesh: &Mesh, rounds: u32) -> Result<[usize; 5], Refusal> {
    check_mesh(mesh, 8)?;
    refuse_if(rounds > 8, Refusal::TooManyRounds)?;
    let finished = finished_counts(mesh, rounds);
    refuse_if(counts_out_of_range(finished), Refusal::TooLarge)?;
    Ok(finished)
}

/// 1 to 1,000,000 vertices and at most 250,000 entries in each cell table.
pub fn counts_out_of_range(counts: [usize; 5]) -> bool {
    let [vertices, cells @ ..] = counts;
    vertices == 0 || vertices > MOST_VERTICES || cells.iter().any(|&count| count > MOST_CELLS)
}

pub fn is_out_of_range(coordinate: i32) -> bool {
    !(LEAST_COORDINATE..=GREATEST_COORDINATE).contains(&coordinate)
}

/// Finished counts by the recurrence of rule 5.2. Below 2 to the power 43 for at most 8 rounds.
pub fn finished_counts(mesh: &Mesh, rounds: u32) -> [usize; 5] {
    let parts = Parts::of(mesh);
    let [mut v, mut h, mut q, mut s, p] = mesh.places();
    let (mut e, mut f) = (parts.edges.len(), parts.faces.len());
    for _ in 0..rounds {
        (v, e, f, h) = (v + e + f + h, 2 * e + 4 * f + 6 * h, 4 * f + 12 * h, 8 * h);
        (q, s) = (4 * q, 2 * s);
    }
    [v, h, q, s, p]
}

fn has_partial_entry(mesh: &Mesh) -> bool {
    mesh.vertices.len() % 3 != 0 || DIMENSIONS.iter().any(|&d| mesh.cells(d).len() % corner_count(d) != 0)
}

fn has_count_out_of_range(mesh: &Mesh) -> bool {
    counts_out_of_range(mesh.places())
}

fn has_coordinate_out_of_range(mesh: &Mesh) -> bool {
    mesh.vertices.iter().any(|&coordinate| is_out_of_range(coordinate))
}

fn has_corner_out_of_range(mesh: &Mesh) -> bool {
    mesh.tables().iter().any(|table| table.iter().any(|&corner| corner as usize >= mesh.vertex_count()))
}

fn has_repeated_corner(mesh: &Mesh) -> bool {
    DIMENSIONS.iter().any(|&dimension| mesh.rows(dimension).any(names_a_corner_twice))
}

fn names_a_corner_twice(cell: &[u32]) -> bool {
    (1..cell.len()).any(|place| cell[..place].contains(&cell[place]))
}

fn has_duplicate_cell(mesh: &Mesh) -> bool {
    DIMENSIONS.iter().any(|&dimension| {
        let mut met = HashSet::new();
        mesh.rows(dimension).any(|cell| !met.insert(sorted(cell)))
    })
}

fn sorted(cell: &[u32]) -> Vec<u32> {
    let mut corners = cell.to_vec();
    corners.sort_unstable();
    corners
}

fn has_mismatched_face(mesh: &Mesh) -> bool {
    let mut met: HashMap<[u32; 4], [u32; 2]> = HashMap::new();
    [3, 2].iter().any(|&dimension| {
        mesh.rows(dimension).any(|cell| {
            faces(dimension).iter().any(|&places| {
                let face = corners_at(cell, places);
                let neighbours = neighbours_of_least(face);
                *met.entry(corner_set(face)).or_insert(neighbours) != neighbours
            })
        })
    })
}

/// The two neighbours, in going round, of a face's least corner. They fix those of the other corners.
fn neighbours_of_least(face: [u32; 4]) -> [u32; 2] {
    let least = (0..4).min_by_key(|&place| face[place]).expect("four corners");
    corner_set([face[(least + 1) % 4], face[(least + 3) % 4]])
}

fn has_isolated_vertex(mesh: &Mesh) -> bool {
    let mut held = vec![false; mesh.vertex_count()];
    mesh.tables().iter().for_each(|table| table.iter().for_each(|&corner| held[corner as usize] = true));
    held.contains(&false)
}
