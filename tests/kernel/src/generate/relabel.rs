//! The same mesh under other vertex numbers, cells in another order, each cell begun elsewhere.

use crate::mesh::{Mesh, DIMENSIONS};
use crate::random::Random;

/// Turns and mirrorings of a hex that generate all 48: round its axis, upside down, about another axis.
const HEX_MOVES: [&[usize]; 3] = [&[1, 2, 3, 0, 5, 6, 7, 4], &[4, 5, 6, 7, 0, 1, 2, 3], &[0, 1, 5, 4, 3, 2, 6, 7]];

const QUAD_MOVES: [&[usize]; 2] = [&[1, 2, 3, 0], &[0, 3, 2, 1]];

pub fn relabel(mesh: &mut Mesh, random: &mut Random) {
    let numbers = random.permutation(mesh.vertex_count());
    let mut vertices = vec![0; mesh.vertices.len()];
    for (old, &new) in numbers.iter().enumerate() {
        vertices[3 * new as usize..][..3].copy_from_slice(&mesh.position(old));
    }
    mesh.vertices = vertices;
    for dimension in DIMENSIONS {
        mesh.cells_mut(dimension).iter_mut().for_each(|corner| *corner = numbers[*corner as usize]);
        shuffle_cells(mesh, dimension, random);
    }
}

fn shuffle_cells(mesh: &mut Mesh, dimension: usize, random: &mut Random) {
    let mut rows: Vec<Vec<u32>> = mesh.rows(dimension).map(|row| turned(row, random)).collect();
    random.shuffle(&mut rows);
    *mesh.cells_mut(dimension) = rows.concat();
}

/// The same cell, begun at another corner or gone round the other way.
pub fn turned(cell: &[u32], random: &mut Random) -> Vec<u32> {
    let mut corners = cell.to_vec();
    for _ in 0..random.below(6) {
        let places: &[usize] = match cell.len() {
            8 => random.pick(&HEX_MOVES),
            4 => random.pick(&QUAD_MOVES),
            2 => &[1, 0],
            _ => &[0],
        };
        corners = places.iter().map(|&place| corners[place]).collect();
    }
    corners
}

#[cfg(test)]
mod tests {
    use super::*;
    use crate::cells::{smallest_part, Part};
    use std::collections::BTreeSet;

    #[test]
    fn hex_moves_keep_edges_and_faces_and_give_all_48() {
        let mut random = Random::new(3);
        let mut met = BTreeSet::new();
        for _ in 0..3000 {
            let corners = turned(&[0, 1, 2, 3, 4, 5, 6, 7], &mut random);
            for i in 0..8 {
                for j in 0..8 {
                    let kind = |part: Part| std::mem::discriminant(&part);
                    let moved = smallest_part(3, corners[i] as usize, corners[j] as usize);
                    assert_eq!(kind(smallest_part(3, i, j)), kind(moved));
                }
            }
            met.insert(corners);
        }
        assert_eq!(met.len(), 48);
    }
}
