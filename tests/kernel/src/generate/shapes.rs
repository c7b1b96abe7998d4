//! Families of meshes: grids, hubs, fans, stars, shared faces, separate blocks that only touch.

use super::{lattice, wild};
use crate::mesh::{Mesh, DIMENSIONS};
use crate::random::Random;
use crate::samples::hub;

/// A mesh of a family drawn at random; every vertex is in a cell.
pub fn any_shape(random: &mut Random) -> Mesh {
    match random.below(14) {
        0..=2 => lattice::random_blocks(random),
        3 => lattice::random_sheet(random),
        4 => hub(3 + random.below(6), 500.0, 300),
        5 => blocks_round_a_face(1 + random.below(7)),
        6 => fan_of_quads(1 + random.below(9)),
        7 => star_of_segments(1 + random.below(12)),
        8 => touching_copies(&lattice::random_blocks(random), 2),
        9 => twisted_strip(3 + random.below(5)),
        10 => lone_points(1 + random.below(6)),
        11 => wild::segment_network(random),
        12 => wild::two_coloured(random),
        _ => wild::any_corners(random),
    }
}

/// Hexes that share one face and nothing else.
pub fn blocks_round_a_face(count: usize) -> Mesh {
    let mut mesh = lattice::sheet([1, 1], || true);
    mesh.quads.clear();
    for block in 0..count as i32 {
        mesh.hexes.extend([0, 1, 2, 3]);
        for corner in 0..4 {
            let [x, y, _] = mesh.position(corner);
            let above = mesh.add_vertex([x, y + 3 * block, 16 + 5 * block]);
            mesh.hexes.push(above);
        }
    }
    mesh
}

/// Quads that share one edge.
pub fn fan_of_quads(count: usize) -> Mesh {
    let mut mesh = Mesh { vertices: vec![0, 0, 0, 0, 0, 16], ..Mesh::default() };
    for leaf in 0..count as i32 {
        let position = [16 - 3 * leaf, 7 * leaf, 0];
        let low = mesh.add_vertex(position);
        let high = mesh.add_vertex([position[0], position[1], 16]);
        mesh.quads.extend([0, low, high, 1]);
    }
    mesh
}

/// Segments from one vertex.
pub fn star_of_segments(count: usize) -> Mesh {
    let mut mesh = Mesh { vertices: vec![0, 0, 0], ..Mesh::default() };
    for ray in 0..count as i32 {
        let end = mesh.add_vertex([16 - 5 * ray, 3 * ray, 8 - ray % 100 * ray]);
        mesh.segments.extend([0, end]);
    }
    mesh
}

/// A closed strip of quads with half a turn in it.
pub fn twisted_strip(count: usize) -> Mesh {
    let mut mesh = Mesh::default();
    for place in 0..count as i32 {
        mesh.add_vertex([10 * place, 0, -4]);
        mesh.add_vertex([10 * place, 3 * place, 4]);
    }
    for place in 0..count as u32 {
        let (low, high) = (2 * place, 2 * place + 1);
        let (next_low, next_high) = if place + 1 < count as u32 { (low + 2, high + 2) } else { (1, 0) };
        mesh.quads.extend([low, next_low, next_high, high]);
    }
    mesh
}

pub fn lone_points(count: usize) -> Mesh {
    let vertices = (0..count as i32).flat_map(|k| [k, -k, 3 * k]).collect();
    Mesh { vertices, points: (0..count as u32).collect(), ..Mesh::default() }
}

/// The second mesh's vertices are numbered after the first's; no vertex is shared.
pub fn beside(first: &Mesh, second: &Mesh) -> Mesh {
    let mut both = first.clone();
    let shift = first.vertex_count() as u32;
    both.vertices.extend(&second.vertices);
    for dimension in DIMENSIONS {
        both.cells_mut(dimension).extend(second.cells(dimension).iter().map(|corner| corner + shift));
    }
    both
}

/// Copies at the very same coordinates that share no vertex.
pub fn touching_copies(mesh: &Mesh, copies: usize) -> Mesh {
    (1..copies).fold(mesh.clone(), |all, _| beside(&all, mesh))
}
