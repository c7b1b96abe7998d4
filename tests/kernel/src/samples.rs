//! The samples of section 11 of docs/SPECIFICATION.md as meshes, some at the ends of the range, and larger ones.

use crate::mesh::{Mesh, GREATEST_COORDINATE, LEAST_COORDINATE};

/// A mesh on the first axis, 0 on the others.
pub fn on_axis(coordinates: &[i32]) -> Mesh {
    Mesh { vertices: coordinates.iter().flat_map(|&x| [x, 0, 0]).collect(), ..Mesh::default() }
}

/// Segments from the first vertex to each other one.
fn segments_from_first(coordinates: &[i32]) -> Mesh {
    let segments = (1..coordinates.len() as u32).flat_map(|end| [0, end]).collect();
    Mesh { segments, ..on_axis(coordinates) }
}

pub fn p1() -> Mesh {
    segments_from_first(&[0, 8])
}

pub fn p2() -> Mesh {
    segments_from_first(&[0, 7])
}

pub fn p3() -> Mesh {
    segments_from_first(&[0, -7])
}

pub fn p5() -> Mesh {
    Mesh { points: vec![0, 1], ..p1() }
}

pub fn p6() -> Mesh {
    segments_from_first(&[0, 8, -8, 16])
}

pub fn p7() -> Mesh {
    let vertices = vec![0, 0, 0, 8, 0, 0, 8, 8, 0, 0, 8, 0];
    Mesh { vertices, quads: vec![0, 1, 2, 3], ..Mesh::default() }
}

pub fn p8() -> Mesh {
    let mut vertices = p7().vertices;
    vertices.extend([0, 0, 8, 8, 0, 8, 8, 8, 8, 0, 8, 8]);
    Mesh { vertices, hexes: (0..8).collect(), ..Mesh::default() }
}

pub fn p9() -> Mesh {
    let quads = crate::cells::faces(3).iter().flatten().map(|&corner| corner as u32).collect();
    Mesh { quads, ..p8() }
}

/// P11: so many vertices, each held by a point.
pub fn p11(count: usize) -> Mesh {
    let coordinates: Vec<i32> = (0..count as i32).collect();
    Mesh { points: (0..count as u32).collect(), ..on_axis(&coordinates) }
}

/// The grid of rule 11.12, 1024 units apart.
pub fn p12() -> Mesh {
    let from_one = |numbers: &[u32]| numbers.iter().map(|&number| number - 1).collect();
    Mesh {
        vertices: (0..9).flat_map(|k| [k % 3 * 1024, k / 3 * 1024, 0]).collect(),
        hexes: vec![],
        quads: from_one(&[1, 2, 5, 4, 4, 5, 8, 7, 2, 3, 6, 5, 5, 6, 9, 8]),
        segments: from_one(&[1, 4, 4, 7, 1, 2, 2, 3, 3, 6, 6, 9, 7, 8, 8, 9]),
        points: from_one(&[1, 3, 7, 9]),
    }
}

/// A lone point.
pub fn lone_point(position: [i32; 3]) -> Mesh {
    Mesh { vertices: position.to_vec(), points: vec![0], ..Mesh::default() }
}

/// Rounded midpoints show here: two segments from 0, to 1 and to 7.
pub fn uneven_segments() -> Mesh {
    segments_from_first(&[0, 1, 7])
}

/// Two segments from 0 to 8 that share no vertex: they only touch by coordinates.
pub fn touching_segments() -> Mesh {
    Mesh { segments: vec![0, 1, 2, 3], ..on_axis(&[0, 8, 0, 8]) }
}

/// The whole range on one axis: a segment from the least to the greatest coordinate.
pub fn span() -> Mesh {
    segments_from_first(&[LEAST_COORDINATE, GREATEST_COORDINATE])
}

/// The span with a point at each end.
pub fn pinned_span() -> Mesh {
    Mesh { points: vec![0, 1], ..span() }
}

/// Three blocks round an edge, with every coordinate the least one.
pub fn low_hub() -> Mesh {
    let mut mesh = hub(3, 8.0, 8);
    mesh.vertices.fill(LEAST_COORDINATE);
    mesh
}

/// P9 from the least to the greatest coordinate on each axis.
pub fn wide_cube() -> Mesh {
    let end = |coordinate: i32| if coordinate == 0 { LEAST_COORDINATE } else { GREATEST_COORDINATE };
    Mesh { vertices: p9().vertices.into_iter().map(end).collect(), ..p9() }
}

/// Blocks round a common edge: each spans two steps of a ring of 2n places.
pub fn hub(blocks: usize, radius: f64, height: i32) -> Mesh {
    let ring = 2 * blocks;
    let mut mesh = Mesh::default();
    for z in [0, height] {
        mesh.add_vertex([0, 0, z]);
        for place in 0..ring {
            let angle = std::f64::consts::TAU * place as f64 / ring as f64;
            mesh.add_vertex([(radius * angle.cos()).round() as i32, (radius * angle.sin()).round() as i32, z]);
        }
    }
    let above = 1 + ring as u32;
    for block in 0..blocks {
        let round = |step: usize| 1 + ((2 * block + step) % ring) as u32;
        let bottom = [0, round(0), round(1), round(2)];
        mesh.hexes.extend(bottom);
        mesh.hexes.extend(bottom.map(|corner| corner + above));
    }
    mesh
}
