//! The shell of a hex mesh, its sharp edges and its corners: what has to be listed as creases for a solid to keep its shape.

use crate::cells::{corner_set, corners_at, edges};
use crate::mesh::Mesh;
use crate::space::{cross, is_sharp_turn, minus, place, Vector};
use crate::volume::outward_faces;
use std::collections::{BTreeMap, HashMap};

/// How much of the shell is listed.
#[derive(Clone, Copy, Debug, PartialEq, Eq)]
pub enum Creases {
    None,
    /// The whole shell as quads.
    Shell,
    /// The whole shell as quads, its sharp edges as segments and its corners as points.
    ShellAndSharpEdges,
}

/// The faces that are met once, in the order of the hexes, counterclockwise as seen from outside.
pub fn shell(mesh: &Mesh) -> Vec<[u32; 4]> {
    let all: Vec<[u32; 4]> = mesh.rows(3).flat_map(outward_faces).collect();
    let mut met: HashMap<[u32; 4], usize> = HashMap::new();
    all.iter().for_each(|&face| *met.entry(corner_set(face)).or_default() += 1);
    all.into_iter().filter(|&face| met[&corner_set(face)] == 1).collect()
}

/// The direction in which a face looks: the cross product of its diagonals, which is twice its area long.
pub fn normal(mesh: &Mesh, face: &[u32; 4]) -> Vector {
    let [a, b, c, d] = face.map(|corner| place(mesh, corner));
    cross(&minus(&c, &a), &minus(&d, &b))
}

/// Edges of the shell where its two faces turn by more than 45 degrees, inward or outward, in the order first met. An edge
/// of more than two faces of the shell is sharp too.
pub fn sharp_edges(mesh: &Mesh, shell: &[[u32; 4]]) -> Vec<[u32; 2]> {
    let mut met = Vec::new();
    let mut normals: HashMap<[u32; 2], Vec<Vector>> = HashMap::new();
    for face in shell {
        for &places in edges(2) {
            let edge = corners_at(face, places);
            let beside = normals.entry(corner_set(edge)).or_default();
            if beside.is_empty() {
                met.push(edge);
            }
            beside.push(normal(mesh, face));
        }
    }
    let is_sharp = |edge: &[u32; 2]| match normals[&corner_set(*edge)].as_slice() {
        [first, second] => is_sharp_turn(first, second),
        _ => true,
    };
    met.into_iter().filter(is_sharp).collect()
}

/// Vertices where sharp edges meet in threes or more, turn by more than 45 degrees or end, in the order of the vertices.
/// An end that no point holds would be drawn in along its segment.
pub fn corners(mesh: &Mesh, sharp_edges: &[[u32; 2]]) -> Vec<u32> {
    let mut ends: BTreeMap<u32, Vec<u32>> = BTreeMap::new();
    for &[a, b] in sharp_edges {
        ends.entry(a).or_default().push(b);
        ends.entry(b).or_default().push(a);
    }
    let is_corner = |vertex: u32, ends: &[u32]| match *ends {
        [before, after] => {
            let here = place(mesh, vertex);
            is_sharp_turn(&minus(&here, &place(mesh, before)), &minus(&place(mesh, after), &here))
        }
        _ => true,
    };
    ends.iter().filter(|(&vertex, ends)| is_corner(vertex, ends)).map(|(&vertex, _)| vertex).collect()
}

/// The blocks with so much of their shell as creases.
pub fn with_creases(blocks: &Mesh, creases: Creases) -> Mesh {
    let mut mesh = Mesh { vertices: blocks.vertices.clone(), hexes: blocks.hexes.clone(), ..Mesh::default() };
    if creases == Creases::None {
        return mesh;
    }
    let shell = shell(&mesh);
    mesh.quads = shell.concat();
    if creases == Creases::ShellAndSharpEdges {
        let sharp = sharp_edges(&mesh, &shell);
        mesh.points = corners(&mesh, &sharp);
        mesh.segments = sharp.concat();
    }
    mesh
}

#[cfg(test)]
mod tests {
    use super::*;
    use crate::generate::lattice;
    use crate::samples::{hub, p8};

    /// How many quads, segments and points the shell gives.
    fn crease_counts(blocks: &Mesh) -> [usize; 3] {
        let mesh = with_creases(blocks, Creases::ShellAndSharpEdges);
        [2, 1, 0].map(|dimension| mesh.cell_count(dimension))
    }

    #[test]
    fn a_cube_is_sharp_all_over() {
        assert_eq!(crease_counts(&p8()), [6, 12, 8]);
    }

    #[test]
    fn flat_joints_are_not_sharp() {
        assert_eq!(crease_counts(&lattice::blocks([2, 1, 1], || true)), [10, 16, 8]);
    }

    #[test]
    fn a_rim_of_36_degrees_is_round() {
        assert_eq!(crease_counts(&hub(5, 20_480.0, 10_240)), [20, 20, 0]);
    }

    #[test]
    fn a_rim_of_60_degrees_has_corners() {
        assert_eq!(crease_counts(&hub(3, 20_480.0, 10_240)), [12, 18, 12]);
    }

    /// Two blocks that touch along an edge: four faces of the shell meet there.
    #[test]
    fn an_edge_of_four_faces_is_sharp() {
        let mut kept = [true, false, false, true].into_iter();
        let blocks = lattice::blocks([2, 2, 1], || kept.next().expect("four places"));
        assert_eq!(crease_counts(&blocks), [12, 23, 14]);
    }
}
