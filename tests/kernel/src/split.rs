//! The split of one round (rules 2.1 to 2.12): numbering of edges and faces, children, exact positions.

use crate::cells::{corner_set, corners_at, edges, faces, smallest_part, Part};
use crate::mesh::{corner_count, Mesh};
use std::collections::HashMap;

/// What the split adds up: whole numbers, or numerators of any size.
pub trait Number: Clone {
    fn zero() -> Self;
    fn add(&mut self, other: &Self);
    fn scaled(&self, factor: u32) -> Self;
}

impl Number for i128 {
    fn zero() -> i128 {
        0
    }

    fn add(&mut self, other: &i128) {
        *self += other;
    }

    fn scaled(&self, factor: u32) -> i128 {
        self * i128::from(factor)
    }
}

/// Edges and faces in the order first met, walking hexes, then quads, then segments.
pub struct Parts {
    pub edges: Vec<[u32; 2]>,
    pub faces: Vec<[u32; 4]>,
    edge_numbers: HashMap<[u32; 2], u32>,
    face_numbers: HashMap<[u32; 4], u32>,
}

impl Parts {
    pub fn of(mesh: &Mesh) -> Parts {
        let (mut edge_list, mut face_list) = (Vec::new(), Vec::new());
        let (mut edge_numbers, mut face_numbers) = (HashMap::new(), HashMap::new());
        for dimension in [3, 2, 1] {
            for cell in mesh.rows(dimension) {
                for &places in edges(dimension) {
                    number_part(&mut edge_list, &mut edge_numbers, corners_at(cell, places));
                }
                for &places in faces(dimension) {
                    number_part(&mut face_list, &mut face_numbers, corners_at(cell, places));
                }
            }
        }
        Parts { edges: edge_list, faces: face_list, edge_numbers, face_numbers }
    }
}

fn number_part<const N: usize>(list: &mut Vec<[u32; N]>, numbers: &mut HashMap<[u32; N], u32>, part: [u32; N]) {
    numbers.entry(corner_set(part)).or_insert_with(|| {
        list.push(part);
        list.len() as u32 - 1
    });
}

/// The fine cells of one round, and the coarse corners of which each fine vertex is the mean.
pub struct Split {
    pub coarse_vertices: usize,
    pub edges: Vec<[u32; 2]>,
    pub faces: Vec<[u32; 4]>,
    pub hexes: Vec<[u32; 8]>,
    /// Fine cell tables by dimension.
    pub tables: [Vec<u32>; 4],
}

impl Split {
    pub fn of(mesh: &Mesh) -> Split {
        let parts = Parts::of(mesh);
        let tables = [0, 1, 2, 3].map(|dimension| children(mesh, &parts, dimension));
        let hexes = mesh.rows(3).map(|hex| hex.try_into().expect("eight corners")).collect();
        Split { coarse_vertices: mesh.vertex_count(), edges: parts.edges, faces: parts.faces, hexes, tables }
    }

    pub fn vertex_count(&self) -> usize {
        self.coarse_vertices + self.edges.len() + self.faces.len() + self.hexes.len()
    }

    /// The four tables as slices, by dimension.
    pub fn table_slices(&self) -> [&[u32]; 4] {
        [0, 1, 2, 3].map(|dimension| self.tables[dimension].as_slice())
    }

    /// Split positions in eighths of the coarse unit, three for each fine vertex.
    pub fn eighths<N: Number>(&self, coarse: &[N]) -> Vec<N> {
        let mut fine: Vec<N> = coarse.iter().map(|coordinate| coordinate.scaled(8)).collect();
        self.edges.iter().for_each(|edge| push_mean(&mut fine, coarse, edge));
        self.faces.iter().for_each(|face| push_mean(&mut fine, coarse, face));
        self.hexes.iter().for_each(|hex| push_mean(&mut fine, coarse, hex));
        fine
    }
}

/// The mean of n corners in eighths: 8/n times their sum.
fn push_mean<N: Number>(fine: &mut Vec<N>, coarse: &[N], corners: &[u32]) {
    for axis in 0..3 {
        let mut sum = N::zero();
        for &corner in corners {
            sum.add(&coarse[3 * corner as usize + axis]);
        }
        fine.push(sum.scaled(8 / corners.len() as u32));
    }
}

/// A coarse cell with its place in its table.
struct Parent<'a> {
    dimension: usize,
    number: usize,
    corners: &'a [u32],
}

/// The children of all cells of one dimension, in the parents' places and in corner order.
fn children(mesh: &Mesh, parts: &Parts, dimension: usize) -> Vec<u32> {
    let count = corner_count(dimension);
    let mut table = Vec::with_capacity(count * mesh.cells(dimension).len());
    for (number, corners) in mesh.rows(dimension).enumerate() {
        let parent = Parent { dimension, number, corners };
        for i in 0..count {
            for j in 0..count {
                table.push(fine_vertex(mesh.vertex_count() as u32, parts, &parent, smallest_part(dimension, i, j)));
            }
        }
    }
    table
}

/// The fine number of a part's vertex: old vertices, then edges, then faces, then hexes.
fn fine_vertex(coarse_vertices: u32, parts: &Parts, parent: &Parent, part: Part) -> u32 {
    let first_face = coarse_vertices + parts.edges.len() as u32;
    let first_hex = first_face + parts.faces.len() as u32;
    match part {
        Part::Corner(place) => parent.corners[place],
        Part::Edge(place) => {
            let corners = corners_at(parent.corners, edges(parent.dimension)[place]);
            coarse_vertices + parts.edge_numbers[&corner_set(corners)]
        }
        Part::Face(place) => {
            let corners = corners_at(parent.corners, faces(parent.dimension)[place]);
            first_face + parts.face_numbers[&corner_set(corners)]
        }
        Part::Inside => first_hex + parent.number as u32,
    }
}
