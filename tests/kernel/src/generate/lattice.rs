//! Blocks and squares of a lattice, with gaps.

use crate::mesh::Mesh;
use crate::random::Random;
use std::collections::HashMap;

/// Numbers lattice nodes in the order first met.
#[derive(Default)]
struct Nodes {
    mesh: Mesh,
    numbers: HashMap<[i32; 3], u32>,
}

impl Nodes {
    fn number(&mut self, node: [i32; 3]) -> u32 {
        let mesh = &mut self.mesh;
        *self.numbers.entry(node).or_insert_with(|| mesh.add_vertex(node.map(|step| 16 * step)))
    }

    /// The four corners round the square above a node on the first two axes.
    fn square(&mut self, [x, y, z]: [i32; 3]) -> [u32; 4] {
        [[x, y, z], [x + 1, y, z], [x + 1, y + 1, z], [x, y + 1, z]].map(|node| self.number(node))
    }
}

/// Hexes at the cells of a box that are kept.
pub fn blocks(size: [i32; 3], mut keep: impl FnMut() -> bool) -> Mesh {
    let mut nodes = Nodes::default();
    for z in 0..size[2] {
        for y in 0..size[1] {
            for x in (0..size[0]).filter(|_| keep()).collect::<Vec<i32>>() {
                let bottom = nodes.square([x, y, z]);
                let top = nodes.square([x, y, z + 1]);
                nodes.mesh.hexes.extend(bottom);
                nodes.mesh.hexes.extend(top);
            }
        }
    }
    nodes.mesh
}

/// Quads at the squares of a sheet that are kept.
pub fn sheet(size: [i32; 2], mut keep: impl FnMut() -> bool) -> Mesh {
    let mut nodes = Nodes::default();
    for y in 0..size[1] {
        for x in (0..size[0]).filter(|_| keep()).collect::<Vec<i32>>() {
            let quad = nodes.square([x, y, 0]);
            nodes.mesh.quads.extend(quad);
        }
    }
    nodes.mesh
}

/// A random box of up to three blocks a side, now and then with gaps. Never empty.
pub fn random_blocks(random: &mut Random) -> Mesh {
    let size = [0; 3].map(|_| random.between(1, 3) as i32);
    let gaps = random.one_in(3);
    let mesh = blocks(size, || !gaps || !random.one_in(3));
    if mesh.hexes.is_empty() {
        return blocks([1, 1, 1], || true);
    }
    mesh
}

/// A random sheet of up to five quads a side, now and then with gaps. Never empty.
pub fn random_sheet(random: &mut Random) -> Mesh {
    let size = [0; 2].map(|_| random.between(1, 5) as i32);
    let gaps = random.one_in(3);
    let mesh = sheet(size, || !gaps || !random.one_in(3));
    if mesh.quads.is_empty() {
        return sheet([1, 1], || true);
    }
    mesh
}
