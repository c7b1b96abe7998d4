//! The blocks of a bracket-like casting: a foot with a bolt hole and an upright wall, in cubes of 10 mm.

use crate::mesh::Mesh;
use std::collections::BTreeMap;

/// Blocks along the three axes.
const LONG: i32 = 5;
const DEEP: i32 = 3;
const TALL: i32 = 3;

/// The side of a block in units.
pub const SIDE: i32 = 10 * 1024;

type Node = [i32; 3];

/// The casting has a block here: the foot is the lowest layer less the bolt hole, the wall the last row.
fn is_solid(x: i32, y: i32, z: i32) -> bool {
    let hole = x == 2 && y == 1;
    (z == 0 && !hole) || y == DEEP - 1
}

/// The four nodes round the square above a node on the first two axes. They are spelled out: rustc 1.95 gets a closure
/// wrong that changes its array argument and is called twice with the same one (see README.md, "A trap").
fn square([x, y, z]: Node) -> [Node; 4] {
    [[x, y, z], [x + 1, y, z], [x + 1, y + 1, z], [x, y + 1, z]]
}

/// Numbers the nodes in the order first met.
#[derive(Default)]
struct Builder {
    mesh: Mesh,
    numbers: BTreeMap<Node, u32>,
}

impl Builder {
    fn number(&mut self, node: Node) -> u32 {
        let mesh = &mut self.mesh;
        *self.numbers.entry(node).or_insert_with(|| mesh.add_vertex(node.map(|step| step * SIDE)))
    }

    fn add_block(&mut self, [x, y, z]: Node) {
        for layer in [square([x, y, z]), square([x, y, z + 1])] {
            let corners = layer.map(|node| self.number(node));
            self.mesh.hexes.extend(corners);
        }
    }
}

/// The blocks alone, without creases.
pub fn blocks() -> Mesh {
    let mut builder = Builder::default();
    for z in 0..TALL {
        for y in 0..DEEP {
            for x in (0..LONG).filter(|&x| is_solid(x, y, z)) {
                builder.add_block([x, y, z]);
            }
        }
    }
    builder.mesh
}
