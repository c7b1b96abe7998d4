//! Random creases: faces as quads, edges as segments, vertices as points (rule 1.12).

use crate::cells::corner_set;
use crate::mesh::Mesh;
use crate::random::Random;
use crate::split::Parts;
use std::collections::HashSet;

/// Adds each kind of crease with its own density; now and then all of a kind, or none.
pub fn add_creases(mesh: &mut Mesh, random: &mut Random) {
    let parts = Parts::of(mesh);
    let density = |random: &mut Random| random.pick(&[0, 0, 1, 3, 10, 10]);
    let faces = sample(&parts.faces, density(random), random);
    let edges = sample(&parts.edges, density(random), random);
    let vertices: Vec<[u32; 1]> = (0..mesh.vertex_count() as u32).map(|vertex| [vertex]).collect();
    let points = sample(&vertices, density(random).min(3), random);
    add_new(&mut mesh.quads, &faces);
    add_new(&mut mesh.segments, &edges);
    add_new(&mut mesh.points, &points);
}

/// About so many tenths of the parts.
fn sample<const N: usize>(parts: &[[u32; N]], tenths: usize, random: &mut Random) -> Vec<[u32; N]> {
    parts.iter().copied().filter(|_| random.below(10) < tenths).collect()
}

/// Adds the cells whose corner set is not in the table yet.
fn add_new<const N: usize>(table: &mut Vec<u32>, cells: &[[u32; N]]) {
    let rows = table.chunks_exact(N).map(|row| corner_set::<N>(row.try_into().expect("a whole row")));
    let mut met: HashSet<[u32; N]> = rows.collect();
    for &cell in cells {
        if met.insert(corner_set(cell)) {
            table.extend(cell);
        }
    }
}
