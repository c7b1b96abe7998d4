//! Meshes that no drawing shows: cells over any corners. Edges and faces meet in odd ways.

use crate::cells::corner_set;
use crate::mesh::Mesh;
use crate::random::Random;
use std::collections::HashSet;

fn scattered(count: usize, random: &mut Random) -> Mesh {
    let vertices = (0..3 * count).map(|_| random.between(-50, 50) as i32).collect();
    Mesh { vertices, ..Mesh::default() }
}

/// Holds each loose vertex by a point.
fn hold_loose(mesh: &mut Mesh) {
    let mut held = vec![false; mesh.vertex_count()];
    mesh.tables().iter().for_each(|table| table.iter().for_each(|&corner| held[corner as usize] = true));
    mesh.points.extend((0..held.len() as u32).filter(|&vertex| !held[vertex as usize]));
}

/// Segments between random vertices, no two the same.
pub fn segment_network(random: &mut Random) -> Mesh {
    let count = 2 + random.below(10);
    let mut mesh = scattered(count, random);
    let mut pairs: Vec<[u32; 2]> = (0..count as u32).flat_map(|high| (0..high).map(move |low| [high, low])).collect();
    random.shuffle(&mut pairs);
    pairs.truncate(1 + random.below(2 * count));
    mesh.segments = pairs.concat();
    hold_loose(&mut mesh);
    mesh
}

/// Two colours, and every edge of a cell between them. Opposite corners of a face then have one colour, so
/// faces with one corner set always go round alike: many hexes on few vertices, none twisted.
pub fn two_coloured(random: &mut Random) -> Mesh {
    let colour = 4 + random.below(3);
    let mut mesh = scattered(2 * colour, random);
    for _ in 0..1 + random.below(8) {
        mesh.hexes.extend(two_coloured_hex(random, colour));
    }
    for _ in 0..random.below(5) {
        let [dark, light] = [0, 1].map(|shade| corners_of_colour(random, colour, shade));
        mesh.quads.extend([dark[0], light[0], dark[1], light[1]]);
    }
    hold_loose(&mut mesh);
    mesh
}

fn two_coloured_hex(random: &mut Random, colour: usize) -> [u32; 8] {
    let [dark, light] = [0, 1].map(|shade| corners_of_colour(random, colour, shade));
    [dark[0], light[0], dark[1], light[1], light[2], dark[2], light[3], dark[3]]
}

/// Four vertices of a colour: dark ones have even numbers (shade 0), light ones odd (shade 1).
fn corners_of_colour(random: &mut Random, colour: usize, shade: u32) -> [u32; 4] {
    let order = random.permutation(colour);
    [0, 1, 2, 3].map(|place| 2 * order[place] + shade)
}

/// Cells of every kind over corners drawn at random; some are twisted or doubled.
pub fn any_corners(random: &mut Random) -> Mesh {
    let count = 8 + random.below(8);
    let mut mesh = scattered(count, random);
    for (dimension, most) in [(3, 3), (2, 3), (1, 4), (0, 3)] {
        for _ in 0..random.below(most + 1) {
            let corners = &random.permutation(count)[..1 << dimension];
            mesh.cells_mut(dimension).extend(corners);
        }
    }
    hold_loose(&mut mesh);
    mesh
}

/// So many two-coloured hexes with different corner sets on so many vertices of each colour.
pub fn crowded(hexes: usize, colour: usize, random: &mut Random) -> Mesh {
    let mut mesh = scattered(2 * colour, random);
    let mut met = HashSet::new();
    while mesh.cell_count(3) < hexes {
        let hex = two_coloured_hex(random, colour);
        if met.insert(corner_set(hex)) {
            mesh.hexes.extend(hex);
        }
    }
    hold_loose(&mut mesh);
    mesh
}
