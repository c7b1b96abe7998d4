//! The castings that are shipped, with their whole shell as creases, and what creases do to their volume.

use crate::average::stages;
use crate::bracket;
use crate::mesh::Mesh;
use crate::samples;
use crate::shell::{with_creases, Creases};
use crate::volume::{in_cm3, in_tenths, volume};

/// Rounds in the table and in the picture.
pub const ROUNDS: u32 = 2;

/// Each way to list creases, in the words of the table and of the picture.
pub const WAYS: [(Creases, &str); 3] = [
    (Creases::None, "no creases"),
    (Creases::Shell, "shell"),
    (Creases::ShellAndSharpEdges, "shell, sharp edges, corners"),
];

pub fn bracket() -> Mesh {
    with_creases(&bracket::blocks(), Creases::ShellAndSharpEdges)
}

/// Five blocks round one edge, 20 mm in radius and 10 mm high, without creases.
pub fn hub_blocks() -> Mesh {
    samples::hub(5, 20_480.0, 10_240)
}

pub fn hub() -> Mesh {
    with_creases(&hub_blocks(), Creases::ShellAndSharpEdges)
}

/// The volumes of both castings before the rounds and after each, for each way to list creases.
pub fn volume_table() -> String {
    let mut text = String::from(concat!(
        "| Casting | Creases | Quads | Segments | Points | Blocks | 1 round | 2 rounds | Kept |\n",
        "|---|---|---|---|---|---|---|---|---|\n",
    ));
    for (name, blocks) in [("bracket", bracket::blocks()), ("hub", hub_blocks())] {
        for (creases, words) in WAYS {
            text += &table_row(name, words, &with_creases(&blocks, creases));
        }
    }
    text
}

fn table_row(name: &str, words: &str, mesh: &Mesh) -> String {
    let [_, _, quads, segments, points] = mesh.places();
    let volumes: Vec<i128> = stages(mesh, ROUNDS).iter().map(volume).collect();
    let kept = in_tenths(100 * volumes[ROUNDS as usize], volumes[0]);
    let columns: Vec<String> = volumes.iter().map(|&twelfths| in_cm3(twelfths)).collect();
    format!("| {name} | {words} | {quads} | {segments} | {points} | {} | {kept} % |\n", columns.join(" | "))
}
