//! The text of the listing program (section 10 of docs/SPECIFICATION.md).

use crate::average::holdings;
use crate::entries::{refine_within, FIXED_PLACES};
use crate::mesh::{Mesh, DIMENSIONS};
use crate::refusal::{refuse_if, Refusal};

/// The most bytes that the listing program takes, the byte with the rounds included.
pub const MOST_INPUT: usize = 16_385;

/// The whole output for the given standard input.
pub fn listing(input: &[u8]) -> String {
    match refine_input(input) {
        Ok(mesh) => list_mesh(&mesh),
        Err(refusal) => format!("refused {}\n", refusal.number()),
    }
}

fn refine_input(input: &[u8]) -> Result<Mesh, Refusal> {
    refuse_if(input.len() > MOST_INPUT, Refusal::ShortBuffer)?;
    let (rounds, stored) = input.split_first().ok_or(Refusal::WrongFileLength)?;
    refine_within(stored, u32::from(*rounds), FIXED_PLACES)
}

fn list_mesh(mesh: &Mesh) -> String {
    let mut text = line("mesh", &mesh.places());
    let held = holdings(mesh.vertex_count(), mesh.tables());
    for (vertex, holding) in held.iter().flatten().enumerate() {
        let [x, y, z] = mesh.position(vertex);
        text += &format!("v {vertex} {x} {y} {z} {} {}\n", holding.rank, holding.valence);
    }
    for (dimension, letter) in DIMENSIONS.into_iter().zip(["h", "q", "s", "p"]) {
        mesh.rows(dimension).for_each(|corners| text += &line(letter, corners));
    }
    text
}

fn line<T: ToString>(word: &str, numbers: &[T]) -> String {
    let mut text = word.to_string();
    for number in numbers {
        text.push(' ');
        text += &number.to_string();
    }
    text + "\n"
}
