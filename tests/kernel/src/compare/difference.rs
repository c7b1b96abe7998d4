//! What an answer refuses, and where lent memory differs from what it should be.

use crate::answers::{CountAnswer, CountsAnswer};
use crate::entries::Lent;
use crate::mesh::{Mesh, DIMENSIONS};
use std::fmt::Debug;

pub trait Answer: PartialEq + Debug {
    /// The refusal number, or 0.
    fn refusal(&self) -> u32;
}

impl Answer for CountsAnswer {
    fn refusal(&self) -> u32 {
        self.refusal
    }
}

impl Answer for CountAnswer {
    fn refusal(&self) -> u32 {
        self.refusal
    }
}

/// The C path: the refusal number below zero.
impl Answer for i64 {
    fn refusal(&self) -> u32 {
        (-self).max(0) as u32
    }
}

/// Millimetres by the bits of the floats.
impl Answer for (u32, [u64; 3]) {
    fn refusal(&self) -> u32 {
        self.0
    }
}

/// The version, which is never refused.
#[derive(Debug, PartialEq)]
pub struct Version(pub u32);

impl Answer for Version {
    fn refusal(&self) -> u32 {
        0
    }
}

pub trait Memory: Clone {
    /// The first place where the memory found differs from the memory wanted, which has the same lengths.
    fn difference(wanted: &Self, found: &Self) -> Option<String>;
}

impl Memory for () {
    fn difference(_: &(), _: &()) -> Option<String> {
        None
    }
}

impl<T: Copy + PartialEq + Debug> Memory for Vec<T> {
    fn difference(wanted: &Vec<T>, found: &Vec<T>) -> Option<String> {
        let place = wanted.iter().zip(found).position(|(a, b)| a != b)?;
        Some(format!("leaves {:?} at {place}, not {:?}", found[place], wanted[place]))
    }
}

impl Memory for Mesh {
    fn difference(wanted: &Mesh, found: &Mesh) -> Option<String> {
        let vertices = Memory::difference(&wanted.vertices, &found.vertices);
        let in_cells = |(dimension, name)| {
            let place = wanted.cells(dimension).iter().zip(found.cells(dimension)).position(|(a, b)| a != b)?;
            let [found, wanted] = [found, wanted].map(|mesh| mesh.cells(dimension)[place]);
            Some(format!("{name}: leaves {found} at {place}, not {wanted}"))
        };
        let tables = DIMENSIONS.into_iter().zip(["hexes", "quads", "segments", "points"]);
        vertices.map(|text| format!("vertices: {text}")).or_else(|| tables.into_iter().find_map(in_cells))
    }
}

impl Memory for Lent {
    fn difference(wanted: &Lent, found: &Lent) -> Option<String> {
        let parts = [
            ("output", Memory::difference(&wanted.output, &found.output)),
            ("working", Memory::difference(&wanted.working, &found.working)),
            ("32-bit numbers", Memory::difference(&wanted.numbers32, &found.numbers32)),
            ("64-bit numbers", Memory::difference(&wanted.numbers64, &found.numbers64)),
        ];
        parts.into_iter().find_map(|(name, text)| text.map(|text| format!("{name}: {text}")))
    }
}

/// A small mesh in full, a large one by its entries.
pub fn outline(mesh: &Mesh) -> String {
    if mesh.vertices.len() + mesh.hexes.len() + mesh.quads.len() + mesh.segments.len() < 300 {
        return format!("{mesh:?}");
    }
    format!("a mesh with entries {:?}", mesh.places())
}

/// The first bytes in hexadecimal.
pub fn digits(bytes: &[u8]) -> String {
    let shown: String = bytes.iter().take(120).map(|byte| format!("{byte:02x}")).collect();
    format!("{} bytes {shown}{}", bytes.len(), if bytes.len() > 120 { ".." } else { "" })
}
