//! What the entry points answer, in the layout that C sees.

use crate::mesh::Counts;
use crate::refusal::Refusal;

/// Refusal number, or 0 with the five counts.
#[repr(C)]
#[derive(Clone, Copy, Debug, Default, PartialEq, Eq)]
pub struct CountsAnswer {
    pub refusal: u32,
    pub counts: Counts,
}

impl From<Result<Counts, Refusal>> for CountsAnswer {
    fn from(result: Result<Counts, Refusal>) -> CountsAnswer {
        match result {
            Ok(counts) => CountsAnswer { refusal: 0, counts },
            Err(refusal) => CountsAnswer { refusal: refusal.number(), counts: Counts::default() },
        }
    }
}

/// Refusal number, or 0 with one count.
#[repr(C)]
#[derive(Clone, Copy, Debug, Default, PartialEq, Eq)]
pub struct CountAnswer {
    pub refusal: u32,
    pub count: u64,
}

impl From<Result<u64, Refusal>> for CountAnswer {
    fn from(result: Result<u64, Refusal>) -> CountAnswer {
        match result {
            Ok(count) => CountAnswer { refusal: 0, count },
            Err(refusal) => CountAnswer { refusal: refusal.number(), count: 0 },
        }
    }
}

#[repr(C)]
#[derive(Clone, Copy, Debug, Default, PartialEq)]
pub struct Position {
    pub x: f64,
    pub y: f64,
    pub z: f64,
}

/// Refusal number, or 0 with the position in millimetres.
#[repr(C)]
#[derive(Clone, Copy, Debug, Default, PartialEq)]
pub struct MillimetresAnswer {
    pub refusal: u32,
    pub position: Position,
}

impl From<Result<Position, Refusal>> for MillimetresAnswer {
    fn from(result: Result<Position, Refusal>) -> MillimetresAnswer {
        match result {
            Ok(position) => MillimetresAnswer { refusal: 0, position },
            Err(refusal) => MillimetresAnswer { refusal: refusal.number(), position: Position::default() },
        }
    }
}

/// One number for C: the count, or the refusal number below zero.
pub fn signed(result: Result<u64, Refusal>) -> i64 {
    match result {
        Ok(count) => count as i64,
        Err(refusal) => -i64::from(refusal.number()),
    }
}
