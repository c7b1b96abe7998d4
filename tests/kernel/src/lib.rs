//! A kernel that was written separately, from the rules alone: an oracle for the proved one. It is made to be read
//! against the rules, and not to be fast. 'Rule 2.7' is the rule of that number in docs/SPECIFICATION.md.

#![allow(clippy::manual_is_multiple_of)]

pub mod answers;
pub mod average;
pub mod bracket;
pub mod castings;
pub mod catalogue;
pub mod cells;
pub mod checks;
pub mod compare;
pub mod entries;
pub mod exact;
pub mod fence;
#[cfg(mlca_linked)]
pub mod ffi;
pub mod generate;
pub mod integer;
pub mod listing;
pub mod mesh;
pub mod natural;
pub mod picture;
pub mod property;
pub mod random;
pub mod refusal;
pub mod samples;
pub mod shell;
pub mod space;
pub mod split;
pub mod stored;
pub mod view;
pub mod volume;
pub mod wrong;
