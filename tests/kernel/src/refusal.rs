//! The refusals by their numbers (section 7 of docs/SPECIFICATION.md).

/// The trade's words stand beside the field's terms. 12, strayed, is retired: no round leaves the range, and the
/// number is never used again.
#[repr(u32)]
#[derive(Clone, Copy, Debug, PartialEq, Eq, PartialOrd, Ord, Hash)]
pub enum Refusal {
    /// the trade's word: ragged table
    PartialEntry = 1,
    /// the trade's word: wrong size
    CountOutOfRange = 2,
    /// the trade's word: far vertex
    CoordinateOutOfRange = 3,
    /// the trade's word: unknown corner
    CornerOutOfRange = 4,
    /// the trade's word: folded cell
    RepeatedCorner = 5,
    /// the trade's word: doubled cell
    DuplicateCell = 6,
    /// the trade's word: twisted face
    MismatchedFace = 7,
    /// the trade's word: loose vertex
    IsolatedVertex = 8,
    TooManyRounds = 9,
    TooLarge = 10,
    ShortBuffer = 11,
    /// the trade's word: wrong length
    WrongFileLength = 13,
    UnknownForm = 14,
    /// the trade's word: wrong width
    WrongIndexWidth = 15,
    /// the trade's word: spare bits
    NonzeroPadding = 16,
}

impl Refusal {
    pub fn number(self) -> u32 {
        self as u32
    }
}

/// Passes, or refuses when the condition holds.
pub fn refuse_if(condition: bool, refusal: Refusal) -> Result<(), Refusal> {
    if condition {
        Err(refusal)
    } else {
        Ok(())
    }
}
