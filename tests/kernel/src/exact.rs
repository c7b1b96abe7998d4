//! Exact coordinates: the first mesh's, carried through the rounds with no mean rounded (rule 4.2).

use crate::average::{sums, Round};
use crate::integer::{Fraction, Integer};
use crate::mesh::Mesh;
use crate::natural::Natural;

/// All exact coordinates of a mesh over one common divisor, three for each vertex.
pub struct Exact {
    numerators: Vec<Integer>,
    divisor: Natural,
}

impl Exact {
    pub fn of_first(mesh: &Mesh) -> Exact {
        let numerators = mesh.vertices.iter().map(|&c| Integer::from_i128(i128::from(c))).collect();
        Exact { numerators, divisor: Natural::from_u128(1) }
    }

    /// The exact coordinates after one more round. Only the round's cells matter, not its rounded means.
    pub fn after(&self, round: &Round) -> Exact {
        let eighths = round.split.eighths(&self.numerators);
        let sums = sums(&eighths, round.split.table_slices(), &round.holdings);
        let divisors: Vec<u128> = round.holdings.iter().map(|holding| holding.divisor() as u128).collect();
        let common = divisors.iter().copied().fold(1, least_common_multiple);
        let factors = divisors.iter().flat_map(|&divisor| [common / divisor; 3]);
        let scaled = sums.iter().zip(factors).map(|(sum, factor)| sum.times(&Natural::from_u128(factor)));
        Exact { numerators: scaled.collect(), divisor: self.divisor.times(&Natural::from_u128(common)) }
    }

    pub fn coordinate(&self, vertex: usize, axis: usize) -> Fraction {
        Fraction { numerator: self.numerators[3 * vertex + axis].clone(), divisor: self.divisor.clone() }
    }
}

fn least_common_multiple(a: u128, b: u128) -> u128 {
    a / greatest_common_divisor(a, b) * b
}

fn greatest_common_divisor(a: u128, b: u128) -> u128 {
    if b == 0 {
        a
    } else {
        greatest_common_divisor(b, a % b)
    }
}
