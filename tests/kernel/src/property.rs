//! The third property, looked at from outside: the meshes that a kernel wrote after 0, 1, 2 .. rounds are held
//! against the exact coordinates, the bounding box of the first mesh, and the remainders of the feeding divisions.
//!
//! For n rounds, each finished vertex and each axis: the written coordinate is in the first mesh's bounding box;
//! it is not above the exact one, and less than n units below it (equal for n = 0); and the two are equal
//! exactly when no division that feeds the coordinate left a remainder.

use crate::average::Round;
use crate::exact::Exact;
use crate::integer::Fraction;
use crate::mesh::Mesh;
use std::collections::BTreeSet;

/// The least and the greatest coordinate of the vertices on each axis, both included.
pub fn bounding_box(mesh: &Mesh) -> [(i32, i32); 3] {
    [0, 1, 2].map(|axis| {
        let along = || mesh.vertices.iter().skip(axis).step_by(3).copied();
        (along().min().expect("a vertex"), along().max().expect("a vertex"))
    })
}

/// A division that left a remainder.
#[derive(Clone, Copy, Debug, PartialEq, Eq)]
pub struct Left {
    /// Rounds are counted from 1.
    pub round: usize,
    pub vertex: usize,
    pub remainder: i128,
    pub divisor: i128,
}

/// The rounds between the meshes that a kernel wrote, one more mesh than rounds.
pub struct History<'a> {
    stages: &'a [Mesh],
    rounds: Vec<Round>,
    draws: Vec<Vec<BTreeSet<usize>>>,
}

impl<'a> History<'a> {
    pub fn of(stages: &'a [Mesh]) -> History<'a> {
        let coarse = &stages[..stages.len() - 1];
        let rounds: Vec<Round> = coarse.iter().map(Round::of).collect();
        let draws = rounds.iter().zip(coarse).map(|(round, mesh)| round.draws(mesh)).collect();
        History { stages, rounds, draws }
    }

    fn last(&self) -> &Mesh {
        &self.stages[self.rounds.len()]
    }

    /// The vertices of each round whose divisions feed a finished vertex, the first round first;
    /// and before them the vertices of the first mesh that feed it.
    pub fn feeding(&self, vertex: usize) -> Vec<BTreeSet<usize>> {
        let mut back = vec![BTreeSet::from([vertex])];
        for draws in self.draws.iter().rev() {
            let later = back.last().expect("never empty");
            back.push(later.iter().flat_map(|&fed| draws[fed].iter().copied()).collect());
        }
        back.reverse();
        back
    }

    /// The earliest feeding division that left a remainder, the lowest vertex number within its round.
    pub fn first_left(&self, vertex: usize, axis: usize) -> Option<Left> {
        let feeding = self.feeding(vertex);
        let divisions = self.rounds.iter().zip(&feeding[1..]).enumerate();
        let all = divisions.flat_map(|(index, (round, vertices))| {
            vertices.iter().map(move |&vertex| Left {
                round: index + 1,
                vertex,
                remainder: round.remainder(vertex, axis),
                divisor: round.holdings[vertex].divisor(),
            })
        });
        all.into_iter().find(|left| left.remainder != 0)
    }

    /// For each finished coordinate, whether no feeding division left a remainder.
    fn undisturbed(&self) -> Vec<bool> {
        let mut clean = vec![true; self.stages[0].vertices.len()];
        for (round, draws) in self.rounds.iter().zip(&self.draws) {
            let fine = |place: usize| {
                let (vertex, axis) = (place / 3, place % 3);
                round.remainder(vertex, axis) == 0 && draws[vertex].iter().all(|&drawn| clean[3 * drawn + axis])
            };
            clean = (0..round.sums.len()).map(fine).collect();
        }
        clean
    }

    /// The exact coordinates after all rounds.
    pub fn exact(&self) -> Exact {
        let first = Exact::of_first(&self.stages[0]);
        self.rounds.iter().fold(first, |exact, round| exact.after(round))
    }

    /// Every mesh is a round of the one before, and the third property holds of the last.
    pub fn check(&self) -> Result<(), String> {
        self.check_rounds()?;
        let (exact, clean, bounds) = (self.exact(), self.undisturbed(), bounding_box(&self.stages[0]));
        for (place, &written) in self.last().vertices.iter().enumerate() {
            let (vertex, axis) = (place / 3, place % 3);
            let (least, greatest) = bounds[axis];
            let loss = exact.coordinate(vertex, axis).minus(&Fraction::whole(i128::from(written)));
            let problem = if written < least || written > greatest {
                "is outside the bounding box"
            } else if loss < Fraction::whole(0) {
                "is above the exact coordinate"
            } else if loss > Fraction::whole(0) && loss >= Fraction::whole(self.rounds.len() as i128) {
                "is a unit for each round, or more, below the exact coordinate"
            } else if (loss == Fraction::whole(0)) != clean[place] {
                "is exact although a feeding division left a remainder, or the other way round"
            } else {
                continue;
            };
            return Err(format!("vertex {vertex}, axis {axis}: {written} {problem}"));
        }
        Ok(())
    }

    /// The cells are the round's, and each written coordinate leaves a remainder from 0 to the divisor less 1.
    fn check_rounds(&self) -> Result<(), String> {
        for (index, (round, fine)) in self.rounds.iter().zip(&self.stages[1..]).enumerate() {
            let places = round.sums.len();
            if fine.vertices.len() != places || fine.tables() != round.split.table_slices() {
                return Err(format!("round {}: other counts or cells", index + 1));
            }
            for (place, &written) in fine.vertices.iter().enumerate() {
                let divisor = round.holdings[place / 3].divisor();
                let left = round.sums[place] - divisor * i128::from(written);
                if left < 0 || left >= divisor {
                    return Err(format!("round {}: coordinate {place} leaves {left} of {divisor}", index + 1));
                }
            }
        }
        Ok(())
    }
}
