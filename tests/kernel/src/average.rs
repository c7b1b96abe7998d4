//! The averaging of one round (rules 3.1 to 3.8).

use crate::checks::is_out_of_range;
use crate::mesh::{corner_count, Mesh};
use crate::split::{Number, Split};
use std::collections::BTreeSet;

/// How cells hold a vertex: the lowest dimension, and how many cells of that dimension.
#[derive(Clone, Copy, Debug, PartialEq, Eq)]
pub struct Holding {
    pub rank: usize,
    pub valence: u64,
}

impl Holding {
    /// 8 x (2 to the power rank) x valence, not reduced.
    pub fn divisor(&self) -> i128 {
        i128::from(self.valence) << (3 + self.rank)
    }

    pub fn is_regular(&self) -> bool {
        self.valence == 1 << self.rank
    }
}

/// The holding of each vertex, or none for a loose one. Tables are by dimension.
pub fn holdings(vertex_count: usize, tables: [&[u32]; 4]) -> Vec<Option<Holding>> {
    let mut found: Vec<Option<Holding>> = vec![None; vertex_count];
    for (dimension, table) in tables.iter().enumerate() {
        for &corner in *table {
            match &mut found[corner as usize] {
                Some(holding) if holding.rank == dimension => holding.valence += 1,
                Some(_) => {}
                empty => *empty = Some(Holding { rank: dimension, valence: 1 }),
            }
        }
    }
    found
}

/// The irregular count of a mesh that passes 1 to 8.
pub fn irregular_count(mesh: &Mesh) -> u64 {
    let held = holdings(mesh.vertex_count(), mesh.tables());
    held.iter().flatten().filter(|holding| !holding.is_regular()).count() as u64
}

/// For each vertex and axis, the split positions of all corners of its counted cells, summed.
pub fn sums<N: Number>(eighths: &[N], tables: [&[u32]; 4], holdings: &[Holding]) -> Vec<N> {
    let mut sums = vec![N::zero(); 3 * holdings.len()];
    for (dimension, table) in tables.iter().enumerate() {
        for cell in table.chunks_exact(corner_count(dimension)) {
            for axis in 0..3 {
                let mut total = N::zero();
                cell.iter().for_each(|&corner| total.add(&eighths[3 * corner as usize + axis]));
                for &corner in cell.iter().filter(|&&corner| holdings[corner as usize].rank == dimension) {
                    sums[3 * corner as usize + axis].add(&total);
                }
            }
        }
    }
    sums
}

/// One round of a mesh that passes 1 to 8, with every division it makes.
pub struct Round {
    pub split: Split,
    /// Ranks and valences of the fine vertices among the fine cells.
    pub holdings: Vec<Holding>,
    /// The dividends, three for each fine vertex.
    pub sums: Vec<i128>,
}

impl Round {
    pub fn of(mesh: &Mesh) -> Round {
        let split = Split::of(mesh);
        let held = holdings(split.vertex_count(), split.table_slices());
        let holdings: Vec<Holding> = held.into_iter().map(|holding| holding.expect("no loose vertex")).collect();
        let coarse: Vec<i128> = mesh.vertices.iter().map(|&coordinate| i128::from(coordinate)).collect();
        let sums = sums(&split.eighths(&coarse), split.table_slices(), &holdings);
        Round { split, holdings, sums }
    }

    /// The mean, rounded once toward minus infinity.
    pub fn written(&self, vertex: usize, axis: usize) -> i128 {
        self.sums[3 * vertex + axis].div_euclid(self.holdings[vertex].divisor())
    }

    /// What the division leaves, from 0 to the divisor less 1.
    pub fn remainder(&self, vertex: usize, axis: usize) -> i128 {
        self.sums[3 * vertex + axis].rem_euclid(self.holdings[vertex].divisor())
    }

    /// The fine mesh. That no round leaves the range is proved of the other kernel; here every coordinate is looked at.
    pub fn fine_mesh(&self) -> Mesh {
        let in_range = |place: usize| {
            let coordinate = i32::try_from(self.written(place / 3, place % 3)).expect("a coordinate fits 32 bits");
            assert!(!is_out_of_range(coordinate), "a round leaves the range: {coordinate}");
            coordinate
        };
        let vertices = (0..self.sums.len()).map(in_range).collect();
        let [points, segments, quads, hexes] = self.split.tables.clone();
        Mesh { vertices, hexes, quads, segments, points }
    }

    /// The coarse vertices that each fine vertex draws on: every corner of the parents of its counted cells.
    pub fn draws(&self, coarse: &Mesh) -> Vec<BTreeSet<usize>> {
        let mut draws = vec![BTreeSet::new(); self.holdings.len()];
        for (dimension, table) in self.split.table_slices().iter().enumerate() {
            let corners = corner_count(dimension);
            for (number, cell) in table.chunks_exact(corners).enumerate() {
                let parent = &coarse.cells(dimension)[number / corners * corners..][..corners];
                for &corner in cell.iter().filter(|&&corner| self.holdings[corner as usize].rank == dimension) {
                    draws[corner as usize].extend(parent.iter().map(|&drawn| drawn as usize));
                }
            }
        }
        draws
    }
}

/// The mesh after the given rounds.
pub fn refined(mesh: &Mesh, rounds: u32) -> Mesh {
    (0..rounds).fold(mesh.clone(), |coarse, _| Round::of(&coarse).fine_mesh())
}

/// The first mesh and the mesh after each round.
pub fn stages(mesh: &Mesh, rounds: u32) -> Vec<Mesh> {
    let mut stages = vec![mesh.clone()];
    for round in 0..rounds as usize {
        stages.push(Round::of(&stages[round]).fine_mesh());
    }
    stages
}
