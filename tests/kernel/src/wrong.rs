//! The known wrong kernels (rule 11.15), one round each, to show that a sample tells each from the right one.

use crate::average::{holdings, Holding, Round};
use crate::mesh::{corner_count, Mesh};

/// A wrong round: from a sound mesh to the coordinates of the fine mesh.
pub type WrongRound = fn(&Mesh) -> Vec<i128>;

pub const WRONG_ROUNDS: [(&str, WrongRound); 6] = [
    ("division that cuts toward zero", cuts_toward_zero),
    ("midpoints rounded before averaging", rounds_midpoints),
    ("each centroid divided by the valence and rounded before summing", rounds_each_centroid),
    ("valence over cells of all dimensions", counts_all_dimensions),
    ("midpoints matched by equal coordinates", matches_coordinates),
    ("valence over cells of all dimensions, in the divisor alone", divides_by_all_dimensions),
];

/// The right coordinates, for comparison.
pub fn right_round(mesh: &Mesh) -> Vec<i128> {
    let round = Round::of(mesh);
    (0..round.sums.len()).map(|place| round.written(place / 3, place % 3)).collect()
}

fn cuts_toward_zero(mesh: &Mesh) -> Vec<i128> {
    let round = Round::of(mesh);
    let cut = |(place, &sum): (usize, &i128)| sum / round.holdings[place / 3].divisor();
    round.sums.iter().enumerate().map(cut).collect()
}

fn eighths(mesh: &Mesh, round: &Round) -> Vec<i128> {
    let coarse: Vec<i128> = mesh.vertices.iter().map(|&coordinate| i128::from(coordinate)).collect();
    round.split.eighths(&coarse)
}

fn rounds_midpoints(mesh: &Mesh) -> Vec<i128> {
    let round = Round::of(mesh);
    let rounded: Vec<i128> = eighths(mesh, &round).iter().map(|eighth| eighth.div_euclid(8) * 8).collect();
    let sums = crate::average::sums(&rounded, round.split.table_slices(), &round.holdings);
    let floor = |(place, sum): (usize, &i128)| sum.div_euclid(round.holdings[place / 3].divisor());
    sums.iter().enumerate().map(floor).collect()
}

/// Walks the fine cells; `share` says what one cell's total adds to a corner of it on one axis.
fn gathered(mesh: &Mesh, round: &Round, share: impl Fn(i128, usize, &Holding) -> i128) -> Vec<i128> {
    let eighths = eighths(mesh, round);
    let mut gathered = vec![0; eighths.len()];
    for (dimension, table) in round.split.table_slices().iter().enumerate() {
        for cell in table.chunks_exact(corner_count(dimension)) {
            for axis in 0..3 {
                let total: i128 = cell.iter().map(|&corner| eighths[3 * corner as usize + axis]).sum();
                for &corner in cell {
                    let holding = &round.holdings[corner as usize];
                    gathered[3 * corner as usize + axis] += share(total, dimension, holding);
                }
            }
        }
    }
    gathered
}

fn rounds_each_centroid(mesh: &Mesh) -> Vec<i128> {
    gathered(
        mesh,
        &Round::of(mesh),
        |total, dimension, holding| {
            if dimension == holding.rank {
                total.div_euclid(holding.divisor())
            } else {
                0
            }
        },
    )
}

/// How many fine cells of any dimension hold each fine vertex.
fn all_holding(round: &Round) -> Vec<i128> {
    let mut counts = vec![0; round.holdings.len()];
    round.split.tables.iter().flatten().for_each(|&corner| counts[corner as usize] += 1);
    counts
}

/// Centroids of cells of every dimension, over the count of all of them.
fn counts_all_dimensions(mesh: &Mesh) -> Vec<i128> {
    let (round, common) = (Round::of(mesh), 64);
    let sums = gathered(mesh, &round, |total, dimension, _| total * (common >> (3 + dimension)));
    let counts = all_holding(&round);
    sums.iter().enumerate().map(|(place, sum)| sum.div_euclid(common * counts[place / 3])).collect()
}

/// The right sum, over the count of cells of every dimension.
fn divides_by_all_dimensions(mesh: &Mesh) -> Vec<i128> {
    let round = Round::of(mesh);
    let counts = all_holding(&round);
    let divisor = |vertex: usize| counts[vertex] << (3 + round.holdings[vertex].rank);
    round.sums.iter().enumerate().map(|(place, sum)| sum.div_euclid(divisor(place / 3))).collect()
}

/// Joins fine vertices at one split position; the numbers of those that stay close up.
fn matches_coordinates(mesh: &Mesh) -> Vec<i128> {
    let round = Round::of(mesh);
    let eighths = eighths(mesh, &round);
    let mut kept: Vec<[i128; 3]> = mesh.vertices.chunks(3).map(|v| [0, 1, 2].map(|k| 8 * i128::from(v[k]))).collect();
    let old = kept.len();
    let mut number: Vec<u32> = (0..old as u32).collect();
    for position in eighths.chunks(3).skip(old).map(|p| [p[0], p[1], p[2]]) {
        let found = kept[old..].iter().position(|&other| other == position).map(|place| place + old);
        number.push(found.unwrap_or(kept.len()) as u32);
        if found.is_none() {
            kept.push(position);
        }
    }
    let joined =
        round.split.tables.map(|table| table.iter().map(|&corner| number[corner as usize]).collect::<Vec<u32>>());
    let tables = [0, 1, 2, 3].map(|dimension: usize| joined[dimension].as_slice());
    let held: Vec<Holding> = holdings(kept.len(), tables).into_iter().flatten().collect();
    let sums = crate::average::sums(&kept.concat(), tables, &held);
    sums.iter().enumerate().map(|(place, sum)| sum.div_euclid(held[place / 3].divisor())).collect()
}
