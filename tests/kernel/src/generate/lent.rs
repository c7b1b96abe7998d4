//! Lent memory of every kind of length, filled with noise so that any change shows.

use crate::entries::Lent;
use crate::mesh::{corner_count, Mesh};
use crate::random::Random;

/// The buffers of refining: five output tables, five working tables, the 32-bit and the 64-bit numbers.
pub const BUFFERS: usize = 12;

/// The least accepted length of each buffer, in numbers, for a finished mesh with these counts.
pub fn needed_lengths(finished: [usize; 5]) -> [usize; BUFFERS] {
    let [v, h, q, s, p] = finished;
    [3 * v, 8 * h, 4 * q, 2 * s, p, 3 * v, 8 * h, 4 * q, 2 * s, p, 8 * v, 3 * v]
}

/// Noise in buffers of the given lengths.
pub fn with_lengths(lengths: [usize; BUFFERS], random: &mut Random) -> Lent {
    Lent {
        output: noisy_tables(lengths[..5].try_into().expect("five"), random),
        working: noisy_tables(lengths[5..10].try_into().expect("five"), random),
        numbers32: noisy_numbers(lengths[10], random),
        numbers64: (0..lengths[11]).map(|_| random.bits()).collect(),
    }
}

pub fn noisy_numbers(length: usize, random: &mut Random) -> Vec<u32> {
    (0..length).map(|_| random.bits() as u32).collect()
}

pub fn noisy_bytes(length: usize, random: &mut Random) -> Vec<u8> {
    (0..length).map(|_| random.bits() as u8).collect()
}

/// Tables of the given lengths in numbers, not in entries.
pub fn noisy_tables(lengths: [usize; 5], random: &mut Random) -> Mesh {
    Mesh {
        vertices: (0..lengths[0]).map(|_| random.bits() as i32).collect(),
        hexes: noisy_numbers(lengths[1], random),
        quads: noisy_numbers(lengths[2], random),
        segments: noisy_numbers(lengths[3], random),
        points: noisy_numbers(lengths[4], random),
    }
}

/// Cuts one of five tables, in the order vertices, hexes, quads, segments, points, to a length in numbers.
pub fn cut_table(mesh: &mut Mesh, table: usize, length: usize) {
    match table {
        0 => mesh.vertices.truncate(length),
        _ => mesh.cells_mut(4 - table).truncate(length),
    }
}

/// Enough memory, with or without a rest beyond what is needed.
pub fn enough(finished: [usize; 5], random: &mut Random) -> Lent {
    let rest = random.pick(&[0, 1, 7, 30]);
    with_lengths(needed_lengths(finished).map(|length| length + random.below(rest + 1)), random)
}

/// One to three buffers too short, by one number, by an entry, or altogether.
pub fn short(finished: [usize; 5], random: &mut Random) -> Lent {
    let mut lengths = needed_lengths(finished).map(|length| length + random.below(3));
    for _ in 0..1 + random.below(3) {
        let length = &mut lengths[random.below(BUFFERS)];
        *length = match random.below(4) {
            0 => 0,
            1 => length.saturating_sub(3),
            2 => random.below(*length + 1),
            _ => length.saturating_sub(1 + random.below(8)),
        };
    }
    with_lengths(lengths, random)
}

/// Lengths that have nothing to do with the mesh.
pub fn any(random: &mut Random) -> Lent {
    let most = random.pick(&[1, 10, 100, 400]);
    with_lengths([0; BUFFERS].map(|_| random.below(most)), random)
}

/// Reading's tables: enough, short, ragged or empty.
pub fn reading_tables(counts: [usize; 5], random: &mut Random) -> Mesh {
    let needed = [3 * counts[0], 8 * counts[1], 4 * counts[2], 2 * counts[3], counts[4]];
    let rest = random.pick(&[0, 1, 9]);
    let mut lengths = needed.map(|length| length + random.below(rest + 1));
    if random.one_in(3) {
        let table = random.below(5);
        let entry = if table == 0 { 3 } else { corner_count(4 - table) };
        lengths[table] = lengths[table].saturating_sub(1 + random.below(entry + 1));
    }
    noisy_tables(lengths, random)
}
