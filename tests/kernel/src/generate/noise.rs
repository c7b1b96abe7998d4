//! Input that nobody meant as a mesh: tables of any numbers, files of any bytes, files put together from others.

use super::files;
use crate::mesh::{Mesh, GREATEST_COORDINATE, LEAST_COORDINATE};
use crate::random::Random;
use crate::stored::{index_width, used_bits};

/// Tables of any lengths. Half of them name only vertices that are there, so that the later checks are reached.
pub fn tables(random: &mut Random) -> Mesh {
    let most = random.pick(&[1, 4, 30, 120]);
    let tame = random.one_in(2);
    let mut lengths = [3, 8, 4, 2, 1].map(|entry| entry * random.below(most));
    if random.one_in(8) {
        lengths[random.below(5)] += random.below(8);
    }
    let vertices = lengths[0] / 3;
    let mut cells = |length| (0..length).map(|_| corner(vertices, tame, random)).collect();
    let [hexes, quads, segments, points] = [cells(lengths[1]), cells(lengths[2]), cells(lengths[3]), cells(lengths[4])];
    Mesh { vertices: (0..lengths[0]).map(|_| coordinate(tame, random)).collect(), hexes, quads, segments, points }
}

fn corner(vertices: usize, tame: bool, random: &mut Random) -> u32 {
    if vertices > 0 && (tame || !random.one_in(40)) {
        return random.below(vertices) as u32;
    }
    let any = random.bits() as u32;
    random.pick(&[vertices as u32, u32::MAX, 1 << 31, 1 << 29, any])
}

fn coordinate(tame: bool, random: &mut Random) -> i32 {
    if !tame && random.one_in(60) {
        return random.bits() as i32;
    }
    random.between(LEAST_COORDINATE.into(), GREATEST_COORDINATE.into()) as i32
}

/// A file whose length and filling bits are those that its header calls for; all else is noise.
pub fn consistent_file(random: &mut Random) -> Vec<u8> {
    let vertices = random.pick(&[1, 2, 3, 4, 8, 16, 100, 256, 1000, 1001, 1024]);
    let most = random.pick(&[1, 2, 9, 258]);
    let counts = [vertices, random.below(most), random.below(most), random.below(most), random.below(most)];
    let width = index_width(vertices);
    let used = used_bits(counts, width);
    let mut bytes = files::header(1, width as u64, counts.map(|count| count as u64));
    *bytes.last_mut().expect("a header") |= random.bits() as u8 & 7;
    bytes.extend((bytes.len()..used.div_ceil(8)).map(|_| random.bits() as u8));
    *bytes.last_mut().expect("a header") &= 255 << (8 * bytes.len() - used);
    bytes
}

/// One of the files with up to eight changes: bits, bytes, runs left out or repeated, the rest of another file.
pub fn mutated_file(files: &[Vec<u8>], random: &mut Random) -> Vec<u8> {
    let mut bytes = files[random.below(files.len())].clone();
    for _ in 0..1 + random.below(8) {
        let place = random.below(bytes.len() + 1);
        let end = (place + random.below(9)).min(bytes.len());
        match random.below(6) {
            0 => bytes.drain(place..end).for_each(drop),
            1 => bytes.extend_from_within(place..end),
            2 => {
                bytes.truncate(place);
                let other = &files[random.below(files.len())];
                bytes.extend(&other[place.min(other.len())..]);
            }
            3 => bytes[place..end].iter_mut().for_each(|byte| *byte = random.bits() as u8),
            _ => files::flip_bit(&mut bytes, 0, usize::MAX, random),
        }
    }
    bytes
}
