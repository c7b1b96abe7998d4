//! Damaged files: truncated, extended, bit-flipped, of the wrong width or form, with spare bits, or only noise.

use crate::mesh::Mesh;
use crate::random::Random;
use crate::stored::{encode, encode_with_width, index_width, used_bits, BitWriter};

/// A file of the mesh, damaged one to three times.
pub fn damaged_file(mesh: &Mesh, random: &mut Random) -> Vec<u8> {
    let mut bytes = if random.one_in(6) { wrong_width(mesh, random) } else { encode(mesh) };
    for _ in 0..1 + random.below(3) {
        match random.below(8) {
            0 => bytes.truncate(random.below(bytes.len() + 1)),
            1 => bytes.extend((0..1 + random.below(5)).map(|_| 0)),
            2 => bytes.extend((0..1 + random.below(5)).map(|place| 1 + place as u8)),
            3 => flip_bit(&mut bytes, 0, 104, random),
            4 => set_spare_bit(mesh, &mut bytes, random),
            5 => change_count(&mut bytes, random),
            6 => bytes = noise(random),
            _ => flip_bit(&mut bytes, 0, usize::MAX, random),
        }
    }
    bytes
}

/// Laid out consistently with a width that is not the mesh's.
pub fn wrong_width(mesh: &Mesh, random: &mut Random) -> Vec<u8> {
    let right = index_width(mesh.vertex_count());
    let any = random.below(32);
    encode_with_width(mesh, random.pick(&[right + 1, right.saturating_sub(1), 0, 31, any]))
}

/// Flips a bit between the first and the last given, within the file.
pub fn flip_bit(bytes: &mut [u8], first: usize, last: usize, random: &mut Random) {
    let last = last.min(8 * bytes.len());
    if first < last {
        let bit = first + random.below(last - first);
        bytes[bit / 8] ^= 128 >> (bit % 8);
    }
}

fn set_spare_bit(mesh: &Mesh, bytes: &mut [u8], random: &mut Random) {
    let used = used_bits(mesh.places(), index_width(mesh.vertex_count()));
    flip_bit(bytes, used, used.div_ceil(8) * 8, random);
}

/// Puts another number of vertices or cells into the header.
fn change_count(bytes: &mut [u8], random: &mut Random) {
    let fields = [(9, 20), (29, 18), (47, 18), (65, 18), (83, 18)];
    let (start, width) = random.pick(&fields);
    let count = random.pick(&[0, 1, 2, 250_000, 250_001, 262_143, 1_000_000, 1_000_001, 1_048_575]);
    if bytes.len() >= 13 {
        for place in 0..width {
            let bit = start + place;
            let value = (count >> (width - 1 - place) & 1) as u8;
            bytes[bit / 8] = bytes[bit / 8] & !(128 >> (bit % 8)) | value << (7 - bit % 8);
        }
    }
}

/// Random bytes; half of them begin with form number 1.
fn noise(random: &mut Random) -> Vec<u8> {
    let mut bytes: Vec<u8> = (0..random.below(60)).map(|_| random.bits() as u8).collect();
    if let Some(first) = bytes.first_mut().filter(|_| random.one_in(2)) {
        *first = *first & 15 | 16;
    }
    bytes
}

/// A header alone with the given form, width and counts.
pub fn header(form: u64, width: u64, counts: [u64; 5]) -> Vec<u8> {
    let mut writer = BitWriter::default();
    writer.field(form, 4);
    writer.field(width, 5);
    counts.iter().zip([20, 18, 18, 18, 18]).for_each(|(&count, field)| writer.field(count, field));
    writer.bytes
}
