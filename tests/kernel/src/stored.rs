//! The stored form, one bit after the other (section 8 of docs/SPECIFICATION.md).

use crate::checks::counts_out_of_range;
use crate::mesh::{corner_count, Mesh, DIMENSIONS};
use crate::refusal::{refuse_if, Refusal};

pub const FORM: u64 = 1;
pub const HEADER_BITS: usize = 4 + 5 + 20 + 4 * 18;
pub const HEADER_BYTES: usize = 13;

/// The count of binary digits of the highest vertex number, and 1 if that number is 0.
pub fn index_width(vertex_count: usize) -> usize {
    let mut rest = vertex_count.saturating_sub(1);
    let mut width = 0;
    while rest > 0 {
        rest /= 2;
        width += 1;
    }
    width.max(1)
}

/// How many bits a mesh with these counts takes before the filling bits.
pub fn used_bits(counts: [usize; 5], width: usize) -> usize {
    let [vertices, hexes, quads, segments, points] = counts;
    HEADER_BITS + 90 * vertices + width * (8 * hexes + 4 * quads + 2 * segments + points)
}

/// Appends bit fields, most significant bit first, filling each byte from its top bit.
#[derive(Default)]
pub struct BitWriter {
    pub bytes: Vec<u8>,
    bits: usize,
}

impl BitWriter {
    pub fn field(&mut self, value: u64, width: usize) {
        for place in (0..width).rev() {
            if self.bits % 8 == 0 {
                self.bytes.push(0);
            }
            let bit = (value >> place & 1) as u8;
            *self.bytes.last_mut().expect("a byte was pushed") |= bit << (7 - self.bits % 8);
            self.bits += 1;
        }
    }
}

/// Reads bit fields; the caller has tested the length.
struct BitReader<'a> {
    bytes: &'a [u8],
    bits: usize,
}

impl BitReader<'_> {
    fn field(&mut self, width: usize) -> u64 {
        let mut value = 0;
        for _ in 0..width {
            let bit = self.bytes[self.bits / 8] >> (7 - self.bits % 8) & 1;
            value = 2 * value + u64::from(bit);
            self.bits += 1;
        }
        value
    }

    /// Two's complement in 30 bits.
    fn coordinate(&mut self) -> i32 {
        let field = self.field(30) as i32;
        if field < 1 << 29 {
            field
        } else {
            field - (1 << 30)
        }
    }
}

/// The stored form of a mesh that passes 1 to 4.
pub fn encode(mesh: &Mesh) -> Vec<u8> {
    encode_with_width(mesh, index_width(mesh.vertex_count()))
}

/// The same layout with any width, for files that are to be refused.
pub fn encode_with_width(mesh: &Mesh, width: usize) -> Vec<u8> {
    let mut writer = BitWriter::default();
    writer.field(FORM, 4);
    writer.field(width as u64, 5);
    for (count, field_width) in mesh.places().into_iter().zip([20, 18, 18, 18, 18]) {
        writer.field(count as u64, field_width);
    }
    for &coordinate in &mesh.vertices {
        writer.field(coordinate as u64 & ((1 << 30) - 1), 30);
    }
    for dimension in DIMENSIONS {
        for &corner in mesh.cells(dimension) {
            writer.field(u64::from(corner), width);
        }
    }
    writer.bytes
}

/// The seven fields of a header: 13 (under 13 bytes), 14, 2. The width is not judged.
fn decode_header(bytes: &[u8]) -> Result<(BitReader<'_>, usize, [usize; 5]), Refusal> {
    refuse_if(bytes.len() < HEADER_BYTES, Refusal::WrongFileLength)?;
    let mut reader = BitReader { bytes, bits: 0 };
    refuse_if(reader.field(4) != FORM, Refusal::UnknownForm)?;
    let width = reader.field(5) as usize;
    let counts = [20, 18, 18, 18, 18].map(|field_width| reader.field(field_width) as usize);
    refuse_if(counts_out_of_range(counts), Refusal::CountOutOfRange)?;
    Ok((reader, width, counts))
}

/// The counts in a header, whatever stands behind it.
pub fn decode_counts(bytes: &[u8]) -> Result<[usize; 5], Refusal> {
    decode_header(bytes).map(|(_, _, counts)| counts)
}

/// Reading in its order: 13 (under 13 bytes), 14, 2, 15, 13 (whole length), 16, 4, 11.
pub fn decode(bytes: &[u8], places: [usize; 5]) -> Result<Mesh, Refusal> {
    let (mut reader, width, counts) = decode_header(bytes)?;
    refuse_if(width != index_width(counts[0]), Refusal::WrongIndexWidth)?;
    let bits = used_bits(counts, width);
    refuse_if(bytes.len() != bits.div_ceil(8), Refusal::WrongFileLength)?;
    let spare = BitReader { bytes, bits }.field(8 * bytes.len() - bits);
    refuse_if(spare != 0, Refusal::NonzeroPadding)?;
    let mesh = decode_tables(&mut reader, counts, width);
    let unknown = |table: &[u32]| table.iter().any(|&corner| corner as usize >= counts[0]);
    refuse_if(mesh.tables().into_iter().any(unknown), Refusal::CornerOutOfRange)?;
    let short = places.iter().zip(counts).any(|(&places, count)| places < count);
    refuse_if(short, Refusal::ShortBuffer)?;
    Ok(mesh)
}

fn decode_tables(reader: &mut BitReader, counts: [usize; 5], width: usize) -> Mesh {
    let mut mesh = Mesh { vertices: (0..3 * counts[0]).map(|_| reader.coordinate()).collect(), ..Mesh::default() };
    for (dimension, &count) in DIMENSIONS.into_iter().zip(&counts[1..]) {
        let corners = corner_count(dimension) * count;
        *mesh.cells_mut(dimension) = (0..corners).map(|_| reader.field(width) as u32).collect();
    }
    mesh
}

#[cfg(test)]
mod tests {
    use super::*;

    const ROOM: [usize; 5] = [1000, 256, 256, 256, 256];

    fn chain(count: usize) -> Mesh {
        let vertices = (0..3 * count as i32).map(|k| 7 * k - 500).collect();
        Mesh { vertices, points: (0..count as u32).collect(), ..Mesh::default() }
    }

    #[test]
    fn reading_gives_back_what_was_written() {
        for count in [1, 2, 3, 4, 5, 8, 9, 100, 256] {
            let mesh = chain(count);
            assert_eq!(decode(&encode(&mesh), ROOM), Ok(mesh));
        }
    }

    #[test]
    fn extreme_coordinates_survive() {
        let mesh = Mesh { vertices: vec![-536_870_912, 536_870_911, -1], points: vec![0], ..Mesh::default() };
        assert_eq!(decode(&encode(&mesh), ROOM), Ok(mesh));
    }

    #[test]
    fn each_filling_bit_is_tested() {
        let bytes = encode(&chain(3));
        let spare = 8 * bytes.len() - used_bits(chain(3).places(), 2);
        assert!(spare > 0);
        for bit in 0..8 {
            let mut damaged = bytes.clone();
            *damaged.last_mut().unwrap() ^= 1 << bit;
            assert_eq!(decode(&damaged, ROOM) == Err(Refusal::NonzeroPadding), bit < spare);
        }
    }
}
