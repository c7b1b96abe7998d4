//! The exact volume of hexes whose faces are bilinear, in whole numbers.
//!
//! A bilinear face and the origin enclose the mean of what its two cuts into triangles enclose. A triangle a, b, c encloses
//! a sixth of the determinant of a, b, c. So a face encloses a twelfth of four determinants, and a hex six faces.

use crate::cells::{corners_at, faces};
use crate::mesh::Mesh;
use crate::space::{cross, dot, place, Vector};

/// Twelfths of a cubic unit in a cubic centimetre: 10 mm are 10,240 units.
pub const TWELFTHS_IN_CM3: i128 = 12 * 10_240 * 10_240 * 10_240;

/// The six faces of a hex, each going round counterclockwise as seen from outside. Only the first of the rules' faces goes
/// round the other way.
pub fn outward_faces(hex: &[u32]) -> [[u32; 4]; 6] {
    let mut outward = [0, 1, 2, 3, 4, 5].map(|face| corners_at(hex, faces(3)[face]));
    outward[0].reverse();
    outward
}

fn determinant(a: &Vector, b: &Vector, c: &Vector) -> i128 {
    dot(a, &cross(b, c))
}

fn twelfths_under(mesh: &Mesh, face: [u32; 4]) -> i128 {
    let [a, b, c, d] = face.map(|corner| place(mesh, corner));
    determinant(&a, &b, &c) + determinant(&a, &c, &d) + determinant(&a, &b, &d) + determinant(&b, &c, &d)
}

/// The volume of each hex in twelfths of a cubic unit; negative for a hex that is inside out.
pub fn hex_volumes(mesh: &Mesh) -> Vec<i128> {
    let volume = |hex: &[u32]| outward_faces(hex).iter().map(|&face| twelfths_under(mesh, face)).sum();
    mesh.rows(3).map(volume).collect()
}

/// The volume of the whole mesh in twelfths of a cubic unit.
pub fn volume(mesh: &Mesh) -> i128 {
    hex_volumes(mesh).iter().sum()
}

/// A part of a whole as tenths, rounded to the nearest: 235 of 10 is 23.5.
pub fn in_tenths(part: i128, whole: i128) -> String {
    let tenths = (20 * part + whole).div_euclid(2 * whole);
    format!("{}.{}", tenths / 10, tenths % 10)
}

/// The volume in cubic centimetres with one decimal.
pub fn in_cm3(twelfths: i128) -> String {
    in_tenths(twelfths, TWELFTHS_IN_CM3)
}

#[cfg(test)]
mod tests {
    use super::*;
    use crate::samples::p8;

    #[test]
    fn a_cube_of_side_8_has_512_cubic_units() {
        assert_eq!(hex_volumes(&p8()), [12 * 512]);
    }

    #[test]
    fn a_hex_inside_out_has_a_negative_volume() {
        let mut mesh = p8();
        mesh.hexes.rotate_left(4);
        assert_eq!(volume(&mesh), -12 * 512);
    }

    #[test]
    fn the_volume_does_not_depend_on_the_place() {
        let mut mesh = p8();
        mesh.vertices.iter_mut().for_each(|coordinate| *coordinate += 1_000_003);
        assert_eq!(volume(&mesh), 12 * 512);
    }

    /// A cube of side 8 with corner 6 pulled out by 3 along the first axis. There the side of a line along that axis is
    /// 8 + 3 v w for v and w from 0 to 1, so the volume is 64 * (8 + 3 / 4).
    #[test]
    fn bent_faces_count_as_bilinear() {
        let mut mesh = p8();
        mesh.vertices[18] += 3;
        assert_eq!(volume(&mesh), 12 * (512 + 48));
    }

    #[test]
    fn tenths_are_rounded_to_the_nearest() {
        assert_eq!([in_tenths(235, 10), in_tenths(1, 20), in_tenths(49, 1000)], ["23.5", "0.1", "0.0"]);
    }
}
