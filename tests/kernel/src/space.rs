//! Whole-number vectors in space, wide enough for products of coordinates.

use crate::mesh::Mesh;

pub type Vector = [i128; 3];

/// The position of a vertex in units.
pub fn place(mesh: &Mesh, vertex: u32) -> Vector {
    mesh.position(vertex as usize).map(i128::from)
}

pub fn minus(a: &Vector, b: &Vector) -> Vector {
    [a[0] - b[0], a[1] - b[1], a[2] - b[2]]
}

pub fn dot(a: &Vector, b: &Vector) -> i128 {
    a[0] * b[0] + a[1] * b[1] + a[2] * b[2]
}

pub fn cross(a: &Vector, b: &Vector) -> Vector {
    [a[1] * b[2] - a[2] * b[1], a[2] * b[0] - a[0] * b[2], a[0] * b[1] - a[1] * b[0]]
}

/// Two directions differ by more than 45 degrees: the square of their cosine is less than one half, or it is negative.
/// The products stay below the largest whole number for faces up to a metre; beyond, overflow ends the program.
pub fn is_sharp_turn(a: &Vector, b: &Vector) -> bool {
    let along = dot(a, b);
    along <= 0 || 2 * along * along < dot(a, a) * dot(b, b)
}

#[cfg(test)]
mod tests {
    use super::*;

    #[test]
    fn a_turn_is_sharp_beyond_45_degrees() {
        let ahead = [1000, 0, 0];
        assert!(!is_sharp_turn(&ahead, &[1000, 1000, 0]));
        assert!(is_sharp_turn(&ahead, &[1000, 1001, 0]));
        assert!(is_sharp_turn(&ahead, &[-1, 0, 0]));
    }

    #[test]
    fn the_cross_product_is_right_handed() {
        assert_eq!(cross(&[1, 0, 0], &[0, 1, 0]), [0, 0, 1]);
    }
}
