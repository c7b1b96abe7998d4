//! The parts of one cell (rules 1.7 to 1.9, 2.6).

const HEX_EDGES: [[usize; 2]; 12] =
    [[0, 1], [1, 2], [2, 3], [3, 0], [4, 5], [5, 6], [6, 7], [7, 4], [0, 4], [1, 5], [2, 6], [3, 7]];

const HEX_FACES: [[usize; 4]; 6] = [[0, 1, 2, 3], [4, 5, 6, 7], [0, 1, 5, 4], [1, 2, 6, 5], [2, 3, 7, 6], [3, 0, 4, 7]];

const QUAD_EDGES: [[usize; 2]; 4] = [[0, 1], [1, 2], [2, 3], [3, 0]];

/// The corner places of each edge of a cell, in order.
pub fn edges(dimension: usize) -> &'static [[usize; 2]] {
    match dimension {
        3 => &HEX_EDGES,
        2 => &QUAD_EDGES,
        1 => &[[0, 1]],
        _ => &[],
    }
}

/// The corner places of each face of a cell, going round, in order.
pub fn faces(dimension: usize) -> &'static [[usize; 4]] {
    match dimension {
        3 => &HEX_FACES,
        2 => &[[0, 1, 2, 3]],
        _ => &[],
    }
}

/// A part of a cell by its place among the parts of its kind.
#[derive(Clone, Copy, Debug, PartialEq, Eq)]
pub enum Part {
    Corner(usize),
    Edge(usize),
    Face(usize),
    Inside,
}

/// The smallest part that holds the corners at places i and j.
pub fn smallest_part(dimension: usize, i: usize, j: usize) -> Part {
    if i == j {
        return Part::Corner(i);
    }
    let edge = edges(dimension).iter().position(|edge| edge.contains(&i) && edge.contains(&j));
    let face = faces(dimension).iter().position(|face| face.contains(&i) && face.contains(&j));
    match (edge, face) {
        (Some(edge), _) => Part::Edge(edge),
        (None, Some(face)) => Part::Face(face),
        (None, None) => Part::Inside,
    }
}

/// Sorted corners: two edges, faces or cells are one when these are equal.
pub fn corner_set<const N: usize>(corners: [u32; N]) -> [u32; N] {
    let mut sorted = corners;
    sorted.sort_unstable();
    sorted
}

/// The corners of a cell at the given places.
pub fn corners_at<const N: usize>(cell: &[u32], places: [usize; N]) -> [u32; N] {
    places.map(|place| cell[place])
}

#[cfg(test)]
mod tests {
    use super::*;

    #[test]
    fn hex_parts_have_the_expected_sizes() {
        let count = |wanted: fn(&Part) -> bool| {
            let pairs = (0..8).flat_map(|i| (0..8).map(move |j| smallest_part(3, i, j)));
            pairs.filter(wanted).count()
        };
        assert_eq!(count(|part| matches!(part, Part::Corner(_))), 8);
        assert_eq!(count(|part| matches!(part, Part::Edge(_))), 24);
        assert_eq!(count(|part| matches!(part, Part::Face(_))), 24);
        assert_eq!(count(|part| matches!(part, Part::Inside)), 8);
    }

    #[test]
    fn first_child_of_a_hex_follows_rule_2_7() {
        let parts: Vec<Part> = (0..8).map(|j| smallest_part(3, 0, j)).collect();
        use Part::*;
        assert_eq!(parts, [Corner(0), Edge(0), Face(0), Edge(3), Edge(8), Face(2), Inside, Face(5)]);
    }

    #[test]
    fn every_face_goes_round_along_edges() {
        for face in faces(3) {
            for k in 0..4 {
                assert!(matches!(smallest_part(3, face[k], face[(k + 1) % 4]), Part::Edge(_)));
            }
        }
    }
}
