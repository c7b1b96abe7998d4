//! Each known wrong kernel (rule 11.15) differs from the rules on a sample, and on the one named for it.

use oracle::mesh::Mesh;
use oracle::samples::*;
use oracle::wrong::{right_round, WRONG_ROUNDS};

fn differs(kernel: usize, mesh: &Mesh) -> bool {
    WRONG_ROUNDS[kernel].1(mesh) != right_round(mesh)
}

#[test]
fn cutting_toward_zero_gives_minus_1_on_p3() {
    assert_eq!(WRONG_ROUNDS[0].1(&p3())[0], -1);
    assert!(differs(0, &p3()));
}

#[test]
fn rounded_midpoints_differ_on_uneven_segments() {
    assert_eq!((right_round(&uneven_segments())[0], WRONG_ROUNDS[1].1(&uneven_segments())[0]), (1, 0));
}

#[test]
fn rounded_centroids_differ_on_a_sample() {
    assert!(differs(2, &p6()));
}

#[test]
fn valence_over_all_dimensions_differs_on_p9() {
    assert!(differs(3, &p9()));
    assert!(differs(5, &p9()));
}

#[test]
fn matched_coordinates_join_blocks_that_only_touch() {
    assert_eq!(right_round(&touching_segments()).len(), 3 * 6);
    assert_eq!(WRONG_ROUNDS[4].1(&touching_segments()).len(), 3 * 5);
}

#[test]
fn wrong_kernels_are_right_where_nothing_is_rounded_or_shared() {
    for (name, round) in WRONG_ROUNDS {
        assert_eq!(round(&lone_point([5, -5, 0])), [5, -5, 0], "{name}");
    }
}

/// P1 to P12 alone leave two of the wrong kernels standing, so the two further samples are needed.
#[test]
fn the_numbered_samples_do_not_catch_every_wrong_kernel() {
    let samples = [p1(), p2(), p3(), p5(), p6(), p7(), p8(), p9(), p12()];
    let caught: Vec<bool> = (0..6).map(|kernel| samples.iter().any(|mesh| differs(kernel, mesh))).collect();
    assert_eq!(caught, [true, false, true, true, false, true]);
}
