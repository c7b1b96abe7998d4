//! The samples P1 to P12 and those that are run only (section 11 of docs/SPECIFICATION.md).

use oracle::average::{holdings, irregular_count, refined, stages, Round};
use oracle::castings::{self, hub_blocks};
use oracle::checks::{check_mesh, check_refining, finished_counts};
use oracle::entries::{Kernel, Lent, Oracle};
use oracle::integer::Fraction;
use oracle::listing::listing;
use oracle::mesh::Mesh;
use oracle::property::{History, Left};
use oracle::refusal::Refusal;
use oracle::samples::*;
use oracle::stored::{encode, index_width};

/// The first-axis coordinates after so many rounds; the other axes must be 0.
fn along(mesh: &Mesh, rounds: u32) -> Vec<i32> {
    let fine = refined(mesh, rounds);
    assert!(fine.vertices.chunks(3).all(|vertex| vertex[1..] == [0, 0]));
    fine.vertices.iter().step_by(3).copied().collect()
}

fn answer(mesh: &Mesh, rounds: u32) -> u32 {
    let finished = check_refining(mesh, rounds).unwrap_or(mesh.places());
    Oracle.refine(mesh, rounds, &mut Lent::exactly(finished)).refusal
}

#[test]
fn p1_to_p3_are_segments() {
    assert_eq!(along(&p1(), 1), [2, 6, 4]);
    assert_eq!(along(&p2(), 1), [1, 5, 3]);
    assert_eq!(along(&p3(), 1), [-2, -6, -4]);
}

#[test]
fn p4_is_p1_twice() {
    assert_eq!(along(&p1(), 2), [2, 5, 4, 3, 5]);
    let meshes = stages(&p1(), 2);
    let history = History::of(&meshes);
    let exact = history.exact();
    let wanted = [(5, 2), (11, 2), (4, 1), (3, 1), (5, 1)];
    for (vertex, (numerator, divisor)) in wanted.into_iter().enumerate() {
        assert_eq!(exact.coordinate(vertex, 0), Fraction::new(numerator, divisor));
    }
    assert_eq!(history.check(), Ok(()));
}

#[test]
fn p4_remainders_are_named() {
    let meshes = stages(&p1(), 2);
    let history = History::of(&meshes);
    assert_eq!(history.first_left(0, 0), Some(Left { round: 2, vertex: 0, remainder: 8, divisor: 16 }));
    assert_eq!(history.first_left(2, 0), None);
    assert_eq!(history.feeding(0), [[0, 1].into(), [0, 2].into(), [0].into()]);
}

#[test]
fn p5_keeps_its_ends() {
    assert_eq!(along(&p5(), 1), [0, 8, 4]);
}

#[test]
fn p6_leaves_16_of_48() {
    let round = Round::of(&p6());
    assert_eq!(round.written(0, 0), 1);
    assert_eq!((round.remainder(0, 0), round.holdings[0].divisor()), (16, 48));
}

#[test]
fn p7_is_a_quad() {
    assert_eq!(refined(&p7(), 1).position(0), [2, 2, 0]);
}

#[test]
fn p8_is_a_cube_and_p10_is_p8_twice() {
    let fine = refined(&p8(), 1);
    assert_eq!((fine.vertex_count(), fine.cell_count(3)), (27, 8));
    assert_eq!((fine.position(0), fine.position(8)), ([2, 2, 2], [4, 2, 2]));
    let finer = refined(&p8(), 2);
    assert_eq!((finer.vertex_count(), finer.cell_count(3)), (125, 64));
}

#[test]
fn p9_is_p8_with_its_faces() {
    let fine = refined(&p9(), 1);
    assert_eq!((fine.position(0), fine.position(6), fine.position(8)), ([1, 1, 1], [6, 6, 6], [4, 1, 1]));
}

#[test]
fn p11_gives_the_widths() {
    let widths = [1, 2, 3, 256, 257].map(index_width);
    assert_eq!(widths, [1, 1, 2, 8, 9]);
}

#[test]
fn p12_has_the_ranks_of_the_source() {
    let mesh = p12();
    let ranks: Vec<usize> = holdings(9, mesh.tables()).iter().flatten().map(|holding| holding.rank).collect();
    assert_eq!(ranks, [0, 1, 0, 1, 2, 1, 0, 1, 0]);
    assert_eq!(check_mesh(&mesh, 8), Ok(()));
}

#[test]
fn the_listing_of_p1_is_as_specified() {
    let stored = encode(&p1());
    assert_eq!(stored.len(), 36);
    let text = "mesh 3 0 0 2 0\nv 0 2 0 0 1 1\nv 1 6 0 0 1 1\nv 2 4 0 0 1 2\ns 0 2\ns 2 1\n";
    assert_eq!(listing(&[&[1], stored.as_slice()].concat()), text);
}

#[test]
fn a_lone_point_stays_and_nine_rounds_are_too_many() {
    let mesh = lone_point([-3, 536_870_911, 7]);
    assert_eq!(refined(&mesh, 8), mesh);
    assert_eq!((answer(&mesh, 8), answer(&mesh, 9)), (0, 9));
}

#[test]
fn the_greatest_coordinate_passes_and_the_next_is_far() {
    assert_eq!(answer(&lone_point([536_870_911, -536_870_912, 0]), 1), 0);
    assert_eq!(answer(&lone_point([0, 536_870_912, 0]), 1), 3);
    assert_eq!(answer(&lone_point([0, 0, -536_870_913]), 1), 3);
}

/// At both ends of the range, through several rounds: `stages` looks at every coordinate of every round.
#[test]
fn no_round_leaves_the_range() {
    assert_eq!(along(&span(), 1), [-268_435_457, 268_435_455, -1]);
    assert_eq!(along(&pinned_span(), 1), [-536_870_912, 536_870_911, -1]);
    assert_eq!(along(&Mesh { points: vec![0], ..on_axis(&[536_870_911]) }, 8), [536_870_911]);
    let hubs = stages(&low_hub(), 2);
    assert!(hubs.iter().all(|mesh| mesh.vertices.iter().all(|&coordinate| coordinate == -536_870_912)));
    assert_eq!((stages(&span(), 8).len(), stages(&wide_cube(), 3).len()), (9, 4));
}

#[test]
fn corner_7_of_8_passes_and_8_is_unknown() {
    assert_eq!(answer(&p8(), 1), 0);
    let mut mesh = p8();
    mesh.hexes[7] = 8;
    assert_eq!(answer(&mesh, 1), 4);
}

#[test]
fn irregular_counts_of_p1_and_p5() {
    assert_eq!((irregular_count(&p1()), irregular_count(&p5())), (2, 0));
}

#[test]
fn empty_vertex_tables_have_the_wrong_size() {
    assert_eq!(check_mesh(&Mesh::default(), 8), Err(Refusal::CountOutOfRange));
    assert_eq!(check_mesh(&Mesh { points: vec![0], ..Mesh::default() }, 8), Err(Refusal::CountOutOfRange));
}

#[test]
fn the_castings_are_sound() {
    for mesh in [hub_blocks(), castings::hub(), castings::bracket()] {
        assert_eq!(check_mesh(&mesh, 8), Ok(()));
        assert_eq!(History::of(&stages(&mesh, 2)).check(), Ok(()));
    }
}

/// What the page beside the files says of the short call and the listing: the hub fits them for one round, the bracket's
/// shell only without a round.
#[test]
fn only_the_hub_fits_the_listing_for_a_round() {
    let fits = |mesh: &Mesh, rounds| {
        let finished = finished_counts(mesh, rounds);
        finished[0] <= 1000 && finished[1..].iter().all(|&count| count <= 256)
    };
    let (hub, bracket) = (castings::hub(), castings::bracket());
    assert_eq!([0, 1, 2].map(|rounds| fits(&hub, rounds)), [true, true, false]);
    assert_eq!([0, 1, 2].map(|rounds| fits(&bracket, rounds)), [true, false, false]);
}
