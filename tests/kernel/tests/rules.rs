//! Facts that follow from the rules, on random meshes: they would fail if the oracle misread a rule.

use oracle::average::{holdings, refined, stages, Holding, Round};
use oracle::cells::{smallest_part, Part};
use oracle::checks::{check_mesh, finished_counts};
use oracle::generate::{any_mesh, relabel, small_mesh, valid_mesh};
use oracle::integer::Fraction;
use oracle::mesh::Mesh;
use oracle::property::{bounding_box, History};
use oracle::random::Random;
use oracle::split::{Parts, Split};
use oracle::stored::{decode, encode, used_bits};

const ROOM: [usize; 5] = [1_000_000, 250_000, 250_000, 250_000, 250_000];

fn meshes(seed: u64, count: u64) -> impl Iterator<Item = Mesh> {
    (0..count).map(move |case| valid_mesh(&mut Random::new(1000 * seed + case)))
}

fn held(mesh: &Mesh) -> Vec<Holding> {
    holdings(mesh.vertex_count(), mesh.tables()).into_iter().flatten().collect()
}

#[test]
fn a_rounds_output_is_sound_again() {
    for mesh in meshes(1, 150) {
        assert_eq!(check_mesh(&refined(&mesh, 1), 8), Ok(()));
    }
}

#[test]
fn finished_counts_follow_the_closed_form() {
    for mesh in meshes(2, 100) {
        let (parts, [v, h, q, s, p]) = (Parts::of(&mesh), mesh.places());
        let (e, f) = (parts.edges.len(), parts.faces.len());
        for n in 0..9 {
            let k = (1usize << n) - 1;
            let wanted = [v + e * k + f * k * k + h * k * k * k, h << (3 * n), q << (2 * n), s << n, p];
            assert_eq!(finished_counts(&mesh, n), wanted);
        }
        for n in (0..3).filter(|&n| finished_counts(&mesh, n)[0] < 3000) {
            assert_eq!(refined(&mesh, n).places(), finished_counts(&mesh, n));
        }
    }
}

#[test]
fn a_round_multiplies_edges_and_faces() {
    for mesh in meshes(3, 100) {
        let (coarse, fine) = (Parts::of(&mesh), Parts::of(&refined(&mesh, 1)));
        let (e, f, h) = (coarse.edges.len(), coarse.faces.len(), mesh.cell_count(3));
        assert_eq!(fine.edges.len(), 2 * e + 4 * f + 6 * h);
        assert_eq!(fine.faces.len(), 4 * f + 12 * h);
    }
}

#[test]
fn an_old_vertex_keeps_its_rank_and_valence() {
    for mesh in meshes(4, 100) {
        let round = Round::of(&mesh);
        assert_eq!(held(&mesh), round.holdings[..mesh.vertex_count()]);
    }
}

/// The weights of rule 3.9, without its factor: in the sum of an old vertex a corner weighs 3 to the power (rank less the
/// dimension of the smallest common part).
#[test]
fn old_vertices_follow_the_weights_of_a_child() {
    for mesh in meshes(5, 150) {
        let (fine, held) = (refined(&mesh, 1), held(&mesh));
        for (vertex, holding) in held.iter().enumerate() {
            let counted = mesh.rows(holding.rank).filter(|cell| cell.contains(&(vertex as u32)));
            let mut sum = [0i64; 3];
            for cell in counted {
                let place = cell.iter().position(|&corner| corner as usize == vertex).unwrap();
                for (other, &corner) in cell.iter().enumerate() {
                    let apart = match smallest_part(holding.rank, place, other) {
                        Part::Corner(_) => 0,
                        Part::Edge(_) => 1,
                        Part::Face(_) => 2,
                        Part::Inside => 3,
                    };
                    let weight = 3i64.pow((holding.rank - apart) as u32);
                    let position = mesh.position(corner as usize);
                    (0..3).for_each(|axis| sum[axis] += weight * i64::from(position[axis]));
                }
            }
            let divisor = (holding.valence as i64) << (2 * holding.rank);
            assert_eq!(sum.map(|s| s.div_euclid(divisor) as i32), fine.position(vertex));
        }
    }
}

#[test]
fn the_third_property_holds() {
    for case in 0..60 {
        let mesh = small_mesh(&mut Random::new(6000 + case), 20);
        let rounds = (0..4).rev().find(|&n| finished_counts(&mesh, n)[0] < 1500).unwrap();
        assert_eq!(History::of(&stages(&mesh, rounds)).check(), Ok(()));
    }
}

/// A coordinate is exact just when no feeding division can be named that left a remainder.
#[test]
fn named_remainders_agree_with_exactness() {
    for case in 0..25 {
        let mesh = small_mesh(&mut Random::new(6500 + case), 9);
        let rounds = (0..3).rev().find(|&n| finished_counts(&mesh, n)[0] < 200).unwrap();
        let meshes = stages(&mesh, rounds);
        let (history, written) = (History::of(&meshes), &meshes[rounds as usize]);
        let exact = history.exact();
        for place in 0..written.vertices.len() {
            let (vertex, axis) = (place / 3, place % 3);
            let whole = Fraction::whole(i128::from(written.vertices[place]));
            assert_eq!(history.first_left(vertex, axis).is_none(), exact.coordinate(vertex, axis) == whole);
        }
    }
}

/// Raising a vertex of the first mesh raises the exact coordinates that it feeds, and changes no other.
#[test]
fn feeding_is_dependence() {
    for case in 0..25 {
        let mut random = Random::new(6600 + case);
        let mut mesh = small_mesh(&mut random, 12);
        mesh.vertices.iter_mut().for_each(|coordinate| *coordinate /= 2);
        let (vertex, meshes) = (random.below(mesh.vertex_count()), stages(&mesh, 1));
        mesh.vertices[3 * vertex] += 5;
        let raised = stages(&mesh, 1);
        let (before, after) = (History::of(&meshes), History::of(&raised));
        let (low, high) = (before.exact(), after.exact());
        for fine in 0..raised[1].vertex_count() {
            let fed = before.feeding(fine)[0].contains(&vertex);
            assert_eq!(low.coordinate(fine, 0) < high.coordinate(fine, 0), fed);
            assert!(low.coordinate(fine, 1) == high.coordinate(fine, 1));
        }
    }
}

#[test]
fn the_third_property_fails_of_a_changed_coordinate() {
    for case in 0..60 {
        let mut random = Random::new(7000 + case);
        let mut meshes = stages(&small_mesh(&mut random, 20), 1);
        let place = random.below(meshes[1].vertices.len());
        meshes[1].vertices[place] += random.pick(&[-1, 1]);
        assert!(History::of(&meshes).check().is_err());
    }
}

#[test]
fn coordinates_stay_in_the_bounding_box_and_follow_a_shift() {
    for mesh in meshes(8, 60) {
        let fine = refined(&mesh, 1);
        let (coarse_box, fine_box) = (bounding_box(&mesh), bounding_box(&fine));
        assert!((0..3).all(|axis| coarse_box[axis].0 <= fine_box[axis].0 && fine_box[axis].1 <= coarse_box[axis].1));
        let mut moved = mesh.clone();
        moved.vertices.iter_mut().for_each(|coordinate| *coordinate /= 2);
        let mut shifted = moved.clone();
        shifted.vertices.iter_mut().for_each(|coordinate| *coordinate += 12_345);
        let (a, b) = (refined(&moved, 1), refined(&shifted, 1));
        assert!(a.vertices.iter().zip(&b.vertices).all(|(a, b)| a + 12_345 == *b));
    }
}

/// Other numbers and other starts give the same positions, as a set.
#[test]
fn relabelling_moves_no_vertex() {
    let positions = |mesh: &Mesh| {
        let fine = refined(mesh, 1);
        let mut list: Vec<[i32; 3]> = (0..fine.vertex_count()).map(|vertex| fine.position(vertex)).collect();
        list.sort_unstable();
        list
    };
    for (case, mesh) in meshes(9, 60).enumerate() {
        let mut other = mesh.clone();
        relabel::relabel(&mut other, &mut Random::new(case as u64));
        assert_eq!(positions(&mesh), positions(&other));
    }
}

#[test]
fn shared_parts_are_counted_once_and_touching_blocks_apart() {
    let block = oracle::generate::lattice::blocks([1, 1, 1], || true);
    let pair = oracle::generate::lattice::blocks([2, 1, 1], || true);
    let apart = oracle::generate::shapes::touching_copies(&block, 2);
    assert_eq!(Split::of(&pair).vertex_count(), 45);
    assert_eq!(Split::of(&apart).vertex_count(), 54);
}

#[test]
fn files_give_back_any_mesh_even_a_refused_one() {
    for case in 0..200 {
        let mesh = any_mesh(&mut Random::new(10_000 + case));
        let bytes = encode(&mesh);
        let width = oracle::stored::index_width(mesh.vertex_count());
        assert_eq!(bytes.len(), used_bits(mesh.places(), width).div_ceil(8));
        assert_eq!(decode(&bytes, ROOM), Ok(mesh));
    }
}
