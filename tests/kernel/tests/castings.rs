//! What the shipped castings claim, held against the bytes of their files.

use oracle::average::{refined, stages};
use oracle::bracket::SIDE;
use oracle::cells::{corners_at, edges};
use oracle::mesh::Mesh;
use oracle::shell::{shell, with_creases, Creases};
use oracle::space::{dot, minus, place, Vector};
use oracle::stored::decode;
use oracle::volume::{hex_volumes, in_cm3, volume, TWELFTHS_IN_CM3};
use std::path::Path;

fn shipped(name: &str) -> Mesh {
    let path = Path::new(env!("CARGO_MANIFEST_DIR")).join("../../examples/meshes").join(name);
    decode(&std::fs::read(&path).expect(name), [1000; 5]).expect(name)
}

/// The 12 edges of a hex as vectors, in order.
fn edge_vectors(mesh: &Mesh, hex: &[u32]) -> Vec<Vector> {
    let along = |&places: &[usize; 2]| {
        let [from, to] = corners_at(hex, places);
        minus(&place(mesh, to), &place(mesh, from))
    };
    edges(3).iter().map(along).collect()
}

#[test]
fn the_bracket_has_the_counts_it_is_known_by() {
    assert_eq!(shipped("bracket.mlca").places(), [72, 24, 72, 64, 20]);
}

#[test]
fn the_hub_has_the_counts_it_is_known_by() {
    assert_eq!(shipped("hub.mlca").places(), [22, 5, 20, 20, 0]);
}

/// Four edges each along one direction, three directions at right angles, each 10 mm long, right-handed.
#[test]
fn every_block_of_the_bracket_is_a_cube_of_10_mm() {
    let mesh = shipped("bracket.mlca");
    let side = i128::from(SIDE);
    assert_eq!(SIDE, 10 * 1024);
    for (number, hex) in mesh.rows(3).enumerate() {
        let edges = edge_vectors(&mesh, hex);
        let (x, y, z) = (edges[0], edges[1], edges[8]);
        let (back_x, back_y) = (minus(&[0; 3], &x), minus(&[0; 3], &y));
        let cube = [x, y, back_x, back_y, x, y, back_x, back_y, z, z, z, z];
        assert_eq!(edges, cube, "hex {number}: opposite edges are parallel and equal");
        assert_eq!([dot(&x, &x), dot(&y, &y), dot(&z, &z)], [side * side; 3], "hex {number}: 10 mm");
        assert_eq!([dot(&x, &y), dot(&y, &z), dot(&z, &x)], [0; 3], "hex {number}: right angles");
    }
    assert_eq!(hex_volumes(&mesh), [TWELFTHS_IN_CM3; 24], "one cubic centimetre each, and none inside out");
}

#[test]
fn the_bracket_is_one_piece_with_one_hole() {
    let mesh = shipped("bracket.mlca");
    let bare = with_creases(&mesh, Creases::None);
    let parts = oracle::split::Parts::of(&bare);
    let (vertices, edges, faces) = (mesh.vertex_count(), parts.edges.len(), parts.faces.len());
    assert_eq!(vertices + faces, edges + mesh.cell_count(3), "a solid ring: vertices - edges + faces - hexes is 0");
    assert_eq!(shell(&bare).len(), 72);
}

#[test]
fn the_hub_is_20_mm_in_radius_and_10_mm_high() {
    let mesh = shipped("hub.mlca");
    for vertex in 0..mesh.vertex_count() {
        let [x, y, z] = mesh.position(vertex);
        let radius = f64::from(x).hypot(f64::from(y));
        assert!(radius == 0.0 || (radius - 20.0 * 1024.0).abs() < 1.0, "vertex {vertex}");
        assert!(z == 0 || z == 10 * 1024, "vertex {vertex}");
    }
    assert!(
        hex_volumes(&mesh).iter().all(|&twelfths| twelfths > 2 * TWELFTHS_IN_CM3),
        "five equal blocks, none inside out"
    );
}

#[test]
fn the_castings_have_the_volumes_they_are_known_by() {
    assert_eq!(volume(&shipped("bracket.mlca")), 24 * TWELFTHS_IN_CM3);
    assert_eq!(in_cm3(volume(&shipped("hub.mlca"))), "11.8");
}

/// The rule that the castings are to teach: nothing of the shell, its sharp edges and its corners is left out.
#[test]
fn the_castings_list_their_whole_shell() {
    for name in ["bracket.mlca", "hub.mlca"] {
        let mesh = shipped(name);
        assert_eq!(with_creases(&mesh, Creases::ShellAndSharpEdges), mesh, "{name}");
    }
}

/// Flat faces and straight edges lose nothing: the finished volume is the same to the last unit, after each round.
#[test]
fn the_bracket_keeps_its_volume() {
    for mesh in stages(&shipped("bracket.mlca"), 2) {
        assert_eq!(volume(&mesh), 24 * TWELFTHS_IN_CM3);
    }
}

/// No hex turns inside out on the way, however creases are listed.
#[test]
fn no_refined_hex_is_inside_out() {
    for name in ["bracket.mlca", "hub.mlca"] {
        for creases in [Creases::None, Creases::Shell, Creases::ShellAndSharpEdges] {
            let finished = refined(&with_creases(&shipped(name), creases), 2);
            assert!(hex_volumes(&finished).iter().all(|&twelfths| twelfths > 0), "{name}, {creases:?}");
        }
    }
}
