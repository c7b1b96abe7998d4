//! Damage that makes a mesh be refused with 1 to 8, alone or combined.

use super::relabel::turned;
use crate::mesh::{corner_count, Mesh, GREATEST_COORDINATE, LEAST_COORDINATE};
use crate::random::Random;
use crate::split::Parts;

/// Numbers 1 to 8 stand for the refusals; size damage here only empties the vertex table.
pub const KINDS: [u32; 8] = [1, 2, 3, 4, 5, 6, 7, 8];

/// Damages the mesh so that it has this refusal's condition. False if the mesh offers no place for it.
pub fn damage(mesh: &mut Mesh, kind: u32, random: &mut Random) -> bool {
    match kind {
        1 => make_ragged(mesh, random),
        2 => empty_vertices(mesh),
        3 => send_far(mesh, random),
        4 => name_unknown(mesh, random),
        5 => fold_cell(mesh, random),
        6 => double_cell(mesh, random),
        7 => twist_face(mesh, random),
        8 => loosen(mesh, random),
        _ => panic!("no damage gives refusal {kind}"),
    }
}

/// One to three kinds of damage.
pub fn damage_some(mesh: &mut Mesh, random: &mut Random) {
    for _ in 0..1 + random.below(3) {
        let kind = random.pick(&KINDS);
        if kind != 2 || random.one_in(4) {
            damage(mesh, kind, random);
        }
    }
}

fn make_ragged(mesh: &mut Mesh, random: &mut Random) -> bool {
    let more = random.one_in(2);
    let table = random.below(4);
    if table == 3 {
        let extra = 1 + random.below(2);
        mesh.vertices.extend(vec![5; extra]);
        return true;
    }
    let dimension = table + 1;
    let corners = corner_count(dimension);
    let change = 1 + random.below(corners - 1);
    let cells = mesh.cells_mut(dimension);
    if more || cells.is_empty() {
        cells.extend(vec![0; change]);
    } else {
        cells.truncate(cells.len().saturating_sub(change));
    }
    true
}

fn empty_vertices(mesh: &mut Mesh) -> bool {
    mesh.vertices.clear();
    true
}

fn send_far(mesh: &mut Mesh, random: &mut Random) -> bool {
    if mesh.vertices.is_empty() {
        return false;
    }
    let far = random.pick(&[GREATEST_COORDINATE + 1, LEAST_COORDINATE - 1, i32::MAX, i32::MIN]);
    let place = random.below(mesh.vertices.len());
    mesh.vertices[place] = far;
    true
}

/// A dimension whose table is not empty.
fn some_dimension(mesh: &Mesh, least: usize, random: &mut Random) -> Option<usize> {
    let filled: Vec<usize> = (least..4).filter(|&dimension| mesh.cell_count(dimension) > 0).collect();
    (!filled.is_empty()).then(|| random.pick(&filled))
}

fn name_unknown(mesh: &mut Mesh, random: &mut Random) -> bool {
    let Some(dimension) = some_dimension(mesh, 0, random) else { return false };
    let beyond = mesh.vertex_count() as u32;
    let cells = mesh.cells_mut(dimension);
    let place = random.below(cells.len());
    cells[place] = random.pick(&[beyond, beyond + 1, u32::MAX, 1 << 31]);
    true
}

fn fold_cell(mesh: &mut Mesh, random: &mut Random) -> bool {
    let Some(dimension) = some_dimension(mesh, 1, random) else { return false };
    let corners = corner_count(dimension);
    let first = corners * random.below(mesh.cell_count(dimension));
    let (from, to) = (random.below(corners), 1 + random.below(corners - 1));
    let cells = mesh.cells_mut(dimension);
    cells[first + (from + to) % corners] = cells[first + from];
    true
}

/// Repeats a cell at a random place: turned, or with its corners in any order.
fn double_cell(mesh: &mut Mesh, random: &mut Random) -> bool {
    let Some(dimension) = some_dimension(mesh, 0, random) else { return false };
    let corners = corner_count(dimension);
    let count = mesh.cell_count(dimension);
    let original = mesh.rows(dimension).nth(random.below(count)).expect("a cell").to_vec();
    let mut copy = turned(&original, random);
    if random.one_in(2) {
        random.shuffle(&mut copy);
    }
    let place = corners * random.below(count + 1);
    mesh.cells_mut(dimension).splice(place..place, copy);
    true
}

/// Names a face's corners in another going round: by a quad, or by a block on new vertices.
fn twist_face(mesh: &mut Mesh, random: &mut Random) -> bool {
    let vertex_count = mesh.vertex_count();
    let mut faces = Parts::of(mesh).faces;
    faces.retain(|face| face.iter().all(|&corner| (corner as usize) < vertex_count));
    if faces.is_empty() {
        return false;
    }
    let [a, b, c, d] = random.pick(&faces);
    let twisted = random.pick(&[[a, c, b, d], [a, b, d, c]]);
    if random.one_in(2) {
        mesh.quads.extend(twisted);
        return true;
    }
    let above = twisted.map(|corner| {
        let [x, y, z] = mesh.position(corner as usize);
        mesh.add_vertex([x, y, z / 2])
    });
    mesh.hexes.extend([twisted, above].concat());
    true
}

fn loosen(mesh: &mut Mesh, random: &mut Random) -> bool {
    if random.one_in(2) || mesh.vertex_count() == 0 {
        mesh.add_vertex([1, 2, 3]);
        return true;
    }
    let Some(dimension) = some_dimension(mesh, 0, random) else { return true };
    let keep = corner_count(dimension) * random.below(mesh.cell_count(dimension));
    mesh.cells_mut(dimension).truncate(keep);
    true
}
