//! Meshes, files and lent memory from fixed seeds.

pub mod coordinates;
pub mod creases;
pub mod damage;
pub mod files;
pub mod lattice;
pub mod lent;
pub mod noise;
pub mod relabel;
pub mod shapes;
pub mod wild;

use crate::checks::check_mesh;
use crate::mesh::Mesh;
use crate::random::Random;

/// A mesh of any family: creased, placed and relabelled at random. Nearly all pass 1 to 8.
pub fn any_mesh(random: &mut Random) -> Mesh {
    let mut mesh = shapes::any_shape(random);
    if random.one_in(5) {
        mesh = shapes::beside(&mesh, &shapes::any_shape(random));
    }
    creases::add_creases(&mut mesh, random);
    coordinates::place(&mut mesh, random);
    if !random.one_in(4) {
        relabel::relabel(&mut mesh, random);
    }
    mesh
}

/// A mesh that passes 1 to 8.
pub fn valid_mesh(random: &mut Random) -> Mesh {
    loop {
        let mesh = any_mesh(random);
        if check_mesh(&mesh, 8).is_ok() {
            return mesh;
        }
    }
}

/// A valid mesh with at most so many vertices.
pub fn small_mesh(random: &mut Random, most_vertices: usize) -> Mesh {
    loop {
        let mesh = valid_mesh(random);
        if mesh.vertex_count() <= most_vertices {
            return mesh;
        }
    }
}

#[cfg(test)]
mod tests {
    use super::*;
    use crate::average::irregular_count;

    #[test]
    fn the_same_seed_gives_the_same_meshes() {
        let draw = || (0..20).map(|seed| any_mesh(&mut Random::new(seed))).collect::<Vec<Mesh>>();
        assert_eq!(draw(), draw());
    }

    #[test]
    fn most_meshes_are_valid_and_the_families_are_varied() {
        let meshes: Vec<Mesh> = (0..400).map(|seed| any_mesh(&mut Random::new(seed))).collect();
        let valid: Vec<&Mesh> = meshes.iter().filter(|mesh| check_mesh(mesh, 8).is_ok()).collect();
        assert!(valid.len() > 320, "{} of 400 are valid", valid.len());
        for dimension in 0..4 {
            assert!(valid.iter().filter(|mesh| mesh.cell_count(dimension) > 0).count() > 80);
        }
        assert!(valid.iter().filter(|mesh| irregular_count(mesh) > 0).count() > 100);
    }
}
