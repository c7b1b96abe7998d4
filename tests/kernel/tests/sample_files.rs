//! The stored samples in examples/meshes are what the generator makes, and read back as the meshes they stand for.

use oracle::catalogue::{catalogue, page};
use oracle::checks::check_mesh;
use oracle::stored::{decode, encode};
use std::path::Path;

#[test]
fn the_files_are_up_to_date() {
    let folder = Path::new(env!("CARGO_MANIFEST_DIR")).join("../../examples/meshes");
    for sample in catalogue() {
        let bytes = std::fs::read(folder.join(format!("{}.mlca", sample.name))).expect(sample.name);
        assert_eq!(bytes, encode(&sample.mesh), "{}", sample.name);
        assert_eq!(decode(&bytes, [1000; 5]), Ok(sample.mesh));
    }
    assert_eq!(std::fs::read_to_string(folder.join("README.md")).unwrap(), page());
}

#[test]
fn every_sample_is_sound() {
    catalogue().iter().for_each(|sample| assert_eq!(check_mesh(&sample.mesh, 8), Ok(()), "{}", sample.name));
}
